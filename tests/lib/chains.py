"""Chains for tests/fuzz: a trace is cut at random places, and custody and replay read the pieces one after another in
one run.

What each reports has to be what the rules say of the whole trace, with the volumes named. The picture has to be that of the
whole trace, except for its foot. A damaged volume has to be refused by its number, for what is wrong with it. Half of
the chains have heads; of these a volume that is left out, doubled, exchanged or of another machine is refused. Volumes without heads are given theirs,
one after another."""
import hashlib
import random
import re

import calls
import heads
from common import run
from rules import DEFAULT, REMARKS, VERSION, WITH_TEXTS, Core, Lives, denied_in, lines_text, noted, rows_of_volumes, warning_of
from states import blanked, state_text

# The most volumes that a trace is cut into.
MOST = 5
FORMS = [], ["--refused"], ["--accesses"], list(REMARKS), ["--summary"], ["--html"]
# With what each call is written with its reply.
LINES = "replay", "--lines"
WORKERS = "1", "2", "64"
# How many of these forms are tried on each trace.
TRIED = 3
# If a core has more frames, the text of its state takes long to make.
LARGE = 1024
PAGE = re.compile(r'^\{"custody".*^\{"calls".*?\n', re.M | re.S)
# What is not a call, even under the second header.
WRONG = "", "nonsense", "hfault", "hfault 01", "take ", "give -1"
FOOT = re.compile(r"<text [^>]*>([^<]*)</text>\n</svg>\n$")


class Chain:
    """Volumes, from boot or from the state that some calls leave, with all that custody reports of them."""

    def __init__(self, rng, program, lines, told, remarks):
        config, self.core = program.config, Core(program.config)
        self.path, self.start, self.config, self.state = program.path, ["--config", program.path], None, None
        first = 0
        if config["version"] in WITH_TEXTS and len(self.core.frames) <= LARGE and rng.random() < 0.4:
            first = rng.randrange(len(lines) + 1)
            for line in lines[:first]:
                self.core.answer(line)
            self.state = state_text(self.core)
        moved = lambda line: {**line, "line": line["line"] - first}
        self.told, self.remarks = (
            [(*more, moved(line)) for *more, line in every if line["line"] - 2 >= first] for every in (told, remarks)
        )
        self.lines, self.is_of_ranges = lines[first:], config["calls_on_ranges"]
        lives, answers = Lives(self.core), []
        for number, line in enumerate(self.lines, 2):
            answers.append(self.core.answer(line))
            lives.note(number, line, answers[-1])
        self.answers, self.lives, self.warning = answers, lives.told(), warning_of(self.lines, answers)
        places = sorted(rng.randrange(len(self.lines) + 1) for _ in range(rng.randrange(MOST)))
        self.volumes = [self.lines[at:to] for at, to in zip([0, *places], [*places, len(self.lines)])]
        self.expected = heads.FIRST if self.state is None else heads.BARE
        if rng.random() < 0.5:
            position = heads.Position(1, None) if self.state is None else heads.some_position(rng)
            self.traces = heads.chain_of(rng, config, position, self.volumes)
            self.expected = heads.FIRST if self.state is None else position
        else:
            # (calls that both versions have may come under either header)
            self.traces = [heads.Headed(config, None, it, rng.choice([None, True])) for it in self.volumes]
        if self.state is not None:
            self.start = ["--from", program.file("from", heads.placed(self.state, self.expected))]
        # (a trace with a head needs no configuration)
        self.is_unnamed = self.state is None and self.traces[0].position is not None and rng.random() < 0.5
        if self.is_unnamed:
            self.start = []
        self.paths = self.files_of(self.traces)

    def file(self, name, text):
        path = self.path.with_name(name)
        path.write_text(text, newline="")
        return path

    def files_of(self, traces):
        return [self.file(f"volume.{number}", trace.text()) for number, trace in enumerate(traces, 1)]

    def ran(self, rng, command, *words):
        """Runs a command on the volumes, of which the first may be standard input."""
        is_given = rng.random() < 0.3 and self.paths[0].exists()
        files = ["-", *self.paths[1:]] if is_given else self.paths
        return run([command, *self.start, *words, *files], self.paths[0].read_text() if is_given else "")

    def some(self, rng, vms, form=()):
        """Random options: whether digests are asked for, whether accesses are unseen, and the one VM to report on, if any."""
        is_named, is_unseen = rng.random() < 0.4, REMARKS[1] not in form and rng.random() < 0.3
        vm = rng.choice(vms) if rng.random() < 0.3 else None
        options = ["--digests"] * is_named + ["--unseen"] * is_unseen + ([] if vm is None else ["--vm", str(vm)])
        return is_named, is_unseen, vm, options

    def named(self):
        """What the first line says of what was read; of several volumes, their own lines say it."""
        trace = {"trace": self.traces[0].digest()} if len(self.traces) == 1 else {}
        config = {"config": "head" if self.is_unnamed else digest(self.path.read_text()), "state": None}
        return trace | (config if self.state is None else {"config": None, "state": digest(heads.placed(blanked(self.state), self.expected))})

    def number(self):
        """The number in the head of the first volume, or None."""
        return self.traces[0].position and self.traces[0].position.number

    def is_by_numbers(self):
        """Whether a volume that another one follows lacks bytes that the host wrote."""
        return any(trace.is_host_redacted for trace in self.traces[:-1])

    def report_differs(self, rng, vm):
        """What differs in one form of custody, or None."""
        form = rng.choice(FORMS)
        is_named, is_unseen, vm, options = self.some(rng, [vm], form)
        said = {"is_unseen": is_unseen, "named": self.named() if is_named else None, "first": self.number()}
        said["is_by_numbers"] = self.is_by_numbers()
        if len(self.volumes) > 1:
            digests = [trace.digest() for trace in self.traces] if is_named else None
            said["volumes"] = rows_of_volumes(map(len, self.volumes), digests, self.number())
        made = len(self.lines), denied_in(self.remarks)
        if form == ["--summary"]:
            text = self.core.summary_text(made, self.lives, vm, **said)
        else:
            asked = REMARKS[:1 if is_unseen else 2] if form == ["--html"] else form
            text = self.core.custody_text(made, noted(self.told, self.remarks, asked), vm, **said)
        status, out, err = self.ran(rng, "custody", *form, *options)
        if form == ["--html"] and status == 0:
            out = "".join(PAGE.findall(out))
        wanted = 0, text, self.warning
        if vm is not None and vm >= len(self.core.slots):
            wanted = 2, "", f"kcore: the machine has no slot {vm}\n"
        return None if (status, out, err) == wanted else " ".join(["custody", *form, *options])

    def lines_differ(self, rng, _):
        """What differs in the calls with their replies, or None."""
        text = lines_text(self.lines, self.answers)
        if len(self.volumes) > 1:
            rows = rows_of_volumes(map(len, self.volumes), None, self.number())
            text = self.core.replies_text(self.lines, self.answers, rows, first=self.number(), is_by_numbers=self.is_by_numbers())
        workers = rng.choice(WORKERS)
        same = self.ran(rng, *LINES, "--workers", workers) == (0, text, self.warning)
        return None if same else f"{' '.join(LINES)} with {workers} workers"

    def foot(self, is_named, is_unseen):
        """The foot of a picture of several volumes."""
        count, first = len(self.volumes), self.number()
        foot = f"kcore {VERSION}, " + (f"volumes {first} to {first + count - 1}" if first else f"{count} volumes, order not judged")
        foot += ", order by numbers alone" * self.is_by_numbers()
        if is_named and self.is_unnamed:
            foot += ", machine in the head of the trace"
        elif is_named:
            kind, text = ("configuration", self.path.read_text()) if self.state is None else ("state", heads.placed(blanked(self.state), self.expected))
            foot += f", {kind} SHA-256 {digest(text)}"
        return foot + ", accesses unseen" * is_unseen

    def picture_differs(self, rng, vm):
        """What differs between the picture of several volumes, except its foot, and that of the whole trace; or what
        its foot is, if it is wrong; or None."""
        if len(self.volumes) == 1:
            return None
        is_named, is_unseen, _, options = self.some(rng, [vm % len(self.core.slots)])
        whole = self.file("whole", calls.trace_of(self.lines, self.is_of_ranges))
        # (the whole trace has no head, so it needs a configuration, or a state without a position)
        start = ["--config", self.path] if self.state is None else ["--from", self.file("bare", self.state)]
        one = run(["custody", *start, "--svg", *options, whole], "")
        other = self.ran(rng, "custody", "--svg", *options)
        feet = [FOOT.search(out) for _, out, _ in (one, other)]
        if not all(feet) or other[2] != self.warning or FOOT.sub("", one[1]) != FOOT.sub("", other[1]):
            return " ".join(["the picture", *options])
        return None if feet[1][1] == self.foot(is_named, is_unseen) else f"the picture's foot is {feet[1][1]}"

    def fault_differs(self, rng, _):
        """What differs if one of the volumes is damaged or missing, or None."""
        at, way = rng.randrange(len(self.volumes)), rng.choice(["line", "line", "header", "end", "file"])
        trace = self.traces[at]
        lines, text, first = trace.lines, trace.text(), trace.first_line()
        if way == "line":
            place = rng.randrange(len(lines) + 1)
            made = [*lines[:place], rng.choice(WRONG), *lines[place:]]
            text = heads.Headed(trace.config, trace.position, made, True, trace.is_host_redacted).text()
            fault = f"bad trace line {place + first}"
        elif way == "end" and lines:
            text, fault = text[:-1], "last trace line has no newline"
        else:
            text, fault = text[1:], "no trace header"
        self.file(f"volume.{at + 1}", text)
        number = f"volume {at + 1}: " if len(self.volumes) > 1 else ""
        wanted = 2, "", f"kcore: {number}{fault}\n"
        if way == "file":
            self.paths[at].unlink()
            wanted = 3, "", "kcore: read failed\n"
        form = some_form(rng)
        said = " ".join([*form, "of volumes with a fault"])
        return None if self.ran(rng, *form) == wanted else f"{said}: {wanted[2].strip()}"

    def converted_differs(self, rng, _):
        """What differs if the volumes come without heads and are given them, or None."""
        machine, position = self.core.config, rng.choice([heads.Position(1, None), heads.some_position(rng)])
        before, is_known = None, True
        for number, new in enumerate(heads.chain_of(rng, machine, position, self.volumes), 1):
            is_bare = rng.random() < 0.9
            old = heads.Headed(machine, None, new.lines, rng.choice([None, True])) if is_bare else new
            start = ["--config", self.path] if before is None else ["--after", before]
            # (what is converted has all that the host wrote)
            wanted = 0, heads.Headed(machine, new.position, new.lines).text(), ""
            if not is_known:
                wanted = 2, "", "kcore: volume 1: volume of the trace differs: digest\n"
            elif not is_bare:
                name = "" if before is None else "volume 2: "
                wanted = 2, "", f"kcore: {name}trace has a head, and none is expected\n"
            # (a chain may begin with a later volume, which nothing is known of before it)
            if (before or position.number == 1) and run(["convert", *start], old.text()) != wanted:
                return f"volume {number} of {len(self.volumes)}, given a head"
            before, is_known = self.file("converted", new.text()), not new.is_host_redacted
        return None

    def order_differs(self, rng, _):
        """What differs if the volumes are not those of the chain, or None: one is refused, or they are a chain, too."""
        if self.traces[0].position is None:
            return None
        traces = heads.disordered(rng, self.traces)
        self.paths = self.files_of(traces)
        machine = self.core.config
        if self.is_unnamed:
            machine = DEFAULT if traces[0].position is None else traces[0].config
        wrong = heads.first_misplaced(machine, self.expected, traces)
        status, out, err = self.ran(rng, *some_form(rng))
        if wrong is None:
            return None if status == 0 and out else f"a chain is refused: {err.strip()}"
        number = f"volume {wrong[0]}: " if len(traces) > 1 else ""
        wanted = 2, "", f"kcore: {number}{wrong[1]}\n"
        return None if (status, out, err) == wanted else f"not a chain: {wanted[2].strip()}, and not {err.strip()}"


def some_form(rng):
    """Something to be written of volumes."""
    return LINES if rng.random() < 0.3 else ["custody", *rng.choice([*FORMS, ["--svg"]])]


def digest(text):
    return hashlib.sha256(text.encode()).hexdigest()


def difference(case, program, told, remarks):
    """What differs if a trace with this custody is read in volumes, or None."""
    config, lines = case
    rng = random.Random(f"{config['cut_by']} chain")
    chain = Chain(rng, program, lines, told, remarks)
    looks = [chain.report_differs] * TRIED + [chain.lines_differ, rng.choice([chain.picture_differs, chain.fault_differs, chain.order_differs, chain.converted_differs])]
    for look in looks:
        differs = look(rng, config["told_of"])
        if differs:
            sizes = ", ".join(str(len(it)) for it in chain.volumes)
            return f"read one after another (volumes of {sizes} calls): {differs}"
    return None
