"""Volumes for tests/fuzz: a trace is cut at random places, and each piece is replayed by itself, in any order, from the
text of the state before it to that of the state after it. The same is tried with redacted pieces between blank states,
also without what the host wrote to frames of active VMs; and with damaged texts."""
import hashlib
import os
import random
import re

import calls
import heads
from common import run
from rules import PAGE, REMARKS, Core, Lives, denied_in, lines_text, noted, warning_of
from states import blanked, fault_of, state_text

WORKERS = (1, 2, 64)
# How often a trace is cut: mostly once, since each volume takes a run. A trace of a large core is cut once.
CUTS, LARGE = [1] * 14 + [2] * 4 + [7, 20], 1024
ANOTHER = "kcore: another state\n"
# What may take the place of a digit, and of a word.
SIGNS = "0123456789abcdefA-. \r"
WORDS = ["-", ".", "0", "1", "7", "16", "64", "262143", "262144", "4294967295", "4294967296"]
WORDS += ["active", "booting", "host", "free"]


class Volume:
    """Some calls in order with their replies and what custody reports of them, alone and with what was refused and
    served, their summary, and the texts of the states before and after them, as the rules have them."""

    def __init__(self, core, lines, told, remarks, before):
        self.lines, self.before = lines, before
        # Each call without the bytes of guests, and without the host's in frames that are then an active VM's.
        self.hidden, answers, lives = [], [], Lives(core)
        for number, line in enumerate(lines, 2):
            self.hidden.append(core.redacted(line))
            answers.append(core.answer(line))
            lives.note(number, line, answers[-1])
        self.replies = "".join(f"{reply}\n" for reply in answers)
        self.answered, self.warning = lines_text(lines, answers), warning_of(lines, answers)
        calls = len(lines), denied_in(remarks)
        self.custody = [([], core.custody_text(calls, told))]
        self.custody.append((list(REMARKS), core.custody_text(calls, noted(told, remarks, REMARKS))))
        self.custody.append((["--summary"], core.summary_text(calls, lives.told())))
        self.after = state_text(core)
        self.dump = self.after[self.after.index("kcore-dump "):]


def volumes_of(rng, core, lines, told, remarks):
    """The volumes of a trace that begins in a core, some of them perhaps without calls."""
    count = 1 if len(core.frames) > LARGE else rng.choice(CUTS)
    places = sorted(rng.randrange(len(lines) + 1) for _ in range(count))
    volumes, text = [], state_text(core)
    for first, last in zip([0] + places, places + [len(lines)]):
        # The first call of a trace is on line 2.
        is_own = lambda line: first <= line["line"] - 2 < last
        moved = lambda line: {**line, "line": line["line"] - first}
        own = [[(*more, moved(line)) for *more, line in every if is_own(line)] for every in (told, remarks)]
        volumes.append(Volume(core, lines[first:last], *own, text))
        text = volumes[-1].after
    return volumes


# Damages.


def one_of_four(rng, items, other):
    """Some items with one of them changed, dropped, doubled or swapped with another."""
    items, at = list(items), rng.randrange(len(items))
    way = rng.choice(["change", "change", "drop", "double", "swap", "swap with the next"])
    if way == "change":
        items[at] = other(items[at])
    elif way == "drop":
        del items[at]
    elif way == "double":
        items.insert(at, items[at])
    else:
        to = rng.randrange(len(items)) if way == "swap" else (at + 1) % len(items)
        items[at], items[to] = items[to], items[at]
    return items


def sections_of(text):
    """The lines of a text, each with its newline; adjacent lines with the same name are a section."""
    sections = []
    for line in re.findall("[^\n]*\n", text):
        name = line.split(" ")[0]
        if not sections or sections[-1][0].split(" ")[0] != name:
            sections.append([])
        sections[-1].append(line)
    return sections


def other_word(rng, place, words, section):
    """Another word for one of a line: a number next to it, or a word from its place in another line of the section,
    from the same line, or any."""
    lines = [line[:-1].split(" ") for line in section]
    some = [line[place] for line in rng.sample(lines, min(4, len(lines))) if place < len(line)]
    if re.fullmatch("[0-9]{1,9}", words[place]):
        some += [str(max(0, int(words[place]) + step)) for step in (-1, 1)]
    return rng.choice(some * 2 + [rng.choice(words), rng.choice(WORDS), "0" + words[place]])


def damaged_line(rng, section, at):
    if rng.random() < 0.3:
        return "".join(one_of_four(rng, section[at], lambda sign: rng.choice(SIGNS)))
    words = section[at][:-1].split(" ")
    if rng.random() < 0.5:
        place = rng.randrange(len(words))
        words[place] = other_word(rng, place, words, section)
    else:
        words = one_of_four(rng, words, lambda word: rng.choice(WORDS))
    return " ".join(words) + "\n"


def with_another_byte(rng, text):
    """The text with a byte of a page changed and the page's digest mended, so that it may be another state's."""
    sections = {section[0].split(" ")[0].rstrip(): section for section in sections_of(text)}
    f = rng.randrange(len(sections["page"]))
    before, (*words, digest) = sections["page"][f], sections["frame"][f].split(" ")
    page = bytearray(PAGE) if before == "page -\n" else bytearray.fromhex(before[5:])
    page[rng.choice([0, 2, PAGE - 1, rng.randrange(PAGE)])] = rng.choice([0, 1, rng.randrange(256)])
    pages = [*sections["page"][:f], "page %s\n" % (page.hex() if any(page) else "-"), *sections["page"][f + 1:]]
    line = " ".join([*words, hashlib.sha256(page).hexdigest()]) + "\n"
    return text.replace("".join(sections["page"]), "".join(pages)).replace(" ".join([*words, digest]), line)


def once_damaged(rng, text):
    way, sections = rng.choice(["line", "line", "line", "lines", "sections", "byte", "end"]), sections_of(text)
    if way == "byte":
        return with_another_byte(rng, text)
    if way == "end":
        return text[:rng.randrange(len(text))]
    if way == "sections":
        sections = one_of_four(rng, sections, lambda section: rng.choice(sections))
    else:
        at = rng.randrange(len(sections))
        if way == "lines":
            sections[at] = one_of_four(rng, sections[at], lambda line: rng.choice(rng.choice(sections)))
        else:
            line = rng.randrange(len(sections[at]))
            sections[at][line] = damaged_line(rng, sections[at], line)
    return "".join(line for section in sections for line in section)


def damaged(rng, text):
    """The text cut off, or with a digit, word, line or section changed, dropped, doubled or swapped; never the same."""
    other = text
    while other == text:
        other = once_damaged(rng, text)
    return other


# What the program makes of volumes.


class Program:
    """The program on the traces of one configuration, with files for what else it reads."""

    def __init__(self, config, path):
        self.config, self.path = config, path

    def path_of(self, end):
        return self.path.with_name(f"state.{end}")

    def file(self, end, text):
        self.path_of(end).write_text(text, newline="")
        return self.path_of(end)

    def trace_of(self, lines):
        return calls.trace_of(lines, self.config["calls_on_ranges"])

    def ran(self, lines, *words):
        return run(words, self.trace_of(lines))


def headed_differs(rng, program, volume):
    """What differs in a volume with a head that is replayed by itself, or None: it goes on from a state that says its
    position, to one that says the next."""
    position = heads.some_position(rng)
    trace = heads.Headed(program.config, position, volume.lines, None, rng.random() < 0.3)
    start = ["--from", program.file("from", heads.placed(volume.before, position))]
    hidden = heads.Headed(program.config, position, volume.hidden, None, True)
    if run(["redact", "--host", *start], trace.text()) != (0, hidden.text(), volume.warning):
        return "redacted with --host, under a head"
    after = heads.placed(volume.after, trace.next())
    words = ["replay", *start, "--to", program.file("to", after), "--workers", str(rng.choice(WORKERS))]
    form, wanted = rng.choice([([], volume.replies), (["--state"], after)])
    if run([*words, *form], trace.text()) != (0, wanted, volume.warning):
        return f"{form[0] if form else 'its replies'} under a head"
    other = heads.placed(volume.after, heads.some_position(rng))
    words = ["replay", *start, "--to", program.file("to", other)]
    if run(words, trace.text()) != (1, volume.replies, volume.warning + ANOTHER):
        return "compared with the state of another position"
    expected = rng.choice([heads.BARE, heads.some_position(rng), heads.Position(max(2, position.number), heads.digits(rng))])
    start = ["--from", program.file("from", heads.placed(volume.before, expected))]
    said = trace.misplaced(program.config, expected)
    if said is None:
        return None
    words = rng.choice([["replay"], ["replay", "--state"], ["custody"], ["redact", "--host"]])
    same = run([*words, *start], trace.text()) == (2, "", f"kcore: {said}\n")
    return None if same else f"{' '.join(words)} from a state of another position ({said})"


def volume_differs(rng, program, volume):
    """What differs in a volume that is replayed by itself, or None."""
    start = ["--from", program.file("from", volume.before)]
    if rng.random() < 0.15:
        form, wanted = rng.choice(volume.custody)
        same = program.ran(volume.lines, "custody", *form, *start) == (0, wanted, volume.warning)
        return None if same else "its custody"
    forms = ([], volume.replies), (["--lines"], volume.answered), (["--state"], volume.after), (["--dump"], volume.dump)
    form, wanted = rng.choice(forms)
    words, workers = [*start, "--to", program.file("to", volume.after)], str(rng.choice(WORKERS))
    if program.ran(volume.lines, "replay", *form, *words, "--workers", workers) != (0, wanted, volume.warning):
        return f"{form[0] if form else 'its replies'} with {workers} workers"
    return None


def blank_differs(rng, program, volume):
    """What differs in a volume without secrets, redacted and between the texts of blank states, or None."""
    made, left = list(map(calls.redacted, volume.lines)), blanked(volume.after)
    if program.ran(volume.lines, "redact") != (0, program.trace_of(made), ""):
        return "redacted"
    start = ["--from", program.file("from", blanked(volume.before))]
    form, wanted = rng.choice(volume.custody)
    if program.ran(made, "custody", *form, *start) != (0, wanted, volume.warning):
        return "its custody, redacted"
    form, wanted = rng.choice([("--state", left), ("--dump", left[left.index("kcore-dump "):])])
    words = [*start, form, "--blank", "--to", program.file("to", left), "--workers", str(rng.choice(WORKERS))]
    if program.ran(rng.choice([made, volume.lines]), "replay", *words) != (0, wanted, volume.warning):
        return f"{form} of the blank state"
    return None


def host_differs(rng, program, volume):
    """What differs in a volume without what the host writes to frames of active VMs, which is redacted too, or None."""
    texts = ("from", volume.before), ("blank", blanked(volume.before))
    starts = [["--from", program.file(name, text)] for name, text in texts]
    if program.ran(volume.lines, "redact", "--host", *starts[rng.randrange(2)]) != (0, program.trace_of(volume.hidden), volume.warning):
        return "redacted with --host"
    form, wanted = rng.choice(volume.custody)
    if program.ran(volume.hidden, "custody", *form, *starts[rng.randrange(2)]) != (0, wanted, volume.warning):
        return "its custody, redacted with --host"
    words = [*starts[1], "--blank", "--to", program.file("to", blanked(volume.after))]
    is_left = program.ran(volume.hidden, "replay", *words)[::2] == (0, volume.warning)
    return None if is_left else "the blank state that it leaves, redacted with --host"


def end_differs(rng, program, volume):
    """What differs if a volume is compared with a text other than that of the state it leaves, or None."""
    other = volume.before if volume.before != volume.after and rng.random() < 0.3 else damaged(rng, volume.after)
    words = ["replay", "--from", program.file("from", volume.before), "--to", program.file("to", other)]
    said = volume.warning + ANOTHER
    if program.ran(volume.lines, *words) != (1, volume.replies, said):
        return "compared with another text"
    status, _, more = program.ran(volume.lines, *words, "--explain")
    first = other[: len(os.path.commonprefix([other, volume.after]))].count("\n") + 1
    is_named = more.startswith(said) and f": line {first} is the first that differs\n" in more
    return None if (status, is_named) == (1, True) else f"compared with another text, whose line {first} is the first that differs"


def damage_differs(rng, program, volume):
    """What differs if a text is damaged, or None: it is refused for what is wrong with it, or is another state's."""
    text = damaged(rng, volume.before)
    fault, start = fault_of(text), ["--from", program.file("from", text)]
    if fault is None:
        is_same = program.ran([], "replay", "--state", *start) == (0, text, "")
        return None if is_same else "begun with another state's text"
    words = rng.choice([["replay"], ["replay", "--state"], ["replay", "--workers", "64"], ["custody"]])
    is_refused = program.ran(volume.lines, *words, *start) == (2, "", f"kcore: {fault}\n")
    return None if is_refused else f"begun with a damaged text ({fault})"


def difference(case, program, told, remarks):
    """What differs if a trace with this custody is cut into volumes, or None."""
    config, lines = case
    rng = random.Random(config["cut_by"])
    volumes = volumes_of(rng, Core(config), lines, told, remarks)
    words = ["replay", "--config", program.path, "--state", "--workers", str(rng.choice(WORKERS))]
    answers = [reply for volume in volumes for reply in volume.replies.splitlines()]
    if program.ran(lines, *words) != (0, volumes[-1].after, warning_of(lines, answers)):
        return "the text of the state"
    order, sizes = list(enumerate(volumes, 1)), ", ".join(str(len(it.lines)) for it in volumes)
    rng.shuffle(order)
    for number, volume in order:
        differs = volume_differs(rng, program, volume)
        if differs:
            return f"volume {number} of {len(volumes)} (of {sizes} calls): {differs}"
    for look in [blank_differs, host_differs, headed_differs, damage_differs] + rng.sample([end_differs, damage_differs], 1):
        number, volume = rng.choice(order)
        differs = look(rng, program, volume)
        if differs:
            return f"volume {number} of {len(volumes)} (of {sizes} calls): {differs}"
    return None
