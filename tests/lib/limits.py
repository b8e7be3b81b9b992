"""Tries each limit that docs/RULES.md names, of each version of the rules that it names one of: what the program says at
it, and one beyond."""
import hashlib
import json
import re
import subprocess
import tempfile

from common import run
from listed import rows_of, section

PAGE = 4096
# The program keeps some bytes of each frame from the start, so no machine is larger here than this.
MOST_FRAMES = 2**20
IMAGE = 256 * PAGE
UNITS = {"MiB": 2**20, "GiB": 2**30}


def numbers_in(cell):
    """The numbers in a cell, except sizes in units."""
    bare = re.sub(r"\(.*?\)|\d+ [MG]iB", "", cell)
    return [int(number.replace(",", "")) for number in re.findall(r"\b\d[\d,]*\b", bare)]


def limits_of(tree):
    """The numbers in each row of the table of limits."""
    rows = [cells for _, cells in rows_of(section(tree.text("docs/RULES.md"), "Limits"))]
    return {cells[0]: numbers_in(cells[1]) for cells in rows[2:]}


def sizes_in(tree):
    """Each size in brackets with the number before it: `65,536 (256 MiB)`."""
    found = re.findall(r"([\d,]+) \((\d+) (MiB|GiB)\)", section(tree.text("docs/RULES.md"), "Limits"))
    return [(int(number.replace(",", "")), int(size) * UNITS[unit]) for number, size, unit in found]


def machine(frames=8, leaves=1, version=1, approved=(1,)):
    """A configuration in which one frame is the core's and all others are the host's, and which approves images of
    zeros with these lengths."""
    digests = [hashlib.sha256(bytes(length)).hexdigest() for length in approved]
    return {"frames": frames, "core": 1, "host": frames - 1, "leaves": leaves, "approved": digests, "version": version}


def replayed(program, config, calls, *words):
    """The replies to some calls, or the fault."""
    with tempfile.NamedTemporaryFile("w", suffix=".json") as file:
        json.dump(config, file)
        file.flush()
        text = "\n".join(["kcore-trace 2", *calls]) + "\n"
        status, replies, error = run(["replay", "--config", file.name, *words], text, program)
    return replies.splitlines() if status == 0 else error.splitlines()[:1]


def replies_to(program, trace):
    return run([], trace, program)[1].splitlines()


def left_by(program, config=None):
    """The state's text after no calls, under a configuration's text or none."""
    with tempfile.NamedTemporaryFile("w") as file:
        file.write(config or "")
        file.flush()
        words = ["--config", file.name] if config else []
        return run(["replay", "--state", *words], "kcore-trace 1\n", program)


def booted(*images, frame=1):
    """Calls that boot VM 0 from images of these lengths, all of them zero, one after the other from guest frame 0."""
    calls, base = ["regvm 0", "regvcpu 0 0"], 0
    for image, length in enumerate(images):
        pages = -(-length // PAGE)
        calls += [f"setboot 0 {base} {length}", *(f"remap 0 {image} {frame + at}" for at in range(pages))]
        base, frame = base + pages, frame + pages
    return [*calls, "verify 0"]


def touched(gfn, frame):
    """Calls by which the guest gets a page at a guest frame."""
    return [f"gread 0 0 {gfn} 0 1", f"map 0 0 {frame}"]


class Trials:
    """The trials of each row; each is what the program says at the limit and one beyond, and what it has to say. The
    limits of later versions come last in a row, and a version without one of its own has that of the version before."""

    def __init__(self, program, limits):
        self.program, self.limits = program, limits

    def last(self, config, calls, count=1):
        return replayed(self.program, config, calls)[-count:]

    def frames_of_a_machine(self, least, *mosts):
        for version, most in enumerate(mosts, 1):
            some = min(most, MOST_FRAMES)
            calls = [f"hfault {some - 1}", f"hfault {some}"]
            yield self.last(machine(some, version=version), calls, 2), ["done", "refused bad-frame"]
            # (a machine of as many frames as there may be is refused for what is judged after them)
            yield self.last(machine(most, leaves=0, version=version), []), ["kcore: configuration refused: leaves"]
            yield self.last(machine(most + 1, leaves=0, version=version), []), ["kcore: configuration refused: frames"]
        yield self.last({**machine(1), "frames": least - 1}, []), ["kcore: configuration refused: frames"]

    def slots_so_VMs_at_once(self, first, least, *others):
        for version, most in enumerate((first, *others), 1):
            calls = [f"regvm {slot}" for slot in range(least, most + 1)]
            yield self.last(machine(version=version), calls, most + 1), ["done"] * most + ["refused bad-vm"]

    def virtual_processors_of_a_VM(self, first, least, *third):
        for version, most in zip((1, 2, 3), (first, first, *third)):
            calls = ["regvm 0", *(f"regvcpu 0 {vcpu}" for vcpu in range(least, most + 1))]
            yield self.last(machine(version=version), calls, most + 1), ["done"] * most + ["refused bad-vcpu"]

    def guest_frames_of_a_VM(self, first, least, *third):
        for version, count in zip((1, 2, 3), (first, first, *third)):
            calls = ["regvm 0", *(f"setboot 0 {gfn} 1" for gfn in (least, count - 1, count))]
            yield self.last(machine(version=version), calls, 3), ["image 0", "image 1", "refused bad-gfn"]

    def leaves_of_a_guest_table(self, least, first, *third):
        for version, most in zip((1, 2, 3), (first, first, *third)):
            yield self.last(machine(leaves=most, version=version), []), []
            for leaves in (least - 1, most + 1):
                yield self.last(machine(leaves=leaves, version=version), []), ["kcore: configuration refused: leaves"]

    def pages_mapped_in_a_guest(self, entries, most, *_):
        leaves = self.limits["leaves of a guest table"][1]
        config = machine(65536, leaves, 2, (IMAGE,))
        regions = [call for leaf in range(2, leaves) for call in touched(leaf * entries, 2000 + leaf)]
        beyond = touched(leaves * entries, 3000)
        # Four images fill two leaves. A region whose one page is dropped keeps its leaf; a cleared slot has none.
        calls = [*booted(*[IMAGE] * 4), *regions, *beyond]
        yield self.last(config, calls), ["refused tables-full"]
        yield self.last(config, [*calls, f"drop 0 0 {2 * entries}", beyond[1]], 2), ["done", "refused tables-full"]
        again = [*booted(*[IMAGE] * 4, frame=4001), *beyond]
        yield self.last(config, [*calls, "clear 0", *again], len(again))[-2:], [f"fault {leaves * entries}", "done"]
        # Every guest frame of all leaves is mapped, and one more has no leaf.
        calls = [call for gfn in range(1024, most + 1) for call in touched(gfn, gfn + 1)]
        replies = replayed(self.program, config, [*booted(*[IMAGE] * 4), *calls])[-len(calls) :]
        yield replies[1::2], ["done"] * (most - 1024) + ["refused tables-full"]

    def boot_images_of_a_VM(self, first, *third):
        for version, most in zip((1, 2, 3), (first, first, *third)):
            calls = ["regvm 0", *(f"setboot 0 {image} 1" for image in range(most + 1))]
            yield self.last(machine(version=version), calls), ["refused images-full"]
            yield self.last(machine(version=version), calls[:-1]), [f"image {most - 1}"]

    def bytes_of_a_boot_image(self, least, first, *third):
        for version, most in zip((1, 2, 3), (first, first, *third)):
            calls = ["regvm 0", *(f"setboot 0 0 {length}" for length in (least - 1, most + 1, most))]
            yield self.last(machine(version=version), calls, 3), ["refused bad-range", "refused bad-range", "image 0"]

    def approved_digests(self, least, most):
        yield self.last(machine(approved=range(1, 1 + least)), []), []
        yield self.last(machine(approved=range(1, 1 + most)), []), []
        yield self.last(machine(approved=range(1, 2 + most)), []), ["kcore: configuration refused: approved"]

    def share_of_a_frame(self, least, most):
        calls = [*booted(1), *["grant 0 0 0"] * (most + 1), *["revoke 0 0 0"] * (most - least + 1)]
        meant = ["done"] * most + ["refused share-full"] + ["done"] * (most - least) + ["refused not-shared"]
        yield self.last(machine(), calls, len(meant)), meant

    def guest_frames_that_one_call_names(self, least, most):
        calls = [*booted(most * PAGE), *(f"grantr 0 0 0 {count}" for count in (least - 1, least, most, most + 1))]
        yield (self.last(machine(most + 1, approved=(most * PAGE,)), calls, 4),
               ["refused bad-range", "done", "done", "refused bad-range"])

    def bytes_that_one_call_reads_or_writes(self, least, most):
        calls = ["hfault 1", *(f"hread 1 0 {length}" for length in (least - 1, most + 1)), f"hwrite 1 0 {'aa' * most}"]
        yield self.last(machine(), calls, 3), ["refused bad-range", "refused bad-range", "done"]
        yield self.last(machine(), [f"hwrite 1 0 {'aa' * (most + 1)}"]), ["kcore: bad trace line 2"]

    def calls_of_a_trace_or_of_a_volume(self, most):
        yield self.last(machine(), ["hfault 1"] * most, most), ["done"] * most
        yield self.last(machine(), ["hfault 1"] * (most + 1)), ["kcore: too many calls"]

    def bytes_of_a_text_that_is_read(self, most):
        for length, meant in ((most, "kcore: no trace header"), (most + 1, "kcore: read failed")):
            with tempfile.TemporaryFile() as file:
                file.truncate(length)
                said = subprocess.run([self.program], stdin=file, capture_output=True, text=True).stderr
            yield said.splitlines(), [meant]

    def workers_of_a_replay(self, least, most):
        for workers in (least, most):
            yield replayed(self.program, machine(), ["take"], "--workers", str(workers)), ["refused no-free"]
        for workers in (least - 1, most + 1):
            said = replayed(self.program, machine(), ["take"], "--workers", str(workers))
            yield [line.partition(" '")[0] for line in said], ["error: invalid value"]


def check_limits(tree, program, known=None):
    """Checks each row of the table, except those whose numbers are known."""
    limits, known = limits_of(tree), known or {}
    for number, size in sizes_in(tree):
        yield f"docs/RULES.md: {number} pages are {size} bytes", "" if number * PAGE == size else "they are not"
    trials = Trials(program, limits)
    for what, numbers in limits.items():
        if known.get(what) == numbers:
            continue
        tried = getattr(trials, re.sub(r"\W+", "_", what), None)
        if not tried:
            yield f"docs/RULES.md, limit: {what}", "nothing tries it"
            continue
        for said, meant in tried(*numbers):
            pairs = zip([*said, "the end"], [*meant, "the end"])
            wrong = next((f"{a!r}, and not {b!r}" for a, b in pairs if a != b), "")
            yield f"docs/RULES.md, limit: {what}, {numbers}", wrong
