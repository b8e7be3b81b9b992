"""The text of a state, written out once more in another language: how one is written, and why a text is not one.

What is written is taken from a core of rules.py. What is wrong with a text is the first fault that applies, as kcore
says it."""
import operator
import re

from rules import DIGESTS, LEAF, LIMITS, PAGE, SHARES, ZERO_PAGE, ZEROS, digest_of_page

# What the lines before the dump, whose header says the version, may have.
LARGEST = LIMITS[2]
DIGEST, DIGITS = re.compile("[0-9a-f]{64}"), re.compile("[0-9a-f]{%d}" % (2 * PAGE))
NUMERAL = re.compile("0|[1-9][0-9]{0,9}")
PHASES, OWNERS = ("empty", "booting", "active", "dead"), ("core", "host", "free")


class Faulty(Exception):
    """Why a text is not a state's, as it is said after 'kcore: '."""


def state_text(core):
    """The text of the state that a core is in."""
    config, lines = core.config, ["kcore-state 1"]
    lines.append("config %d %d %d %d" % (len(core.slots), len(core.frames), config["host"], len(config["approved"])))
    lines += ["approved " + digest for digest in config["approved"]]
    for slot in core.slots:
        waits = [slot.vcpus.get(c, "-") for c in range(core.limits.vcpus)]
        words = ["." if gfn is None else str(gfn) for gfn in waits] + [str(number) for image in slot.images for number in image]
        lines.append(" ".join(["slot"] + words))
    lines += ["page " + ("-" if frame.page == ZERO_PAGE else frame.page.hex()) for frame in core.frames]
    return "\n".join(lines) + "\n" + core.dump()


def blanked(text):
    """The text of the state that differs from the given one only in the pages of active VMs, which are zero."""
    lines = text.split("\n")
    words = [line.split(" ") for line in lines]
    active = {line[1] for line in words if line[0] == "vm" and line[2] == "active"}
    pages = [at for at, line in enumerate(words) if line[0] == "page"]
    for at, line in enumerate(words):
        if line[0] == "frame" and line[2] in active:
            lines[at], lines[pages[int(line[1])]] = " ".join([*line[:-1], ZEROS]), "page -"
    return "\n".join(lines)


def number_of(word, limit=2 ** 32):
    """The number that a word is, if it is one below a limit, or None."""
    return int(word) if NUMERAL.fullmatch(word) and int(word) < limit else None


def numbers_of(words, limit=2 ** 32):
    """The numbers that these words are, or None if one of them is not."""
    numbers = [number_of(word, limit) for word in words]
    return None if None in numbers else numbers


# Lines. Each function takes the words after the line's name, and returns what they say, or None if no line has them.


def sizes_of(words):
    """How many slots, frames, host frames at boot and approved digests there are: no more than a configuration has."""
    numbers = numbers_of(words) if len(words) == 4 else None
    limits = LARGEST.slots, LARGEST.frames, LARGEST.frames, DIGESTS
    return numbers if numbers and all(map(operator.le, numbers, limits)) else None


def digest_of(words):
    return words[0] if len(words) == 1 and DIGEST.fullmatch(words[0]) else None


def slot_of(words):
    """The virtual processors of a slot and its images."""
    waits, numbers = words[:LARGEST.vcpus], numbers_of(words[LARGEST.vcpus:])
    if len(waits) < LARGEST.vcpus or numbers is None or len(numbers) % 3 or len(numbers) > 3 * LARGEST.images:
        return None
    if any(word not in ("-", ".") and number_of(word, LARGEST.gfns) is None for word in waits):
        return None
    return waits, [tuple(numbers[at:at + 3]) for at in range(0, len(numbers), 3)]


def page_of(words):
    if words == ["-"]:
        return ZERO_PAGE
    page = bytes.fromhex(words[0]) if len(words) == 1 and DIGITS.fullmatch(words[0]) else ZERO_PAGE
    return None if page == ZERO_PAGE else page


class Lines:
    """The lines of a text, taken from the front; after the last newline there are none."""

    def __init__(self, text):
        *self.lines, self.rest = text.split("\n")
        self.taken = 0

    def words(self):
        """The words of the next line, or None."""
        return self.lines[self.taken].split(" ") if self.taken < len(self.lines) else None

    def is_at_end(self):
        return self.taken == len(self.lines) and not self.rest

    def bad(self):
        return Faulty("bad state line %d" % (self.taken + 1))

    def take(self, name, read):
        """What the next line says, which has to have this name."""
        words = self.words()
        said = read(words[1:]) if words and words[0] == name else None
        if said is None:
            raise self.bad()
        self.taken += 1
        return said


class Parsed:
    """What a text says: the lines before its dump, and the dump."""

    def __init__(self, text):
        lines = Lines(text)
        header = re.match("kcore-state [12]\n", text)
        if not header:
            raise Faulty("no state header")
        lines.taken = 1
        if header[0] == "kcore-state 2\n":
            # (the texts that are damaged have header 1, so no damage gives a line of a volume)
            lines.take("volume", lambda words: None)
        slots, frames, self.host, approved = lines.take("config", sizes_of)
        self.approved = [lines.take("approved", digest_of) for _ in range(approved)]
        self.rests = [lines.take("slot", slot_of) for _ in range(slots)]
        self.pages = [lines.take("page", page_of) for _ in range(frames)]
        self.version = lines.take("kcore-dump", lambda words: {"1": 1, "2": 2}.get(words[0]) if len(words) == 1 else None)
        self.limits = LIMITS[self.version]
        self.size, self.core, self.leaves = lines.take("size", self.size_of)
        self.free = lines.take("free", self.ends_of)
        self.vms = [lines.take("vm", lambda words, v=v: self.vm_of(v, words)) for v in range(self.limits.slots)]
        self.roots, self.entries = ([[] for _ in self.vms] for _ in range(2))
        self.take_leaves(lines)
        self.take_entries(lines)
        self.lines = [self.take_frame(lines, f) for f in range(self.size)]
        if not lines.is_at_end():
            raise lines.bad()

    def size_of(self, words):
        numbers = numbers_of(words) if len(words) == 3 else None
        most = self.limits
        is_well = numbers and 0 < numbers[0] <= most.frames and numbers[1] <= numbers[0] and 0 < numbers[2] <= most.leaves
        return numbers if is_well else None

    def frame_or_dash(self, word):
        """A list of the frame, or of None for a dash; None if the word is neither."""
        if word == "-":
            return [None]
        number = number_of(word, self.size)
        return None if number is None else [number]

    def ends_of(self, words):
        ends = [self.frame_or_dash(word) for word in words[:2]]
        count = number_of(words[2], self.size + 1) if len(words) == 3 else None
        return None if count is None or None in ends else (ends[0][0], ends[1][0], count)

    def vm_of(self, v, words):
        ends = self.ends_of(words[2:])
        return (words[1], ends) if len(words) == 5 and words[0] == str(v) and words[1] in PHASES and ends else None

    def take_leaves(self, lines):
        """The root slots, which are numbered from 0 in each slot."""
        at, count = 0, 0
        while lines.words() and lines.words()[0] == "leaf":
            words = numbers_of(lines.words()[1:])
            if not words or len(words) != 3 or words[0] >= len(self.vms) or words[2] >= LEAF:
                raise lines.bad()
            if not (words[:2] == [at, count] or (words[0] > at and words[1] == 0)):
                raise lines.bad()
            at, count = words[0], words[1] + 1
            self.roots[at].append(words[2])
            lines.taken += 1

    def take_entries(self, lines):
        """The mapped guest frames, in rising order."""
        least = (0, 0)
        while lines.words() and lines.words()[0] == "entry":
            words = numbers_of(lines.words()[1:])
            if not words or len(words) != 3 or words[0] >= len(self.vms) or words[1] >= self.limits.gfns or words[2] >= self.size:
                raise lines.bad()
            if tuple(words[:2]) < least:
                raise lines.bad()
            least = (words[0], words[1] + 1)
            self.entries[words[0]].append((words[1], words[2]))
            lines.taken += 1

    def frame_of(self, words):
        """The number of a frame, and what its line says."""
        if len(words) != 8 or number_of(words[0], self.size) is None or words[4] not in ("0", "1") or digest_of(words[7:]) is None:
            return None
        owner = words[1] if words[1] in OWNERS else number_of(words[1], len(self.vms))
        share, before, after = number_of(words[2], SHARES + 1), self.frame_or_dash(words[5]), self.frame_or_dash(words[6])
        gfn = [None] if words[3] == "-" else [number_of(words[3], self.limits.gfns)]
        if owner is None or share is None or before is None or after is None or (gfn[0] is None and words[3] != "-"):
            return None
        return int(words[0]), (owner, share, gfn[0], words[4] == "1", before[0], after[0], words[7])

    def take_frame(self, lines, f):
        """The line of this frame; that of another one, or the end of the text, is a fault of its own."""
        words = lines.words()
        said = self.frame_of(words[1:]) if words and words[0] == "frame" else None
        if lines.is_at_end() or (said and said[0] != f):
            raise Faulty("dump frame %d missing or doubled" % f)
        if said is None:
            raise lines.bad()
        lines.taken += 1
        return said[1]


# What is judged after all lines are read.


def judge_sizes(said):
    is_configuration = said.core + said.host <= said.size
    if not is_configuration or len(said.pages) != said.size or len(said.rests) != len(said.vms):
        raise Faulty("state of no configuration")


def is_list(said, owner, ends):
    """Whether ends and links spell a sequence of all the owner's frames, forwards and backwards."""
    left, before, f = {f for f, line in enumerate(said.lines) if line[0] == owner}, None, ends[0]
    if len(left) != ends[2]:
        return False
    while f in left and said.lines[f][4] == before:
        left.remove(f)
        before, f = f, said.lines[f][5]
    return not left and f is None and before == ends[1]


def findings(said):
    """What an audit finds, in its order."""
    lines, frames = said.lines, range(said.size)
    yield from ("core-owner %d" % f for f in frames if (lines[f][0] == "core") != (f < said.core))
    yield from ("linked %d" % f for f in frames if lines[f][0] in ("core", "host") and lines[f][4:6] != (None, None))
    lists = [("free", "free", said.free)] + [(str(v), v, ends) for v, (_, ends) in enumerate(said.vms)]
    yield from ("chain " + name for name, owner, ends in lists if not is_list(said, owner, ends))
    for v, entries in enumerate(said.entries):
        yield from ("entry %d %d" % (v, g) for g, f in entries if (lines[f][0], lines[f][2]) != (v, g))
    tables = [set(entries) for entries in said.entries]
    is_vm = lambda f: lines[f][0] not in OWNERS
    is_mapped = lambda f: is_vm(f) and (lines[f][2], f) in tables[lines[f][0]]
    yield from ("gfn %d" % f for f in frames if (not is_mapped(f) if is_vm(f) else lines[f][2] is not None))
    yield from ("share %d" % f for f in frames if lines[f][1] and not is_vm(f))
    yield from ("present %d" % f for f in frames if lines[f][3] and lines[f][0] != "host" and not lines[f][1])
    for v, roots in enumerate(said.roots):
        if len(roots) > said.leaves or len(set(roots)) < len(roots) or any(g // LEAF not in roots for g, _ in said.entries[v]):
            yield "leaves %d" % v
    for v, (phase, ends) in enumerate(said.vms):
        if phase == "empty" and (ends != (None, None, 0) or said.roots[v] or said.entries[v]):
            yield "empty %d" % v
    yield from ("bytes %d" % f for f in frames if lines[f][0] == "free" and lines[f][6] != ZEROS)


def is_slot(said, v):
    """Whether a lawful state may have this slot."""
    phase, (waits, images) = said.vms[v][0], said.rests[v]
    if phase == "empty":
        return waits == ["-"] * said.limits.vcpus and not images
    if phase != "active" and any(word not in ("-", ".") for word in waits):
        return False
    spans = []
    for base, length, pages in images:
        most = (length + PAGE - 1) // PAGE
        if not 0 < length <= said.limits.image_bytes or base + most > said.limits.gfns or pages > most:
            return False
        if any(base < end and start < base + most for start, end in spans):
            return False
        spans.append((base, base + most))
    held = {g for base, _, pages in images for g in range(base, base + pages)}
    return phase != "booting" or held == {g for g, _ in said.entries[v]}


def is_frame(said, f):
    """Whether a lawful state may have this frame."""
    owner, share, *_, digest = said.lines[f]
    is_shared_in_order = owner in OWNERS or not share or said.vms[owner][0] == "active"
    return digest == digest_of_page(said.pages[f]) and (owner != "free" or said.pages[f] == ZERO_PAGE) and is_shared_in_order


def fault_of(text):
    """Why a text is not a state's, or None if it is."""
    try:
        said = Parsed(text)
        judge_sizes(said)
        for finding in findings(said):
            raise Faulty("state with finding " + finding)
        for v in range(len(said.vms)):
            if not is_slot(said, v):
                raise Faulty("bad slot %d" % v)
        for f in range(said.size):
            if not is_frame(said, f):
                raise Faulty("bad frame %d" % f)
    except Faulty as fault:
        return str(fault)
    return None
