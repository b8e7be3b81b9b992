"""The rules written out once more in another language: what a core keeps, why a call is refused and what it does; and
what custody, a summary and a dump say of it."""
import collections
import hashlib
import json
import operator
import typing

import calls

PAGE, LEAF, SHARES, RANGE, DIGESTS = 4096, 512, 100, 64, 64


class Limits(typing.NamedTuple):
    """What a version of the rules allows: how many frames a machine has at most, how many slots, and of a slot how many
    virtual processors, guest frames, leaf tables and images, and how many bytes of one."""
    frames: int
    slots: int
    vcpus: int
    gfns: int
    leaves: int
    images: int
    image_bytes: int


LIMITS = {
    1: Limits(8192, 16, 8, 262144, 64, 4, 2**20),
    2: Limits(65536, 64, 8, 262144, 64, 4, 2**20),
    3: Limits(2**28, 1024, 256, 2**27, 262144, 16, 2**30),
}
# The versions of which dumps and states have texts, and those that approve a boot as a whole.
WITH_TEXTS, WITH_LAUNCH = (1, 2), (3,)
# Slots from this one on cannot be named by --vm.
NAMED = 1024
# The options that ask for more than custody.
REMARKS = "--refused", "--accesses"
# The version that the first line of custody names.
VERSION = "3.0.0"
# Why calls are refused, by number.
REASONS = (
    "bad-vm bad-vcpu bad-frame bad-gfn bad-range slot-used no-vm wrong-phase vcpu-used no-vcpu images-full overlap no-image"
    " image-full image-short no-fault mapped not-mapped not-host protected not-present tables-full share-full not-shared shared"
    " no-free"
).split()
# What is reported of a frame, in this order.
CUSTODY = operator.attrgetter("owner", "gfn", "share", "present")
# The program's configuration if none is named.
DEFAULT = {
    "version": 1, "frames": 8, "core": 1, "host": 4, "leaves": 1, "approved": [hashlib.sha256(b"abc").hexdigest()],
}


# What replay, custody and `redact --host` say of a trace that is probably of another machine, whatever else they are asked
# for: how many calls were refused or rejected, or how many that name a frame or a slot name one that there is not.
OUTSIDE = "refused bad-frame", "refused bad-vm"
WARNING = "kcore: warning: {} of {} calls were refused: is this the trace's machine?\n"
LACKING = "kcore: warning: {} of {} calls that name a frame or a slot name one that the machine lacks: is this the trace's machine?\n"


def text_of(rows):
    """These objects, each on a line."""
    return "".join(json.dumps(row, separators=(",", ":")) + "\n" for row in rows)


def rows_of_calls(lines, replies):
    """The calls of a trace with their replies and lines."""
    return [{"line": number, "call": call, "reply": reply} for number, (call, reply) in enumerate(zip(lines, replies), 2)]


def lines_text(lines, replies):
    """What `replay --lines` writes of these calls of a trace and their replies."""
    return text_of(rows_of_calls(lines, replies))


def warning_of(lines, replies):
    """What is said on standard error of these calls of a trace and their replies."""
    naming = [line for line in lines if line != "take"]
    denied = sum(it.startswith(("refused ", "rejected ")) for it in replies)
    outside = sum(it in OUTSIDE for it in replies)
    if 2 * denied > len(lines):
        return WARNING.format(denied, len(lines))
    return LACKING.format(outside, len(naming)) if 2 * outside > len(naming) else ""


def own(line, vm):
    """A line of a report of one VM: a refused call names no other slot, and of another VM's frame only its number."""
    if vm is None or "slot" not in line:
        return line
    others = {"slot": None} if line["slot"] != vm else {}
    others |= {"owner": None, "gfn": None} if (line["owner"] or "").startswith("vm") and line["owner"] != f"vm{vm}" else {}
    return line | others


def denied_in(remarks):
    """How many calls were refused or rejected."""
    return sum(option == REMARKS[0] for option, *_ in remarks)


def noted(told, remarks, options):
    """What is reported of the calls of a trace, and the remarks that these options ask for, a call's remarks first."""
    asked = [(vms, line) for option, vms, line in remarks if option in options]
    return sorted(asked + told, key=lambda it: it[1]["line"])


def rows_of_volumes(sizes, digests=None, first=None):
    """The lines that name volumes, read one after another, with these numbers of calls, perhaps with the digests of
    their texts, and with the numbers in their heads if they have heads, of which the first one has this number."""
    rows, line = [], 2
    for place, size in enumerate(sizes):
        rows.append({"volume": place + 1, "line": line, "calls": size})
        rows[-1] |= {"number": first + place} if first else {}
        rows[-1] |= {"trace": digests[place]} if digests else {}
        line += size
    return rows


def chain_said(volumes, first=None, is_by_numbers=False):
    """What a first line says of these volumes (none if there was one trace): how many there are, and the numbers in the
    heads of the first and the last, and whether their order was judged by these alone; or that nobody knows it."""
    if first:
        last = {"first": first, "last": first + max(len(volumes), 1) - 1} | ({"order": "numbers"} if is_by_numbers else {})
        return ({"volumes": len(volumes)} if volumes else {}) | last
    return {"volumes": len(volumes), "order": "not judged"} if volumes else {}


def placed(reported, volumes):
    """A line with the number of its volume before all else: how many volumes begin on or before it."""
    return {"volume": sum(it["line"] <= reported["line"] for it in volumes)} | reported if volumes else reported


class Refused(Exception):
    pass


# A page to which nothing was written, and its digest.
ZERO_PAGE = bytes(PAGE)
ZEROS = hashlib.sha256(ZERO_PAGE).hexdigest()


def digest_of_page(page):
    return ZEROS if page == ZERO_PAGE else hashlib.sha256(page).hexdigest()


def launch_of(images):
    """The launch measurement of images, each with its first guest frame and its bytes: the digest of the whole that
    version 3 approves."""
    number = lambda it: it.to_bytes(8, "little")
    whole = b"".join(number(base) + number(len(image)) + image for base, image in images)
    return hashlib.sha256(whole).hexdigest()


class Frame:
    """What is kept of a frame. When anything of it is set, its custody before that is noted, unless it is noted already:
    all other frames are as they were."""

    __slots__ = "owner", "share", "gfn", "present", "page", "number", "noted"

    def __init__(self, number, owner, noted):
        put = object.__setattr__
        put(self, "number", number)
        put(self, "noted", noted)
        for name, value in zip(self.__slots__, (owner, 0, None, False, ZERO_PAGE)):
            put(self, name, value)

    def __setattr__(self, name, value):
        if self.number not in self.noted:
            self.noted[self.number] = CUSTODY(self)
        object.__setattr__(self, name, value)

    def write(self, offset, data):
        self.page = self.page[:offset] + data + self.page[offset + len(data):]


class Frames:
    """The frames of a machine, in order like a list. A frame is made when it is first looked at; until then it is as at
    boot. `made` has those that are made, by their numbers."""

    def __init__(self, config, noted):
        self.size, self.noted, self.made = config["frames"], noted, {}
        # (where the frames of each owner at boot end)
        self.ends = config["core"], config["core"] + config["host"]

    def __len__(self):
        return self.size

    def __getitem__(self, f):
        if f not in self.made:
            if not 0 <= f < self.size:
                raise IndexError(f)
            owner = ("core", "host", "free")[sum(end <= f for end in self.ends)]
            self.made[f] = Frame(f, owner, self.noted)
        return self.made[f]


class Slot:
    def __init__(self):
        self.phase, self.vcpus, self.images, self.list, self.table, self.leaves = "empty", {}, [], [], {}, []


class Life:
    """What a summary reports of a VM, from the call that registers it on, or from the header's line."""

    def __init__(self, v, line):
        self.told = {"vm": v, "registered": line, "active": None, "dead": None, "cleared": None, "images": []}
        self.told |= dict.fromkeys(("frames", "most", "left", "returned", "reads", "writes"), 0) | {"refused": {}, "shared": []}
        self.ever, self.last, self.open = set(), set(), {}

    def measure(self, boot):
        """Puts what was measured in the place of its images."""
        front, rest = list(self.told.items()), []
        while front[-1][0] != "images":
            rest.insert(0, front.pop())
        self.told = dict(front) | boot | dict(rest)

    def refuse(self, reason):
        """Counts a call that was refused at a page of the VM."""
        counts = self.told["refused"]
        counts[reason] = counts.get(reason, 0) + 1
        self.told["refused"] = {it: counts[it] for it in REASONS if it in counts}

    def look(self, line, table):
        """Looks at the frames that it has after the call on this line."""
        now = set(table.values())
        self.ever |= now
        self.told |= {"frames": len(self.ever), "most": max(self.told["most"], len(now)), "left": len(now)}
        self.told["returned"] += len(self.last - now)
        self.last = now

    def look_at_shares(self, line, table, shared):
        """Looks at those of them that it shares."""
        for f in [f for f in self.open if f not in shared]:
            self.open.pop(f)["to"] = line
        gfns = {f: g for g, f in table.items()}
        for f in sorted(set(shared) - self.open.keys()):
            self.open[f] = {"frame": f, "gfn": gfns[f], "from": line, "to": None}
            self.told["shared"].append(self.open[f])


class Lives:
    """The lives of VMs through calls on a core, in the order in which they begin: first those under way, which have the
    header's line. After each call, the frames that each VM has and shares are looked at."""

    def __init__(self, core):
        self.core, self.lives = core, []
        for v, slot in enumerate(core.slots):
            if slot.phase != "empty":
                self.lives.append(Life(v, 1))
                self.lives[-1].told |= {slot.phase: 1} if slot.phase != "booting" else {}
        self.look(1, self.current())

    def current(self):
        """For each slot, the life that is not over, if any."""
        return {life.told["vm"]: life for life in self.lives if life.told["cleared"] is None}

    def look(self, number, current):
        for v, life in current.items():
            slot = self.core.slots[v]
            life.look(number, slot.table)
            life.look_at_shares(number, slot.table, [f for f in slot.list if self.core.frames[f].share > 0])

    def note(self, number, line, reply):
        """Notes the call on a line and the core's reply to it."""
        name, *words = line.split(" ")
        at = int(words[0]) if words else 0
        frames = self.core.frames
        is_served = not reply.startswith(("refused", "fault"))
        if is_served and name == "regvm":
            self.lives.append(Life(at, number))
        current = self.current()
        if is_served and name == "verify":
            current[at].told["active" if reply == "done" else "dead"] = number
            current[at].measure(self.core.boot_of(at))
        # A refused call changes nothing.
        f = self.core.named(line)[1] if reply.startswith("refused") else None
        if f is not None and frames[f].owner in current:
            current[frames[f].owner].refuse(reply.split(" ")[1])
        if is_served and name in ("hread", "hwrite") and frames[at].owner in current:
            current[frames[at].owner].told["reads" if name == "hread" else "writes"] += 1
        self.look(number, current)
        if is_served and name == "clear":
            current[at].told["cleared"] = number

    def told(self):
        return [life.told for life in self.lives]


def pages_of(length):
    return (length + PAGE - 1) // PAGE


def ask(*conditions):
    """Refuses a call for the first condition that holds; each is a function, so that none is asked too early."""
    for holds, name in conditions:
        if holds():
            raise Refused(name)


class Core:
    """The rules: what is kept, why a call is refused, what it does."""

    def __init__(self, config):
        self.config, self.limits, self.noted = config, LIMITS[config["version"]], {}
        self.frames = Frames(config, self.noted)
        self.slots = [Slot() for _ in range(self.limits.slots)]
        # Free frames: those of the boot that nobody took yet, and after them those that became free since.
        self.untaken, self.freed = range(config["core"] + config["host"], config["frames"]), collections.deque()

    def answer(self, line):
        name, *words = line.split(" ")
        words = [word if letter == "data" else int(word) for letter, word in zip(calls.WORDS[name], words, strict=True)]
        try:
            return getattr(self, name)(*words)
        except Refused as refusal:
            return f"refused {refusal}"

    # Conditions: each is a function, and the name of the refusal.
    def bad_vm(self, v): return lambda: v >= len(self.slots), "bad-vm"
    def bad_vcpu(self, c): return lambda: c >= self.limits.vcpus, "bad-vcpu"
    def bad_frame(self, f): return lambda: f >= len(self.frames), "bad-frame"
    def bad_gfn(self, g, n=1): return lambda: g >= self.limits.gfns or g + n > self.limits.gfns, "bad-gfn"
    def bad_range(self, offset, length): return lambda: length == 0 or offset + length > PAGE, "bad-range"
    def no_vm(self, v): return lambda: self.slots[v].phase == "empty", "no-vm"
    def not_in(self, v, phase): return lambda: self.slots[v].phase != phase, "wrong-phase"
    def no_vcpu(self, v, c): return lambda: c not in self.slots[v].vcpus, "no-vcpu"
    def not_host(self, f): return lambda: self.frames[f].owner != "host", "not-host"
    def not_present(self, f): return lambda: not self.frames[f].present, "not-present"

    def not_mapped(self, v, g, n=1):
        return lambda: any(h not in self.slots[v].table for h in range(g, g + n)), "not-mapped"

    def share_is(self, v, g, n, share, name):
        return lambda: any(self.at(v, h).share == share for h in range(g, g + n)), name

    def tables_full(self, v, gfn):
        leaves = lambda: self.slots[v].leaves
        return lambda: gfn() // LEAF not in leaves() and len(leaves()) >= self.config["leaves"], "tables-full"

    def guest(self, v, c):
        return self.no_vm(v), self.not_in(v, "active"), self.no_vcpu(v, c)

    def redacted(self, line):
        """The next call, with zeros in place of the bytes that a virtual processor writes, or that the host writes to a
        frame of an active VM."""
        name, *words = line.split(" ")
        if name != "hwrite" or int(words[0]) >= len(self.frames):
            return calls.redacted(line)
        owner = self.frames[int(words[0])].owner
        return calls.blanked(line) if isinstance(owner, int) and self.slots[owner].phase == "active" else line

    # What several calls do.
    def at(self, v, g):
        return self.frames[self.slots[v].table[g]]

    def hand(self, v, g, f):
        slot, frame = self.slots[v], self.frames[f]
        if g // LEAF not in slot.leaves:
            slot.leaves.append(g // LEAF)
        slot.table[g] = f
        slot.list.append(f)
        frame.owner, frame.gfn, frame.present = v, g, False

    def images(self, v):
        """The images of a slot: where each is, how long it is, and its bytes."""
        held = lambda base, pages: b"".join(self.at(v, base + n).page for n in range(pages))
        return [(base, length, held(base, pages)[:length]) for base, length, pages in self.slots[v].images]

    def measured(self, v):
        """What is reported of the images of a slot when they are measured."""
        return [image_of(base, length, hashlib.sha256(image).hexdigest()) for base, length, image in self.images(v)]

    def launch(self, v):
        """The launch measurement of what a slot boots."""
        return launch_of((base, image) for base, _, image in self.images(v))

    def to_approve(self, v):
        """The digests that have to be approved for what a slot boots: that of the whole, or one for each image."""
        if self.config["version"] in WITH_LAUNCH:
            return [self.launch(v)]
        return [image["sha256"] for image in self.measured(v)]

    def release(self, f):
        frame = self.frames[f]
        frame.owner, frame.share, frame.gfn, frame.present, frame.page = "free", 0, None, False, ZERO_PAGE
        self.freed.append(f)

    # The host's calls.
    def take(self):
        ask((lambda: not self.untaken and not self.freed, "no-free"))
        f = self.untaken[0] if self.untaken else self.freed.popleft()
        self.untaken = self.untaken[1:]
        self.frames[f].owner = "host"
        return f"frame {f}"

    def give(self, f):
        ask(self.bad_frame(f), self.not_host(f))
        self.release(f)
        return "done"

    def hfault(self, f):
        ask(self.bad_frame(f), (lambda: self.frames[f].owner != "host" and self.frames[f].share == 0, "protected"))
        self.frames[f].present = True
        return "done"

    def hread(self, f, offset, length):
        ask(self.bad_frame(f), self.bad_range(offset, length), self.not_present(f))
        return f"data {self.frames[f].page[offset:offset + length].hex()}"

    def hwrite(self, f, offset, data):
        data = bytes.fromhex(data)
        ask(self.bad_frame(f), self.bad_range(offset, len(data)), self.not_present(f))
        self.frames[f].write(offset, data)
        return "done"

    def regvm(self, v):
        ask(self.bad_vm(v), (lambda: self.slots[v].phase != "empty", "slot-used"))
        self.slots[v].phase = "booting"
        return "done"

    def regvcpu(self, v, c):
        is_used = lambda: c in self.slots[v].vcpus
        ask(self.bad_vm(v), self.bad_vcpu(c), self.no_vm(v), self.not_in(v, "booting"), (is_used, "vcpu-used"))
        self.slots[v].vcpus[c] = None
        return "done"

    def setboot(self, v, base, length):
        pages, images = pages_of(length), lambda: self.slots[v].images
        meets = lambda: any(base < first + pages_of(size) and first < base + pages for first, size, _ in images())
        is_odd = lambda: length == 0 or length > self.limits.image_bytes
        is_full = lambda: len(images()) >= self.limits.images
        ask(self.bad_vm(v), self.bad_gfn(base, pages), (is_odd, "bad-range"), self.no_vm(v), self.not_in(v, "booting"),
            (is_full, "images-full"), (meets, "overlap"))
        self.slots[v].images.append([base, length, 0])
        return f"image {len(self.slots[v].images) - 1}"

    def remap(self, v, i, f):
        image = lambda: self.slots[v].images[i]
        next_gfn = lambda: image()[0] + image()[2]
        is_full = lambda: image()[2] >= pages_of(image()[1])
        ask(self.bad_vm(v), self.bad_frame(f), self.no_vm(v), self.not_in(v, "booting"),
            (lambda: i >= len(self.slots[v].images), "no-image"), (is_full, "image-full"), self.not_host(f),
            self.tables_full(v, next_gfn))
        self.hand(v, next_gfn(), f)
        image()[2] += 1
        return "done"

    def verify(self, v):
        short = lambda: not self.slots[v].images or any(image[2] < pages_of(image[1]) for image in self.slots[v].images)
        ask(self.bad_vm(v), self.no_vm(v), self.not_in(v, "booting"), (short, "image-short"))
        slot = self.slots[v]
        for i, digest in enumerate(self.to_approve(v)):
            if digest not in self.config["approved"]:
                slot.phase = "dead"
                return f"rejected {i}"
        for base, length, pages in slot.images:
            past = pages * PAGE - length
            self.at(v, base + pages - 1).write(PAGE - past, bytes(past))
        slot.phase = "active"
        return "done"

    def map(self, v, c, f):
        waits = lambda: self.slots[v].vcpus[c]
        ask(self.bad_vm(v), self.bad_vcpu(c), self.bad_frame(f), *self.guest(v, c),
            (lambda: waits() is None, "no-fault"), (lambda: waits() in self.slots[v].table, "mapped"),
            self.not_host(f), self.tables_full(v, waits))
        self.hand(v, waits(), f)
        self.slots[v].vcpus[c] = None
        return "done"

    def clear(self, v):
        ask(self.bad_vm(v), self.no_vm(v))
        for f in self.slots[v].list:
            self.release(f)
        self.slots[v] = Slot()
        return "done"

    # A virtual processor's calls.
    def reach(self, v, c, g, offset, length):
        """The frame at a guest frame; None if it is not mapped, and then the virtual processor waits for it."""
        ask(self.bad_vm(v), self.bad_vcpu(c), self.bad_gfn(g), self.bad_range(offset, length), *self.guest(v, c))
        is_mapped = g in self.slots[v].table
        self.slots[v].vcpus[c] = None if is_mapped else g
        return self.at(v, g) if is_mapped else None

    def gread(self, v, c, g, offset, length):
        frame = self.reach(v, c, g, offset, length)
        return f"fault {g}" if frame is None else f"data {frame.page[offset:offset + length].hex()}"

    def gwrite(self, v, c, g, offset, data):
        data = bytes.fromhex(data)
        frame = self.reach(v, c, g, offset, len(data))
        if frame is None:
            return f"fault {g}"
        frame.write(offset, data)
        return "done"

    def grant(self, v, c, g):
        ask(self.bad_vm(v), self.bad_vcpu(c), self.bad_gfn(g), *self.guest(v, c), self.not_mapped(v, g),
            self.share_is(v, g, 1, SHARES, "share-full"))
        return self.share(v, g, 1, 1)

    def revoke(self, v, c, g):
        ask(self.bad_vm(v), self.bad_vcpu(c), self.bad_gfn(g), *self.guest(v, c), self.not_mapped(v, g),
            self.share_is(v, g, 1, 0, "not-shared"))
        return self.share(v, g, 1, -1)

    def grantr(self, v, c, g, n):
        many = (lambda: n == 0 or n > RANGE, "bad-range")
        ask(self.bad_vm(v), self.bad_vcpu(c), self.bad_gfn(g, n), many, *self.guest(v, c), self.not_mapped(v, g, n),
            self.share_is(v, g, n, SHARES, "share-full"))
        return self.share(v, g, n, 1)

    def revoker(self, v, c, g, n):
        many = (lambda: n == 0 or n > RANGE, "bad-range")
        ask(self.bad_vm(v), self.bad_vcpu(c), self.bad_gfn(g, n), many, *self.guest(v, c), self.not_mapped(v, g, n),
            self.share_is(v, g, n, 0, "not-shared"))
        return self.share(v, g, n, -1)

    def share(self, v, g, n, change):
        for h in range(g, g + n):
            frame = self.at(v, h)
            frame.share += change
            frame.present = frame.present and frame.share > 0
        return "done"

    def drop(self, v, c, g):
        shared = (lambda: self.at(v, g).share > 0, "shared")
        ask(self.bad_vm(v), self.bad_vcpu(c), self.bad_gfn(g), *self.guest(v, c), self.not_mapped(v, g), shared)
        f = self.slots[v].table.pop(g)
        self.slots[v].list.remove(f)
        self.release(f)
        return "done"

    def custody(self, lines):
        """The replies to these calls of a trace, and the lines of custody, each after the owners that it concerns."""
        replies, told = [], []
        phases = lambda: [slot.phase for slot in self.slots]
        before = phases()
        for number, line in enumerate(lines, 2):
            # Measured before the call, which may change its pages.
            slot = int(line.split(" ")[1]) if line.startswith("verify ") else len(self.slots)
            boot = self.boot_of(slot) if before[slot : slot + 1] == ["booting"] else {}
            self.noted.clear()
            replies.append(self.answer(line))
            after = phases()
            told += self.moved(number) + self.turned(number, before, after, boot)
            before = after
        return replies, told

    def boot_of(self, v):
        """What is reported of what a slot boots when it is measured."""
        launch = {"measured": self.launch(v)} if self.config["version"] in WITH_LAUNCH else {}
        return {"images": self.measured(v), **launch}

    def moved(self, number):
        """What is reported of the frames that a call changes: of each the custody before it is noted."""
        told = []
        for f, old in sorted(self.noted.items()):
            new = CUSTODY(self.frames[f])
            if old != new:
                line = {"line": number, "frame": f, "from": custody_of(*old), "to": custody_of(*new)}
                told.append(((old[0], new[0]), line))
        return told

    def turned(self, number, before, after, boot):
        """What is reported of the slots whose phase a call changes, with what it measured."""
        told, differing = [], enumerate(zip(before, after)) if before != after else ()
        for v, (old, new) in differing:
            if old != new:
                measured = boot if new in ("active", "dead") else {"images": []}
                told.append(((v,), {"line": number, "vm": v, "phase": new, **measured}))
        return told

    def named(self, line):
        """The numbers that a call names, by their letters, and its frame, if that exists: named by its number, or by
        the guest frame at which it is mapped, of a range the first."""
        name, *words = line.split(" ")
        named = {letter: int(word) for letter, word in zip(calls.WORDS[name], words) if letter != "data"}
        f = named.get("f")
        if name in calls.GUESTS and named["v"] < len(self.slots):
            f = self.slots[named["v"]].table.get(named["g"])
        return named, f if f is not None and f < len(self.frames) else None

    def remarks(self, lines):
        """What is reported of these calls of a trace besides custody: each line, after the option that asks for it and
        the slot and the owner that it concerns."""
        remarks = []
        for number, line in enumerate(lines, 2):
            name, *words = line.split(" ")
            named, f = self.named(line)
            slot = named.get("v")
            # The frame as it is before the call.
            exists = f is not None
            owner, gfn = (self.frames[f].owner, self.frames[f].gfn) if exists else (None, None)
            why, *what = self.answer(line).split(" ")
            made = {"line": number, "call": name}
            if why in ("refused", "rejected"):
                made |= {why: int(what[0]) if why == "rejected" else what[0], "slot": slot}
                made |= {"frame": f if exists else None, "owner": custody_of(owner, gfn, 0, False)["owner"], "gfn": gfn}
                remarks.append((REMARKS[0], (slot, owner), made))
            elif name in ("hread", "hwrite") and isinstance(owner, int):
                length = named["length"] if name == "hread" else len(words[-1]) // 2
                made |= {"frame": f, "vm": owner, "gfn": gfn, "off": named["offset"], "len": length}
                remarks.append((REMARKS[1], (owner,), made))
        return remarks

    def lives(self, lines):
        """The lives of VMs through these calls of a trace, in the order in which they begin."""
        lives = Lives(self)
        for number, line in enumerate(lines, 2):
            lives.note(number, line, self.answer(line))
        return lives.told()

    def header(self, kind, refused=None, named=None, is_unseen=False, volumes=(), first=None, is_by_numbers=False):
        """The first line of a report, perhaps with how many calls were denied. Perhaps the texts that were read are named,
        or the machine's accesses are not in the trace, or the calls came in these volumes. If there are heads, the first
        one has this number, and their order may have been judged by numbers alone."""
        header = {kind: 2, "kcore": VERSION} | (named or {})
        header |= {"frames": len(self.frames), "core": self.config["core"], "host": self.config["host"]}
        header |= {"slots": len(self.slots)} | ({} if refused is None else {"refused": refused})
        header |= {"accesses": "unseen"} if is_unseen else {}
        return header | chain_said(volumes, first, is_by_numbers)

    def text(self, kind, calls, counted, lines, volumes=(), **said):
        """The text of a report with its first and its last line. `calls` says how many calls there were, and how many
        were denied."""
        header = self.header(kind, calls[1] if kind == "summary" else None, volumes=volumes, **said)
        return text_of([header, *volumes, *lines, {"calls": calls[0], counted: len(lines), "refused": calls[1]}])

    def replies_text(self, lines, replies, volumes, **said):
        """What `replay --lines` writes of the calls of several volumes and their replies."""
        rows = [placed(row, volumes) for row in rows_of_calls(lines, replies)]
        return text_of([self.header("replies", volumes=volumes, **said), *volumes, *rows])

    def custody_text(self, calls, told, vm=None, volumes=(), **said):
        """The text of custody, perhaps of one slot's VM alone."""
        lines = [placed(own(line, vm), volumes) for vms, line in told if vm is None or vm in vms]
        return self.text("custody", calls, "lines", lines, volumes=volumes, **said)

    def summary_text(self, calls, lives, vm=None, **said):
        """The text of the summary, perhaps of one slot's VM alone."""
        lives = [life for life in lives if vm is None or life["vm"] == vm]
        if said.get("is_unseen"):
            lives = [life | {"reads": None, "writes": None} for life in lives]
        return self.text("summary", calls, "lives", lives, **said)

    def dump(self):
        """The text of a dump."""
        ends = lambda frames: f"{frames[0]} {frames[-1]} {len(frames)}" if frames else "- - 0"
        dash = lambda number: "-" if number is None else number
        config, slots, free = self.config, list(enumerate(self.slots)), [*self.untaken, *self.freed]
        lines = [f"kcore-dump {config['version']}", f"size {len(self.frames)} {config['core']} {config['leaves']}"]
        lines.append(f"free {ends(free)}")
        lines += [f"vm {v} {slot.phase} {ends(slot.list)}" for v, slot in slots]
        lines += [f"leaf {v} {n} {root}" for v, slot in slots for n, root in enumerate(slot.leaves)]
        lines += [f"entry {v} {g} {slot.table[g]}" for v, slot in slots for g in sorted(slot.table)]
        before, after = {}, {}
        for frames in [free] + [slot.list for slot in self.slots]:
            before.update(zip(frames[1:], frames))
            after.update(zip(frames, frames[1:]))
        for f, frame in enumerate(self.frames):
            links = dash(before.get(f)), dash(after.get(f))
            words = [f, frame.owner, frame.share, dash(frame.gfn), int(frame.present), *links, digest_of_page(frame.page)]
            lines.append(" ".join(map(str, ["frame", *words])))
        return "\n".join(lines) + "\n"


def custody_of(owner, gfn, share, present):
    owner = f"vm{owner}" if isinstance(owner, int) else owner
    return {"owner": owner, "gfn": gfn, "share": share, "present": present}


def image_of(base, length, digest):
    return {"base": base, "len": length, "sha256": digest}
