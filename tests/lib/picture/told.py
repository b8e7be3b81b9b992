"""What a picture of a trace has to show, by the rules: bars of frames, lives of VMs, and how many frames each VM has
and shares, line by line."""
import collections
import dataclasses

import rules

Bar = collections.namedtuple("Bar", "frame first last owner gfn share present")
Step = collections.namedtuple("Step", "line frames shared")


@dataclasses.dataclass
class Life:
    """A life of a VM, by the lines of the calls that registered, measured and cleared it; line 1, the header's, is that
    of what came before the first call."""

    vm: int
    registered: int
    active: int = None
    dead: int = None
    cleared: int = None

    def ticks(self):
        """The titles of its marks, except those of a dead VM and of what came before the first call."""
        turns = ("registered", self.registered), ("measured and active", self.active), ("cleared", self.cleared)
        yield from [f"vm {self.vm} {turn} at line {line}" for turn, line in turns if line and line > 1]

    def title(self):
        begun = "there before the first call" if self.registered == 1 else f"registered at line {self.registered}"
        line, phase = self.active or self.dead, "active" if self.active else "dead"
        said = (phase if line == 1 else f"measured and {phase} from line {line}") if line else "never measured"
        end = f"cleared at line {self.cleared}" if self.cleared else "there at the end"
        return f"vm {self.vm}: {begun}, {said}, {end}"


def title_of(bar):
    owner = bar.owner if isinstance(bar.owner, str) else f"vm {bar.owner} at guest frame {bar.gfn}"
    grants = f", {bar.share} grant{'' if bar.share == 1 else 's'}" if bar.share else ""
    reached = ", reached by the host" if bar.present else ""
    return f"frame {bar.frame}, lines {bar.first} to {bar.last}: {owner}{grants}{reached}"


def core_after(config, lines):
    core = rules.Core(config)
    for line in lines:
        core.answer(line)
    return core


class Told:
    """Makes the calls of a trace, perhaps after others, and keeps what a picture has to show of them."""

    def __init__(self, config, lines, before=()):
        self.config, self.calls, self.last = config, len(lines), len(lines) + 1
        self.bars, self.lives, self.steps = [], [], collections.defaultdict(list)
        self.core, self.counts = core_after(config, before), collections.Counter()
        self.begun = [(1, self.custody(frame)) for frame in range(config["frames"])]
        for vm, slot in enumerate(self.core.slots):
            if slot.phase != "empty":
                self.lives.append(Life(vm, 1, **({slot.phase: 1} if slot.phase != "booting" else {})))
        for _, custody in self.begun:
            self.count(1, custody, 1)
        for line, call in enumerate(lines, 2):
            self.make(line, call)
        for frame, (first, custody) in enumerate(self.begun):
            self.bars.append(Bar(frame, first, self.last, *custody))

    def custody(self, frame):
        it = self.core.frames[frame]
        return it.owner, it.gfn, it.share, it.present

    def make(self, line, call):
        """Makes a call, and looks at the frames in which it sets something."""
        name, *words = call.split(" ")
        self.core.noted.clear()
        reply = self.core.answer(call)
        for frame in sorted(self.core.noted):
            if self.custody(frame) != self.begun[frame][1]:
                self.turn(line, frame)
        self.live(line, name, int(words[0]) if words else 0, reply)

    def turn(self, line, frame):
        """Ends the bar of a frame whose custody has changed, and counts it."""
        (first, before), now = self.begun[frame], self.custody(frame)
        self.bars.append(Bar(frame, first, line - 1, *before))
        self.begun[frame] = line, now
        self.count(line, before, -1)
        self.count(line, now, 1)

    def count(self, line, custody, more):
        """Counts a frame with this custody as one more or one fewer of its VM's, if it is a VM's."""
        owner, _, share, _ = custody
        if isinstance(owner, int):
            self.counts[owner, "all"] += more
            self.counts[owner, "shared"] += more * (share > 0)
            self.steps[owner].append(Step(line, self.counts[owner, "all"], self.counts[owner, "shared"]))

    def live(self, line, name, vm, reply):
        """Keeps what a call changes in a life."""
        mine = [it for it in self.lives[-1:] if it.vm == vm] or [it for it in self.lives if it.vm == vm]
        if name == "regvm" and reply == "done":
            self.lives.append(Life(vm, line))
        elif name == "verify" and reply == "done":
            mine[-1].active = line
        elif name == "verify" and reply.startswith("rejected"):
            mine[-1].dead = line
        elif name == "clear" and reply == "done":
            mine[-1].cleared = line

    def numbers(self, vm, which):
        """How many frames a VM has, or shares, after the call on each line, from line 1 on."""
        numbers, steps = [0] * self.last, self.steps[vm]
        ends = [it.line for it in steps[1:]] + [self.last + 1]
        for step, end in zip(steps, ends):
            numbers[step.line - 1 : end - 1] = [getattr(step, which)] * (end - step.line)
        return numbers


class Reported:
    """What the lines of `custody --refused --accesses --vm V` say: a bar for each stretch in which a frame is the VM's,
    in the order in which they begin, and the lines of what was refused and served."""

    def __init__(self, config, lines, vm, before=()):
        core, last = core_after(config, before), len(lines) + 1
        begun, bars = {}, []
        for frame, it in enumerate(core.frames):
            if it.owner == vm:
                begun[frame] = 1, rules.custody_of(it.owner, it.gfn, it.share, it.present)
        told, remarks = core.custody(lines)[1], core_after(config, before).remarks(lines)
        self.remarks = [rules.own(line, vm) for _, vms, line in remarks if vm in vms]
        for line in (it for vms, it in told if vm in vms and "frame" in it):
            if line["frame"] in begun:
                bars.append(self.bar(vm, line["frame"], *begun.pop(line["frame"]), line["line"] - 1))
            if line["to"]["owner"] == f"vm{vm}":
                begun[line["frame"]] = line["line"], line["to"]
        bars += [self.bar(vm, frame, *it, last) for frame, it in begun.items()]
        self.bars = sorted(bars, key=lambda it: (it.first, it.frame))

    @staticmethod
    def bar(vm, frame, first, custody, last):
        return Bar(frame, first, last, vm, custody["gfn"], custody["share"], custody["present"])


def place_of(gfn):
    return "" if gfn is None else f" at guest frame {gfn}"


def title_of_remark(line):
    """The title of the mark of a line of what was refused or served."""
    said = f"line {line['line']}: {line['call']}"
    if "vm" in line:
        return f"{said} of {line['len']} bytes from byte {line['off']} of frame {line['frame']}{place_of(line['gfn'])}"
    said += f" refused, {line['refused']}" if "refused" in line else f" rejected, image {line['rejected']}"
    if line["frame"] is None:
        return said
    owner = f", {line['owner'].replace('vm', 'vm ')}" if line["owner"] else ""
    return f"{said}: frame {line['frame']}{owner}{place_of(line['gfn'])}"


def lines_in(last, columns, column):
    """The lines that fall into a column, even in part: the first, and the last."""
    return column * last // columns + 1, -(-(column + 1) * last // columns)


def most_in_columns(numbers, columns):
    """The greatest number on any line that falls into each column."""
    spans = (lines_in(len(numbers), columns, column) for column in range(columns))
    return [max(numbers[first - 1 : last]) for first, last in spans]
