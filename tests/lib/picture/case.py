"""A picture and what the rules say of its trace: its headings, its axis and its legend."""
import collections
import functools
import re

from picture.colours import (
    DEAD, EDGE, HUES, INK, LEFT, LIFE, MOST_BARS, MOST_CALLS, MOST_COLUMNS, MOST_FRAMES, MOST_ROWS, MOST_ROWS_OF_VM,
    OTHERS, PLOT, REFUSED, SEVERAL, colour_of_vm, learned, nearer,
)
from picture.reading import is_near, number, want


def count_of(number, name):
    return f"{number:,} {name}{'' if number == 1 else 's'}"


class Case:
    """A picture, perhaps of one VM alone, what the rules say of its trace, and what its foot has to say."""

    def __init__(self, picture, config, told, reported, vm, foot):
        self.picture, self.config, self.told, self.vm, self.foot = picture, config, told, vm, foot
        self.calls, self.last = told.calls, told.last
        self.bars, self.remarks = (told.bars, []) if vm is None else (reported.bars, reported.remarks)
        self.lives = collections.defaultdict(list)
        for it in told.lives:
            if vm in (None, it.vm):
                self.lives[it.vm].append(it)
        few = config["frames"] <= MOST_FRAMES and self.calls <= MOST_CALLS
        if vm is not None:
            few = len({it.frame for it in self.bars}) <= MOST_ROWS_OF_VM
        self.has_bars = few and len(self.bars) <= MOST_BARS
        self.bases = self.bases_of_lanes()
        self.learn_colours()

    def x(self, line):
        return LEFT + PLOT * (line - 1) / self.last

    def is_at(self, x, line):
        return is_near(x, self.x(line))

    def bases_of_lanes(self):
        """The base line of each lane that has a name, by its VM."""
        names = [it for it in self.picture.texts if re.fullmatch(r"vm \d+", it.element.text)]
        bold = [it for it in names if it.element.get("font-weight") == "bold"]
        return {int(it.element.text[3:]): number(it.element, "y") + 1 for it in bold}

    def paths_of(self, vm):
        """The paths on the base line of a lane: that of all frames, and that of the shared ones."""
        on_base = [it for it in self.picture.shapes if it.kind == "path" and is_near(it.box[3], self.bases[vm])]
        drawn = [it for it in on_base if it.looks["fill"] != "none"]
        return [[it for it in drawn if it.looks["fill"].startswith("url(") == shared] for shared in (False, True)]

    def learn_colours(self):
        """The colours of VMs from slot 16 on are those of their lanes, the same in all pictures."""
        for vm in self.bases:
            for path in self.paths_of(vm)[0]:
                if vm >= 16:
                    want(learned.setdefault(vm, path.looks["fill"]) == path.looks["fill"], f"vm {vm} has two colours")

    @functools.cached_property
    def places(self):
        return {id(it.element): at for at, it in enumerate(self.picture.shapes)}

    def try_headings(self):
        """The title, and the headings and remarks of lanes and frames."""
        frames, slots = self.config["frames"], {it.vm for it in self.told.lives}
        alone = "" if self.vm is None else f": vm {self.vm} alone"
        title = f"Custody of {count_of(frames, 'frame')} of 4,096 bytes through {count_of(self.calls, 'call')}, "
        earlier = {it.vm for it in self.told.lives if it.registered == 1}
        there = f", {len(earlier)} of them there before the first call" if earlier else ""
        title += f"{count_of(len(slots), 'VM')}{there}{alone}"
        want(self.picture.root[0].text == title, f"its title is {self.picture.root[0].text}")
        wanted = [title, self.heading_of_frames()]
        if self.lives:
            whose = "each VM" if self.vm is None else f"vm {self.vm}"
            wanted += [f"Frames of {whose}, and of them shared with the host (hatched)", self.remark_on_lanes()]
        if not self.has_bars:
            wanted.append(self.remark_on_cells())
        for words in wanted:
            said = [it.element.text for it in self.picture.texts if it.element.text[:12] == words[:12]]
            want(self.picture.has_words(words), f"it does not say '{words}', but {said}")

    def heading_of_frames(self):
        if self.vm is None:
            return "Every frame, by number"
        if self.has_bars:
            return f"Each frame of vm {self.vm}, in the order in which they came"
        return f"Frames of vm {self.vm}, by number"

    def try_foot(self):
        """Its last words, below all else, say what it is of; above them, a picture of all VMs says what it lacks."""
        *before, last = self.picture.texts
        want(last.element.text == self.foot, f"its foot is '{last.element.text}'")
        want(all(it.box[3] < last.box[1] for it in self.picture.shapes if it is not last and it.kind != "rect"),
             "something is below its foot")
        lacks = [it.element.text for it in before if it.element.text.startswith("Not shown: ")]
        cells = "which frame of a cell was whose on which line, what was refused, what the host read and wrote. "
        cells += "--vm V shows a VM's frames one by one, with marks of these."
        bars = "what was refused, and what the host read and wrote. --vm V shows them for one VM."
        wanted = [f"Not shown: {bars if self.has_bars else cells}"] if self.vm is None else []
        want(lacks == wanted, f"it says that it lacks {lacks}")

    def remark_on_lanes(self):
        most = max((step.frames for vm in self.lives for step in self.told.steps[vm]), default=0)
        said = f"{'highest lane: ' if self.vm is None else 'at most '}{count_of(most, 'frame')}"
        lines = self.most_lines(min(self.last, PLOT))
        return said if lines == 1 else f"{said}; each point shows the most on any of up to {count_of(lines, 'line')}"

    def most_lines(self, columns):
        """The most lines that may fall into a column, even in part."""
        return self.last // columns if self.last % columns == 0 else self.last // columns + 2

    def remark_on_cells(self):
        rows = min(self.config["frames"], MOST_ROWS)
        frames, lines = -(-self.config["frames"] // rows), self.most_lines(min(self.last, MOST_COLUMNS))
        said = f"a cell: up to {count_of(frames, 'frame')} through up to {count_of(lines, 'line')}; "
        if self.vm is not None:
            return f"{said}paler the less of it vm {self.vm} had; underlined where it shared any"
        whose = "in a VM's colour where it had most of what VMs had, paler the less that was"
        return f"{said}{whose}; underlined where any was shared"

    def try_axis(self):
        """Each mark of the axis has the number of the line that begins there, and there are marks from end to end."""
        middle = [it for it in self.picture.texts if it.element.get("text-anchor") == "middle"]
        marks = {int(it.element.text): number(it.element, "x") for it in middle if it.element.text.isdigit()}
        want(1 in marks and len(marks) <= 13 and max(marks) <= self.last, f"the axis has {sorted(marks)}")
        want(all(self.is_at(x, line) for line, x in marks.items()), f"the axis has {marks}")
        want(max(marks) >= 0.7 * self.last or self.last < 4, f"of {self.last} lines the axis has {sorted(marks)}")
        want(len(marks) >= min(4, self.last), f"the axis has only {sorted(marks)}")

    def try_legend(self):
        """Each word of the legend has a sample to its left that is what it says, and is there if it is needed."""
        wanted = self.samples()
        axis = max(it.box[3] for it in self.picture.texts if it.element.text.startswith("line of the trace"))
        below = [it for it in self.picture.shapes if it.box[1] > axis]
        words = {it.element.text: it for it in below if it.kind == "text"}
        words = {word: it for word, it in words.items() if not word.startswith(("kcore ", "Not shown: "))}
        want(set(words) == set(wanted), f"its legend lacks or has {set(words) ^ set(wanted)}")
        for word, fills in wanted.items():
            x, y = (number(words[word].element, key) for key in ("x", "y"))
            near = [it for it in below if it.kind != "text" and x - 20 < it.box[0] < x and y - 11 < it.box[1] < y]
            want([it.looks["fill"] for it in near] == fills, f"'{word}' has a sample of {[it.looks for it in near]}")
            middle = sum(near[0].box[::2]) / 2
            is_beside = is_near(middle, x - 12) or len(near) == 4
            want(is_beside, f"the sample of '{word}' is at {middle}, and the word at {x}")

    def samples(self):
        """The words of the legend, each with the colours of its sample."""
        vm, has_lanes = self.vm, bool(self.lives)
        hue = colour_of_vm(vm or 0) or self.hue_of_legend()
        words = {it: [fill] for it, fill in OTHERS.items()}
        if vm is not None:
            words = {"the VM's": [hue], "others'": ["#ffffff"]}
        elif has_lanes:
            words["a VM's: the colour of its lane"] = HUES[:4]
            words |= {} if self.has_bars else {"several VMs'": [SEVERAL]}
        if has_lanes:
            words["shared with the host"] = [hue, "#ffffff", "url(#shared)"]
            words |= {"shared, if narrow": [hue, "#ffffff", "none"]} if self.has_bars else {}
            words |= {"shares a frame": [hue, INK], "a VM's life": [LIFE], "registered": [EDGE]}
            words |= {"measured and active, or cleared": [INK], "measured and dead": [DEAD]}
        if vm is not None:
            words |= {"hread served": ["#ffffff"], "hwrite served": [INK], "refused": [REFUSED]}
        if self.has_bars:
            words["reached by the host"] = [OTHERS["host"] if vm is None else hue, INK]
        elif has_lanes:
            words["some of it shared"] = [nearer(255, hue, 50), INK]
        return words

    def hue_of_legend(self):
        """The colour that the legend gives for a VM that never had a frame."""
        word = next((it for it in self.picture.texts if it.element.text == "the VM's"), None)
        if word is None:
            return None
        x, y = (number(word.element, key) for key in ("x", "y"))
        rects = [it for it in self.picture.shapes if it.kind == "rect"]
        return next(it.looks["fill"] for it in rects if is_near(it.box[0], x - 19) and y - 11 < it.box[1] < y)
