"""The rows of a picture of one VM, and the marks of what was refused and served: by the lines that are reported."""
import collections
import re

from picture.case import Case
from picture.colours import DEAD, INK, LEFT, MOST_MARKS, REFUSED
from picture.reading import is_near, levels_of, number, want
from picture.told import title_of_remark

KINDS = {"hread": "reads", "hwrite": "writes"}
LOOKS = {
    "reads": ("rect", "#ffffff", INK), "writes": ("rect", INK, "#ffffff"), "refused": ("path", REFUSED, "#ffffff"),
    "rejected": ("rect", DEAD, "#ffffff"),
}


class Rows(Case):
    def frames(self):
        """The frames that have a row, in the order in which they came."""
        return list(dict.fromkeys(it.frame for it in self.bars)) if self.has_bars else []

    def place(self):
        """Where the row of other calls begins, where that of the first frame begins, and how high a frame's row is."""
        said = "other calls" if self.has_bars else "calls"
        name = next(it.element for it in self.picture.texts if it.element.text == said)
        want(number(name, "x") < LEFT, f"'{said}' is at {number(name, 'x')}")
        top, count = number(name, "y") - 9, len(self.frames())
        return top, top + 18, next(high for most, high in ((16, 22), (64, 12), (250, 7), (1000, 4)) if count <= most)

    def try_rows_of_vm(self):
        """Each of the VM's frames has a row with its bars, in the order in which they came."""
        drawn, (_, top, high) = self.rows_of_bars(), self.place()
        for at, frame in enumerate(self.frames()):
            begin, end = top + at * high, top + (at + 1) * high
            want(is_near(drawn[frame][0], begin + 1) and is_near(drawn[frame][1], end - 1),
                 f"the row of frame {frame}, number {at}, is at {drawn[frame]}")
        self.try_numbers_of_rows(top, high)
        self.try_underlined_rows(top, high)

    def try_numbers_of_rows(self, top, high):
        """Numbers of frames are beside their rows, as many as there is room for."""
        frames, numbered = self.frames(), []
        for it in self.picture.texts:
            if re.fullmatch(r"(frame )?\d+", it.element.text) and it.box[2] < LEFT:
                at = (number(it.element, "y") + (6 if high > 14 else 2.5) - top) / high - 1
                is_row = is_near(at, round(at)) and 0 <= at < len(frames)
                is_its = is_row and frames[round(at)] == int(it.element.text.split(" ")[-1])
                want(is_its, f"{it.element.text} is at {at}")
                numbered.append(round(at))
        step = -(-10 // high)
        want(numbered == [*range(0, len(frames), step)], f"rows {numbered[:9]} have numbers, and not each of {step}")

    def try_underlined_rows(self, top, high):
        """Each row is underlined where its frame is shared, by a line that is longer than the share at both ends."""
        wanted, drawn = collections.defaultdict(list), collections.defaultdict(list)
        for it in self.bars:
            if it.share:
                wanted[it.frame].append((self.x(it.first), self.x(it.last + 1)))
        for it in self.picture.shapes:
            if it.kind == "path" and it.looks.get("stroke-linecap") == "square" and it.box[1] > top:
                at = (it.box[1] + 0.5 - top) / high - 1
                want(is_near(at, round(at)) and it.looks["stroke"] == INK, f"a row is underlined at {at}")
                drawn[self.frames()[round(at)]] += [(begin, end) for begin, _, end in levels_of(it.element.get("d"))]
        differing = sorted(set(drawn) ^ set(wanted))
        want(not differing, f"of frames {differing[:4]} rows are underlined, or are not")
        for frame, stretches in wanted.items():
            near = [all(map(is_near, one, other)) for one, other in zip(stretches, drawn[frame])]
            want(all(near) and len(stretches) == len(drawn[frame]), f"the row of frame {frame} is underlined elsewhere")

    def wanted_marks(self):
        """By row and kind, the lines that have marks there, with their titles."""
        rows, wanted = {frame: at for at, frame in enumerate(self.frames())}, collections.defaultdict(list)
        for line in self.remarks:
            is_access = "vm" in line
            kind = KINDS[line["call"]] if is_access else "refused" if "refused" in line else "rejected"
            is_mine = is_access or line["owner"] == f"vm{self.vm}"
            row = rows.get(line["frame"]) if is_mine else None
            wanted["all" if kind == "rejected" else row, kind].append((line["line"], title_of_remark(line)))
        return wanted

    def drawn_marks(self):
        """By row and kind, the marks that are drawn, from left to right."""
        drawn, (above, top, high) = collections.defaultdict(list), self.place()
        for it in self.picture.shapes:
            one = re.match(r"line \d+: (\w+) (of|refused|rejected)", it.title or "")
            more = re.fullmatch(r"(\d+) (reads|writes|refused|rejected), lines (\d+) to (\d+)", it.title or "")
            if one or more:
                kind = more[2] if more else KINDS[one[1]] if one[2] == "of" else one[2]
                middle = (it.box[1] + it.box[3]) / 2
                row = None if middle < top else int((middle - top) / high)
                drawn["all" if kind == "rejected" else row, kind].append((it, more))
                begin, end = (above, above + 12) if row is None else (top + row * high, top + (row + 1) * high)
                self.try_look(it, kind, (begin, end))
        return {place: sorted(marks, key=lambda it: it[0].box[0]) for place, marks in drawn.items()}

    def try_look(self, shape, kind, row):
        """A mark looks like its kind, and is as high as its row, or, if it is of a rejected boot, as all rows."""
        looks = shape.kind, shape.looks["fill"], shape.looks["stroke"]
        want(looks == LOOKS[kind], f"the mark '{shape.title}' looks {looks}")
        _, top, _, bottom = shape.box
        if kind == "rejected":
            above, first, high = self.place()
            end = first + high * len(self.frames()) if self.has_bars else self.grid[0][3]
            want(is_near(top, above) and is_near(bottom, end), f"the mark '{shape.title}' goes from {top} to {bottom}")
        elif kind == "refused":
            want(row[0] <= top and bottom <= row[1] and bottom - top >= min(4, row[1] - row[0]) - 0.05,
                 f"the mark '{shape.title}' is from {top} to {bottom} in the row {row}")
        else:
            want(is_near(top, row[0]) and is_near(bottom, row[1]), f"the mark '{shape.title}' is {bottom - top} high")

    def try_marks(self):
        """Each line of what was refused or served has a mark on its line, in the row of its frame if that is the VM's;
        several that are close may have one mark together. There are no other marks."""
        wanted, drawn = self.wanted_marks(), self.drawn_marks()
        want(set(wanted) == set(drawn), f"marks that are lacking or too many: {list(set(wanted) ^ set(drawn))[:4]}")
        count = sum(map(len, drawn.values()))
        want(count <= MOST_MARKS, f"it has {count} marks")
        width = 1.05 if count <= MOST_MARKS // 2 else 2048
        for place, marks in drawn.items():
            lines = wanted[place]
            for shape, more in marks:
                many, first, last = (int(more[1]), int(more[3]), int(more[4])) if more else (1, *lines[:1][0][:1] * 2)
                mine, lines = lines[:many], lines[many:]
                want([it[0] for it in mine[:1] + mine[-1:]] == [first, last] and len(mine) == many,
                     f"'{shape.title}' is at {place} of {mine[:2]}")
                want(more or shape.title == mine[0][1], f"'{shape.title}' is not '{mine[0][1]}'")
                want(self.x(last) - self.x(first) < width, f"'{shape.title}' is of marks that are not close")
                want(self.is_at((shape.box[0] + shape.box[2]) / 2, first), f"'{shape.title}' is at {shape.box[0]}")
            want(not lines, f"at {place} {len(lines)} have no mark, the first {lines[:1]}")
        self.try_words_of_rejected([(it.box[0] + it.box[2]) / 2 for it, _ in drawn.get(("all", "rejected"), [])])

    def try_words_of_rejected(self, marks):
        """Each mark of a rejected boot has a word nearby, above the rows, and no two words meet."""
        above, words = self.place()[0], []
        for it in self.picture.texts:
            if it.element.text == "rejected":
                looks, x = (it.element.get("font-weight"), it.element.get("fill")), number(it.element, "x")
                is_above = is_near(number(it.element, "y"), above - 1.5)
                want(looks == ("bold", DEAD) and is_above, f"'rejected' is {looks}")
                is_left = it.element.get("text-anchor") == "end"
                words.append((x - 50, x, x + 2) if is_left else (x, x + 50, x - 2))
        words.sort()
        want(all(one[1] <= other[0] for one, other in zip(words, words[1:])), "words above rows meet")
        want(all(any(is_near(at, x) for x in marks) for _, _, at in words), "'rejected' is beside no such mark")
        want(all(any(abs(at - x) <= 110 for _, _, at in words) for x in marks), "a mark of a rejected boot has no word")
