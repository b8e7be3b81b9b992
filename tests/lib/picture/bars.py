"""The bars of a picture: all that the rules say and no others, their looks and their names."""
import collections
import re

from picture.case import Case
from picture.colours import HATCHED, INK, LEFT, colour_of, contrast
from picture.reading import is_near, number, want
from picture.told import title_of


def is_striped(shape, bar):
    """Whether a shape is stripes all over a bar."""
    return shape.looks["fill"].startswith("url(") and shape.box == bar.box


def is_dotted(shape, bar):
    """Whether a shape is dots from the top of a bar to its bottom."""
    middle, (left, top, right, bottom) = (bar.box[0] + bar.box[2]) / 2, shape.box
    is_down = is_near(left, middle) and is_near(right, middle) and is_near(top, bar.box[1]) and is_near(bottom, bar.box[3])
    return is_down and shape.element.get("stroke-dasharray") == "2" and shape.looks["stroke"] == INK


class Bars(Case):
    def rows_of_bars(self):
        """All bars are there and no others, each where it should be. Returns where each frame's row begins and ends."""
        drawn = [it for it in self.picture.titles if it.startswith("frame")]
        wanted = {title_of(it): it for it in self.bars}
        lacking, more = wanted.keys() - set(drawn), set(drawn) - wanted.keys()
        said = f"bars that are missing: {sorted(lacking)[:3]}, and that should not be there: {sorted(more)[:3]}"
        want(not lacking and not more, said)
        rows = {}
        for title, bar in wanted.items():
            first, *parts = self.picture.titles[title]
            want(first.kind == "rect", f"'{title}' is not a rectangle")
            left, top, right, bottom = first.box
            is_there = self.is_at(left, bar.first) and self.is_at(right, bar.last + 1)
            want(is_there, f"'{title}' is drawn from {left} to {right}")
            want(rows.setdefault(bar.frame, (top, bottom)) == (top, bottom), f"'{title}' is in another row")
            for box in (it.box for it in parts):
                is_within = left - 0.05 <= box[0] <= box[2] <= right + 0.05 and top <= box[1] <= box[3] <= bottom + 0.05
                want(is_within, f"'{title}' has a part elsewhere")
        return rows

    def try_bars(self):
        """The bars of all frames are in rows, in the order of the frames' numbers."""
        rows = self.rows_of_bars()
        order = [rows[it] for it in sorted(rows)]
        want(all(one[1] <= other[0] for one, other in zip(order, order[1:])), "the rows of frames meet, or do not rise")
        self.try_numbers(rows)

    def try_numbers(self, rows):
        """The number of each frame is beside its row."""
        ends = [it.element for it in self.picture.texts if it.element.get("text-anchor") == "end" and it.box[2] < LEFT]
        ends = [it for it in ends if re.fullmatch(r"(frame )?\d+", it.text)]
        numbers = [(int(it.text.split(" ")[-1]), number(it, "y")) for it in ends]
        want(sorted(it for it, _ in numbers) == list(range(self.config["frames"])), f"frames are numbered {numbers}")
        for frame, y in numbers:
            top, bottom = rows.get(frame) or (y, y)
            want(top <= y <= bottom, f"the number of frame {frame} is at {y}, and its row from {top} to {bottom}")
        by_height = sorted(numbers, key=lambda it: it[1])
        want(by_height == sorted(numbers), "the numbers of frames do not rise")

    def try_looks(self):
        """Colours, hatching and feet of bars."""
        colours = {}
        for bar in self.bars:
            title = title_of(bar)
            first, *others = self.picture.titles[title]
            fill = first.looks["fill"]
            want(colours.setdefault(bar.owner, fill) == fill, f"'{title}' has a colour other than its owner's")
            # (the edge of stripes without room for them would look like a mark)
            is_narrow = round(first.box[2] - first.box[0], 2) < HATCHED
            looks = [is_dotted(it, first) if is_narrow else is_striped(it, first) for it in others]
            want(any(looks) == (bar.share > 0), f"'{title}' is {'not' if bar.share else 'wrongly'} hatched")
            edges = [it for it in others if it.looks.get("stroke") and it.kind == "rect"]
            want(not (is_narrow and edges), f"'{title}' has an edge, and is narrow")
            wide = (first.box[0], first.box[2])
            has_foot = any(it.looks["fill"] == INK and (it.box[0], it.box[2]) == wide for it in others)
            want(has_foot == bar.present, f"'{title}' has {'no' if bar.present else 'a'} foot")
        want(len(set(colours.values())) == len(colours), f"two owners have one colour: {colours}")
        for owner, fill in colours.items():
            want(colour_of(owner) in (None, fill), f"{owner} has the colour {fill}")

    def try_names(self):
        """Words within a bar name its owner, and can be read on what is below them."""
        rows = collections.defaultdict(list)
        for it in self.bars:
            left, top, right, bottom = self.picture.titles[title_of(it)][0].box
            rows[top, bottom].append((left, right, it))
        for it in [it for it in self.picture.texts if it.element.get("text-anchor") == "start"]:
            x, y = number(it.element, "x"), number(it.element, "y")
            boxes = [box for (top, bottom), row in rows.items() if top < y < bottom for box in row]
            for bar in [bar for left, right, bar in boxes if left < x < right]:
                names = {bar.owner} if isinstance(bar.owner, str) else set()
                names |= {f"vm {bar.owner} @{bar.gfn}{' shared' if bar.share else ''}"}
                names |= {"shared"} if bar.share else set()
                want(it.element.text in names, f"'{title_of(bar)}' is named {it.element.text}")
                under, fill = self.fill_below(it, x + 1, y - 3), it.element.get("fill")
                is_read = not under.startswith("url(") and contrast(fill, under) >= 3
                want(is_read, f"'{it.element.text}' is written in {fill} on {under}")

    def fill_below(self, shape, x, y):
        """The colour at a point before a shape is drawn there."""
        for it in reversed(self.picture.shapes[: self.places[id(shape.element)]]):
            left, top, right, bottom = it.box
            if it.kind == "rect" and left < x < right and top < y < bottom:
                return it.looks["fill"]
        return "none"
