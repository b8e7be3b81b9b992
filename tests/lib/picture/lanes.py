"""The lanes of a picture: lives with their marks and words, and how many frames a VM has and shares, line by line."""
import functools
import re

from picture.case import Case
from picture.colours import DEAD, EDGE, INK, LEFT, LIFE, MOST_CALLS, PLOT, colour_of_vm
from picture.reading import Wrong, is_near, levels_of, number, want
from picture.told import most_in_columns

MOST_LANES_WITH_WORDS, SINGLE_LIVES = 6, 40


class Lanes(Case):
    @functools.cache
    def height_of_lane(self, vm):
        """How high a lane is from its base line to its top: as high as each life in it."""
        tops = {it.box[1] for title, shapes in self.picture.titles.items() for it in shapes
                if title.startswith(f"vm {vm}:") and it.looks["fill"] == LIFE}
        want(len(tops) == 1, f"lives in the lane of vm {vm} begin at {tops}")
        return self.bases[vm] - tops.pop()

    def try_lives(self):
        """Each VM that ever existed has a lane, with its lives and the marks of each, or with lives that are joined."""
        want(set(self.bases) == set(self.lives), f"there are lanes of {sorted(self.bases)}")
        drawn = [it for it in self.picture.titles if it.startswith("vm ") and "dead" not in it.split(":")[0]]
        wanted = set()
        for vm, lives in self.lives.items():
            joined = [it for it in drawn if re.fullmatch(rf"vm {vm}: \d+ lives, .*", it)]
            want(not joined or len(lives) > SINGLE_LIVES, f"of vm {vm} {len(lives)} lives are joined: {joined[:3]}")
            wanted |= set(joined)
            wanted |= self.try_groups(vm, lives, joined)
        deaths = {it for it in drawn if re.fullmatch(r"vm \d+: \d+ measured and dead, .*", it)}
        want(set(drawn) - deaths == wanted, f"lanes lack or have {sorted((set(drawn) - deaths) ^ wanted)[:4]}")

    def try_groups(self, vm, lives, joined):
        """Each life is drawn by itself, or is one of several that are drawn as one. Returns the wanted titles."""
        groups = {int(first): (int(count), int(last), it) for it in joined
                  for count, first, last in [re.findall(r"\d+", it)[1:]]}
        wanted, at = set(), 0
        while at < len(lives):
            life, title = lives[at], lives[at].title()
            count, last, title = groups.pop(life.registered, (1, None, title))
            end = lives[at + count - 1].cleared if at + count <= len(lives) else None
            want(last in (None, end or self.last), f"{title} ends on line {end or self.last}")
            self.try_stretch(title, life, end)
            if count == 1:
                wanted |= {title, *life.ticks()}
                self.try_ticks(life)
            else:
                wide = self.x(lives[at + count - 2].cleared) - self.x(life.registered)
                want(wide < 2.05, f"{title} has joined lives over {wide} points")
            at += count
        want(not groups and at == len(lives), f"lives of vm {vm} that are joined twice: {groups}")
        return wanted

    def try_stretch(self, title, life, end):
        shapes = self.picture.titles.get(title, [])
        want(len(shapes) == 1 and shapes[0].looks["fill"] == LIFE, f"'{title}' has {len(shapes)} stretches")
        left, _, right, _ = shapes[0].box
        is_there = self.is_at(left, life.registered) and is_near(right, self.x(end) if end else LEFT + PLOT)
        want(is_there, f"'{title}' is drawn from {left} to {right}")

    def try_ticks(self, life):
        """The marks of a life are on their lines, a point wide, as high as the lane."""
        for title in life.ticks():
            fill = EDGE if "registered" in title else INK
            shapes = self.picture.titles.get(title, [])
            want(len(shapes) == 1 and shapes[0].looks["fill"] == fill, f"'{title}' is {[it.looks for it in shapes]}")
            left, top, right, bottom = shapes[0].box
            middle, high = (left + right) / 2, self.height_of_lane(life.vm)
            want(self.is_at(middle, int(title.split(" ")[-1])) and is_near(right - left, 1), f"'{title}' is at {left}")
            is_high = is_near(bottom, self.bases[life.vm]) and is_near(bottom - top, high)
            want(is_high, f"'{title}' is {bottom - top} high")

    def deaths_of(self, vm):
        """The marks of dead VMs in a lane: of each, its first and last line, how many VMs it is of, and its shape."""
        found = []
        for title, shapes in self.picture.titles.items():
            if not title.startswith(f"vm {vm}"):
                continue
            one = re.fullmatch(rf"vm {vm} measured and dead at line (\d+)", title)
            more = re.fullmatch(rf"vm {vm}: (\d+) measured and dead, lines (\d+) to (\d+)", title)
            if one or more:
                count, first, last = map(int, more.groups() if more else (1, *one.groups() * 2))
                want(len(shapes) == 1, f"'{title}' has {len(shapes)} marks")
                found.append((first, last, count, shapes[0]))
        return sorted(found, key=lambda it: it[0])

    def try_deaths(self):
        """Each rejected boot has a mark, the most conspicuous: in its own colour, wider, higher, above all else."""
        for vm, lives in self.lives.items():
            lines = [it.dead for it in lives if it.dead and it.dead > 1]
            for first, last, count, shape in self.deaths_of(vm):
                mine, lines = lines[:count], lines[count:]
                want([first, last] == [*mine[:1], *mine[-1:]], f"{count} dead from line {first} to {last}: {mine}")
                want(self.x(last) - self.x(first) < 1.05, f"dead on lines {first} to {last} have one mark")
                left, top, right, bottom = shape.box
                high = self.height_of_lane(vm)
                is_there = self.is_at((left + right) / 2, first) and right - left >= 2
                want(is_there, f"the dead of line {first} are at {left}")
                want(is_near(bottom, self.bases[vm]) and bottom - top > high + 2, f"their mark is {bottom - top} high")
                want(shape.looks["fill"] == DEAD and shape.looks["stroke"] == "#ffffff", f"it looks {shape.looks}")
                want(not self.is_covered(shape), f"the mark of the dead of line {first} is covered")
            want(not lines, f"vm {vm} was dead on lines {lines[:4]} and has no mark")

    def is_covered(self, shape):
        """Whether anything but words and other marks of dead VMs is drawn over a shape."""
        left, top, right, bottom = shape.box
        for it in self.picture.shapes[self.places[id(shape.element)] + 1 :]:
            over = it.box[0] < right and left < it.box[2] and it.box[1] < bottom and top < it.box[3]
            if over and it.kind != "text" and it.looks["fill"] not in (DEAD, "none"):
                return True
        return False

    def words_in(self, vm):
        """The words above a lane, each with its text, the x of its mark, and where it begins and ends."""
        base = self.bases[vm] - self.height_of_lane(vm) - 1
        for it in self.picture.texts:
            if is_near(number(it.element, "y"), base) and it.element.text in ("active", "dead"):
                x, wide = number(it.element, "x"), 0.6 * number(it.element, "font-size") * len(it.element.text)
                if it.element.get("text-anchor") == "end":
                    yield it, x + 2, x - wide, x
                else:
                    yield it, x - 2, x, x + wide

    def try_words_of_marks(self):
        """The words above a lane are those of their marks, no two meet, and each mark of a dead VM has one nearby."""
        for vm, lives in self.lives.items():
            words = sorted(self.words_in(vm), key=lambda it: it[2])
            want(all(one[3] <= other[2] for one, other in zip(words, words[1:])), f"words above vm {vm} meet")
            deaths = [self.x(first) for first, *_ in self.deaths_of(vm)]
            marks = {"dead": deaths, "active": [self.x(it.active) for it in lives if it.active and it.active > 1]}
            for it, at, *_ in words:
                text, looks = it.element.text, (it.element.get("font-weight"), it.element.get("fill"))
                want(any(is_near(at, x) for x in marks[text]), f"'{text}' is beside no such mark of vm {vm}, at {at}")
                want((looks == ("bold", DEAD)) == (text == "dead"), f"'{text}' is {looks}")
            named = [at for it, at, *_ in words if it.element.text == "dead"]
            for x in deaths:
                want(any(abs(x - at) <= 60 for at in named), f"the dead of vm {vm} at {x} have no word")
            if len(self.lives) <= MOST_LANES_WITH_WORDS and self.calls <= MOST_CALLS and len(lives) <= SINGLE_LIVES:
                for x in marks["active"]:
                    want(any(abs(x - at) <= 70 for _, at, *_ in words), f"the mark of vm {vm} at {x} has no word")

    def try_heights(self):
        """In each column, a lane is as high as the most frames that the VM has on a line that falls into it, and its
        shared part as the most that it shares. A column is a line, or, of a long trace, a point; the lane with the most
        frames is as high as lanes are."""
        columns = min(self.last, PLOT)
        top = max((step.frames for vm in self.lives for step in self.told.steps[vm]), default=0)
        for vm in self.bases:
            full = self.height_of_lane(vm)
            for which, paths in zip(("frames", "shared"), self.paths_of(vm)):
                want(len(paths) <= 1, f"vm {vm} has {len(paths)} outlines of {which}")
                is_its = which == "shared" or all(it.looks["fill"] == colour_of_vm(vm) for it in paths)
                want(is_its, f"vm {vm} has the colour of another")
                most = most_in_columns(self.told.numbers(vm, which), columns)
                drawn = self.columns_of(paths, columns)
                for column, count in enumerate(most):
                    high = self.bases[vm] - drawn.get(column, self.bases[vm])
                    wanted = max(2.5, full * count / top) if count else 0
                    if not abs(high - wanted) <= 0.02:
                        at = f"vm {vm} in column {column} of {columns}"
                        raise Wrong(f"{at} is {high} high for {count} of {top} {which}")

    def columns_of(self, paths, columns):
        """How low a path is in each column that it crosses."""
        drawn = {}
        for path in paths:
            for begin, y, end in levels_of(path.element.get("d")):
                first, after = ((x - LEFT) * columns / PLOT for x in (begin, end))
                is_whole = abs(first - round(first)) + abs(after - round(after)) < 0.05
                want(is_whole, f"a path has a level from {begin} to {end}")
                for column in range(round(first), round(after)):
                    want(column not in drawn, f"a path goes over column {column} twice")
                    drawn[column] = y
        return drawn

    def try_underlines(self):
        """A lane is underlined along each column that has a line on which the VM shares a frame, and along no other.
        The underline is longer than its columns at both ends, by half its width."""
        columns = min(self.last, PLOT)
        for vm, base in self.bases.items():
            below = [it for it in self.picture.shapes if it.kind == "path" and is_near(it.box[3], base + 2)]
            most = most_in_columns(self.told.numbers(vm, "shared"), columns)
            drawn = self.columns_of(below, columns)
            wanted = {column for column, count in enumerate(most) if count}
            want(set(drawn) == wanted, f"vm {vm} is underlined in {sorted(set(drawn) ^ wanted)[:4]}, or is not")
            for it in below:
                is_seen = float(it.looks["stroke-width"]) >= 2 and it.looks["stroke-linecap"] == "square"
                is_ink = it.looks["stroke"] == INK and it.looks["fill"] == "none"
                want(is_seen and is_ink, f"an underline is {it.looks}")
