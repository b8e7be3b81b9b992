"""The cells of a picture, their titles, the edges between them, and the numbers of their rows."""
import collections
import functools
import itertools

from picture.case import Case
from picture.colours import DEAD, EDGE, INK, MOST_COLUMNS, MOST_ROWS, OTHERS, PALER, SEVERAL, colour_of_vm, nearer
from picture.reading import Wrong, is_near, levels_of, number, uprights_of, want
from picture.told import lines_in


def painted(picture, plot, rows, columns):
    """For each cell, the colour in its upper half and that at its foot, as shapes are drawn over each other."""
    left, top, right, bottom = plot
    width, height = (right - left) / columns, (bottom - top) / rows
    shown = [[["#ffffff", "#ffffff"] for _ in range(columns)] for _ in range(rows)]
    for it in picture.shapes:
        colour, boxes = it.looks.get("fill"), [it.box]
        if it.kind == "path":
            half, lines = float(it.looks.get("stroke-width", 1)) / 2, levels_of(it.element.get("d"))
            colour = it.looks["stroke"] if colour == "none" else None
            boxes = [(begin, y - half, end, y + half) for begin, y, end in lines]
        # A mark of a rejected boot goes through all rows.
        if it.kind == "text" or not colour or colour in ("none", DEAD):
            continue
        for x, y, after, below in boxes:
            if y >= bottom or below <= top:
                continue
            mine = range(max(0, round((x - left) / width)), min(columns, round((after - left) / width)))
            for row in range(max(0, int((y - top) / height)), min(rows, int((below - top) / height) + 1)):
                for part, place in enumerate((0.35, 1 - 0.1)):
                    if y <= top + height * (row + place) <= below:
                        for column in mine:
                            shown[row][column][part] = colour
    return shown


class Cells(Case):
    @functools.cached_property
    def grid(self):
        """The box of all cells, and how many rows and columns they have."""
        edges = [it for it in self.picture.shapes if it.kind == "rect" and it.looks.get("fill") == "none"]
        plots = [it.box for it in edges if it.looks["stroke"] == EDGE]
        want(len(plots) == 1, f"there are {len(plots)} frames of cells")
        return plots[0], min(self.config["frames"], MOST_ROWS), min(self.last, MOST_COLUMNS)

    @functools.cached_property
    def weights(self):
        """How many parts of each cell each owner has (a frame's line has as many parts as there are columns); in which
        cells a frame is shared; and how many parts the cells of each row have."""
        _, rows, columns = self.grid
        parts = [[collections.Counter() for _ in range(columns)] for _ in range(rows)]
        shared, size = [[False] * columns for _ in range(rows)], [0] * rows
        for frame in range(self.config["frames"]):
            size[frame * rows // self.config["frames"]] += self.last
        for bar in self.bars:
            row = bar.frame * rows // self.config["frames"]
            begin, end = (bar.first - 1) * columns, bar.last * columns
            for column in range(begin // self.last, -(-end // self.last)):
                inside = min(end, (column + 1) * self.last) - max(begin, column * self.last)
                parts[row][column][bar.owner] += inside
                shared[row][column] |= bar.share > 0
        return parts, shared, size

    @functools.cache
    def whose(self, row, column):
        """The VM that has more than half of what VMs have of a cell, 'several', or 'none'."""
        vms = {owner: part for owner, part in self.weights[0][row][column].items() if isinstance(owner, int)}
        most = max(vms, key=vms.get, default=None)
        if most is None:
            return "none"
        return most if 2 * vms[most] > sum(vms.values()) else "several"

    def fills_of(self, row, column):
        """The colours that a cell may have."""
        parts, _, size = self.weights
        mine, whose = parts[row][column], self.whose(row, column)
        if whose == "none":
            return {OTHERS[owner] for owner, part in mine.items() if part == max(mine.values())} or {OTHERS["free"]}
        vms = sum(part for owner, part in mine.items() if isinstance(owner, int))
        return {nearer(255, SEVERAL if whose == "several" else colour_of_vm(whose), PALER[5 * vms // size[row]])}

    def try_cells(self):
        """Each cell has its colour, and is underlined if a VM shared any of it."""
        plot, rows, columns = self.grid
        shown = painted(self.picture, plot, rows, columns)
        parts, shared, size = self.weights
        for row, column in itertools.product(range(rows), range(columns)):
            (fill, mark), is_shared = shown[row][column], shared[row][column]
            if fill not in self.fills_of(row, column) or (mark == INK) != is_shared:
                at = f"the cell in row {row}, column {column}, where {dict(parts[row][column])} of {size[row]}"
                raise Wrong(f"{at} is {fill} and {'' if mark == INK else 'not '}underlined")

    def try_titles_of_cells(self):
        """Each cell has one title, which names its frames, the lines that fall into it and its neighbours of the same
        kind, and says whose they are."""
        plot, rows, columns = self.grid
        left, top, right, bottom = plot
        titled = collections.Counter()
        for it in self.picture.shapes:
            if it.kind == "path" and it.title and top <= it.box[1] <= bottom:
                ((begin, y, end),) = levels_of(it.element.get("d"))
                row = int((y - top) * rows / (bottom - top))
                first, after = (round((x - left) * columns / (right - left)) for x in (begin, end))
                mine = range(first, after)
                titled.update((row, column) for column in mine)
                want(it.title == self.title_of_cells(row, mine), f"cells {row}, {mine} say '{it.title}'")
                want(len({self.whose(row, column) for column in mine}) == 1, f"'{it.title}' is of several")
        wanted = collections.Counter(itertools.product(range(rows), range(columns)))
        wrong = [*(wanted - titled), *(titled - wanted)]
        want(not wrong, f"cells that lack a title, or have two: {wrong[:4]}")

    def title_of_cells(self, row, columns):
        (_, rows, all_columns), whose, all_frames = self.grid, self.whose(row, columns[0]), self.config["frames"]
        near = range(row * all_frames // rows, min(all_frames, (row + 1) * all_frames // rows + 2))
        frames = [it for it in near if it * rows // all_frames == row]
        mine = f"frame {frames[0]}" if len(frames) == 1 else f"frames {frames[0]} to {frames[-1]}"
        first, last = lines_in(self.last, all_columns, columns[0])[0], lines_in(self.last, all_columns, columns[-1])[1]
        if whose == "none":
            said = "no VM had any of it" if self.vm is None else "the VM had none of it"
        elif whose == "several":
            said = "several VMs had some of it, none more than all others together"
        else:
            said = f"vm {whose} had {'more of it than all other VMs together' if self.vm is None else 'some of it'}"
        return f"{mine}, lines {first} to {last}: {said}"

    def try_edges(self):
        """There is an edge where the cells of another VM, of several or of none begin, and nowhere else."""
        (left, top, right, bottom), rows, columns = self.grid
        drawn = set()
        for it in self.picture.shapes:
            if it.kind == "path" and not it.title and top <= it.box[1] <= bottom and it.looks.get("stroke") == INK:
                for x, upper, lower in uprights_of(it.element.get("d")):
                    row = (upper - top) * rows / (bottom - top)
                    is_rows = is_near(row, round(row)) and is_near(lower - upper, (bottom - top) / rows)
                    want(is_rows, f"an edge goes from {upper} to {lower}")
                    drawn.add((round(row), round((x - 0.5 - left) * columns / (right - left))))
        wanted = set()
        for row in range(rows):
            kinds = ["none", *(self.whose(row, column) for column in range(columns))]
            wanted |= {(row, column) for column in range(columns) if kinds[column] != kinds[column + 1]}
        want(drawn == wanted, f"edges that are lacking or too many: {sorted(drawn ^ wanted)[:4]}")

    def try_rows(self):
        """The numbers of some frames, from the first rows to the last, are beside their rows."""
        (left, top, _, bottom), rows, _ = self.grid
        frames, numbered = self.config["frames"], []
        for it in self.picture.texts:
            if it.element.text.isdigit() and number(it.element, "x") < left - 1 and it.box[3] < bottom + 9:
                row = (number(it.element, "y") - 8 - top) * rows / (bottom - top)
                numbered.append(int(it.element.text))
                want(is_near(row, numbered[-1] * rows // frames), f"the number of frame {numbered[-1]} is in row {row}")
        want(len(numbered) >= min(3, frames), f"rows are numbered {numbered}")
        want(max(numbered) >= 0.7 * (frames - 1) or frames < 4, f"of {frames} rows these are numbered: {numbered}")
