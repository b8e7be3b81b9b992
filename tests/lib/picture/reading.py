"""Reads a picture of custody: its shapes as they are drawn, each with its box, its looks and its title."""
import collections
import re
import xml.etree.ElementTree

ELEMENTS = {"svg", "title", "defs", "pattern", "g", "rect", "path", "text"}
NUMBERS_OF = {"M": 2, "L": 2, "H": 1, "V": 1, "Z": 0}
LOOKS = ("fill", "stroke", "stroke-width", "stroke-linecap")
STEPS, NUMBERS = re.compile("([MLHVZmlhvz])([^MLHVZmlhvz]*)"), re.compile("-?[0-9.]+")
LINKS = re.compile(r"url\((.*?)\)")
Shape = collections.namedtuple("Shape", "kind box looks title element")


class Wrong(Exception):
    pass


def want(holds, said):
    if not holds:
        raise Wrong(said)


def is_near(one, other):
    return abs(one - other) <= 0.05


def name_of(element):
    return element.tag.removeprefix("{http://www.w3.org/2000/svg}")


def number(element, key):
    return float(element.get(key, "0"))


class Picture:
    """All that is drawn, in order; and for each title, the shapes that have it."""

    def __init__(self, text):
        want(text.isascii() and text.endswith(b"\n"), "it is not a text in ASCII")
        self.root = xml.etree.ElementTree.fromstring(text)
        self.width, self.height = number(self.root, "width"), number(self.root, "height")
        self.shapes, self.titles = [], collections.defaultdict(list)
        self.walk(self.root, {}, None)
        self.texts = [it for it in self.shapes if it.kind == "text"]

    def walk(self, element, inherited, title):
        """Goes over an element and those in it, with the attributes that it inherits from those around it."""
        looks = inherited | {key: element.get(key) for key in LOOKS if element.get(key)}
        own = next((it.text for it in element if name_of(it) == "title"), title)
        title = own if element is not self.root else None
        kind = name_of(element)
        if kind in BOXES:
            self.shapes.append(Shape(kind, BOXES[kind](element), looks, title, element))
            if title:
                self.titles[title].append(self.shapes[-1])
        for it in element:
            if name_of(it) != "defs":
                self.walk(it, looks, title)

    def has_words(self, words):
        return any(it.element.text == words for it in self.texts)

    def try_form(self):
        """It is an SVG of plain shapes within its edges, with nothing from elsewhere."""
        root = self.root
        want(root.tag == "{http://www.w3.org/2000/svg}svg" and root.get("version") == "1.1", "it is not SVG 1.1")
        box = f"0 0 {root.get('width')} {root.get('height')}"
        want(root.get("viewBox") == box, "its view box is not its size")
        names = {it.get("id") for it in root.iter()}
        for it in root.iter():
            want(name_of(it) in ELEMENTS, f"it has a {it.tag}")
            for key, value in it.items():
                want(not key.startswith("on") and "href" not in key, f"it has {key}")
                linked = LINKS.findall(value)
                want(all(name[:1] == "#" and name[1:] in names for name in linked), f"it has {value}")
        for it in self.shapes:
            left, top, right, bottom = it.box
            is_within = -0.1 <= left <= right <= self.width + 0.1 and -0.1 <= top <= bottom <= self.height + 0.1
            want(is_within, f"{it.element.attrib} {it.element.text} reaches beyond its edges")


def box_of_rect(it):
    x, y = number(it, "x"), number(it, "y")
    return x, y, x + number(it, "width"), y + number(it, "height")


def box_of_text(it):
    """About where a text is: a letter is about half as wide as its size."""
    x, y, size = (number(it, key) for key in ("x", "y", "font-size"))
    width = 0.5 * size * len(it.text)
    x -= {"start": 0, "middle": width / 2, "end": width}[it.get("text-anchor", "start")]
    return x, y - 0.8 * size, x + width, y


def steps_of(path):
    """Where each step of a path of straight lines begins and ends, and its command."""
    x = y = 0.0
    for command, words in STEPS.findall(path):
        numbers = [float(word) for word in NUMBERS.findall(words)]
        want(len(numbers) == NUMBERS_OF[command.upper()], f"a path has {command}{words}")
        begin, origin = (x, y), (x, y) if command.islower() else (0, 0)
        if command in "MmLl":
            x, y = origin[0] + numbers[0], origin[1] + numbers[1]
        elif command in "Hh":
            x = origin[0] + numbers[0]
        elif command in "Vv":
            y = origin[1] + numbers[0]
        yield command, begin, (x, y)


def box_of_path(it):
    points = [end for _, _, end in steps_of(it.get("d"))]
    xs, ys = zip(*points)
    return min(xs), min(ys), max(xs), max(ys)


BOXES = {"rect": box_of_rect, "path": box_of_path, "text": box_of_text}


def levels_of(path):
    """The level lines of a path: where each begins, how low it is, and where it ends."""
    for command, begin, end in steps_of(path):
        if command in "Hh":
            yield min(begin[0], end[0]), end[1], max(begin[0], end[0])


def uprights_of(path):
    """The upright lines of a path: how far to the right each is, and where it begins and ends."""
    for command, begin, end in steps_of(path):
        if command in "Vv":
            yield end[0], min(begin[1], end[1]), max(begin[1], end[1])
