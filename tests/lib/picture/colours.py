"""The colours of a picture, and its size."""
MOST_FRAMES, MOST_CALLS, MOST_BARS = 64, 2000, 20_000  # that are drawn as bars
MOST_ROWS_OF_VM, MOST_MARKS = 1000, 10_000  # of a picture of one VM
HATCHED = 3  # how wide a bar is that has stripes
LEFT, PLOT = 92, 1088  # where the first line begins, and how wide all lines are
MOST_ROWS, MOST_COLUMNS = 128, 272  # of cells
# The colours of VMs in slots 0 to 7, darker in the next eight; those of the others are learned from their lanes.
HUES = ["#0072b2", "#e69f00", "#009e73", "#cc79a7", "#56b4e9", "#d55e00", "#f0e442", "#882255"]
OTHERS, SEVERAL = {"core": "#3a3a3a", "host": "#dcdcdc", "free": "#ffffff"}, "#7d6b91"
INK, EDGE, LIFE, DEAD, REFUSED = "#222222", "#999999", "#f0f0f0", "#ff0033", "#d4002a"
PALER = [90, 70, 50, 30, 10, 0]  # of each fifth that VMs have of a cell
learned = {}


def nearer(end, colour, percent):
    """A colour nearer to white, 255, or black, 0, by this much."""
    parts = [int(colour[at : at + 2], 16) for at in (1, 3, 5)]
    moved = [part + (255 - part) * percent // 100 if end else part * (100 - percent) // 100 for part in parts]
    return "#%02x%02x%02x" % tuple(moved)


def colour_of_vm(vm):
    if vm < 16:
        return nearer(0, HUES[vm % 8], 40) if vm // 8 else HUES[vm % 8]
    return learned.get(vm)


def colour_of(owner):
    return OTHERS.get(owner) or colour_of_vm(owner)


def rgb(colour):
    return [int(colour[at : at + 2], 16) for at in (1, 3, 5)]


def linear(part):
    return part / 255 / 12.92 if part <= 10 else ((part / 255 + 0.055) / 1.055) ** 2.4


def luminance(colour):
    return sum(weight * linear(part) for weight, part in zip((0.2126, 0.7152, 0.0722), rgb(colour)))


def contrast(one, other):
    """The contrast of two colours, 1 to 21, as the Web Content Accessibility Guidelines define it."""
    low, high = sorted(luminance(it) for it in (one, other))
    return (high + 0.05) / (low + 0.05)


def lab(colour):
    """A colour's place in CIELAB, under daylight (D65)."""
    red, green, blue = map(linear, rgb(colour))
    x = (0.4124 * red + 0.3576 * green + 0.1805 * blue) / 0.9505
    y = 0.2126 * red + 0.7152 * green + 0.0722 * blue
    z = (0.0193 * red + 0.1192 * green + 0.9505 * blue) / 1.089
    x, y, z = (it ** (1 / 3) if it > 0.008856 else 7.787 * it + 16 / 116 for it in (x, y, z))
    return 116 * y - 16, 500 * (x - y), 200 * (y - z)


def distance(one, other):
    """How far apart two colours are in CIELAB; less than about 2.3 is not seen."""
    return sum((a - b) ** 2 for a, b in zip(lab(one), lab(other))) ** 0.5
