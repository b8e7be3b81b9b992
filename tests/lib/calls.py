"""All calls, once: their names, the words of each in order, and who makes them; and traces of them."""
import hashlib

# The words of a call: v a VM's slot, c a virtual processor, f a frame, g a guest frame, i an image, n a count of guest
# frames; offset and length of bytes in a page, data the bytes in digits, and size the length of an image.
FORMS = (
    "take",
    "give {f}",
    "hfault {f}",
    "hread {f} {offset} {length}",
    "hwrite {f} {offset} {data}",
    "regvm {v}",
    "regvcpu {v} {c}",
    "setboot {v} {g} {size}",
    "remap {v} {i} {f}",
    "verify {v}",
    "map {v} {c} {f}",
    "gread {v} {c} {g} {offset} {length}",
    "gwrite {v} {c} {g} {offset} {data}",
    "grant {v} {c} {g}",
    "revoke {v} {c} {g}",
    "drop {v} {c} {g}",
    "clear {v}",
)
# These come with the second version of a trace.
RANGE_FORMS = "grantr {v} {c} {g} {n}", "revoker {v} {c} {g} {n}"

WORDS = {form.split(" ")[0]: tuple(word.strip("{}") for word in form.split(" ")[1:]) for form in FORMS + RANGE_FORMS}
NAMES = tuple(WORDS)
RANGES = tuple(form.split(" ")[0] for form in RANGE_FORMS)
# A virtual processor makes these, the host all others.
GUESTS = "gread", "gwrite", "grant", "revoke", "drop", *RANGES
# The last word of these is bytes in digits.
WITH_DATA = tuple(name for name, words in WORDS.items() if "data" in words)


def lines(without=(), **words):
    """A line of each call of the first version, except those named in `without`."""
    return [form.format(**words) for form in FORMS if form.split(" ")[0] not in without]


def range_lines(*counts, **words):
    """A line of each call on a range; each has as many guest frames as its count says."""
    return [form.format(n=n, **words) for form, n in zip(RANGE_FORMS, counts)]


def place_of(name, letter):
    """The place in a call's line, its name at 0, of the word with this letter; None if there is none."""
    return WORDS[name].index(letter) + 1 if letter in WORDS[name] else None


def actor_of(line):
    """The slot and the virtual processor that make a call, as they are written; nothing if the host makes it."""
    name, *words = line.split(" ")
    return tuple(words[:2]) if name in GUESTS else ()


def blanked(line):
    """The call with each digit of its bytes replaced by a zero."""
    rest, _, data = line.rpartition(" ")
    return f"{rest} {'0' * len(data)}"


def redacted(line):
    """The call with zeros in place of the bytes that a virtual processor writes."""
    return blanked(line) if line.startswith("gwrite ") else line


def witnessed(made):
    """The digest that a witness publishes of these calls of a volume."""
    return hashlib.sha256("".join(f"{line}\n" for line in ["kcore-trace 2", *map(redacted, made)]).encode()).hexdigest()


def trace_of(made, has_ranges=None):
    """The text of a trace of these calls, by default of the lowest version that has them all."""
    if has_ranges is None:
        has_ranges = any(line.split(" ")[0] in RANGES for line in made)
    return "\n".join([f"kcore-trace {2 if has_ranges else 1}", *made]) + "\n"
