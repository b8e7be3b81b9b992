"""Heads of traces for tests/fuzz, in another language: which machine a trace is of and after which volume it comes, and
what is said of a trace that may not come where it is."""
import hashlib

import calls
from rules import LIMITS

NUMBERS = 2 ** 32
# What is known of the trace that goes on from a start or a volume: nothing, or that it is the first.
BARE, FIRST = "bare", "first"
PARTS = "version", "frames", "core", "host", "leaves", "approved"


# The digest of a volume whose text lacks bytes that the host wrote: of the next one only the number is judged.
UNKNOWN = "unknown"


class Position:
    """Which volume of a history a trace is: its number, and the digest of the one before it, None for the first."""

    def __init__(self, number, after):
        self.number, self.after = number, after

    def line(self):
        return f"volume {self.number} {self.after or '-'}"


class Headed:
    """A trace of some calls with a head, or without one if it has no position. The head says whether the trace lacks
    bytes that the host wrote."""

    def __init__(self, config, position, lines, has_ranges=None, is_host_redacted=False):
        self.config, self.position, self.lines = config, position, lines
        self.bare = calls.trace_of(lines, has_ranges)
        self.is_host_redacted = is_host_redacted

    def head(self):
        sizes = self.config["version"], LIMITS[self.config["version"]].slots, *(self.config[part] for part in PARTS[1:5])
        approved = self.config["approved"]
        words = " ".join(map(str, [*sizes, len(approved)]))
        last = self.position.line() + (" host-redacted" if self.is_host_redacted else "")
        return ["kcore-trace 3", f"config {words}", *(f"approved {one}" for one in approved), last]

    def text(self):
        return self.bare if self.position is None else "".join(f"{line}\n" for line in [*self.head(), *self.lines])

    def first_line(self):
        """The number of the first call's line, from 1."""
        return 2 if self.position is None else len(self.head()) + 1

    def digest(self):
        """The SHA-256 digest that a witness publishes of it."""
        if self.position is None:
            return calls.witnessed(self.lines)
        lines = [*self.head(), *map(calls.redacted, self.lines)]
        return hashlib.sha256("".join(f"{line}\n" for line in lines).encode()).hexdigest()

    def next(self):
        """The position of the volume after it, or BARE if that is not known."""
        if self.position is None:
            return BARE
        return Position(self.position.number + 1, UNKNOWN if self.is_host_redacted else self.digest())

    def misplaced(self, config, expected):
        """What is said of it where the trace of this machine is to be this one, or None if it may come there."""
        if self.position is None:
            return None if expected in (BARE, FIRST) else "trace has no head, and one is expected"
        if expected == BARE:
            return "trace has a head, and none is expected"
        for part in PARTS:
            if self.config[part] != config[part]:
                return f"machine of the trace differs: {part}"
        if expected == FIRST:
            return None if self.position.number == 1 else "trace is not the first volume"
        if self.position.number != expected.number:
            return "volume of the trace differs: number"
        if expected.after not in (UNKNOWN, self.position.after):
            return "volume of the trace differs: digest"
        return None


def digits(rng):
    """A digest of nothing known."""
    return hashlib.sha256(rng.randbytes(8)).hexdigest()


def some_position(rng):
    """A position of which nothing more is known."""
    number = rng.choice([1, 2, 3, 10, rng.randrange(2, NUMBERS - 1)])
    return Position(number, None if number == 1 else digits(rng))


def chain_of(rng, config, position, pieces):
    """Traces of these calls, each with the head that comes after the one before it. Of one random chain in three, some
    lack bytes that the host wrote."""
    made, lacking = [], rng.choice([0, 0, 0.5]) if rng else 0
    for lines in pieces:
        made.append(Headed(config, position, lines, None, bool(lacking) and rng.random() < lacking))
        position = made[-1].next()
        if position.after == UNKNOWN:
            position = Position(position.number, digits(rng))
    return made


def first_misplaced(config, expected, traces):
    """The number, from 1, of the first of these traces that may not come after those before it, and what is said of it;
    None if they are a chain."""
    for number, trace in enumerate(traces, 1):
        said = trace.misplaced(config, expected)
        if said:
            return number, said
        expected = trace.next()
    return None


def other_machine(rng, config):
    """A machine that differs in one part."""
    other, part = dict(config), rng.choice(PARTS)
    if part == "version":
        other["version"] = rng.choice(list(LIMITS))
        limits = LIMITS[other["version"]]
        if config["frames"] > limits.frames or config["leaves"] > limits.leaves:
            return other_machine(rng, config)
    elif part == "approved":
        other["approved"] = config["approved"][1:] if config["approved"] and rng.random() < 0.5 else [*config["approved"], digits(rng)][-64:]
    else:
        step = rng.choice([-1, 1])
        other[part] = config[part] + step
        least = {"frames": max(1, config["core"] + config["host"]), "core": 0, "host": 0, "leaves": 1}[part]
        limits = LIMITS[config["version"]]
        most = {"frames": limits.frames, "leaves": limits.leaves}.get(part, config["frames"] - config["core"] - config["host"] + config[part])
        if not least <= other[part] <= most:
            return other_machine(rng, config)
    return other if other != config else other_machine(rng, config)


def disordered(rng, traces):
    """The traces of a chain with one left out, doubled, exchanged, without its head or with another one."""
    traces, at = list(traces), rng.randrange(len(traces))
    one, way = traces[at], rng.choice(["drop", "double", "swap", "bare", "machine", "number", "digest", "raw"])
    if way == "drop" and len(traces) > 1:
        del traces[at]
    elif way == "double":
        traces.insert(at, one)
    elif way == "swap":
        to = rng.randrange(len(traces))
        traces[at], traces[to] = traces[to], one
    elif way == "machine":
        traces[at] = Headed(other_machine(rng, one.config), one.position, one.lines, None, one.is_host_redacted)
    elif way == "number" or (way in ("digest", "raw") and one.position.number == 1):
        number = max(1, one.position.number + rng.choice([-1, 1]))
        traces[at] = Headed(one.config, Position(number, None if number == 1 else one.position.after or digits(rng)), one.lines, None, one.is_host_redacted)
    elif way in ("digest", "raw"):
        before = traces[at - 1].text().encode() if way == "raw" and at else rng.randbytes(8)
        traces[at] = Headed(one.config, Position(one.position.number, hashlib.sha256(before).hexdigest()), one.lines, None, one.is_host_redacted)
    else:
        traces[at] = Headed(one.config, None, one.lines)
    return traces


def placed(text, position):
    """The text of a state from which the volume at this position goes on."""
    first, rest = text.split("\n", 1)
    is_known = position not in (None, BARE) and position.after != UNKNOWN
    return f"kcore-state 2\n{position.line()}\n{rest}" if is_known else text
