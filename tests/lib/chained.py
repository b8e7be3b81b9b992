"""What custody reports of volumes that are read one after another, made from its report of the whole trace: a line for
each volume, then the lines of the whole trace, each with its volume."""
import json

from rules import chain_said, placed, rows_of_volumes


def line_of(record):
    return json.dumps(record, separators=(",", ":")) + "\n"


def volume_of(volumes, line):
    """The volume that a line is in: the last that begins on or before it. The header, line 1, is in the first."""
    return ([it for it in volumes if it["line"] <= line] or volumes[:1])[-1]


def chained(text, calls, digests=(), number=None, is_by_numbers=False):
    """The report, of custody or a summary, on volumes with these numbers of calls, from that on the whole trace; they
    have heads if the number of the first is given, and their order may have been judged by numbers alone."""
    first, *rest, end = map(json.loads, text.splitlines())
    volumes = rows_of_volumes(calls, digests, number)
    head = {key: value for key, value in first.items() if key != "trace"} | chain_said(volumes, number, is_by_numbers)
    reported = [placed(it, volumes) if "line" in it else it for it in rest]
    return "".join(map(line_of, [head, *volumes, *reported, end]))
