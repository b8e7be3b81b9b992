#!/usr/bin/env python3
"""The trusted core from Python: a session of libkcore, by ctypes over a shared object, which 'make' builds.

The example below answers a trace on standard input, line by line, and prints the replies, as kcore replay does. With
--changes, what each call changed in the custody of frames comes before its reply.

usage: kcore.py [--changes] CONFIGURATION < TRACE     LIBKCORE_SO names the shared object (default: out/libkcore.so)
"""
import ctypes
import os
import pathlib
import sys

NO_SUCH_LINE = 5
OWNERS = "core", "host", "free", "vm"
NONE = 0xFFFFFFFF


def numbers(name, fields):
    """A struct of C whose fields are all numbers of 32 bits."""
    return type(name, (ctypes.Structure,), {"_fields_": [(it, ctypes.c_uint32) for it in fields.split()]})


Record = numbers("Record", "owner vm gfn share present")
Sizes = numbers("Sizes", "frames core host slots left")


def owner_of(record):
    return OWNERS[record.owner] + (str(record.vm) if record.vm != NONE else "")


class Change(ctypes.Structure):
    _fields_ = [("frame", ctypes.c_uint32), ("before", Record), ("after", Record)]


class Handle(ctypes.Structure):
    _fields_ = [("session", ctypes.c_void_p), ("is_open", ctypes.c_bool)]


class KCoreError(Exception):
    """A status of kcore.h that is not KCORE_DONE: nothing has changed."""

    def __init__(self, status):
        super().__init__(f"status {status}")
        self.status = status


class Session:
    """A core, and the volume of the calls that it answered. One thread at a time may use it; 'with' ends it. With history,
    the traces of its volumes have heads, which say what they are of and after what they come."""

    def __init__(self, configuration, library=None, history=False):
        place = library or os.environ.get("LIBKCORE_SO") or pathlib.Path(__file__).resolve().parent / "out" / "libkcore.so"
        self.c = ctypes.CDLL(str(place))
        self.c.kcore_longest_reply.restype = self.c.kcore_longest_line.restype = ctypes.c_size_t
        self.handle = Handle()
        self.room = max(self.c.kcore_longest_reply(), self.c.kcore_longest_line())
        self.ask("boot_history" if history else "boot", configuration, ctypes.c_size_t(len(configuration)))

    def __enter__(self):
        return self

    def __exit__(self, *_):
        self.ask("end")

    def ask(self, name, *words):
        """Calls kcore_NAME on the session."""
        status = getattr(self.c, f"kcore_{name}")(ctypes.byref(self.handle), *words)
        if status:
            raise KCoreError(status)

    def bytes_of(self, name, *words):
        """What kcore_NAME puts into a buffer."""
        out, used = ctypes.create_string_buffer(self.room), ctypes.c_size_t()
        self.ask(name, *words, out, ctypes.c_size_t(self.room), ctypes.byref(used))
        return out.raw[: used.value]

    def call(self, line, asker=None):
        """The reply to a call as a trace spells it, without newlines. The asker is a slot and a virtual processor, or
        (NONE, 0) for the host, whose call it then has to be; with None, who asks is not checked."""
        name, who = ("call_by", [ctypes.c_uint32(it) for it in asker]) if asker else ("call", [])
        return self.bytes_of(name, *who, line, ctypes.c_size_t(len(line))).removesuffix(b"\n")

    def changes(self):
        """What the last call changed in the custody of frames."""
        made, count = (Change * self.sizes().frames)(), ctypes.c_size_t()
        self.ask("changes", made, ctypes.c_size_t(len(made)), ctypes.byref(count))
        return made[: count.value]

    def record_of(self, frame):
        """The custody of a frame."""
        record = Record()
        self.ask("record_of", ctypes.c_uint32(frame), ctypes.byref(record))
        return record

    def sizes(self):
        sizes = Sizes()
        self.ask("sizes", ctypes.byref(sizes))
        return sizes

    def trace(self, redacted=False):
        """The lines of the volume's trace so far, with their newlines. A head comes with the first."""
        lines, name = [], "redacted_line" if redacted else "line"
        try:
            while True:
                lines.append(self.bytes_of(name, ctypes.c_size_t(len(lines))))
        except KCoreError as fault:
            if fault.status != NO_SUCH_LINE:
                raise
        return lines

    def digest(self):
        """The SHA-256 of the volume's redacted trace so far."""
        return self.bytes_of("digest")

    def turn(self):
        """Begins the next volume."""
        self.ask("turn")


def calls_of(trace):
    """The calls of a trace: its lines after the header or, if it has one, after the head."""
    lines = trace.split(b"\n")[1:-1]
    ends = [at for at, line in enumerate(lines) if line.startswith(b"volume ")]
    return lines[ends[0] + 1 :] if ends else lines


def main(words):
    shows = words[:1] == ["--changes"]
    if len(words) != 1 + shows:
        sys.exit(__doc__.rpartition("\n\n")[2].strip())
    with Session(pathlib.Path(words[-1]).read_bytes()) as session:
        for line in calls_of(sys.stdin.buffer.read()):
            reply = session.call(line)
            for it in session.changes() if shows else []:
                print(f"frame {it.frame}: {owner_of(it.before)} -> {owner_of(it.after)}")
            print(reply.decode())


if __name__ == "__main__":
    main(sys.argv[1:])
