#!/usr/bin/env python3
"""Makes the initramfs of a Linux guest: an archive (cpio, newc) that is the same byte for byte if its files are.

usage: initramfs.py OUT NAME=PATH..   each NAME is a program in it
"""
import pathlib
import stat
import sys

FOLDERS = "bin", "dev", "drivers", "proc", "sys", "tmp"
CONSOLE = 5, 1


def entry(number, name, mode, data=b"", device=(0, 0)):
    """A file: 13 numbers in hexadecimal, its name with a NUL, its bytes."""
    numbers = (number, mode, 0, 0, 1, 0, len(data), 0, 0, *device, len(name) + 1, 0)
    head = b"070701" + b"".join(b"%08X" % it for it in numbers) + name.encode() + b"\0"
    return head + bytes(-len(head) % 4) + data + bytes(-len(data) % 4)


def main(out, *programs):
    entries = [(name, stat.S_IFDIR | 0o755) for name in FOLDERS]
    entries.append(("dev/console", stat.S_IFCHR | 0o600, b"", CONSOLE))
    for program in programs:
        name, _, path = program.partition("=")
        entries.append((name, stat.S_IFREG | 0o755, pathlib.Path(path).read_bytes()))
    archive = b"".join(entry(number, *it) for number, it in enumerate(entries, 1))
    pathlib.Path(out).write_bytes(archive + entry(0, "TRAILER!!!", 0))


if __name__ == "__main__":
    main(*sys.argv[1:])
