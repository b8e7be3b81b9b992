#!/usr/bin/env python3
"""Writes to standard output the configuration of a machine (docs/TEXTS.md) that approves these boot files: each MiB of
them is an image.

usage: machine.py FRAMES HOST FILE..   HOST is how many frames the host has at boot
"""
import hashlib
import json
import pathlib
import sys

IMAGE = 1048576


def digests(path):
    data = pathlib.Path(path).read_bytes()
    return [hashlib.sha256(data[at : at + IMAGE]).hexdigest() for at in range(0, len(data), IMAGE)]


def main(frames, host, *files):
    approved = list(dict.fromkeys(digest for file in files for digest in digests(file)))
    sizes = {"version": 2, "frames": int(frames), "core": 4, "host": int(host), "leaves": 64}
    print(json.dumps({**sizes, "approved": approved}, separators=(",", ":")))


if __name__ == "__main__":
    main(*sys.argv[1:])
