"""Redacts the trace on standard input as the rules say: the header becomes that of the second version, and the bytes of
each gwrite become zeros. Writes the redacted trace to FILE, and prints what digests.c has to print: the SHA-256 of the
text so far, before the first call and after each one, and that of the header alone.

usage: digests.py FILE"""
import hashlib
import sys

header = b"kcore-trace 2\n"
redacted, digest = [header], hashlib.sha256(header)
print(digest.hexdigest())
for line in sys.stdin.buffer.read().splitlines(keepends=True)[1:]:
    words = line.split()
    if words[0] == b"gwrite":
        words[5] = b"0" * len(words[5])
        line = b" ".join(words) + b"\n"
    redacted.append(line)
    digest.update(line)
    print(digest.hexdigest())
print(hashlib.sha256(header).hexdigest())
with open(sys.argv[1], "wb") as file:
    file.writelines(redacted)
