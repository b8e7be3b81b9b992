#!/usr/bin/env python3
"""Makes what the monitor boots from a multiboot kernel (ELF, perhaps compressed by gzip): OUT, its segments as they are
in memory with their zeros, and OUT.boot, a page that is loaded at guest frame 0x10: a few instructions that load the
registers that the kernel wants and jump to it, the multiboot information, and the command line.

usage: multiboot.py KERNEL OUT COMMAND-LINE   prints the first guest frame of OUT
"""
import gzip
import pathlib
import struct
import sys

PAGE, BOOT, INFORMATION, TEXT = 4096, 0x10000, 0x100, 0x200
MEBIBYTES = 32
LOADED = 1


def segments(elf, is_wide):
    """For each segment that is loaded: its physical address and its bytes."""
    (start,) = struct.unpack_from("<Q" if is_wide else "<I", elf, 32 if is_wide else 28)
    size, count = struct.unpack_from("<HH", elf, 54 if is_wide else 42)
    for at in range(start, start + size * count, size):
        if is_wide:
            kind, _, offset, _, address, in_file, in_memory = struct.unpack_from("<IIQQQQQ", elf, at)
        else:
            kind, offset, _, address, in_file, in_memory = struct.unpack_from("<6I", elf, at)
        if kind == LOADED:
            yield address, elf[offset : offset + in_file].ljust(in_memory, b"\0")


def boot_page(entry, words):
    """mov eax, magic; mov ebx, information; mov ecx, entry; jmp ecx."""
    code = b"\xb8" + struct.pack("<I", 0x2BADB002) + b"\xbb" + struct.pack("<I", BOOT + INFORMATION)
    page = bytearray(PAGE)
    page[: len(code) + 7] = code + b"\xb9" + struct.pack("<I", entry) + b"\xff\xe1"
    # It says how much memory there is (bit 0), and the command line (bit 2).
    struct.pack_into("<III", page, INFORMATION, 1 | 4, 640, (MEBIBYTES - 1) * 1024)
    struct.pack_into("<I", page, INFORMATION + 16, BOOT + TEXT)
    page[TEXT : TEXT + len(words)] = words
    return page


def main(kernel, out, words):
    elf = pathlib.Path(kernel).read_bytes()
    elf = gzip.decompress(elf) if elf[:2] == b"\x1f\x8b" else elf
    if elf[:4] != b"\x7fELF":
        sys.exit(f"multiboot.py: {kernel} is not an ELF file")
    loaded = list(segments(elf, elf[4] == 2))
    base = min(address for address, _ in loaded)
    memory = bytearray(max(address + len(data) for address, data in loaded) - base)
    for address, data in loaded:
        memory[address - base : address - base + len(data)] = data
    pathlib.Path(out).write_bytes(memory)
    pathlib.Path(out + ".boot").write_bytes(boot_page(struct.unpack_from("<I", elf, 24)[0], words.encode()))
    print(hex(base // PAGE))


if __name__ == "__main__":
    main(*sys.argv[1:])
