#!/usr/bin/env python3
"""Makes the image of a Linux guest: a loader with the SHA-256 digests of the kernel (bzImage, x86-64) and of the
initramfs, the command line, the map of memory, and ACPI tables that name the processors. Prints the image's digest, its
name, and the kernel's version.

usage: linux.py LOADER KERNEL INITRAMFS OUT MEBIBYTES VCPUS COMMAND-LINE
"""
import hashlib
import pathlib
import struct
import sys

PAGE, MEBIBYTE = 4096, 1048576
# Where the image has what follows the loader; its last page is that of the tables.
PARAMETERS, PLAN, TEXT, TABLES = 0x8000, 0x9000, 0x9400, 0xA000
LOW = 0x80000  # up to here the memory below a MiB is usable
HEADER, VERSION, LONG_MODE_ENTRY = 0x1F1, 0x20E, 0x200
USABLE, ACPI = 1, 3
LOCAL_CONTROLLERS, CONTROLLER = 0xFEE00000, 0xFEC00000
EVENTS, CONTROL = 0x600, 0x604  # ports of the ACPI hardware, which has nothing to report
DISK, DISK_SIZE, DISK_LINE = 0x40000000, 0x1000, 5


def table(name, revision, body):
    """A table of ACPI, whose bytes add up to 0."""
    head = name + struct.pack("<IBB6s8sI4sI", 36 + len(body), revision, 0, b"KCORE", b"MONITOR", 1, b"KCOR", 1)
    data = bytearray(head + body)
    data[9] = -sum(data) & 0xFF
    return bytes(data)


def package(operation, body):
    """An operation of AML with its length, which counts its own two bytes."""
    length = len(body) + 2
    return operation + bytes([0x40 | length & 0xF, length >> 4]) + body


def disk():
    """The disk, by virtio's MMIO transport: a device in scope _SB with a name, a number, registers and an interrupt."""
    resources = struct.pack("<BHBII", 0x86, 9, 1, DISK, DISK_SIZE) + struct.pack("<BHBBI", 0x89, 6, 1, 1, DISK_LINE)
    resources += b"\x79\0"
    body = b"DISK" + b"\x08_HID\x0dLNRO0005\0" + b"\x08_UID\0"
    body += b"\x08_CRS" + package(b"\x11", b"\x0a" + bytes([len(resources)]) + resources)
    return table(b"DSDT", 2, package(b"\x10", b"\\_SB_" + package(b"\x5b\x82", body)))


def hardware(description):
    """The fixed table (FADT): where the description is, and that there is no keyboard, display or clock."""
    body = bytearray(208)
    struct.pack_into("<I", body, 40 - 36, description)
    struct.pack_into("<H", body, 46 - 36, 9)
    struct.pack_into("<IIII", body, 56 - 36, EVENTS, 0, CONTROL, 0)
    struct.pack_into("<BB", body, 88 - 36, 4, 2)
    struct.pack_into("<HH", body, 96 - 36, 0xFFFF, 0xFFFF)
    struct.pack_into("<H", body, 109 - 36, 1 << 2 | 1 << 5)
    struct.pack_into("<I", body, 112 - 36, 1 << 0 | 1 << 4 | 1 << 5)
    struct.pack_into("<Q", body, 140 - 36, description)
    return table(b"FACP", 3, body)


def processors(vcpus):
    """The interrupt controllers (MADT): one of each processor, and one that they share."""
    body = struct.pack("<II", LOCAL_CONTROLLERS, 1)
    body += b"".join(struct.pack("<BBBBI", 0, 8, vcpu, vcpu, 1) for vcpu in range(vcpus))
    return table(b"APIC", 3, body + struct.pack("<BBBBII", 1, 12, 0, 0, CONTROLLER, 0))


def tables(at, vcpus):
    """A page with all tables, from the first one (RSDP) on."""
    page, place = bytearray(PAGE), {}

    def put(name, data, end):
        place[name] = at + end
        page[end : end + len(data)] = data
        return end + len(data) + -len(data) % 16

    end = put("description", disk(), 64)
    end = put("hardware", hardware(place["description"]), end)
    end = put("processors", processors(vcpus), end)
    put("all", table(b"XSDT", 1, struct.pack("<QQ", place["hardware"], place["processors"])), end)
    first = bytearray(struct.pack("<8sB6sBIIQB3x", b"RSD PTR ", 0, b"KCORE", 2, 0, 36, place["all"], 0))
    first[8] = -sum(first[:20]) & 0xFF
    first[32] = -sum(first) & 0xFF
    page[: len(first)] = first
    return page


def parameters(kernel, initramfs_at, length, memory):
    """The page that Linux calls boot_params (its Documentation/arch/x86/boot.rst and zero-page.rst)."""
    page = bytearray(PAGE)
    end = 0x202 + kernel[0x201]
    page[HEADER:end] = kernel[HEADER:end]
    page[0x210] = 0xFF  # a boot loader without a number
    struct.pack_into("<Q", page, 0x70, TABLES)
    struct.pack_into("<II", page, 0x218, initramfs_at, length)
    struct.pack_into("<I", page, 0x228, TEXT)
    ranges = [(0, TABLES, USABLE), (TABLES, TABLES + PAGE, ACPI), (TABLES + PAGE, LOW, USABLE),
              (MEBIBYTE, memory, USABLE)]
    page[0x1E8] = len(ranges)
    for number, (begin, end, kind) in enumerate(ranges):
        struct.pack_into("<QQI", page, 0x2D0 + 20 * number, begin, end - begin, kind)
    return page


def version(kernel):
    (at,) = struct.unpack_from("<H", kernel, VERSION)
    return kernel[0x200 + at :].split(b"\0")[0].decode() if at else "without a version"


def main(loader, kernel, initramfs, out, mebibytes, vcpus, words):
    image, kernel, initramfs = (pathlib.Path(path).read_bytes() for path in (loader, kernel, initramfs))
    memory, text = int(mebibytes) * MEBIBYTE, words.encode() + b"\0"
    if kernel[0x202:0x206] != b"HdrS" or not kernel[0x236] & 1:
        sys.exit("linux.py: this is not a kernel that begins with 64 bits")
    if len(image) > PARAMETERS or len(text) > TABLES - TEXT:
        sys.exit("linux.py: the loader or the command line is too long")
    # The kernel's 16-bit part ends at a MiB, or in the page after it. It is measured, and the loader zeroes it.
    real_mode = (kernel[HEADER] + 1) * 512
    kernel_at = MEBIBYTE - real_mode // PAGE * PAGE
    initramfs_at = (memory - len(initramfs)) // PAGE * PAGE
    plan = struct.pack("<QQ", kernel_at + real_mode + LONG_MODE_ENTRY, int(vcpus))
    for at, data in (kernel_at, kernel), (initramfs_at, initramfs):
        plan += struct.pack("<QQ", at, len(data)) + hashlib.sha256(data).digest()
    image = image.ljust(PARAMETERS, b"\0") + parameters(kernel, initramfs_at, len(initramfs), memory)
    image += plan.ljust(TEXT - PLAN, b"\0") + text.ljust(TABLES - TEXT, b"\0") + tables(TABLES, int(vcpus))
    pathlib.Path(out).write_bytes(image)
    print(f"{hashlib.sha256(image).hexdigest()}  {out}  Linux {version(kernel)}")


if __name__ == "__main__":
    main(*sys.argv[1:])
