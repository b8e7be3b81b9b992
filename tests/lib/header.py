"""Compares include/kcore.h with what crates/kcore_c exports: each function's parameters and result, and each struct,
field by field. Prints what differs; the status is 0 if nothing does.

usage: header.py HEADER"""
import pathlib
import re
import sys

CRATE = pathlib.Path(__file__).resolve().parents[2] / "crates" / "kcore_c" / "src"
# What C passes for a parameter of each type. The allocator is the library's own; a slice is a pointer and a length.
PARAMETERS = {
    "Global": [],
    "&mut Handle": ["kcore *{}"],
    "&[u8]": ["const uint8_t *{}", "size_t {}_length"],
    "&mut [u8]": ["uint8_t *{}", "size_t {}_length"],
    "&mut [Change]": ["kcore_frame_change *{}", "size_t {}_length"],
    "&Request": ["const kcore_request *{}"],
    "&mut Answer": ["kcore_answer *{}"],
    "&mut Change": ["kcore_frame_change *{}"],
    "&mut Record": ["kcore_record *{}"],
    "&mut Sizes": ["kcore_size *{}"],
    "usize": ["size_t {}"],
    "&mut usize": ["size_t *{}"],
    "u32": ["uint32_t {}"],
    "&mut u32": ["uint32_t *{}"],
}
RESULTS = {"usize": "size_t", "u32": "uint32_t"}
# A session's pointer, which only the library follows, and a byte that is 0 or 1.
FIELDS = {"held: Held": "void *session", "is_open: bool": "bool is_open"}
TYPES = {"u32": "uint32_t", "Record": "kcore_record"}
# What the library calls the elements of an array of numbers.
NUMBERS = ["first", "second", "third", "fourth", "fifth"]
# The structs: what C calls each, the library's name for it, and its file.
STRUCTS = {
    "kcore": ("Handle", "handle.rt"),
    "kcore_record": ("Record", "record.rt"),
    "kcore_frame_change": ("Change", "record.rt"),
    "kcore_size": ("Sizes", "record.rt"),
    "kcore_request": ("Request", "request.rt"),
    "kcore_answer": ("Answer", "request.rt"),
}


def spaced(text):
    return " ".join(text.split())


def exported():
    """The functions of the library as C would declare them."""
    text = (CRATE / "lib.rt").read_text()
    for name, given, result in re.findall(r'pub extern "C" fn (\w+)\(([^)]*)\) -> (\w+)', text):
        words = []
        for one in filter(None, map(str.strip, given.split(","))):
            parameter, kind = one.split(": ")
            words += [it.format(parameter) for it in PARAMETERS[kind]]
        yield f"{RESULTS[result]} {name}({', '.join(words) or 'void'})"


def declared(header):
    return [spaced(it) for it in re.findall(r"^(\w+ kcore_\w+\([^)]*\));", header, re.MULTILINE)]


def laid_out(name, file):
    """The fields of a struct of the library, which has C's layout, with their types in C."""
    text = (CRATE / file).read_text()
    body = re.search(r"#\[repr\(C\)\]\n(?:#\[.*\]\n)*pub struct " + name + r" \{(.*?)\n\}", text, re.DOTALL)[1]
    for it in re.findall(r"^ *(?:pub )?(\w+: \w+),$", body, re.MULTILINE):
        field, kind = it.split(": ")
        yield FIELDS.get(it) or f"{TYPES[kind]} {field}"


def fields_of(name, header):
    """The fields of a struct of the header, one by one: the elements of an array by the library's names for them."""
    for one in re.search(r"typedef struct \{([^}]*)\} " + name + ";", header)[1].split(";"):
        kind, _, names = spaced(one).partition(" ")
        for field in filter(None, names.split(", ")):
            array = re.fullmatch(r"number\[(\d)\]", field)
            yield from [f"{kind} {it}" for it in (NUMBERS[: int(array[1])] if array else [field])]


def main():
    text = pathlib.Path(sys.argv[1]).read_text()
    header = re.sub(r"/\*.*?\*/", " ", text, flags=re.DOTALL)
    differs = []
    for name, (ours, file) in STRUCTS.items():
        wanted, given = list(laid_out(ours, file)), list(fields_of(name, header))
        if wanted != given:
            differs.append(f"{name} has {given} and not {wanted}")
    wanted, given = sorted(exported()), sorted(declared(header))
    differs += [f"lacking: {it}" for it in wanted if it not in given]
    differs += [f"more: {it}" for it in given if it not in wanted]
    print(*differs, sep="\n", end="\n" if differs else "")
    sys.exit(1 if differs or not wanted else 0)


if __name__ == "__main__":
    main()
