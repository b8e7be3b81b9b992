"""The repository as documents speak of it: its files, with the text of some of them changed for a trial, and what the
sources of its crates define."""
import dataclasses
import functools
import os
import pathlib
import re

BUILT = {".git", "out", "work", "__pycache__"}
FN = re.compile(r'\s*(?:pub(?:\([^)]*\))? )?(?:const )?(?:unsafe )?(?:extern "C" )?fn (\w+)')
HEAD = re.compile(r"(?:pub )?(?:unsafe )?(?:impl|trait)\b(?:<.*?>)? ?(?:(\w+)(?:<.*>)? for )?&?(?:mut )?(\w+)")
TYPE = re.compile(r"\s*(?:pub(?:\([^)]*\))? )?(?:struct|enum|trait|type|union) (\w+)")
CLAUSE = re.compile(r"\s*(?:ensures\*?|requires) (\w+) \{")
VARIANT = re.compile(r"    (\w+)(?:,| \{|\()")
MEMBER = re.compile(r"\s+(?:pub(?:\([^)]*\))? (\w+): |ghost (\w+)(?:: \{| = \{))")
DEFINED = re.compile(r"(?:pub |abbrev |unfoldable |record |data )+(\w+)")
FIELD = re.compile(r"  pub (\w+) :")


@functools.cache
def files_on_disk(top):
    """The files below a folder, except those that are built."""
    found = set()
    for folder, inner, names in os.walk(top):
        inner[:] = [name for name in inner if name not in BUILT]
        found |= {str((pathlib.Path(folder) / name).relative_to(top)) for name in names}
    return frozenset(found)


@functools.cache
def text_on_disk(path):
    return path.read_text()


class Tree:
    """The files below a folder. Some may have a text other than on disk, or be gone: then their text is None."""

    def __init__(self, top, changed=None):
        self.top, self.changed = pathlib.Path(top), changed or {}
        gone = {file for file, text in self.changed.items() if text is None}
        self.files = (files_on_disk(self.top) | set(self.changed)) - gone

    @functools.cached_property
    def folders(self):
        return {str(above) for file in self.files for above in pathlib.PurePath(file).parents}

    @functools.cached_property
    def ordered(self):
        return sorted(self.files)

    def has(self, path):
        path = os.path.normpath(path)
        return path in self.files or path in self.folders

    def text(self, path):
        changed = self.changed.get(path)
        return text_on_disk(self.top / path) if changed is None else changed

    def below(self, folder, ending=""):
        """The files in a folder, at any depth."""
        return [file for file in self.ordered if file.startswith(f"{folder}/") and file.endswith(ending)]

    def documents(self):
        return [file for file in self.ordered if file.endswith(".md")]

    def heads(self):
        """The sources that say at their head what is in their crate."""
        files = [f"crates/{crate}/src/{name}.rt" for crate in self.crates for name in ("lib", "main")]
        return [file for file in files if file in self.files]

    def prose(self, file):
        """A document; or, of a source, its head: the lines that begin with //!, at their line numbers."""
        text = self.text(file)
        if file.endswith(".rt"):
            text = "\n".join(line[4:] if line.startswith("//!") else "" for line in text.split("\n"))
        return text

    @functools.cached_property
    def crates(self):
        """Each crate of crates.txt, with the crates of ours that it names."""
        lines = [line.partition(":") for line in self.text("crates.txt").splitlines() if re.match(r"\w", line)]
        uses = {name.split(" ")[0]: named.split() for name, _, named in lines}
        return {crate: {name for name in named if name in uses} for crate, named in uses.items()}

    @functools.cache
    def reached(self, crate):
        """The crates that one depends on, directly or through others."""
        return self.crates[crate].union(*(self.reached(below) for below in self.crates[crate]))

    @functools.cache
    def code(self, crate):
        """What a crate defines."""
        code = Code()
        for file in self.below(f"crates/{crate}/src", ".rt"):
            functions, types = source_of(self.text(file), pathlib.PurePath(file).stem)
            code.functions += functions
            code.types |= types
        for file in self.below(f"crates/{crate}/specs", ".antt"):
            code.defined |= definitions_of(self.text(file))
        return code


@dataclasses.dataclass
class Function:
    """A function of a crate, with its type and its file, and the names of its clauses."""

    name: str
    owners: tuple
    clauses: set = dataclasses.field(default_factory=set)


@dataclasses.dataclass
class Code:
    """What a crate defines: its functions; its types with their variants, fields and invariants; and the definitions of
    its specs/, each with its fields."""

    functions: list = dataclasses.field(default_factory=list)
    types: set = dataclasses.field(default_factory=set)
    defined: dict = dataclasses.field(default_factory=dict)

    def named(self, path):
        """The functions that a path names: a name alone, or one after its type or its file."""
        owner, _, name = path.rpartition("::")
        return [function for function in self.functions if function.name == name and owner in ("", *function.owners)]


@functools.cache
def source_of(text, stem):
    """The functions and types of a file of src/, read by its layout, which is that of rt fmt."""
    functions, types, owners, function, is_enum = [], set(), (), None, False
    for line in text.split("\n"):
        if head := HEAD.match(line):
            owners = tuple(name for name in head.groups() if name)
        elif line == "}":
            owners, is_enum = (), False
        if named := FN.match(line):
            function = Function(named[1], (*owners, stem))
            functions.append(function)
        elif line.strip() == "{":
            function = None
        elif function and (clause := CLAUSE.match(line)):
            function.clauses.add(clause[1])
        elif named := TYPE.match(line):
            types.add(named[1])
            is_enum = " enum " in f" {line}"
        elif named := MEMBER.match(line):
            types.add(named[1] or named[2])
        elif is_enum and (named := VARIANT.match(line)):
            types.add(named[1])
    return functions, types


@functools.cache
def definitions_of(text):
    """The definitions of a file of specs/, each with its fields."""
    defined, fields = {}, set()
    for line in text.split("\n"):
        if field := FIELD.match(line):
            fields.add(field[1])
        elif named := DEFINED.match(line):
            fields = defined.setdefault(named[1], set())
    return defined


@functools.cache
def words_of(text):
    return frozenset(re.findall(r"\w+", text))
