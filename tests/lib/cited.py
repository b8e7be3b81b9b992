"""What documents cite by name: crates, functions with their clauses, definitions, wrong bodies, and paths."""
import functools
import pathlib
import re

from document_tree import words_of

QUOTED = re.compile(r"`([^`]+)`")
NAME = re.compile(r"[A-Za-z_]\w*(?:::[A-Za-z_]\w*)*\Z")
BODY = re.compile(r"(kc\w+)/(\w+)\Z")
GLUE = re.compile(r"[\s,)]*(?:\b(?:and|or|to)\b)?[\s,(]*\Z")
KIND = re.compile(r"\b(clause|field)s?:? \Z")
# Names of the language, which no crate defines.
LANGUAGE = {"Drop", "Send", "Sync", "None", "Some", "Ok", "Err", "Display"}


def rows_of(text):
    """The rows of a document's tables: the line of each and its cells."""
    for number, line in enumerate(text.splitlines(), 1):
        if line.startswith("|"):
            yield number, [cell.strip() for cell in line.strip().strip("|").split("|")]


@functools.cache
def bodies_of(tree, crate):
    """The names of a crate's wrong bodies, each the first line of an edit."""
    texts = [tree.text(file) for file in tree.below(f"crates/{crate}/wrong-bodies", ".edits")]
    return {edit.strip().split("\n")[0] for text in texts for edit in text.split("\n\n")}


class Contracts:
    """Reads the cells that say which contract carries a promise, one after another. The crate of one cell, and with
    'the same' its functions, carry over to the next if that names none."""

    def __init__(self, tree):
        self.tree, self.crate, self.functions = tree, None, []
        self.records, self.kind, self.outer, self.is_begun = [], "name", "name", False

    def read(self, cell):
        """Each name that the cell cites, with what is wrong about it: '' if it exists."""
        parts = QUOTED.split(cell)
        names = parts[1::2]
        self.kind, self.is_begun = "name", False
        self.crate = next((name for name in names if name in self.tree.crates), self.crate)
        self.records = [name for name in names if self.fields_of(name)] or self.records
        for text, name in zip(parts[::2], names):
            self.go_over(text)
            yield name, self.fault_of(name)

    def fields_of(self, record):
        """The fields of a definition, whichever crate it is in."""
        return set().union(*(self.tree.code(crate).defined.get(record, ()) for crate in self.tree.crates))

    def go_over(self, text):
        """Reads the text before a name, which says what kind of name it is."""
        if named := KIND.search(text):
            self.kind = named[1]
        elif "(" in text.rpartition(")")[2]:
            self.outer, self.kind = self.kind, "definition"
        elif not GLUE.match(text):
            self.kind, self.is_begun = "name", "the same" in text
        elif ")" in text:
            self.kind = self.outer

    def fault_of(self, name):
        if name in self.tree.crates and self.kind not in ("clause", "field"):
            self.crate, self.is_begun = name, self.is_begun and self.kind == "name"
            return ""
        if body := BODY.match(name):
            self.crate, self.kind, name = body[1], "body", body[2]
        if name.endswith(".rt"):
            files = self.tree.below(f"crates/{self.crate}/src", f"/{name}")
            return "" if files else f"{self.crate} has no such file"
        if not NAME.match(name) or name in LANGUAGE:
            return ""
        return getattr(self, f"fault_of_{self.kind}")(name)

    def fault_of_body(self, name):
        return "" if name in bodies_of(self.tree, self.crate) else f"{self.crate} has no such wrong body"

    def fault_of_clause(self, name):
        self.is_begun = False
        # Several types may have a function of this name.
        lacking = [same[0].name for same in self.functions if all(name not in one.clauses for one in same)]
        if self.functions and not lacking:
            return ""
        return f"no clause of {', '.join(lacking) or 'no function'}"

    def fault_of_definition(self, name):
        crates = {self.crate, *self.tree.reached(self.crate)} if self.crate else set()
        codes = [self.tree.code(crate) for crate in crates]
        has = any(name in code.types or name in code.defined or name in fields
                  for code in codes for fields in (*code.defined.values(), ()))
        return "" if has else f"no definition of {self.crate}, or of a crate that it depends on"

    def fault_of_field(self, name):
        has = any(name in self.fields_of(record) for record in self.records)
        return "" if has else f"no field of {', '.join(self.records) or 'no definition'}"

    def fault_of_name(self, name):
        if not self.is_begun:
            self.functions = []
        if named := self.tree.code(self.crate).named(name) if self.crate else []:
            self.functions, self.is_begun = [*self.functions, named], True
            return ""
        if self.crate and (name in self.tree.code(self.crate).types or name in bodies_of(self.tree, self.crate)):
            return ""
        return self.fault_of_definition(name) and f"neither a function nor a type of {self.crate}"


# Paths and names that any document may cite.
ENDINGS = (".rt", ".antt", ".md", ".edits", ".c", ".h", ".svg", ".py", ".txt", ".bash", ".zsh", ".fish", ".1", ".stdout", ".args")
# What is built, installed, somebody's own, or a placeholder for a name.
ELSEWHERE = re.compile(r"[/~]|(share|lib|libexec|out)/|https?:|(.*/)?(FILE|FOLDER|FUNCTION|LIST|NAME|PREFIX)\b")
PATH = re.compile(r"[\w.][\w./-]*\Z")
IDENTIFIER = re.compile(r"\w*(?:[a-z]_[a-z]|[a-z][A-Z]|[A-Z]{2,}[a-z]|[A-Z][a-z])\w*\Z")
HEAD = re.compile(r"^//!.*", re.M)
HEADING = re.compile(r'`([\w./-]+\.md)`,(?: under)? "([^"]+)"')
LINK = re.compile(r"\]\(([^)#:]+)\)")
# Each crate has some of these, and many functions have files of these names.
OF_MANY = {"src", "src/lib.rt", "specs", "proofs", "wrong-bodies", "must-fail", "Answers.antt", "Invariants.antt"}


def is_path(name):
    has_ending = name.endswith(ENDINGS) and not name.startswith(".")
    return bool(PATH.match(name)) and not ELSEWHERE.match(name) and ("/" in name or has_ending)


class Paths:
    """Finds the files that a document cites. A path that begins neither at the top nor in crates/ is looked for beside
    the document, beside files that the paragraph cited before, and in the crate that it named; or it is the name of one
    file only. The head of a source begins in its crate."""

    def __init__(self, tree, document):
        self.tree, self.folder = tree, str(pathlib.PurePath(document).parent)
        self.crate = document.split("/")[1] if document.startswith("crates/") else None

    def read(self, paragraph):
        """Each path that a paragraph cites, and whether it exists."""
        beside, crate = [], self.crate
        for name in QUOTED.findall(paragraph) + LINK.findall(paragraph):
            if name in self.tree.crates:
                crate = name
            elif is_path(name) and not self.is_body(name):
                found = self.found(name.rstrip("/"), beside, crate)
                yield name, bool(found)
                if found:
                    beside.insert(0, found if found in self.tree.folders else str(pathlib.PurePath(found).parent))
                    crate = found.split("/")[1] if found.startswith("crates/") else crate

    def is_body(self, name):
        body = BODY.match(name)
        return body and body[1] in self.tree.crates and not self.tree.has(f"crates/{name}")

    def found(self, name, beside, crate):
        crates = [f"crates/{one}{part}" for one in (crate, self.crate) if one for part in ("", "/src", "/specs")]
        for folder in (".", "crates", self.folder, *beside, *crates):
            path = str(pathlib.PurePath(folder) / name)
            if self.tree.has(path):
                return path
        same = [file for file in self.tree.files if file.endswith(f"/{name}")] if "/" not in name else []
        return name if name in OF_MANY else same[0] if len(same) == 1 else None


def paragraphs_of(text):
    """The paragraphs of a document, the points of its lists and the rows of its tables, each with its line; not what
    is indented as code."""
    begun, lines = 1, []
    for number, line in enumerate([*text.splitlines(), ""], 1):
        if lines and (not line.strip() or line.startswith(("|", "- ", "    "))):
            yield begun, "\n".join(lines)
            lines = []
        if line.strip() and not line.startswith("    "):
            begun = begun if lines else number
            lines.append(line)


def words_of_code(tree):
    """Every word of the code: sources without their heads, definitions, proofs and scripts, except the one with the
    mistakes."""
    folders = "crates", "tests", "bench", "bin", "fleet", "include", "completions", "stories"
    files = [file for folder in folders for file in tree.below(folder) if file != "tests/lib/mistakes.py"]
    texts = [HEAD.sub("", tree.text(file)) for file in files if not file.endswith(".md")]
    return set(tree.crates).union(*map(words_of, texts))


def identifiers_of(paragraph):
    """The names of types, functions and definitions in a paragraph, without paths."""
    for name in QUOTED.findall(paragraph):
        if not is_path(name) and NAME.match(name):
            yield from (part for part in name.split("::") if IDENTIFIER.match(part))


def headings_in(tree, paragraph):
    """The headings that a paragraph cites, and whether the documents have them."""
    for document, name in HEADING.findall(paragraph):
        yield name, tree.has(document) and re.search(rf"^#+ \[?{re.escape(name)}\]?$", tree.text(document), re.M)
