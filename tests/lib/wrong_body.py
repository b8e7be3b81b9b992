"""Reads the edits that make wrong bodies: which function each changes, and by which path rattle knows the function."""
import dataclasses
import pathlib
import re

FN = re.compile(r'( *)(?:pub(?:\([^)]*\))? )?(?:const )?(?:unsafe )?(?:extern "\w+" )?fn (\w+)')
IMPL = re.compile(r"(?:unsafe )?impl(?:<.*?>)? (?:(\w+)(?:<(\w+).*>)? for )?(&?)(\w+)")


class BadEdit(Exception):
    """Why an edit makes no wrong body that could be tried."""


@dataclasses.dataclass(frozen=True)
class Edit:
    """A wrong body as it is written: its name, the file of the crate that it changes, and the lines after its name."""

    crate: pathlib.Path
    name: str
    path: pathlib.Path
    lines: tuple

    def __str__(self):
        return f"wrong body {self.crate.name}/{self.name}"


@dataclasses.dataclass(frozen=True)
class Function:
    """A function of a file: the head of its impl or trait, and which lines are its own, from its attributes on."""

    owner: str
    name: str
    first: int
    last: int

    def lines_of(self, text):
        return text.split("\n")[self.first : self.last + 1]


@dataclasses.dataclass(frozen=True)
class Body:
    """A body that is tried, a wrong one or the right one: the whole text of its function, the file that this is in, and
    its path below the crate."""

    crate: pathlib.Path
    edit: str
    path: str
    function: Function
    lines: tuple
    where: tuple
    is_right: bool = False
    # The goals that are tried without their answers; all if it is None.
    without: tuple | None = ()

    def __str__(self):
        kind, name = ("right", "::".join(self.where)) if self.is_right else ("wrong", self.edit)
        return f"{kind} body {self.crate.name}/{name}"

    def as_right(self):
        """Returns the right body of the same function."""
        lines = self.function.lines_of((self.crate / self.path).read_text())
        return dataclasses.replace(self, lines=tuple(lines), is_right=True, without=())

    def is_of_trait(self):
        return " for " in self.function.owner or "trait " in self.function.owner

    def proof_folders(self, root, name):
        """Returns the folders with the proof files of the function under a name, and of the closures in it."""
        module = root.joinpath("proofs", *self.where[:-1])
        return [module / name, module / "fn" / name]

    def proof_files(self):
        folders = self.proof_folders(self.crate, self.function.name)
        return [file for folder in folders for file in folder.glob("**/*.antt")]


def functions(text):
    """Returns the functions of a file in rt fmt's layout."""
    lines, found, owner, at = text.split("\n"), [], "", 0
    while at < len(lines):
        if re.match(r"(?:unsafe )?impl\b|(?:pub )?trait ", lines[at]):
            owner = lines[at]
        elif lines[at].startswith("}"):
            owner = ""
        head = FN.match(lines[at])
        if head:
            first, last = at, end_of(lines, at, head[1])
            while is_of_attribute(lines[first - 1]):
                first -= 1
            found.append(Function(owner if head[1] else "", head[2], first, last))
            at = last
        at += 1
    return found


def is_of_attribute(line):
    """Returns whether a line above a function's head belongs to its attributes."""
    return bool(re.search(r"[^{};]$", line)) and not line.strip().startswith("//")


def end_of(lines, start, depth):
    """Returns the last line of a function: its brace at the depth of its head, or its semicolon if it has no body."""
    has_body = "{" in lines[start]
    if has_body and lines[start].endswith("}"):
        return start
    for at in range(start, len(lines)):
        has_body = has_body or lines[at].endswith("{")
        if lines[at] in (depth + "}", depth + "{}") or lines[at].endswith(";") and not has_body:
            return at
    raise BadEdit(f"the function on line {start + 1} has no end")


def bare(lines):
    """Returns the code of lines without comments, and without spaces except in strings."""
    code = re.sub(r"//[^\n]*", "", "\n".join(lines))
    return re.sub(r'("(?:[^"\\]|\\.)*")|\s+', lambda it: it[1] or "", code)


def head_of(lines):
    """Returns a function's attributes, signature and clauses."""
    depth = re.match(" *", lines[-1])[0]
    opens = next((at for at, it in enumerate(lines) if it == depth + "{"), None)
    return bare(lines[:opens]) if opens else bare("\n".join(lines).partition("{")[:1])


def outside(text, found):
    """Returns the code of a file with a mark in place of each of these functions."""
    lines = text.split("\n")
    for it in reversed(found):
        lines[it.first : it.last + 1] = [f"fn {it.name}"]
    return bare(lines)


def edits_of(crate):
    """Returns the edits in a crate's wrong-bodies/. Those of src/PATH.rt are in PATH.edits, with an empty line between
    them: a name on a line of its own, and the lines of the edit."""
    edits = []
    for file in sorted(it for it in (crate / "wrong-bodies").glob("**/*") if it.is_file()):
        path = (crate / "src" / file.relative_to(crate / "wrong-bodies")).with_suffix(".rt")
        for block in file.read_text().strip("\n").split("\n\n"):
            name, *lines = block.split("\n")
            edits.append(Edit(crate, name, path, tuple(lines)))
    return edits


def applied(edit):
    """Returns the text that an edit makes of its file, and the goals that are tried without their answers."""
    if not re.fullmatch(r"\w+", edit.name):
        raise BadEdit("it does not begin with a name")
    old, text, without = None, edit.path.read_text(), ()
    for line in edit.lines:
        word, _, rest = line.partition(": ")
        if word == "old":
            old = rest
        elif word in ("new", "new:"):
            if not old:
                raise BadEdit("a new text has no old text before it")
            if text.count(old) != 1:
                raise BadEdit(f"an old text is in {edit.path.name} {text.count(old)} times, and not once")
            text, old = text.replace(old, rest), None
        elif line == "answers: none":
            without = None
        elif line.startswith("answers: not "):
            without = tuple(line.split(" ")[2:])
        else:
            raise BadEdit("it has a line that begins with none of 'old: ', 'new: ', 'answers: none' and 'answers: not '")
    return text, without


def wrong_body(edit):
    """Returns the wrong body that an edit makes of the one function whose body it changes."""
    crate, was = edit.crate, edit.path.read_text()
    now, without = applied(edit)
    old, new = functions(was), functions(now)
    if outside(was, old) != outside(now, new):
        raise BadEdit("it changes what is outside functions: such edits belong in must-fail/")
    both = [(it, it.lines_of(was), other.lines_of(now)) for it, other in zip(old, new)]
    turned = [it for it in both if bare(it[1]) != bare(it[2])]
    if len(turned) != 1:
        raise BadEdit(f"it changes {len(turned)} functions")
    function, right, wrong = turned[0]
    if head_of(right) != head_of(wrong):
        raise BadEdit("it changes a signature or a clause")
    path = str(edit.path.relative_to(crate))
    where = place(crate, path, function)
    body = Body(crate, edit.name, path, function, tuple(wrong), where, without=without)
    answers = [it.read_text() for it in body.proof_files() if it.name == "Answers.antt"]
    if without is None and not answers:
        raise BadEdit("its function has no answers to leave out")
    for goal in without or ():
        if all(without_answers(text, [goal]) == text for text in answers):
            raise BadEdit(f"its function has no answer to {goal}")
    return body


def without_answers(text, goals):
    """Returns the text of an Answers.antt without the answers to some goals: each is the line that begins with the
    goal's name, and the lines that continue it."""
    kept, gone = [], False
    for line in text.split("\n"):
        head = re.match(r"(?:pub )?([^\s})\]]\S*)", line)
        if head:
            gone = head[1] in goals
        if not gone:
            kept.append(line)
    return "\n".join(kept)


def place(crate, path, function):
    """Returns a function's path below the crate. A method is in the module that declares its type. One of a trait is
    in that of the impl, under the names of the type, of the trait and of what the trait is applied to; that of Drop is
    under the type's name alone."""
    owner = IMPL.match(function.owner)
    if owner and not owner[1]:
        declares = re.compile(rf"(?m)^(?:pub(?:\([^)]*\))? )?(?:struct|enum) {owner[4]}\b")
        files = sorted((crate / "src").glob("**/*.rt"))
        path = next((it.relative_to(crate) for it in files if declares.search(it.read_text())), path)
    modules = [it for it in pathlib.PurePath(path).with_suffix("").parts[1:] if it not in ("lib", "main", "mod")]
    names = []
    if owner:
        # In rattle's path, a name like u32x4 or u64 begins with a capital, and that of a reference with Ref.
        own, trait, applied = (f"{it[:1].upper()}{it[1:]}" for it in (owner[4], owner[1] or "", owner[2] or ""))
        own = "Ref" + own if owner[3] else own
        names = [own if trait == "Drop" else own + trait + applied]
    return (*modules, *names, function.name)
