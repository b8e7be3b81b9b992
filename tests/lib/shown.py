"""The commands that documents show: a line after '$ ', further ones after '> ', then what the command prints."""
import dataclasses
import os
import pathlib
import re
import shlex
import shutil
import subprocess

from listed import plain, section_of_page

# Standard input is empty, and standard error goes where standard output goes.
STEP = "{{ {command}\n}} > {printed} 2>&1 < /dev/null\necho $? > {printed}.status\n"
SECONDS = 120


@dataclasses.dataclass
class Step:
    """A command of a document with its line there, what it is shown to print, and what it printed."""

    line: int
    command: str
    shown: list
    printed: list = None
    status: int = None

    def lacks(self):
        """A program that the command needs and that is not here, if any."""
        tools = [tool for tool in ("jq", "parallel", "cc", "ssh-keygen") if re.search(rf"(^|\| ?){tool} ", self.command)]
        return next((tool for tool in tools if not shutil.which(tool)), None)


def steps_of(text, indent):
    """The commands of a text whose lines of code begin with an indent."""
    steps, is_open = [], False
    for number, line in enumerate(text.splitlines(), 1):
        if not line.startswith(indent):
            is_open = False
        elif line.startswith(f"{indent}$ "):
            steps.append(Step(number, line[len(indent) + 2 :], []))
            is_open = True
        elif is_open and line.startswith(f"{indent}> ") and not steps[-1].shown:
            steps[-1].command += "\n" + line[len(indent) + 2 :]
        elif is_open:
            steps[-1].shown.append(line[len(indent) :])
    return steps


def lay_out(tree, folder, program):
    """Makes a folder that looks like the repository to a command, and in which bin/kcore is the program."""
    for name in sorted({pathlib.PurePath(file).parts[0] for file in tree.files} - {"bin"}):
        (folder / name).symlink_to(tree.top / name)
    (folder / "bin").mkdir()
    for script in tree.below("bin"):
        if script != "bin/kcore":
            (folder / script).symlink_to(tree.top / script)
    launcher = folder / "bin" / "kcore"
    launcher.write_text(f'#!/bin/sh\nexec {shlex.quote(os.path.abspath(program))} "$@"\n')
    launcher.chmod(0o755)


def run_all(steps, folder, work):
    """Has one shell run all commands, one after another."""
    printed = [shlex.quote(str(work / str(number))) for number in range(len(steps))]
    script = "".join(STEP.format(command=step.command, printed=file) for step, file in zip(steps, printed))
    names = {name: value for name, value in os.environ.items() if name not in ("CDPATH", "KCORE", "BASH_ENV")}
    names |= {"PATH": f"{folder}/bin:{os.environ['PATH']}", "LC_ALL": "C.UTF-8", "KCORE": f"{folder}/bin/kcore"}
    try:
        subprocess.run(["bash", "--norc", "-c", script], cwd=folder, env=names, timeout=SECONDS, capture_output=True)
    except subprocess.TimeoutExpired:
        pass
    for number, step in enumerate(steps):
        status = work / f"{number}.status"
        if status.exists():
            step.printed = (work / str(number)).read_text(errors="replace").splitlines()
            step.status = int(status.read_text())


def fault_of(step, shows_all):
    """What a command did that is not as shown. If a page does not show all, a command without output promises only that
    its status is 0."""
    if step.status is None:
        return "it was not reached, or did not end"
    if not shows_all and not step.shown:
        return "" if step.status == 0 else f"status {step.status}: {' '.join(step.printed)[:200]}"
    if step.printed == step.shown:
        return ""
    pairs = zip(step.printed + ["the end"], step.shown + ["the end"])
    printed, shown = next(((a, b) for a, b in pairs if a != b), ("more", "less"))
    return f"it prints {printed[:200]!r}, and not {shown[:200]!r}"


def steps_in(tree, document):
    if document.endswith(".1"):
        return steps_of(section_of_page(plain(tree.text(document)), "EXAMPLES"), "")
    return steps_of(tree.text(document), "    ")


def lacking(tree, documents):
    """The programs that commands need and that are not here."""
    return sorted({step.lacks() for document in documents for step in steps_in(tree, document)} - {None})


def tried(tree, document, program, base):
    """The commands of a document, after they were run in a folder of its own."""
    steps = steps_in(tree, document)
    folder, work = base / "top", base / "work"
    folder.mkdir(parents=True)
    work.mkdir()
    lay_out(tree, folder, program)
    if document.endswith(".1"):
        for name, example in PAGE_FILES.items():
            shutil.copy(tree.top / "examples" / example, folder / name)
    run_all([step for step in steps if not step.lacks()], folder, work)
    return steps


# The contents of the files that the man page's examples name.
PAGE_FILES = {
    "trace": "dump-of-two-vms",
    "dump": "dump-of-two-vms.stdout",
    "trace1": "two-volumes-first",
    "trace2": "two-volumes-second",
    "state2": "two-volumes-left.stdout",
}
