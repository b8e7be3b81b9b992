"""Reads the documents of an installation: each command there names what is there, and prints what is shown.

usage: installed.py PREFIX   prints the checks that failed and what is not tried; the last line is 'N passed, M failed'
"""
import os
import pathlib
import re
import shlex
import shutil
import subprocess
import sys
import tempfile

sys.dont_write_bytecode = True
import shown
from common import Results

PREFIX = pathlib.Path(sys.argv[1])
DOCUMENTS = PREFIX / "share" / "doc" / "kcore"
# The folders of the repository, by which a path in a command is known for one.
FOLDERS = "bench|bin|completions|crates|dist|docs|examples|fleet|include|stories|tests"
PATH = re.compile(rf"(?<![\w./-])(?:\.\./)*(?:{FOLDERS})/[\w./-]*\w")
# What a line of code says if it is for the repository.
ELSEWHERE = "# in the repository: "
COMMAND = re.compile(r"(?<![\w./-])kcore-(?:audit|slurm-here|statement|witness)\b")
# Commands without '$' that are tried as they are, by the document.
BUILT = {"EMBED.md": r"    (?:cc|\./hypervisor|kcore <|kcore replay --dump|make|python3) .*"}
# What documents name of the repository, and what is not installed.
REPOSITORY = {"CONTRIBUTING.md"}
TOOLS = "cc make pkg-config python3 ssh-keygen jq parallel xxd".split()


def texts():
    """The documents that are about this version, by their path."""
    found = sorted(DOCUMENTS.glob("**/*.md"))
    return {str(file.relative_to(DOCUMENTS)): file.read_text() for file in found if file.name != "CHANGELOG.md"}


def is_there(path):
    """Whether a path that a text begins with a folder of the repository is there; it may be a part of several names."""
    inside = re.sub(r"^(\.\./)+", "", path)
    return (DOCUMENTS / inside).exists() or any(DOCUMENTS.glob(f"{inside}*"))


def faults_of_code(text):
    """Which files and commands the lines of code name and are not there."""
    lines = [line for line in text.splitlines() if line.startswith("    ") and ELSEWHERE not in line]
    missing = [path for line in lines for path in PATH.findall(line) if not is_there(path)]
    return missing + [name for name in set(COMMAND.findall(text)) if not os.access(PREFIX / "bin" / name, os.X_OK)]


def faults_of_names(text):
    """Which documents, definitions and examples a text names and are not there."""
    names = re.findall(r"`((?:examples|crates)/[\w./-]+|[A-Z_]+\.md)`", text)
    names = [it for it in names if not re.match(r"crates/\w+(/must-fail/.*)?$", it)]
    return [it for it in names if it not in REPOSITORY and not (DOCUMENTS / it).exists()]


def moved_tools(folder):
    """A folder with a pkg-config for a tree that was moved."""
    if real := shutil.which("pkg-config"):
        script = folder / "pkg-config"
        script.write_text(f'#!/bin/sh\nexec {shlex.quote(real)} --define-prefix "$@"\n')
        script.chmod(0o755)
    return folder


def run_all(steps, folder):
    """Runs commands in a folder that has the examples, with what is installed on the path."""
    shutil.copytree(DOCUMENTS / "examples", folder / "examples")
    work = folder / ".printed"
    work.mkdir()
    printed = [shlex.quote(str(work / str(number))) for number in range(len(steps))]
    script = "".join(shown.STEP.format(command=step.command, printed=file) for step, file in zip(steps, printed))
    names = {name: value for name, value in os.environ.items() if name not in ("CDPATH", "KCORE", "BASH_ENV")}
    names |= {"PATH": f"{PREFIX}/bin:{moved_tools(work)}:{names['PATH']}", "LC_ALL": "C.UTF-8"}
    names |= {"PKG_CONFIG_PATH": f"{PREFIX}/lib/pkgconfig"}
    subprocess.run(["bash", "--norc", "-c", script], cwd=folder, env=names, timeout=shown.SECONDS, capture_output=True)
    for number, step in enumerate(steps):
        status = work / f"{number}.status"
        if status.exists():
            step.printed = (work / str(number)).read_text(errors="replace").splitlines()
            step.status = int(status.read_text())


def steps_of(name, text):
    """The commands of a document. Those without a line are shown without what they print."""
    steps = shown.steps_of(text, "    ")
    # A TPM takes programs of its own; tests/witness tries it.
    steps = [step for step in steps if "tpm" not in step.command]
    if name in BUILT:
        lines = re.findall(rf"^{BUILT[name]}$", text, re.M)
        steps += [shown.Step(0, line.partition(" #")[0].strip(), []) for line in lines]
    return steps


def lacking(steps):
    """The tools that commands need and that are not here."""
    words = {word for step in steps for word in re.findall(r"[\w-]+", step.command)}
    return sorted(tool for tool in TOOLS if tool in words and not shutil.which(tool))


def try_all(results, name, text, base):
    steps = steps_of(name, text)
    tools = lacking(steps)
    if tools:
        results.not_tried(f"commands of {name} as installed", f"there is no {', '.join(tools)}")
        return
    if not steps:
        return
    folder = base / name.replace("/", "-")
    folder.mkdir()
    run_all(steps, folder)
    faults = [(step.command, shown.fault_of(step, shows_all=step.line > 0)) for step in steps]
    said = [f"{command[:80]}: {fault}" for command, fault in faults if fault]
    results.count(not said, f"the {len(steps)} commands of {name} print what it shows", "; ".join(said))


def main():
    results = Results()
    with tempfile.TemporaryDirectory() as base:
        for name, text in texts().items():
            missing = faults_of_code(text)
            results.count(not missing, f"what the commands of {name} name is there", ", ".join(missing))
            missing = faults_of_names(text)
            results.count(not missing, f"what {name} names of the installation is there", ", ".join(missing))
            try_all(results, name, text, pathlib.Path(base))
    results.end()


if __name__ == "__main__":
    main()
