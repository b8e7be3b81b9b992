"""What the scripts of the fleet share: how they end and what they say of failures, which program they run, how they read
texts that may come by pipes, and whether volumes with heads follow one another, which the program judges."""
import contextlib
import errno
import hashlib
import io
import json
import os
import pathlib
import re
import select
import shutil
import signal
import stat
import subprocess
import sys
import tempfile
import typing

TOP = pathlib.Path(__file__).resolve().parents[1]
TRACE = b"kcore-trace "
HEADER, HEADED = TRACE + b"2\n", TRACE + b"3\n"
PIECE = 1 << 18
# No text is longer that kcore reads, and no line of a trace; no trace has more calls, and no head more lines.
LARGEST, LONGEST, MOST, MOST_OF_HEAD = 1 << 30, 1 << 14, 1 << 16, 67
TOO_LONG = f"it has more than {LARGEST:,} bytes"
# No row of a list, or of what was published, is as long.
LONGEST_ROW = 1 << 16
# How many seconds somebody has to open a pipe for writing.
WAIT = 20
# How many bytes of a path a message has, at most, and how many traces have a message of their own.
SHOWN, MESSAGES = 100, 10
# Faults of a path that names no text.
WRONG_PATH = errno.ENOENT, errno.ENOTDIR, errno.EISDIR, errno.ENAMETOOLONG, errno.ELOOP


class Stop(Exception):
    """Why a script ends, and with which status."""

    def __init__(self, said, status):
        super().__init__(said)
        self.status = status


def stop(said, status):
    raise Stop(said_of(said) if isinstance(said, OSError) else said, status)


def run(main, name="fleet", cut_off="cut off"):
    """Runs a script to its end. A failure is one line, which begins with a name."""
    try:
        sys.exit(main())
    except Stop as why:
        ended = why
    except KeyboardInterrupt:
        signal.signal(signal.SIGINT, signal.SIG_IGN)
        ended = Stop(cut_off, 3)
    except MemoryError:
        ended = Stop("out of memory", 3)
    except Exception as error:
        ended = Stop(said_of(error) if isinstance(error, OSError) else f"{type(error).__name__}: {error}", 3)
    if str(ended):
        complain(ended, name)
    sys.exit(ended.status)


def say(line):
    with contextlib.suppress(OSError):
        # There is none if standard error was closed at the start.
        print(line, file=sys.stderr or io.StringIO(), flush=True)


def complain(said, name="fleet"):
    """Writes one line to standard error, whatever the names in it contain."""
    say("".join(it if it.isprintable() else ascii(it)[1:-1] for it in f"{name}: {said}"))


class Faults:
    """Reports what is wrong with traces: the first as they come, and of the others how many there are."""

    def __init__(self):
        self.count = 0

    def report(self, said):
        self.count += 1
        if self.count <= MESSAGES:
            complain(said)

    def end(self):
        if self.count > MESSAGES:
            complain(f"and {self.count - MESSAGES} more")


def shown(name):
    """A path as messages have it: a long one is not a path, but a text that was taken for one."""
    name = os.fsencode(name)
    return os.fsdecode(name) if len(name) <= SHOWN else f"a path of {len(name)} bytes"


def said_of(error):
    return f"{shown(error.filename)}: {reason(error)}" if getattr(error, "filename", None) else reason(error)


def reason(error):
    return getattr(error, "strerror", None) or str(error) or type(error).__name__


def hold_streams(mode=os.O_RDONLY):
    """No file may get the number of a standard stream that is closed."""
    while os.open(os.devnull, mode) < 2:
        pass


def find_program():
    """The program that KCORE names, else the repository's, else the one that is installed with the scripts. The last two
    are those for any processor, so that every machine has the same."""
    if os.environ.get("KCORE"):
        found = shutil.which(os.environ["KCORE"])
    elif (TOP / "bin" / "program").is_file():
        # It says itself why there is none.
        asked = subprocess.run([TOP / "bin" / "program", "--any"], stdout=subprocess.PIPE, check=False)
        if asked.returncode:
            stop("", asked.returncode)
        found = os.fsdecode(asked.stdout.removesuffix(b"\n"))
    else:
        found = shutil.which(TOP / "kcore")
    if not found:
        stop("there is no program to run: KCORE may name one", 2)
    return os.path.join(os.getcwd(), found)


def pipe():
    """The two ends of a pipe: where it is read, and where it is written."""
    reading, writing = os.pipe()
    return open(reading, "rb", buffering=0), open(writing, "wb", buffering=0)


def write_whole(file, text):
    left = memoryview(text)
    while left:
        left = left[file.write(left) :]


def write_out(pieces):
    try:
        with open(1, "wb", buffering=0, closefd=False) as out:
            for piece in pieces:
                write_whole(out, piece)
    except OSError as error:
        stop(f"the lines cannot be written: {reason(error)}", 3)


def digest_of(file):
    digest = hashlib.sha256()
    while piece := file.read(PIECE):
        digest.update(piece)
    return digest.hexdigest()


def fault_of_file(kept):
    """Why a file is none that a text may be in, or None."""
    if not stat.S_ISREG(kept.st_mode) and not stat.S_ISFIFO(kept.st_mode):
        return "Is a directory" if stat.S_ISDIR(kept.st_mode) else "it is not a file or a pipe"
    return TOO_LONG if kept.st_size > LARGEST else None


def has_come(file, seconds):
    """Whether something can be read, or whoever wrote has gone, within a number of seconds."""
    poll = select.poll()
    poll.register(file, select.POLLIN)
    return bool(poll.poll(1000 * seconds))


def first_of(file):
    """The first bytes, for which a pipe that nobody has opened for writing is given some time."""
    has_come(file, WAIT)
    first = file.read(PIECE)
    if first == b"" and stat.S_ISFIFO(os.fstat(file.fileno()).st_mode) and not has_come(file, 0):
        stop("nobody writes to it", 3)
    os.set_blocking(file.fileno(), True)
    # (None: there is somebody who has not written yet)
    return file.read(PIECE) if first is None else first


def pieces_of_text(path):
    """The bytes of a file or a pipe, up to the most that a text may have."""
    count = 0
    # (opening a pipe that nobody writes to does not wait)
    with open(path, "rb", buffering=0, opener=lambda name, flags: os.open(name, flags | os.O_NONBLOCK)) as file:
        if fault := fault_of_file(os.fstat(file.fileno())):
            stop(fault, 2)
        piece = first_of(file)
        while piece:
            count += len(piece)
            if count > LARGEST:
                stop(TOO_LONG, 2)
            yield piece
            piece = file.read(PIECE)


def pieces_of(path):
    """The same. What is wrong with it is said with its name."""
    try:
        yield from pieces_of_text(path)
    except OSError as error:
        stop(f"{shown(path)}: {reason(error)}", 2 if error.errno in WRONG_PATH else 3)
    except Stop as why:
        stop(f"{shown(path)}: {why}", why.status)


def written(said):
    return (json.dumps(said, separators=(",", ":")) + "\n").encode()


class OneRun(typing.NamedTuple):
    """What the program reports of volumes with heads: the calls and the digest of each. If they do not follow one another,
    or something else is wrong with them, its fault, and which of them it is about."""

    volumes: list
    fault: str | None
    broken: int | None


def in_one_run(program, start, volumes):
    """Has the program make all calls of volumes with heads, which are files. They begin in the boot state of the machine
    that --config and a path name, or in the state that --from does."""
    paths = [*start[1:], *volumes]
    for path in paths:
        if not stat.S_ISREG(os.stat(path).st_mode):
            stop(f"{shown(path)}: it is read once more, and has to be a file", 3)
    with tempfile.TemporaryDirectory(prefix="kcore-") as folder:
        # (by links, since the program takes no path that is not UTF-8)
        links = [str(number) for number in range(len(paths))]
        for link, path in zip(links, paths):
            os.symlink(os.path.join(os.getcwdb(), os.fsencode(path)), os.path.join(folder, link))
        words = ["kcore", "custody", "--summary", "--digests", *start[:1], *links]
        streams = {"stdin": subprocess.DEVNULL, "stdout": subprocess.PIPE, "stderr": subprocess.PIPE}
        with subprocess.Popen(words, executable=program, cwd=folder, **streams) as ran:
            kept = [row for row in ran.stdout if row.startswith((b'{"summary":', b'{"volume":', b'{"calls":'))]
            said = ran.stderr.read().decode(errors="replace").splitlines()
    fault = said[-1] if said else f"the program ended with status {ran.returncode}"
    if ran.returncode == 2 and not fault.startswith("kcore: configuration "):
        about = re.match(r"kcore: volume (\d+): ", fault)
        return OneRun([], fault, int(about[1]) if about else 1)
    if ran.returncode:
        stop(fault, 2 if ran.returncode == 2 else 3)
    first, *rows, last = map(json.loads, kept)
    digests = [(row["calls"], row["trace"]) for row in rows] or [(last["calls"], first["trace"])]
    return OneRun(digests, None, None)
