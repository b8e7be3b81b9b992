"""What the scripts of tests/ and bench/ share: which programs they try, how one is run, and how results are counted."""
import fcntl
import os
import pathlib
import re
import select
import shutil
import signal
import subprocess
import sys
import tempfile

TOP = pathlib.Path(__file__).resolve().parents[2]
WORK = TOP / "bench" / "work"
# By its full path: the folder of a link is not the script's, and CDPATH does not matter.
PROGRAM = os.environ.get("KCORE") or subprocess.check_output([TOP / "bin" / "program"], text=True).strip()
PLANNER = os.environ.get("PLAN_LISTER") or str(TOP / "crates" / "plan_lister" / "out" / "plan_lister")
HAS_PLANNER = os.access(PLANNER, os.X_OK)
# Large pages, as bin/kcore asks for them; they only cost or save time.
LARGE_PAGES = {"GLIBC_TUNABLES": "glibc.malloc.hugetlb=1"}
ENVIRONMENT = os.environ | LARGE_PAGES
# Files that are written again and again are in memory if it has this many bytes free: a disk makes the tests wait.
MEMORY, LEAST_ROOM = "/dev/shm", 2 ** 31


def status_of(process, seconds):
    """The status that a process ends with. If a number of seconds is given and it takes longer, it is killed."""
    is_in_time = True
    if seconds is not None:
        ended = os.pidfd_open(process)
        is_in_time = bool(select.select([ended], [], [], seconds)[0])
        os.close(ended)
        if not is_in_time:
            os.kill(process, signal.SIGKILL)
    status = os.waitstatus_to_exitcode(os.waitpid(process, 0)[1])
    if not is_in_time:
        raise TimeoutError(f"a run took more than {seconds} seconds")
    return status


def spawned(words, given, environment, passed=(), seconds=None):
    """Runs a command with an open file as its standard input and these open files passed on; it may be given a number
    of seconds to end in. Returns its status, what it wrote, and its standard error, in bytes. Both go to memory, so
    nobody has to read while it runs."""
    ends = [os.memfd_create(name) for name in ("out", "err")]
    try:
        actions = [(os.POSIX_SPAWN_DUP2, end, to) for to, end in enumerate([given, *ends])]
        actions += [(os.POSIX_SPAWN_DUP2, end, end) for end in passed]
        signals = [signal.SIGPIPE, signal.SIGXFSZ]
        process = os.posix_spawnp(words[0], words, environment, file_actions=actions, setsigdef=signals)
        status = status_of(process, seconds)
        return status, *(os.pread(end, os.fstat(end).st_size, 0) for end in ends)
    finally:
        for end in ends:
            os.close(end)


def run(words, text, program=PROGRAM):
    """Runs the program on a text, through a pipe. Returns its status, what it wrote, and its standard error."""
    given, words = text.encode(), [program, *map(str, words)]
    reads, writes = os.pipe()
    with open(reads, "rb", buffering=0) as pipe, open(writes, "wb", buffering=0) as end:
        # (a text that fits into the pipe is written before anybody reads it)
        if len(given) <= fcntl.fcntl(end, fcntl.F_GETPIPE_SZ):
            end.write(given)
            end.close()
            status, out, err = spawned(words, pipe.fileno(), ENVIRONMENT)
            return status, out.decode(), err.decode()
    ran = subprocess.run(words, input=given, capture_output=True, env=ENVIRONMENT)
    return ran.returncode, ran.stdout.decode(), ran.stderr.decode()


def unwarned(error):
    """Standard error, as text or bytes, without the warning that a trace is probably of another machine."""
    return re.sub(*((b"kcore: warning: .*\n", b"") if isinstance(error, bytes) else ("kcore: warning: .*\n", "")), error)


def scratch(name, otherwise=None):
    """A temporary folder: in memory if there is room, else in this other folder, or where temporary folders are."""
    is_roomy = os.access(MEMORY, os.W_OK) and shutil.disk_usage(MEMORY).free >= LEAST_ROOM
    return tempfile.TemporaryDirectory(prefix=f"kcore-{name}-", dir=MEMORY if is_roomy else otherwise)


class Results:
    """Counts checks, prints those that fail and what is not tried, and ends with the line that bin/test reads."""

    def __init__(self, shows_all=False):
        self.passed, self.failed, self.shows_all = 0, 0, shows_all

    def count(self, is_well, said, more=""):
        """Counts a check: its name, and what is also printed if it fails."""
        self.passed += bool(is_well)
        self.failed += not is_well
        if not is_well:
            print(f"failed: {said}{f': {more}' if more else ''}", flush=True)
        elif self.shows_all:
            print(f"ok: {said}")
        return is_well

    def not_tried(self, what, why):
        print(f"not tried: {what}: {why}", flush=True)

    def end(self):
        """Prints the last line and ends the script."""
        print(f"{self.passed} passed, {self.failed} failed")
        sys.exit(1 if self.failed else 0)
