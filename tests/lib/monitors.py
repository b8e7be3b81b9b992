"""How tests/kvm makes and runs the monitor of examples/kvm, and monitors with a mistake each, which its checks have to
find."""
import json
import os
import re
import shutil
import subprocess
import sys
import time
import typing

from common import PROGRAM, TOP, unwarned

EXAMPLE = TOP / "examples" / "kvm"
# How many seconds a run may take, and how many more until it has to have ended, on a busy machine.
SECONDS, LATE = 600, 60
COMPARED = re.compile(
    r"monitor: (\d+) calls, (\d+) faults, (\d+) exits; (\d+) frames: (\d+) private pages, (\d+) shared, "
    r"(\d+) otherwise than the record")
OVER = "monitor: the time is over"

# What the hostile host prints once, or for each guest with a letter.
ONCE = (
    "host: an altered image is rejected; has it run: refused not-active",
    "host: alters a page of an image after its remap: refused protected",
    "host: speaks for a guest: not yours",
    "host: gives a frame to a virtual processor that waits for none: refused no-fault",
    "host: sends 16 lines that are not calls of its own: 0 done",
    "host: opens the monitor's memory: Permission denied",
    "host: traces the monitor: No such process",
    "host: opens the monitor's terminal: No such device or address",
    "host: offers guest 1 a frame of guest 0: refused not-host",
    "host: offers guest 1 a frame of the core: refused not-host",
    "host: ends guest 1, which runs: done",
    "host: has it run: refused not-active",
    "host: takes all free frames: 0 bytes in them",
)
EACH = (
    'host: looks at the secret: refused protected, its memory has ""',
    'host: looks at the letter, not shared yet: refused protected, its memory has ""',
    "host: takes the secret's frame back: refused not-host",
    'host: the letter, shared but not asked for: its memory has ""',
    'host: looks at the secret again: refused protected, its memory has "a forged secret"',
    'host: looks at the letter, revoked: refused protected, its memory has ""',
    'host: looks at what was dropped: refused protected, its memory has ""',
    'host: looks at what was dropped, taken: done, its memory has ""',
)
GUESTS = (
    'host: the letter, shared and asked for: its memory has "a letter of guest {}"',
    'host: the page that a pipe has kept: "a letter of guest {}"',
    "guest {}: the host wrote: thank you, guest {}",
    "guest {}: 0 counts lost",
    'guest {}: the secret is still "the secret of guest {}"',
)


def is_made(results, folder, made_by=None, sources=EXAMPLE):
    """Makes the monitor and its guests in a folder, over a library that is named or the one that make finds."""
    include = os.environ.get("INCLUDE", TOP / "include")
    library = [f"LIBRARY={made_by}", f"INCLUDE={include}"] if made_by else []
    words = ["make", "-s", "-C", sources, f"OUT={folder}", *library, "BIOS=", "KERNEL=", "LINUX="]
    environment = {name: value for name, value in os.environ.items() if name not in ("LIBRARY", "INCLUDE", "OUT")}
    ran = subprocess.run(words, stdout=subprocess.PIPE, stderr=subprocess.STDOUT, text=True, env=environment)
    is_quiet = results.count(not ran.returncode and not ran.stdout, "it compiles without a word", ran.stdout)
    if is_quiet:
        talk = (folder / "talk").read_bytes()
        (folder / "other").write_bytes(talk.replace(b"hello from guest ", b"hallo from guest "))
        shutil.copy(EXAMPLE / "hostile.py", folder)
        (folder / "hostile.py").chmod(0o755)
        make_small(folder, sources)
    return is_quiet


def make_small(folder, sources):
    """Makes the image of a guest that boots as Linux does, with a small kernel, which does not read its initramfs."""
    linked = "-Wl,--oformat=binary,-Ttext=0,-e,0,--build-id=none"
    words = ["cc", "-nostdlib", "-static", linked, "-o", folder / "small", TOP / "tests" / "c" / "kernel.S"]
    subprocess.run(words, check=True)
    (folder / "initial").write_bytes(b"initial files" * 8)
    files = [folder / name for name in ("loader", "small", "initial", "linux")]
    words = [sys.executable, "-B", sources / "linux.py", *files, "96", "1", "no words"]
    subprocess.run(words, stdout=subprocess.DEVNULL, check=True)


def boot_record(frame, sizes):
    owner = "core" if frame < sizes["core"] else "host" if frame < sizes["core"] + sizes["host"] else "free"
    return owner, None, 0, False


def records_of_custody(lines):
    """The record of each frame, as the changes that custody reports from boot on leave it."""
    records = [boot_record(frame, lines[0]) for frame in range(lines[0]["frames"])]
    for line in lines:
        if "frame" in line:
            to = line["to"]
            records[line["frame"]] = to["owner"], to["gfn"], to["share"], to["present"]
    return records


def records_of_monitor(text):
    for line in text.splitlines():
        _, owner, gfn, share, present = line.split()
        yield owner, None if gfn == "-" else int(gfn), int(share), present == "1"


def records_of_dump(text):
    for line in text.splitlines():
        if line.startswith("frame "):
            _, _, owner, share, gfn, present, *_ = line.split()
            owner = f"vm{owner}" if owner.isdigit() else owner
            yield owner, None if gfn == "-" else int(gfn), int(share), present == "1"


class NotInTime(Exception):
    """How far a part had come when its time was over."""


class Trial:
    """A folder with the monitor that was made, and what its runs leave there; a run takes up to this many seconds."""

    def __init__(self, results, folder, seconds=SECONDS):
        self.results, self.folder, self.seconds, self.started = results, folder, seconds, []

    def count(self, is_well, said, more=""):
        return self.results.count(is_well, f"{self.said}: {said}", more)

    def machine(self, frames, host):
        name = f"machine-{frames}.json"
        images = "talk", "other", "storm", "linux", "bios"
        files = [self.folder / image for image in images if (self.folder / image).exists()]
        words = [sys.executable, "-B", EXAMPLE / "machine.py", str(frames), str(host), *files]
        (self.folder / name).write_bytes(subprocess.run(words, stdout=subprocess.PIPE, check=True).stdout)
        return self.folder / name

    def words(self, said, config, *words, seconds=None):
        """The command line of a run, whose files begin with trace; that of its first volume is self.trace."""
        self.said, self.config, self.limit = said, config, seconds or self.seconds
        self.trace, self.list = self.folder / "trace.00001", self.folder / "trace.list"
        self.record = self.folder / "record"
        for file in self.folder.glob("trace*"):
            file.unlink()
        named = self.trace.with_suffix("")
        common = ["--config", config, "--trace", named, "--record", self.record, "--seconds", self.limit]
        return [self.folder / "monitor", *map(str, common), *(str(word).format(out=self.folder) for word in words)]

    def start(self, said, config, *words, seconds=None, **streams):
        streams = {"stdin": subprocess.DEVNULL, "stdout": subprocess.PIPE, "stderr": subprocess.STDOUT} | streams
        words = self.words(said, config, *words, seconds=seconds)
        self.started.append(subprocess.Popen(words, cwd=self.folder, text=True, **streams))
        return self.started[-1]

    def try_part(self, part, sizes):
        """Tries a part. Whatever comes of it, none of its runs goes on."""
        try:
            part(self, self.machine(*sizes))
        finally:
            for process in self.started:
                process.kill()
                process.wait()
            self.started.clear()

    def ended(self, process, status=0, is_cut_off=False):
        """Waits until a run has ended, and returns its lines. If its time was over, that is an error of the monitor's
        only if it does not end then; unless it was meant to be cut off, the part is not tried."""
        try:
            output = process.communicate(timeout=self.limit + LATE)[0]
        except subprocess.TimeoutExpired:
            process.kill()
            output = process.communicate()[0]
        lines = output.splitlines()
        if not is_cut_off and OVER in lines:
            calls = [match[1] for match in map(COMPARED.fullmatch, lines) if match]
            raise NotInTime(f"it had made {calls[-1] if calls else 'no'} calls after {self.limit} seconds")
        self.count(process.returncode == status, "it ends well", f"status {process.returncode}: {output[-300:]}")
        return lines

    def run(self, said, config, *words):
        return self.ended(self.start(said, config, *words))

    def hosted(self, said, config, guests, name, seconds=None):
        """Runs the monitor with a host of hostile.py. Whatever that does, the MMU is as the record says, the trace is
        replayed, and the run ends in time. Returns what the host printed, and all lines."""
        begun = time.monotonic()
        lines = self.ended(self.start(said, config, *guests, "--", self.folder / "hostile.py", name, seconds=seconds),
                           is_cut_off=seconds)
        took = time.monotonic() - begun
        self.count(not seconds or took < seconds + LATE, "it ends in time", f"after {took:.0f} seconds")
        self.compared(lines)
        self.audited()
        return [line.removeprefix("host: ") for line in lines if line.startswith("host: ")], lines

    def compared(self, lines, times=1):
        """The MMU itself is as the record says, whenever it was looked at."""
        found = [match for match in map(COMPARED.fullmatch, lines) if match]
        self.count(len(found) >= times and all(match[7] == "0" for match in found), "the MMU is that of the record",
                   "; ".join(match[0] for match in found))
        return found[-1] if found else None

    def volumes(self):
        """The volumes, in the order of their names."""
        return sorted(self.folder.glob("trace.[0-9][0-9][0-9][0-9][0-9]"))

    def state(self, number):
        """The text of the state in which a volume begins."""
        return self.folder / f"trace.{number:05}.state"

    def kcore(self, *words):
        return subprocess.run([PROGRAM, *words], stdin=subprocess.DEVNULL, capture_output=True, text=True)

    def replayed(self):
        """Replays each volume from the state that the last one left. Returns the dump at the end, and what custody
        reports of all volumes, which have to be a chain."""
        began, left, said = ("--config", self.config), "", ""
        custody = self.kcore("custody", *began, *self.volumes())
        for volume in self.volumes():
            dump = self.kcore("replay", *began, "--dump", volume)
            state = self.kcore("replay", *began, "--state", volume)
            (self.folder / "state").write_text(state.stdout)
            began, left = ("--from", self.folder / "state"), dump.stdout
            said += dump.stderr + state.stderr
        self.count(not unwarned(said), "its trace is replayed", said[:200])
        self.count(not unwarned(custody.stderr), "its volumes are a chain", custody.stderr[:200])
        return left, [json.loads(line) for line in custody.stdout.splitlines()]

    def audited(self, has_record=True):
        """The replayed trace: its dump has no findings, and dump and custody have the monitor's records."""
        dump, changes = self.replayed()
        (self.folder / "dump").write_text(dump)
        audit = self.kcore("audit", self.folder / "dump")
        self.count(audit.stdout.startswith('{"findings":0'), "its audit finds nothing", audit.stdout + audit.stderr)
        if not changes:
            return
        reported, left = records_of_custody(changes), list(records_of_dump(dump))
        self.count(reported == left, "custody leaves the replayed records")
        if has_record:
            kept = list(records_of_monitor(self.record.read_text()))
            wrong = [frame for frame, pair in enumerate(zip(reported, kept)) if pair[0] != pair[1]]
            is_same = len(reported) == len(kept) and not wrong
            self.count(is_same, "custody leaves the monitor's records", f"frames {wrong[:5]}")
        picture = self.kcore("custody", "--config", self.config, "--svg", *self.volumes())
        self.count(not picture.returncode and picture.stdout.startswith("<svg"), "it has a picture", picture.stderr)


def waits(trial, is_so):
    """Waits until something is so, for as long as a run may take."""
    end = time.monotonic() + trial.limit
    while not is_so():
        if time.monotonic() > end:
            raise NotInTime(f"it had not come as far after {trial.limit} seconds")
        time.sleep(0.05)


def has_calls(trial, count):
    """Waits until the trace has this many calls."""
    waits(trial, lambda: trial.trace.exists() and trial.trace.read_bytes().count(b"\n") > count)


class Mistake(typing.NamedTuple):
    said: str
    file: str
    old: str
    new: str


MISTAKES = [
    Mistake("a page that moves is not protected", "mmu.c",
            "    if (old && guest) protect(guest, gfn);\n",
            "    (void)protect;\n"),
    Mistake("the host's page stays", "mmu.c",
            "    if (from == HOSTS) punch(mmu->host, frame);\n",
            ""),
    Mistake("the guest's page stays", "mmu.c",
            "    if (from == GUESTS) punch(old->pages, change->before.gfn);\n",
            ""),
    Mistake("the guest sees the host's page after a revoke", "mmu.c",
            "    if (old && guest && to == GUESTS) show(",
            "    if (0) show("),
    Mistake("the guest does not see the host's page after hfault", "mmu.c",
            "    if (old && guest && to == HOSTS) show(",
            "    if (0) show("),
    Mistake("a frame is in reach at grant", "mmu.c",
            "    if (record->present) return",
            "    if (record->share) return"),
    Mistake("who waits for a page that moved is not woken", "mmu.c",
            "    if (guest) memory_wake(guest, gfn);\n",
            ""),
    Mistake("the host asks as a guest", "core.c",
            "kcore_call_by(&core->session, KCORE_NONE, 0,",
            "kcore_call_by(&core->session, 0, 0,"),
    Mistake("a call is not in the trace", "core.c",
            "    write_trace(core);\n    expect(kcore_changes(",
            "    expect(kcore_changes("),
    Mistake("the core does not get the bytes of images", "calls.c",
            '    bool has_copy = is_call(line, "remap", 3, n) &&',
            "    bool has_copy = false &&"),
    Mistake("a guest runs on when it is cleared", "calls.c",
            "    if (cleared) guest_end(cleared);\n",
            ""),
    Mistake("the host keeps the user", "process.c",
            "    if (it->is_root &&",
            "    if (!it->is_root &&"),
    Mistake("the host keeps the terminal", "process.c",
            "    if (setsid() < 0 || prctl(",
            "    if (prctl("),
    Mistake("the host makes namespaces", "process.c",
            " || !forbid_namespaces()) _exit(3);",
            ") _exit(forbid_namespaces() ? 3 : 2);"),
    Mistake("the host prints as the monitor", "process.c",
            "    it.files[2] = it.files[1];\n",
            "    it.files[2] = 2;\n"),
    Mistake("the host inherits files", "process.c",
            "    if (close_range(it->count, ~0U, 0)) _exit(3);\n",
            ""),
    Mistake("what the host leaves outlives the monitor", "process.c",
            "    const int flags = it->is_root ? CLONE_NEWPID : CLONE_NEWUSER | CLONE_NEWPID;\n",
            "    const int flags = CLONE_NEWUTS;\n"),
    Mistake("printing waits for whoever reads", "output.c",
            "    if (output.left_out || !keep(source, text, length)) output.left_out++;\n",
            "    if (write(STDOUT_FILENO, text, length) < 0 || source > OF_MONITOR) keep(source, text, length);\n"),
    Mistake("the run waits for the last line to be read", "output.c",
            "               !pthread_cond_clockwait(&output.moved, &output.lock, CLOCK_MONOTONIC, &end))\n",
            "               !pthread_cond_wait(&output.moved, &output.lock))\n"),
    Mistake("what the host writes into its own memory is a fault", "mmu.c",
            "        is_wrong |= has_page(memory->pages, record.gfn) == is_shared;\n",
            "        is_wrong |= has_page(memory->pages, record.gfn) == is_shared;\n"
            "        is_wrong |= !is_shared && has_page(mmu->host, frame);\n"),
    Mistake("an image may be anywhere", "guest.c",
            "guest->boot->parts[part].base + from / PAGE;\n",
            "image < guest->image_count ? guest->images[image].base : (uint32_t)from;\n"),
    Mistake("an image more may be there", "guest.c",
            "    return guest->boot && image == guest->image_count;\n",
            "    return guest->boot;\n"),
    Mistake("an image may be another guest's", "guest.c",
            " || !has_bytes(guest, base, file, from, length))\n",
            " || (!has_bytes(guest, base, file, from, length) && !guest))\n"),
    Mistake("a guest may have more processors", "guest.c",
            "guest->is_as_named && number < guest->boot->vcpus; number++)\n",
            "guest->is_as_named && number < VCPUS; number++)\n"),
    Mistake("Linux begins, whatever its kernel is", "guests/loader.c",
            "        if (!is_right) return 0;\n",
            ""),
    Mistake("only the kernel is measured", "guests/loader.c",
            "    for (int n = 0; n < MEASURED; n++) {\n        int is_right",
            "    for (int n = 0; n < 1; n++) {\n        int is_right"),
    Mistake("what firmware left stays", "guests/loader.c",
            '    __asm__ volatile("rep stosq"',
            '    if (!at) __asm__ volatile("rep stosq"'),
    Mistake("a terminal gets what a guest prints", "terminal.c",
            "    if (character == ESCAPE) ",
            "    if (character == ESCAPE && !terminal.is_open) "),
    Mistake("a terminal is left as a guest had it", "terminal.c",
            "    if (terminal.is_open) tcsetattr(",
            "    if (!terminal.is_open) tcsetattr("),
    Mistake("what is typed comes to no guest", "guest.c",
            "    device_type(&guest->devices, character);\n",
            "    if (!character) device_type(&guest->devices, character);\n"),
    Mistake("what is typed is lost before a guest is ready", "devices.c",
            "    return devices->serial[MODEM_CONTROL] & READY && devices->count <",
            "    return devices->count <"),
    Mistake("names of volumes do not sort", "core.c",
            '"%s.%05u%s"',
            '"%s.%u%s"'),
    Mistake("a volume is listed when it begins", "core.c",
            "    list_volume(core);\n",
            "    core->volume++, list_volume(core), core->volume--;\n"),
    Mistake("what is published is of the volume after it", "core.c",
            '    if (core->published >= 0) add(core->published, "what is published", line, length);\n',
            '    if (length) add(core->published, "what is published", line, published_line(core, line));\n'),
    Mistake("what is past an image's end stays", "guest.c",
            "        if (end) mmu_zero_end(",
            "        if (0) mmu_zero_end("),
]
