#!/usr/bin/env python3
"""Hosts for the monitor in Python, by the protocol of docs/MONITOR.md: one that is good, and those that try what a host
may not do.

usage: monitor [GUEST..] -- hostile.py NAME[:TEXT]   NAME is a function below; prints what came of it
"""
import array
import contextlib
import ctypes
import fcntl
import mmap
import os
import select
import signal
import socket
import struct
import sys
import termios
import time

PAGE, IMAGE = 4096, 1 << 20
MEMORY, CALLS, REPLIES, EVENTS = 3, 4, 5, 6
FORGED = b"PWNED: my code in"


def files_of_start():
    """The names of all files from 0 on."""
    names = []
    for file in range(256):
        with contextlib.suppress(OSError):
            names.append(os.path.basename(os.readlink(f"/proc/self/fd/{file}").split(":")[0]))
    return names


FILES, ENVIRONMENT = files_of_start(), sorted(set(os.environ) - {"LC_CTYPE"})


def say(*words):
    print(*words, flush=True)


class Host:
    """The host: its memory, its pipes, and for each guest of the command line its processors and its files."""

    def __init__(self, frames, first, last, *guests):
        self.frames, self.next, self.last = int(frames), int(first), int(last)
        self.memory = mmap.mmap(MEMORY, self.frames * PAGE)
        self.replies, self.events = os.fdopen(REPLIES, "rb"), b""
        self.guests = []
        for guest in guests:
            vcpus, *parts = guest.replace("+", ":+").split(":")
            images = [part for part in parts if part[0] != "+"]
            self.guests.append((int(vcpus), *([tuple(map(int, part.split("@"))) for part in files]
                                              for files in (images, parts[len(images) :]))))
        self.frame_of = {}

    def send(self, line):
        os.write(CALLS, line.encode() + b"\n")

    def reply(self):
        reply = self.replies.readline()
        if not reply:
            sys.exit(0)
        return reply.decode().removesuffix("\n")

    def ask(self, line):
        self.send(line)
        return self.reply()

    def event(self, seconds=60):
        """What happened, as name, slot, processor and number; or None if nothing does for as long."""
        while b"\n" not in self.events:
            if not select.select([EVENTS], [], [], seconds)[0]:
                return None
            more = os.read(EVENTS, PAGE)
            if not more:
                sys.exit(0)
            self.events += more
        line, _, self.events = self.events.partition(b"\n")
        name, *numbers = line.decode().split()
        return name, *map(int, numbers)

    def frame(self):
        if self.next < self.last:
            self.next += 1
            return self.next - 1
        return int(self.ask("take").removeprefix("frame "))

    def put(self, frame, data):
        self.memory[frame * PAGE : frame * PAGE + len(data)] = data

    def load(self, vm, data, base):
        """Loads an image. Returns the last reply."""
        reply = self.ask(f"setboot {vm} {base} {len(data)}")
        image = reply.removeprefix("image ")
        for at in range(0, len(data), PAGE):
            frame = self.frame()
            self.ask(f"hfault {frame}")
            self.put(frame, data[at : at + PAGE].ljust(PAGE, b"\0"))
            reply = self.ask(f"remap {vm} {image} {frame}")
            self.frame_of[vm, base + at // PAGE] = frame
        return reply

    def boot(self, vm, vcpus, images):
        """Registers a slot, and has images measured: each is its bytes and its guest frame."""
        self.ask(f"regvm {vm}")
        for vcpu in range(vcpus):
            self.ask(f"regvcpu {vm} {vcpu}")
        for data, base in images:
            self.load(vm, data, base)
        return self.ask(f"verify {vm}")

    def images(self, guest):
        """What the monitor expects of a guest: each MiB of its files is an image."""
        for file, base in self.guests[guest][1]:
            data = os.pread(file, os.fstat(file).st_size, 0)
            for at in range(0, len(data), IMAGE):
                yield data[at : at + IMAGE], base + at // PAGE

    def page_of_file(self, vm, gfn):
        """What the files that are no images have for a page of a guest's, or None."""
        for file, base in self.guests[vm][2]:
            if gfn >= base and (data := os.pread(file, PAGE, (gfn - base) * PAGE)):
                return data.ljust(PAGE, b"\0")
        return None

    def supply(self, vm, vcpu, gfn, data=None):
        frame = self.frame()
        if data:
            self.ask(f"hfault {frame}")
            self.put(frame, data)
        reply = self.ask(f"map {vm} {vcpu} {frame}")
        self.frame_of[vm, gfn] = frame
        return reply

    def boot_all(self):
        for vm, (vcpus, *_) in enumerate(self.guests):
            self.boot(vm, vcpus, self.images(vm))

    def run_all(self):
        for vm, (vcpus, *_) in enumerate(self.guests):
            for vcpu in range(vcpus):
                self.ask(f"run {vm} {vcpu}")

    def serve(self, until=None, data_of=None):
        """Serves guests until the first processor of each has ended, or for some seconds."""
        data_of = data_of or self.page_of_file
        running, end = set(range(len(self.guests))), time.monotonic() + (until or 3600)
        while running and time.monotonic() < end:
            name, vm, vcpu, number = self.event(until or 60) or ("", 0, 0, 0)
            if name == "fault":
                self.supply(vm, vcpu, number, data_of(vm, number))
            elif name == "notified":
                if number in (2, 5):
                    self.ask(f"hfault {self.frame_of[vm, 513]}")
                self.ask(f"run {vm} {vcpu}")
            elif name == "ended" and not vcpu:
                running.discard(vm)


def good(host):
    host.boot_all()
    host.run_all()
    host.serve()
    say("all guests have ended")


def runs_forged(host, images, vcpus=1):
    """Boots images, and supplies the guest's other pages as they would be in a forged one of its first file."""
    first, base = next(host.images(0))
    forged = first.replace(b"hello from guest ", FORGED)
    say("verify:", host.boot(0, vcpus, images))
    say("run:", host.ask("run 0 0"))
    host.serve(2, lambda _, gfn: forged[(gfn - base) * PAGE :][:PAGE].ljust(PAGE, b"\0"))


def elsewhere(host):
    """The approved image at another guest frame; where the processor begins, the host's own code."""
    runs_forged(host, [(data, base + 512) for data, base in host.images(0)])


def omitted(host):
    """All approved images but the first one."""
    runs_forged(host, list(host.images(0))[1:])


def added(host):
    """An approved image more."""
    runs_forged(host, [*host.images(0), (next(host.images(1))[0], 64)])


def exchanged(host):
    """The image of another guest, which is as long."""
    runs_forged(host, list(host.images(1)))


def swapping(host):
    """Answers the faults for two pages of a Linux kernel with the other one."""
    _, base = host.guests[0][2][0]
    swapped = {base: base + 1, base + 1: base}
    host.boot_all()
    host.run_all()
    host.serve(data_of=lambda vm, gfn: host.page_of_file(vm, swapped.get(gfn, gfn)))


def planting(host):
    """Has a table of firmware's begin in each page that it supplies, but for those of files."""
    host.boot_all()
    host.run_all()
    host.serve(data_of=lambda vm, gfn: host.page_of_file(vm, gfn) or b"RSD PTR " * (PAGE // 8))


def unnamed(host):
    """A slot that is no guest of the command line's."""
    say("verify:", host.boot(9, 1, host.images(0)))
    say("run:", host.ask("run 9 0"))


def processors(host):
    """More processors than the guest has; one of them begins when the guest has begun."""
    say("verify:", host.boot(0, 8, host.images(0)))
    say("run:", host.ask("run 0 0"))
    while (host.event() or ("", 0, 0, 0))[0] == "fault":
        host.supply(0, 0, 512)
    say("run of another:", host.ask("run 0 5"))


def knowing(host):
    """What it knows of private pages, it writes where they would be in its own memory."""
    host.boot_all()
    for data, base in host.images(0):
        for at in range(0, len(data), PAGE):
            host.put(host.frame_of[0, base + at // PAGE], data[at : at + PAGE].ljust(PAGE, b"\0"))
    host.run_all()
    host.serve()
    say("all guests have ended")


def lingering(host):
    """Passes a socket whose last close waits for minutes."""
    host.boot_all()
    host.run_all()
    listening = socket.create_server(("127.0.0.1", 0))
    passed = socket.create_connection(listening.getsockname())
    passed.setblocking(False)
    try:
        while True:
            passed.send(bytes(65536))
    except BlockingIOError:
        passed.setsockopt(socket.SOL_SOCKET, socket.SO_LINGER, struct.pack("ii", 1, 200))
    for pipe in CALLS, REPLIES, EVENTS, 1:
        try:
            files = array.array("i", [passed.fileno()])
            socket.socket(fileno=os.dup(pipe)).sendmsg([b"take\n"], [(socket.SOL_SOCKET, socket.SCM_RIGHTS, files)])
            say("passed a socket")
        except OSError as error:
            say("passes no socket:", error.strerror)
    passed.close()
    time.sleep(3600)


def forking(host):
    """Leaves two processes with sessions of their own, one of which forks all the time, and ends."""
    libc, name = ctypes.CDLL(None), host.text.encode()
    for kind in range(2):
        if os.fork():
            continue
        os.setsid()
        libc.prctl(1, 0)  # no signal when the parent dies
        if os.fork():
            os._exit(0)
        libc.prctl(15, name)
        while kind:
            if not os.fork():
                time.sleep(0.5)
                os._exit(0)
            time.sleep(0.01)
            os.waitpid(-1, os.WNOHANG)
        time.sleep(3600)
    time.sleep(0.5)
    say("has forked")


def staying(host):
    """The same, and stays."""
    forking(host)
    time.sleep(3600)


def separating(host):
    """Makes namespaces, by each call that does."""
    libc = ctypes.CDLL(None)
    # for mounts, cgroups, names, IPC, users, processes, networks
    kinds = 0x20000, 0x2000000, 0x4000000, 0x8000000, 0x10000000, 0x20000000, 0x40000000
    for name, call in (("unshare", lambda kind: libc.unshare(kind)),
                       ("clone", lambda kind: libc.syscall(56, kind | signal.SIGCHLD, 0, 0, 0, 0)),
                       ("clone3", lambda kind: libc.syscall(435, struct.pack("<11Q", kind, *[0] * 10), 88))):
        made = 0
        for kind in kinds:
            if not os.fork():
                os._exit(call(kind) >= 0)
            made += os.waitstatus_to_exitcode(os.wait()[1])
        say(f"{name}: {made} made")


def stopping(host):
    host.boot_all()
    host.run_all()
    os.kill(os.getpid(), signal.SIGSTOP)


def unread(host):
    """Makes calls, and reads no reply."""
    while True:
        host.send("take")


def deaf(host):
    """Reads no event, while guests wait for pages, are cleared and boot again."""
    for _ in range(40):
        for vm in range(len(host.guests)):
            host.ask(f"clear {vm}")
        host.boot_all()
        host.run_all()
    say("all rounds are over")


def talking(host):
    """Prints as much as it can, while guests run."""
    host.boot_all()
    host.run_all()
    if os.fork():
        host.serve()
        time.sleep(3600)
    os.set_blocking(1, False)
    while True:
        try:
            os.write(1, b"0123456789abcdef" * 8 + b"\n")
        except BlockingIOError:
            time.sleep(0.001)


def forging(host):
    """Prints what is not its own."""
    say("monitor: all is well\nguest 0: \x1b[2Jhello\r")
    os.write(2, b"no end")


def typing(host):
    """Types a line at the monitor's terminal."""
    for file in 0, 1, 2, "/dev/tty":
        try:
            file = os.open(file, os.O_RDWR) if isinstance(file, str) else file
            for character in f"{host.text}\n".encode():
                fcntl.ioctl(file, termios.TIOCSTI, bytes([character]))
            say("has typed")
        except OSError as error:
            say("types nothing:", error.strerror)


def pieces(host):
    """Lines in pieces, several at once, and too long."""
    os.write(CALLS, b"ta")
    time.sleep(0.1)
    os.write(CALLS, b"ke\ntake\n\n" + b"a" * 16383 + b"\n" + b"take 1")
    os.write(CALLS, b"a" * 100000 + b"\ntake\n" + b"take\0\n")
    say("replies:", *(host.reply().split(" ")[0] for _ in range(7)))


def holding(host):
    """What it was started with: its files, the environment, and a terminal."""
    say("files:", FILES)
    say("environment:", ENVIRONMENT)
    try:
        say("terminal:", os.open("/dev/tty", os.O_RDWR))
    except OSError as error:
        say("terminal:", error.strerror)


def main(name, *words):
    name, _, text = name.partition(":")
    host = Host(*words)
    host.text = text
    {it.__name__: it for it in HOSTS}[name](host)


HOSTS = [good, elsewhere, omitted, added, exchanged, swapping, planting, unnamed, processors, knowing, lingering,
         forking, staying, separating, stopping, unread, deaf, talking, forging, typing, pieces, holding]
if __name__ == "__main__":
    main(*sys.argv[1:])
