#!/usr/bin/env python3
"""Runs the adapter bridge/tty_ticks.c between two pseudo-terminals, with a small program at its other end.

    python3 scripts/tty_ticks_check.py [PART..]
    python3 scripts/tty_ticks_check.py planted

A PART is a function of this script, such as `two_wires`. Without one all parts are run, over three builds of the adapter: as it is
built for use, with the sanitizers for addresses and undefined behaviour, and with the sanitizer for threads. `planted` also makes the
adapter wrong in the ways that PLANTED lists, one at a time, and fails if the part that is named there doesn't notice one.

The program at the other end is this script too: it reads the stream of ticks, refuses a line that the grammar doesn't have, and tells
each tick again in the same direction. A part in which something is wrong is run again, at most four times, since a machine that is busy
may delay a byte for too long. With `planted` three of five runs decide, of the right adapter and of the wrong ones. It ends with 1 if
something is wrong, and with 2 if there is no C compiler. It is no part of the gate.
"""
import collections, concurrent.futures, fcntl, functools, os, re, select, signal, socket, subprocess, sys, tempfile, termios, threading, time

import bridge_build
from live_line import Port

ROOT = os.path.dirname(os.path.dirname(os.path.abspath(__file__)))
SOURCE = os.path.join(ROOT, "bridge", "tty_ticks.c")
# A slow rate, at which it matters least that this machine is busy. A pseudo-terminal has no parity, so a tick has two stop bits here.
BAUD = 1200
TICK = 11 / BAUD
RATE = ["-b", str(BAUD), "-P", "none", "-S", "2"]
HOLD, PLAYOUT = 30, 70
FRAME, REPLY, TRAILER = bytes.fromhex("01030000000ac5cd"), bytes.fromhex("0103020007f986"), bytes(range(0x40, 0x4e))
TRIES, MOST, AT_ONCE = 5, 3, 6
# The most lines of code that the adapter may have, without comments and blank lines.
LINES = 300
BUILDS = {
    "plain": ["-O2", "-Werror"],
    "addresses": ["-O1", "-g", "-fsanitize=address,undefined", "-fno-sanitize-recover=all"],
    "threads": ["-O1", "-g", "-fsanitize=thread"],
}
# A change of the adapter by which it takes a pseudo-terminal for a port that keeps its rate.
KEEPS_RATE = ("p->has_rate = ioctl(p->fd, TIOCGSERIAL, &s) == 0;", "memset(&s, 0, sizeof s), p->has_rate = 1;")
# Linked around the calls of `write` on a terminal: at most one byte is taken, or none.
WRITES = r"""
#include <errno.h>
#include <unistd.h>
ssize_t __real_write(int, const void *, size_t);
ssize_t __wrap_write(int fd, const void *bytes, size_t size) {
    size_t takes = TAKES;
    if (!isatty(fd)) return __real_write(fd, bytes, size);
    return takes == 0 ? errno = EAGAIN, -1 : __real_write(fd, bytes, size < takes ? size : takes);
}
"""
# Words that are none, and texts that aren't lines of the stream.
NO_WORDS = ("-b 9600x", "-b 9601", "-b ", "-b -9600", "-b 0x2580", "-b 96e2", "-S 3", "-S 1.", "-S 0", "-H 20ms", "-H -1", "-H nan",
            "-H 99999999999", "-H 1001", "-D 2,5", "-D inf", "-2 1ms", "-2 -1", "-P evenly", "-P e", "-P ", "-x")
NO_LINES = (r">+0\n", r">+\n", r">-\n", r">-0\n", r">-1000001\n", r">-1x\n", r">-99999999999999999999\n", r"+01\n", r"=+01\n", r">+0g\n",
            r">+01 \n", r">\n", r"\n", ">+" + "01" * 33 + r"\n", r">+01\r\n", r">+01\x00\n", r">+AB\n", r">+010", "z" * 9000)
LINE = re.compile(rb"[<>](\+(?:[0-9a-f]{2}){1,32}|-[1-9][0-9]{0,6}|#.*)\n\Z")


# ---- the program at the other end

def lines_of_input():
    """The lines that come, as soon as they come. Ends with status 9 at one that is none."""
    kept = b""
    while True:
        content = os.read(0, 1 << 16)
        if not content:
            if kept:
                sys.exit(9)
            return
        *lines, kept = (kept + content).split(b"\n")
        for line in lines:
            if not LINE.match(line + b"\n") or (line[1:2] == b"-" and int(line[2:]) > 1000000):
                sys.exit(9)
            yield line + b"\n"


def tell(content):
    while content:
        content = content[os.write(1, content):]


class Later:
    """Tells the ticks of a direction as many ticks later as it is made for, and what it has left at the end."""

    def __init__(self, way, ticks):
        self.way, self.kept = way, collections.deque([None] * ticks)

    def text_of(self, ticks):
        return b"".join(b"%s-1\n" % self.way if tick is None else b"%s+%02x\n" % (self.way, tick) for tick in ticks)

    def take(self, text):
        ticks = list(bytes.fromhex(text[2:].decode())) if text[1:2] == b"+" else [None] * int(text[2:])
        self.kept.extend(ticks)
        return self.text_of(self.kept.popleft() for _ in ticks)


def line(log, mode, *words):
    """Tells each tick again, and keeps in `log` what it read. At the first byte it does what `mode` says."""
    did, later = False, {way: Later(way, int(words[0]) if mode == "behind" else 0) for way in (b">", b"<")}
    if mode == "deaf":
        fcntl.fcntl(0, fcntl.F_SETPIPE_SZ, 4096)
        time.sleep(30)
    with open(log, "ab", buffering=0) as file:
        for text in lines_of_input():
            file.write(text)
            if text[1:2] == b"+" and not did:
                did = True
                if mode == "late":
                    time.sleep(float(words[0]))
                elif mode == "tells":
                    tell(words[0].encode().decode("unicode_escape").encode("latin1"))
                elif mode == "notes":
                    for number in range(int(words[0])):
                        os.write(2, b"note %d of this program\n" % number)
                elif mode == "ends":
                    sys.exit(int(words[0]))
            tell(later[text[:1]].take(text) if mode == "behind" else text)
    if mode == "behind":
        for each in later.values():
            tell(each.text_of(each.kept))
    if mode == "closes":
        os.close(1)
        os.close(2)
    if mode in ("stays", "closes"):
        time.sleep(30)


# ---- a run of the adapter

def line_words(log, mode, *words):
    return [sys.executable, os.path.abspath(__file__), "line", log, mode, *map(str, words)]


class Run:
    """A run of the adapter, and what comes out of its two ports, each byte with the time at which it came."""

    def __init__(self, tried, mode, *words, more=(), program=None, rate=RATE, echo=0, stderr=None, closed=()):
        self.folder = tempfile.mkdtemp(dir=tried.folder)
        self.device, self.link = Port(TICK), Port(TICK)
        self.came, self.stopping = {self.device: [], self.link: []}, threading.Event()
        self.log, self.echo = os.path.join(self.folder, "told"), echo
        open(self.log, "w").close()
        self.errors = os.path.join(self.folder, "errors")
        program = program or line_words(self.log, mode, *words)
        words = [tried.adapter, *rate, "-H", str(HOLD), "-D", str(PLAYOUT), *more, self.device.path, self.link.path, "--", *program]
        with open(self.errors, "wb") as errors:
            self.run = subprocess.Popen(words, stdin=subprocess.DEVNULL, stdout=subprocess.DEVNULL, stderr=stderr or errors,
                                        preexec_fn=lambda: [os.close(place) for place in closed])
        self.thread = threading.Thread(target=self.gather, daemon=True)
        self.thread.start()
        self.wait_for(lambda: self.told() or self.run.poll() is not None, 10)

    def gather(self):
        ports = [self.device, self.link]
        while not self.stopping.is_set():
            ready, _, _ = select.select([port.here for port in ports], [], [], 0.02)
            for port in list(ports):
                if port.here in ready:
                    at = time.monotonic()
                    try:
                        content = os.read(port.here, 512)
                    except OSError:
                        ports.remove(port)
                        continue
                    self.came[port] += [(byte, at) for byte in content]
                    if self.echo and port is self.link:
                        threading.Timer(self.echo * TICK, os.write, (port.here, content)).start()

    def told(self):
        with open(self.log, "rb") as file:
            return file.read()

    def ticks(self, way):
        """What the program was told in a direction: a byte for each tick that has one, and None for a silent tick."""
        found = []
        for text in self.told().splitlines():
            if text[:1] == way and text[1:2] == b"+":
                found += bytes.fromhex(text[2:].decode())
            elif text[:1] == way:
                found += [None] * int(text[2:])
        return found

    def heard(self, way):
        return bytes(tick for tick in self.ticks(way) if tick is not None)

    def bytes(self, port):
        return bytes(byte for byte, _ in self.came[port])

    def wait_for(self, holds, seconds=3.0):
        end = time.monotonic() + seconds
        while not holds() and time.monotonic() < end:
            time.sleep(0.005)
        return holds()

    def send(self, port, *bursts):
        """Writes bursts, each at once and so many ticks after the one before it. Returns when the first was written."""
        at = time.monotonic()
        for ticks, burst in bursts:
            at += ticks * TICK
            time.sleep(max(0, at - time.monotonic()))
            os.write(port.here, burst)
        return at - sum(ticks for ticks, _ in bursts[1:]) * TICK

    def end(self, seconds=15):
        """Ends the adapter. Returns its status and what it wrote to standard error."""
        if self.run.poll() is None:
            self.run.send_signal(signal.SIGTERM)
        try:
            status = self.run.wait(timeout=seconds)
        except subprocess.TimeoutExpired:
            self.run.kill()
            status = self.run.wait()
        time.sleep(0.05)
        self.stopping.set()
        self.thread.join()
        for port in (self.device, self.link):
            try:
                port.close()
            except OSError:
                pass
        with open(self.errors, errors="replace") as file:
            return status, file.read()


class Tried:
    def __init__(self, folder, adapter, compiled):
        self.folder, self.adapter, self.compiled, self.wrong, self.said = folder, adapter, compiled, 0, []

    def see(self, holds, what):
        self.said.append("%s %s" % ("right:" if holds else "WRONG:", what))
        self.wrong += not holds

    def with_writes(self, takes):
        """The same adapter, whose terminals take so many bytes with each call."""
        return Tried(self.folder, self.compiled(["-DTAKES=%du" % takes, "-Wl,--wrap=write"], WRITES), self.compiled)

    def with_changes(self, *changes):
        """The same adapter with other values of constants, so that less has to be waited for."""
        return Tried(self.folder, self.compiled(changes=changes), self.compiled)


def gaps_of(come):
    """The ticks between one byte and the next."""
    return [(later - earlier) / TICK for (_, earlier), (_, later) in zip(come, come[1:])]


# ---- the parts

def both_ways(tried):
    """What a port hears is told in its direction, and what is told in a direction is played on its port: whole, once, in time."""
    run = Run(tried, "pass")
    there = threading.Thread(target=run.device.write, args=(FRAME * 5,))
    there.start()
    run.link.write(REPLY * 5)
    there.join()
    run.wait_for(lambda: len(run.bytes(run.link)) >= 40 and len(run.bytes(run.device)) >= 35)
    at = run.send(run.device, (40, FRAME))
    run.wait_for(lambda: len(run.bytes(run.link)) >= 48)
    took = run.came[run.link][40][1] - at if len(run.came[run.link]) > 40 else -1
    status, said = run.end()
    heard = run.heard(b">") == FRAME * 6 and run.heard(b"<") == REPLY * 5
    tried.see(status == 0 and heard, "what the ports heard was told: %s" % said[-300:])
    tried.see(run.bytes(run.link) == FRAME * 6 and run.bytes(run.device) == REPLY * 5, "it was played on the other port")
    delay = (HOLD + PLAYOUT) / 1000
    tried.see(delay - TICK / 4 <= took <= delay + 4 * TICK, "the first byte was played %.0f ms after it came" % (1000 * took))
    tried.see(len(run.ticks(b">")) == len(run.ticks(b"<")), "both directions were told as many ticks")


def pauses(tried):
    """On the link one gap of a burst between 2.5 and 6.5 ticks is three silent ticks, a shorter one or a further one none."""
    run = Run(tried, "pass")
    for short, gap in ((FRAME[:1], 4), (FRAME[:1], 2.2), (FRAME[:1], 5.5), (FRAME[:1], 12)):
        run.send(run.link, (40, short), (gap, TRAILER))
        time.sleep(TICK * len(TRAILER))
    run.send(run.link, (40, FRAME[:1]), (4, TRAILER[:1]), (4, TRAILER[1:]))
    time.sleep(TICK * (len(TRAILER) + 60))
    status, said = run.end()
    ticks = run.ticks(b"<")
    begins = [place for place, tick in enumerate(ticks) if tick == FRAME[0]]
    silent = [next(n for n, tick in enumerate(ticks[place + 1:]) if tick is not None) for place in begins]
    tried.see(status == 0 and len(begins) == 5, "five bursts were told: %s" % said[-300:])
    tried.see(silent[:3] == [3, 0, 3] and 9 <= silent[3] <= 13, "their gaps are %s silent ticks" % silent)
    tried.see(silent[4:] == [3] and bytes(tick or 0 for tick in ticks[begins[-1] + 4:][:14]) == TRAILER, "a burst has one pause")


def times(tried):
    """A port without a rate of its own gets no byte before its time, and a pause stays one."""
    run, delay = Run(tried, "pass"), (HOLD + PLAYOUT) / 1000
    sent = []
    for _ in range(3):
        sent.append(run.send(run.link, (60, FRAME), (len(FRAME) + 3, TRAILER)))
        time.sleep(TICK * 60)
    status, said = run.end()
    come, size = run.came[run.device], len(FRAME) + len(TRAILER)
    whole = status == 0 and run.bytes(run.device) == (FRAME + TRAILER) * 3
    tried.see(whole, "three packets were played: %s" % said[-300:])
    found = []
    for number, at in enumerate(sent if whole else ()):
        part = come[number * size:(number + 1) * size]
        early = max(place + (3 if place >= len(FRAME) else 0) - (came - at - delay) / TICK for place, (_, came) in enumerate(part))
        tried.see(early < 0.5, "no byte came early (%.2f ticks)" % early)
        found.append(gaps_of(part)[len(FRAME) - 1])
    # on a busy machine the bytes are read late here, so not each pause can be seen
    tried.see(any(2.6 < pause < 7 for pause in found), "a pause of %s ticks" % ", ".join("%.2f" % pause for pause in found))


def blocks(tried):
    """On a port that keeps its rate, bytes that are read at once came one a tick. On another one they came just then."""
    frame = bytes(range(0x60, 0x6a))
    for changes in ((KEEPS_RATE,), ()):
        run = Run(tried.with_changes(*changes), "pass", more=("-H", "120"))
        run.send(run.device, (40, frame[:1]), (1, frame[1:2]), (1, frame[2:3]), (7, frame[3:]))
        time.sleep(TICK * 40)
        status, said = run.end()
        ticks = run.ticks(b">")
        first = ticks.index(frame[0]) if frame[0] in ticks else 0
        together = None not in ticks[first:first + len(frame)]
        tried.see(status == 0 and run.heard(b">") == frame and together == bool(changes),
                  "with %d changes it was told %s: %s" % (len(changes), "in a row" if together else "with a gap", said[-200:]))


def late(tried):
    """What the program tells late is played at once, but keeps its pause."""
    run = Run(tried, "late", 0.25)
    run.send(run.link, (40, FRAME), (len(FRAME) + 3, TRAILER))
    run.wait_for(lambda: len(run.bytes(run.device)) >= len(FRAME) + len(TRAILER))
    status, said = run.end()
    pause = ([0] + gaps_of(run.came[run.device]))[min(len(FRAME), len(run.came[run.device]) - 1)]
    tried.see(status == 0 and run.bytes(run.device) == FRAME + TRAILER, "it was played whole: %s" % said[-300:])
    tried.see(2.6 < pause < 7, "its pause is %.2f ticks" % pause)
    tried.see(re.search(r"[1-9]\d* bytes came late from the program, by 1\d\d\.", said), "its being late is said")


def too_late(tried):
    """Bursts that the program tells more than half a second late aren't played, and this is said. Those that are played are whole."""
    run = Run(tried, "late", 1.6)
    run.send(run.device, *[(60, FRAME[:7] + bytes((number,))) for number in range(8)])
    time.sleep(1)
    status, said = run.end()
    whole = run.bytes(run.link)
    numbers = [whole[place + 7] for place in range(0, len(whole) - 7, 8)]
    played = b"".join(FRAME[:7] + bytes((number,)) for number in numbers)
    tried.see(status == 0 and whole == played, "whole bursts were played: %s" % said[-300:])
    tried.see(7 in numbers and 0 not in numbers and sorted(numbers) == numbers, "of eight, these were played: %s" % numbers)
    lost = "%d came too late and weren't played" % (64 - len(whole))
    tried.see(lost in said and "what comes over 500 ms late isn't played" in said, "the others are counted")


def notes(tried):
    """Notes that nobody takes don't hold up the line. When someone takes them again they are whole lines, and the others are counted."""
    here, there = os.pipe()
    run = Run(tried, "notes", 20000, stderr=there)
    os.close(there)
    run.send(run.device, (40, FRAME))
    came = run.wait_for(lambda: run.bytes(run.link) == FRAME, 6)
    run.send(run.device, (40, FRAME))
    came = came and run.wait_for(lambda: run.bytes(run.link) == FRAME * 2)
    said = b""
    while select.select([here], [], [], 0.5)[0]:
        said += os.read(here, 1 << 16)
    run.run.send_signal(signal.SIGTERM)
    while content := os.read(here, 1 << 16):
        said += content
    os.close(here)
    status, _ = run.end()
    lines = said.decode().splitlines(keepends=True)
    lost = max(map(int, re.findall(r"(\d+) lines were dropped", said.decode())), default=0)
    taken = sum(each.startswith("note ") for each in lines)
    tried.see(status == 0 and came, "the line went on beside them")
    tried.see(all(re.match(r"(note \d+ of this program|tty_ticks: .*)\n\Z", each) for each in lines), "what was taken are whole lines")
    tried.see(lost >= 20000 - taken > 0, "%d of 20000 were taken, and %d lines are said to be dropped" % (taken, lost))


def gone(tried):
    """Nor does a reader of notes that is gone end the line, and no port takes the place of a closed stream."""
    here, there = os.pipe()
    os.close(here)
    for how in ({"stderr": there}, {"closed": (0, 1, 2)}):
        run = Run(tried, "notes", 200, **how)
        run.send(run.device, (40, FRAME))
        run.wait_for(lambda: run.bytes(run.link) == FRAME)
        status, _ = run.end()
        played = run.bytes(run.link) == FRAME and run.bytes(run.device) == b""
        tried.see(status == 0 and played, "status %d with %s" % (status, list(how)[0]))
    os.close(there)


def words(tried):
    """A port that can't do the parity that is asked for is refused, and so are words that are none."""
    port, other = Port(TICK), Port(TICK)
    ends = [port.path, other.path, "--", "true"]

    def status(*more):
        ran = subprocess.run([tried.adapter, *more], capture_output=True, text=True, timeout=10)
        return ran.returncode, ran.stderr

    for parity in ("even", "odd"):
        code, said = status("-P", parity, *ends)
        tried.see(code == 3 and port.path in said and "parity" in said, "parity %s: status %d, %s" % (parity, code, said.strip()))
    for more in NO_WORDS:
        code, said = status("-P", "none", *more.split(" "), *ends)
        tried.see(code == 2 and "tty_ticks [-b BAUD]" in said, "%r: status %d" % (more, code))
    for more in ([], ends[:2], ends[:3], ends[:2] + ["true", "--"]):
        tried.see(status("-P", "none", *more)[0] == 2, "%s: the words are refused" % more)
    tried.see(status("-P", "none", "/nowhere/tty", *ends[1:])[0] == 3, "a port that isn't there is refused")
    tried.see(status("-P", "none", "/dev/null", *ends[1:])[0] == 3, "a file that is no port is refused")
    tried.see(status("-P", "none", "-R", *ends)[0] == 3, "a port whose driver doesn't switch RS-485 is refused")
    tried.see(status("-P", "none", *ends[:3], "/nowhere/program")[0] == 127, "a program that isn't there is status 127")
    tried.see(status("-P", "none", *ends[:3], "unix:/nowhere/socket")[0] == 3, "a socket that isn't there is refused")
    port.close(), other.close()


def ports(tried):
    """A port that another run has is refused, and so is one as both ports. No setting that a port had before adds bytes or changes them."""
    run = Run(tried, "pass")
    spare = Port(TICK)
    for ends in ((run.device.path, spare.path), (spare.path, run.link.path), (spare.path, spare.path)):
        ran = subprocess.run([tried.adapter, *RATE, *ends, "--", "true"], capture_output=True, text=True, timeout=10)
        tried.see(ran.returncode == 3 and "another run has it" in ran.stderr, "status %d, %s" % (ran.returncode, ran.stderr.strip()))
    spare.close()
    run.send(run.device, (40, FRAME))
    run.wait_for(lambda: run.bytes(run.link) == FRAME)
    tried.see(run.end()[0] == 0 and run.bytes(run.link) == FRAME, "the run that has them goes on")
    port, other = Port(TICK), Port(TICK)
    was = termios.tcgetattr(port.there)
    was[0] |= termios.IXOFF | termios.IXANY | termios.IXON | termios.ISTRIP | termios.INLCR | termios.PARMRK | termios.BRKINT
    was[1] |= termios.OPOST | termios.ONLCR
    was[3] |= termios.ECHO | termios.ICANON | termios.ISIG
    termios.tcsetattr(port.there, termios.TCSANOW, was)
    begun = subprocess.Popen([tried.adapter, *RATE, port.path, other.path, "--", "sleep", "30"], stdin=subprocess.DEVNULL,
                             stderr=subprocess.DEVNULL)
    time.sleep(0.5)
    now = termios.tcgetattr(port.there)
    begun.kill()
    begun.wait()
    port.close(), other.close()
    tried.see(now[0] == termios.INPCK | termios.IGNPAR | termios.IGNBRK and not now[1] & termios.OPOST
              and not now[3] & (termios.ECHO | termios.ICANON | termios.ISIG), "the settings are %x %x %x" % (now[0], now[1], now[3]))


def ahead(tried):
    """A tick that the program tells before it was heard ends the adapter, and isn't played."""
    for text in (r">-1000000\n>+77\n", r"<-500\n>+77\n", (r">+" + "66" * 32 + r"\n") * 40 + r">+77\n"):
        run = Run(tried, "tells", text)
        run.send(run.device, (30, FRAME))
        ended = run.wait_for(lambda: run.run.poll() is not None, 4)
        status, said = run.end()
        refused = status == 4 and "it told a tick that wasn't heard yet" in said
        tried.see(ended and refused and b"\x77" not in run.bytes(run.link), "%.20s: status %d: %s" % (text, status, said[-200:]))


def joined(tried):
    """A program at a socket is told and played as any other. It is told of a stop, and its end is a fault."""
    for mode, words, expected in (("behind", (60,), 0), ("ends", (0,), 4)):
        folder = tempfile.mkdtemp(dir=tried.folder)
        path, log = os.path.join(folder, "socket"), os.path.join(folder, "told")
        with socket.socket(socket.AF_UNIX) as server:
            server.bind(path)
            server.listen(1)
            server.settimeout(10)
            begun = []

            def serve():
                here, _ = server.accept()
                begun.append(subprocess.Popen(line_words(log, mode, *words), stdin=here, stdout=here, stderr=subprocess.DEVNULL))
                here.close()

            thread = threading.Thread(target=serve, daemon=True)
            thread.start()
            run = Run(tried, None, program=["unix:" + path])
            run.log = log
            run.wait_for(lambda: os.path.exists(log) and run.told() != b"")
            run.send(run.device, (40, FRAME))
            time.sleep(0.2)
            if mode == "ends":
                run.wait_for(lambda: run.run.poll() is not None)
            before = run.bytes(run.link)
            status, said = run.end()
            thread.join()
            for program in begun:
                program.kill()
                program.wait()
        played, right = run.bytes(run.link), FRAME if mode == "behind" else b""
        tried.see(status == expected and len(before) < 8 and played == right, "%s: status %d, %d bytes before the stop, %d in all: %s"
                  % (mode, status, len(before), len(played), said[-200:]))
        tried.see(mode == "behind" or "the program: it ended" in said, "that it ended is said: %s" % said[-200:])


def bad_lines(tried):
    """A line of the program that is none ends the adapter, and neither it nor what follows it is played."""
    for text in NO_LINES:
        run = Run(tried, "tells", text + (r">+77\n" if text.endswith(r"\n") else ""))
        run.send(run.device, (30, FRAME))
        run.wait_for(lambda: run.run.poll() is not None, 2)
        if text == r">+010":
            run.send(run.device, (30, FRAME))
        status, said = run.end()
        refused = status == 4 and "it told a line that is none" in said and run.bytes(run.link) == b""
        tried.see(refused, "%.20s: status %d %s" % (text, status, run.bytes(run.link).hex()))


def stop(tried):
    """On a stop the program's input ends, all that it still tells is played, and its status is the adapter's."""
    run = Run(tried, "behind", 100)
    run.send(run.device, (40, FRAME), (30, FRAME))
    time.sleep(0.2)
    before = run.bytes(run.link)
    status, said = run.end()
    played = run.bytes(run.link)
    tried.see(status == 0 and len(before) < 16 and played == FRAME * 2,
              "of 16 bytes %d were played before the stop, %d in all: %s" % (len(before), len(played), said[-300:]))
    run = Run(tried, "ends", 7)
    run.send(run.device, (40, FRAME))
    run.wait_for(lambda: run.run.poll() is not None)
    tried.see(run.run.poll() == 7, "a program that ends with 7 ends it with %s" % run.run.poll())
    run.end()


def flood(tried):
    """A port that brings more than its rate ends the line, and no backlog is longer than two seconds."""
    run = Run(tried, "pass")
    begun = time.monotonic()
    for _ in range(80):
        try:
            run.send(run.device, (0, bytes(range(0x50, 0x50 + 50))))
        except OSError:
            break
    ended = run.wait_for(lambda: run.run.poll() is not None, 8)
    took = time.monotonic() - begun
    status, said = run.end()
    sent, played = bytes(range(0x50, 0x50 + 50)) * 80, run.bytes(run.link)
    tried.see(ended and status == 4 and "it brings more than its rate" in said, "it ended after %.1f s: %s" % (took, said[-300:]))
    tried.see(sent.startswith(played) and played == run.heard(b">"), "%d bytes were told and played, in order" % len(played))


def vanished(tried):
    """A port that vanishes ends the line, and what is told for the other port is still played."""
    run = Run(tried, "behind", 60)
    run.send(run.link, (40, FRAME))
    time.sleep(0.2)
    os.close(run.link.there)
    os.close(run.link.here)
    run.link.here = run.link.there = os.open("/dev/null", os.O_RDWR)
    run.link.there = os.dup(run.link.here)
    ended = run.wait_for(lambda: run.run.poll() is not None, 5)
    status, said = run.end()
    tried.see(ended and status == 4 and "the port is gone" in said, "status %d: %s" % (status, said[-300:]))
    tried.see(run.bytes(run.device) == FRAME, "the other port got %s" % run.bytes(run.device).hex())


def two_wires(tried):
    """On two wires what is sent comes back, and isn't heard, nor if it comes back late and that is allowed for. What comes later is."""
    for echo, more in ((0.25, ()), (0.25, ("-2", "20")), (20, ("-2", "300"))):
        run = Run(tried, "pass", more=more, echo=echo)
        run.send(run.device, (40, FRAME))
        run.wait_for(lambda: len(run.bytes(run.link)) >= len(FRAME))
        time.sleep(TICK * (echo + 20) + 0.3)
        run.send(run.link, (0, REPLY))
        run.wait_for(lambda: run.bytes(run.device).endswith(REPLY))
        time.sleep(0.2)
        status, said = run.end()
        heard = run.heard(b"<")
        if more:
            right = status == 0 and heard == REPLY and run.bytes(run.link) == FRAME
            tried.see(right, "with %s it hears the reply alone: %s %s" % (" ".join(more), heard.hex(), said[-300:]))
            tried.see("; %d came while it sent;" % len(FRAME) in said, "the others are counted")
        else:
            tried.see(status == 0 and heard.startswith(FRAME), "without -2 it hears what it sent: %s" % heard.hex())


def parts_of_writes(tried):
    """A port that takes one byte with each call gets all of them. One that takes none ends the line."""
    run = Run(tried.with_writes(1), "late", 0.15)
    run.send(run.device, (40, FRAME))
    run.wait_for(lambda: len(run.bytes(run.link)) >= len(FRAME))
    status, said = run.end()
    tried.see(status == 0 and run.bytes(run.link) == FRAME, "%s, status %d: %s" % (run.bytes(run.link).hex(), status, said[-200:]))
    run = Run(tried.with_writes(0), "pass")
    run.send(run.device, (40, FRAME))
    ended = run.wait_for(lambda: run.run.poll() is not None, 6)
    status, said = run.end()
    tried.see(ended and status == 4 and "it takes less than its rate" in said and "8 bytes were told, and 0 played" in said, said[-300:])


def unending(tried):
    """A program that doesn't read, or doesn't end, doesn't keep the adapter from ending. What one that has ended told is all played."""
    hasty = tried.with_changes(("END_MS = 10000", "END_MS = 500"), ("TEXT = 1 << 16", "TEXT = 512"))
    for mode in ("stays", "closes"):
        run = Run(hasty, mode)
        run.send(run.device, (40, FRAME))
        run.wait_for(lambda: run.bytes(run.link) == FRAME)
        status, said = run.end(5)
        tried.see(status == 4 and (mode == "closes" or "it doesn't end" in said), "%s: status %d: %s" % (mode, status, said[-300:]))
    run = Run(hasty, "behind", 200)
    run.send(run.device, (40, FRAME))
    time.sleep(0.3)
    status, said = run.end(5)
    tried.see(status == 0 and run.bytes(run.link) == FRAME, "status %d, played %s: %s" % (status, run.bytes(run.link).hex(), said[-300:]))
    run = Run(hasty, "deaf")
    ended = run.wait_for(lambda: run.run.poll() is not None, 12)
    status, said = run.end()
    tried.see(ended and status == 4 and "it doesn't read" in said, "status %d: %s" % (status, said[-300:]))


PARTS = [both_ways, pauses, times, blocks, late, too_late, notes, gone, words, ports, bad_lines, ahead, joined, stop, flood, vanished,
         two_wires, parts_of_writes, unending]


# ---- the adapter, right and wrong

# What is wrong, the part that notices it, or None if none does, and the changes.
PLANTED = [
    ("a byte that it wasn't told", both_ways, [("ssize_t done = write(p->fd, bytes, n);",
        "ssize_t done = write(p->fd, bytes, n); if (*bytes == 0xc5) (void)!write(p->fd, bytes, 1);")]),
    ("a byte that it was told, changed on its way", both_ways, [("(q->byte[i] = byte,", "(q->byte[i] = (uint8_t)(byte ^ (byte == 0xc5)),")]),
    ("the directions of what is told exchanged", both_ways, [("&ports[line[0] == '>']", "&ports[line[0] == '<']")]),
    ("all directions exchanged", both_ways, [("&ports[line[0] == '>']", "&ports[line[0] == '<']"),
        ("p->is_link ? '<' : '>'", "p->is_link ? '>' : '<'")]),
    ("what it sent is heard", two_wires, [("opt.deaf >= 0 && at <", "0 && at <")]),
    ("what it sent is heard if it comes back late", two_wires, [(" + opt.deaf * MS", "")]),
    ("a pause of two ticks", pauses, [("take = p->silents >= 3", "take = p->silents >= 2")]),
    ("a gap of 2.2 ticks is a pause", pauses, [("len * 5 / 2", "len * 7 / 4")]),
    ("any gap is a pause", pauses, [("apart && gap <= len * 13 / 2", "apart")]),
    ("a burst has several pauses", pauses, [("p->snapped |= pause,", "")]),
    ("what is late loses its gaps", late, [("at < kept ? kept : at", "at < 0 ? kept : at")]),
    ("bytes leave before their time", times, [("p->has_rate ? 2 * len : 0", "6 * len")]),
    ("what comes too late is played", too_late, [("t - at > LATE_MS * MS", "0")]),
    ("bytes of a write that was cut are lost", parts_of_writes, [("drop(&p->play, (size_t)done)", "drop(&p->play, n)")]),
    ("a queue that is full goes on", flood, [('fail(p->path, "it brings more than its rate");', ";")]),
    ("bytes that are read at once came just then", blocks, [("p->has_rate ? came - (got - 1 - i) * len : came", "came")]),
    ("a stop cuts what is played", stop, [("if (a->play.count + b->play.count == 0) return 0;", "return 0;")]),
    ("a stop isn't told to the program", stop, [("shutdown(to_program, SHUT_WR), close(to_program), ", "")]),
    ("a stop isn't told to a program at a socket", joined, [("shutdown(to_program, SHUT_WR), ", "")]),
    ("a program at a socket may end", joined, [('fail("the program", "it ended")', "(void)(stopping = 1)")]),
    ("a port that is gone is left alone", vanished, [(' lose_port(p, "the port is gone");', ";")]),
    ("notes hold up the line", notes, [("O_WRONLY | O_NONBLOCK | O_APPEND | O_NOCTTY", "O_WRONLY | O_APPEND | O_NOCTTY")]),
    ("a reader of notes that is gone ends it", gone, [("signal(SIGPIPE, SIG_IGN)", "signal(SIGPIPE, SIG_DFL)")]),
    ("a port that can't do the parity is taken", words, [("((is.c_cflag ^ t.c_cflag) & asked) || ", "")]),
    ("numbers are read in part", words, [('strspn(word, "0123456789") == n && ', "")]),
    ("a line that is none is passed over", bad_lines, [('if (wrong) return fail("the program", wrong);', "if (wrong) { wrong = NULL; return; }")]),
    ("ticks that weren't heard may be told", ahead, [("p->ticks + ticks > next_tick", "0 && p->ticks + ticks > next_tick")]),
    ("what is told behind a stop is played for ten seconds", unending, [(
        "{ if (a->play.count + b->play.count == 0) return 0; }\n    else if", "if (a->play.count + b->play.count == 0) return 0;\n    if")]),
    ("a program that doesn't end is waited for", unending, [("waitpid(child, &status, WNOHANG)", "waitpid(child, &status, 0)")]),
    ("a port that another run has is taken", ports, [("flock(p->fd, LOCK_EX | LOCK_NB) != 0", "0")]),
    ("settings that a port had before stay", ports, [("t.c_iflag = INPCK | IGNPAR | IGNBRK", "t.c_iflag |= INPCK | IGNPAR | IGNBRK")]),
    ("parity isn't checked", ports, [("t.c_iflag = INPCK | IGNPAR | IGNBRK", "t.c_iflag = IGNPAR | IGNBRK")]),
    ("the driver holds bytes back", None, [('fputs("1", f)', 'fputs("14", f)')]),
    ("the driver isn't told to switch RS-485", None, [("ioctl(p->fd, TIOCSRS485, &r) != 0", "ioctl(p->fd, TIOCGRS485, &r) != 0")]),
]


class Compiler:
    """Builds of the adapter into a folder, each once."""

    def __init__(self, folder):
        self.folder, self.lock, self.built = folder, threading.Lock(), {}
        with open(SOURCE) as file:
            self.source = file.read()

    def build(self, flags, planted, more=(), also="", changes=()):
        key = repr((flags, planted, more, also, changes))
        with self.lock:
            if key not in self.built:
                self.built[key] = self.compile(flags, [*planted, *changes], more, also)
            return self.built[key]

    def compile(self, flags, changes, more, also):
        path, text = os.path.join(self.folder, "adapter%d" % len(self.built)), self.source
        for old, new in changes:
            if text.count(old) != 1:
                raise bridge_build.Missing("%r stands %d times in %s" % (old, text.count(old), SOURCE))
            text = text.replace(old, new)
        for name, content in ((path + ".c", text), (path + ".also.c", also)):
            with open(name, "w") as file:
                file.write(content)
        sources = [path + ".c"] + ([path + ".also.c"] if also else [])
        bridge_build.ran([bridge_build.compiler(), *bridge_build.FLAGS, *flags, *more, *sources, "-o", path])
        return path

    def tried(self, flags=BUILDS["plain"], planted=()):
        compiled = functools.partial(self.build, tuple(flags), tuple(planted))
        folder = tempfile.mkdtemp(dir=self.folder)
        return Tried(folder, compiled(), compiled)


def is_right(compiler, part, needed, *how):
    """Whether nothing is wrong in so many of at most TRIES runs of a part, and what was seen in the last run."""
    passed, failed = 0, 0
    while passed < needed and failed <= TRIES - needed:
        tried = compiler.tried(*how)
        part(tried)
        passed, failed = passed + (tried.wrong == 0), failed + (tried.wrong > 0)
    return passed == needed, tried.said


def lines_of_code(text):
    return sum(1 for each in re.sub(r"/\*.*?\*/", "", text, flags=re.S).splitlines() if each.strip())


def run_all(compiler, parts, needed, pool):
    """Runs parts over each build. Returns how many were wrong."""
    jobs = [(name, part, pool.submit(is_right, compiler, part, needed, flags)) for name, flags in BUILDS.items() for part in parts]
    wrong = 0
    for name, part, job in jobs:
        right, said = job.result()
        wrong += not right
        print("%s %s, %s" % ("right:" if right else "WRONG:", part.__name__, name), flush=True)
        for each in said if not right or len(parts) == 1 else ():
            print("    " + each.replace("\n", "\n    "), flush=True)
    return wrong


def run_planted(compiler, pool):
    """Plants each fault. Returns how many weren't noticed, or can't be."""
    jobs = [(what, part, pool.submit(is_right, compiler, part, MOST, ["-O2"], changes)) for what, part, changes in PLANTED if part]
    wrong = 0
    for what, part, job in jobs:
        right, said = job.result()
        wrong += right
        print("%s %s: %s" % ("NOT NOTICED:" if right else "noticed:", part.__name__, what), flush=True)
    for what, part, changes in PLANTED:
        if not part:
            compiler.build(("-O2",), tuple(changes))
            print("not to be noticed over pseudo-terminals: %s" % what)
    return wrong


def main(words):
    planted, known = words == ["planted"], {part.__name__: part for part in PARTS}
    if not planted and not all(word in known for word in words):
        sys.exit(__doc__)
    with tempfile.TemporaryDirectory() as folder, concurrent.futures.ThreadPoolExecutor(AT_ONCE) as pool:
        compiler = Compiler(folder)
        size = lines_of_code(compiler.source)
        print("%s the adapter has %d lines of code, and may have %d" % ("right:" if size <= LINES else "WRONG:", size, LINES))
        wrong = size > LINES
        wrong += run_all(compiler, [known[word] for word in words] if words and not planted else PARTS, MOST if planted else 1, pool)
        if planted:
            wrong += run_planted(compiler, pool)
    if wrong:
        sys.exit("tty_ticks_check: %d of these were wrong" % wrong)


if __name__ == "__main__":
    if sys.argv[1:2] == ["line"]:
        line(*sys.argv[2:])
        sys.exit(0)
    try:
        main(sys.argv[1:])
    except bridge_build.Missing as why:
        print("tty_ticks_check: %s" % why, file=sys.stderr)
        sys.exit(2)
