"""The parts of a live line on one machine, for live.py and live_kinds.py: pseudo-terminals, the two bridges, an attacker on the link
between them, and what the journals and notes say afterwards.

A bridge is the adapter tty_ticks, and behind it `link_replay live line` or, with `--over PROGRAM`, a program that has the words of this
command and of `init`.
"""
import collections, os, pty, re, select, signal, subprocess, sys, threading, time, tty

import bridge_build, built
from killed import floor_of

PAUSE = 3
SORTS = ("change", "repeat", "cut", "insert", "reorder", "reflect", "old session", "forge", "strip", "pause")

# A bridge: the adapter, and the program behind it.
Ends = collections.namedtuple("Ends", "adapter program")

# A link: the word of its protocol and profile, the baud, the seconds of a tick, how many bytes a trailer has, the
# parity, and a frame that the attacker wants the device to carry out.
Link = collections.namedtuple("Link", "kind baud tick trailer parity evil")


def link_of(kind, baud, parity, evil):
    return Link(kind, baud, (10 if parity == "none" else 11) / baud, 20 if kind.endswith("24") else 14, parity, evil)


def ends_of(words):
    """What stands at the ends of the link by these words of a script, and the other words."""
    if "--over" not in words[:-1]:
        return words, Ends(bridge_build.adapter(), built.program([], 0))
    at = words.index("--over")
    return words[:at] + words[at + 2:], Ends(bridge_build.adapter(), os.path.abspath(words[at + 1]))


class Port:
    """A pseudo-terminal: a program opens `path`, and the other end is here. It is written at the rate of the line."""

    def __init__(self, tick):
        self.here, self.there = pty.openpty()
        tty.setraw(self.here)
        tty.setraw(self.there)
        self.path = os.ttyname(self.there)
        self.tick = tick
        self.lock = threading.Lock()

    def close(self):
        os.close(self.here)
        os.close(self.there)

    def write(self, content):
        """Writes each byte in its own tick, as well as this machine keeps time. None is a silent tick."""
        with self.lock:
            due = time.monotonic()
            for byte in content:
                pause = due - time.monotonic()
                if pause > 0:
                    time.sleep(pause)
                if byte is not None:
                    os.write(self.here, bytes((byte,)))
                due += self.tick

    def come(self, seconds):
        """The bytes that come within this many seconds, none if nothing comes, or None if the port is closed."""
        ready, _, _ = select.select([self.here], [], [], seconds)
        try:
            return os.read(self.here, 512) if ready else b""
        except OSError:
            return None

    def bursts(self, stopping, gap):
        """The bytes that come, cut into bursts wherever nothing comes for `gap` seconds."""
        burst = b""
        while not stopping.is_set():
            content = self.come(gap if burst else 0.2)
            if content is None:
                return
            if content:
                burst += content
            elif burst:
                yield burst
                burst = b""


def packet(frame, trailer):
    return [*frame, *[None] * PAUSE, *trailer]


class Attacker:
    """Sits on the link. It takes the last bytes of a packet for the trailer, and the others for the frame. `old` is what it has recorded
    in an earlier session. While it is `quiet` it hands each packet on as it came."""

    def __init__(self, link, near, far, stopping, old):
        self.link, self.near, self.far, self.stopping, self.old = link, near, far, stopping, old
        self.turn, self.done, self.seen = 0, collections.Counter(), {"ab": [], "ba": []}
        self.held = None
        self.quiet = True

    def run(self, way, source, target):
        size = self.link.trailer
        for burst in source.bursts(self.stopping, max(30 * self.link.tick, 0.03)):
            if len(burst) <= size:
                continue
            frame, trailer = burst[:-size], burst[-size:]
            self.seen[way].append((frame, trailer))
            if way == "ba" or self.quiet:
                target.write(packet(frame, trailer))
            else:
                self.attack(frame, trailer, target)

    def attack(self, frame, trailer, target):
        """A request is on its way to the server: something is done to it, or something is added."""
        sort = SORTS[self.turn % len(SORTS)]
        evil = self.link.evil
        space = [None] * 60
        if self.held:
            # the packet that was held back comes after a later one
            late, self.held = self.held, None
            target.write(packet(frame, trailer) + space + packet(*late))
            self.done["reorder"] += 1
            self.turn += 1
            return
        if (sort == "reflect" and not self.seen["ba"]) or (sort == "old session" and not self.old):
            # nothing has come yet that could be sent again
            target.write(packet(frame, trailer))
            return
        if sort == "change":
            target.write(packet(evil, trailer))
        elif sort == "repeat":
            target.write(packet(frame, trailer) + space + packet(frame, trailer))
        elif sort == "cut":
            target.write(packet(frame, trailer[:-1]))
        elif sort == "insert":
            target.write(packet(evil + b"\0", trailer) + space)
        elif sort == "reorder":
            self.held = (frame, trailer)
            return
        elif sort == "reflect":
            target.write(packet(*self.seen["ba"][-1]) + space + packet(frame, trailer))
        elif sort == "old session":
            target.write(packet(*self.old[0]) + space + packet(frame, trailer))
        elif sort == "forge":
            target.write(packet(evil, os.urandom(self.link.trailer)) + space + packet(frame, trailer))
        elif sort == "strip":
            target.write([*evil] + space + packet(frame, trailer))
        elif sort == "pause":
            target.write([*evil, *[None] * 6, *trailer] + space)
        self.done[sort] += 1
        self.turn += 1


def started(words, log):
    with open(log, "w") as file:
        return subprocess.Popen(words, stdout=file, stderr=subprocess.STDOUT)


def ended(process):
    process.send_signal(signal.SIGTERM)
    return process.wait(timeout=10)


class Bridges:
    """One uptime of both bridges, with the attacker between them. `a_device` and `b_device` are the ports of the two devices. All ports
    are closed at the end, after the programs in `others` have ended."""

    def __init__(self, programs, folder, link, old, make):
        self.folder, self.link, self.stopping = folder, link, threading.Event()
        self.ports, self.others = [Port(link.tick) for _ in range(4)], []
        self.a_device, self.a_link, self.b_link, self.b_device = self.ports
        self.attacker = Attacker(link, self.a_link, self.b_link, self.stopping, old)
        self.threads = []
        self.run(self.attacker.run, "ab", self.a_link, self.b_link)
        self.run(self.attacker.run, "ba", self.b_link, self.a_link)
        ends = ("a", "ab", self.a_device, self.a_link), ("b", "ba", self.b_device, self.b_link)
        self.bridges = [started(self.words(programs, link, *end, make), self.log(end[0])) for end in ends]
        time.sleep(1.5)
        if any(bridge.poll() is not None for bridge in self.bridges):
            self.end()
            sys.exit("a bridge ended at once: %s%s" % (self.text("a"), self.text("b")))

    def run(self, target, *words):
        self.threads.append(threading.Thread(target=target, args=words, daemon=True))
        self.threads[-1].start()

    def words(self, programs, link, end, direction, device, to_link, make):
        path, key = os.path.join(self.folder, end), os.path.join(self.folder, "key.txt")
        for kept, way in ((".sent", direction), (".got", "ba" if direction == "ab" else "ab")) if make else ():
            subprocess.run([programs.program, "init", link.kind, way, path + kept], check=True)
        # the adapter refuses a pseudo-terminal that is asked for parity, so a second stop bit stands for it
        line = ["-b", str(link.baud), "-P", "none", "-S", "1" if link.parity == "none" else "2", "-H", "25", "-D", "40"]
        # both streams are recorded on their way
        recorded = ["bash", "-o", "pipefail", "-c", 'in=$1 out=$2; shift 2; tee "$in" | "$@" | tee "$out"', "bash", path + ".in", path + ".out"]
        program = [programs.program, "live", "line", link.kind, direction, key, path + ".sent", path + ".got"]
        return [programs.adapter, *line, device.path, to_link.path, "--", *recorded, *program]

    def log(self, name):
        return os.path.join(self.folder, name + ".log")

    def text(self, name):
        """What a program wrote, each note without the letter of its direction."""
        with open(self.log(name)) as file:
            return re.sub(r"^[<>]", "", file.read(), flags=re.M)

    def end(self):
        """Ends both bridges, the threads and the other programs, and returns the statuses of the bridges. If a thread doesn't end in time,
        the ports stay open, since it may use them."""
        statuses = [ended(bridge) for bridge in self.bridges]
        self.stopping.set()
        for thread in self.threads:
            thread.join(timeout=2)
        for other in self.others:
            ended(other)
        for end in ("a", "b"):
            self.part(os.path.join(self.folder, end))
        if not any(thread.is_alive() for thread in self.threads):
            for port in self.ports:
                port.close()
        return statuses

    def part(self, path):
        """Makes of the recorded streams of an end the recordings of four lines."""
        for stream, lanes in ((".in", {">": "device", "<": "came"}), (".out", {">": "sent", "<": "received"})):
            if os.path.exists(path + stream):
                with open(path + stream) as file:
                    lines = file.readlines()
                for letter, lane in lanes.items():
                    with open("%s.%s.ticks" % (path, lane), "w") as file:
                        file.writelines(line[1:] for line in lines if line.startswith(letter))

    def numbers(self):
        """For each of the four journals its name, its number or None if it has none, the word of the notes that have such numbers (sealed
        or passed), and the last number in these notes, or None if there is none."""
        journals = ("a.sent", "ab", "sealed"), ("b.got", "ab", "passed"), ("b.sent", "ba", "sealed"), ("a.got", "ba", "passed")
        found = []
        for kept, way, word in journals:
            number = floor_of(os.path.join(self.folder, kept), (self.link.kind, way))
            found.append((kept, number, word, last_number(self.text(kept[0]), word)))
        return found


def make_key(folder):
    with open(os.path.join(folder, "key.txt"), "w") as file:
        file.write("%s\n" % os.urandom(16).hex())


def last_number(notes, word):
    found = re.findall(r"^%s (\d+) " % word, notes, re.M)
    return int(found[-1]) if found else None
