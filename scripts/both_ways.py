#!/usr/bin/env python3
"""Runs `link_replay live line` on pipes, and compares what it makes of each way with what the commands over recordings make of that way.

    python3 scripts/both_ways.py [PROGRAM]

What is wanted of the outgoing way is what `seal` writes of its lines, and of the incoming way what `space` writes of that of `check`, each
over a journal of its own: ticks, notes, and the number in the journal. It is compared

- for each protocol, profile and direction, over a stream in which the lines of both ways come in a random order, all at once, and line by
  line, the next one only after all ticks of the last one have come back, so that a box that held anything back would stand still;
- at a line that is refused, of each way and of none; and where the output or the log is full;
- in runs that are killed at random moments: no number may be noted that its journal doesn't hold, and none twice.

It ends with 1 if anything differs. PROGRAM is crates/link_replay/out/link_replay unless it is given. It is no part of the gate.
"""
import os, random, re, select, subprocess, sys, tempfile, time

import built
from killed import KEY, floor_of, slot_of
from model import ticks_of

PATIENCE = 20
AHEAD = 15
KILLS = 20
WAYS = (">", "<")
OPPOSITE = {"ab": "ba", "ba": "ab"}
FRAMES = {"rtu": ("01030000000ac5cd", "010300000001840a"), "dnp3": ("056405c001000004e921", "056405c901000004a657")}
# Lines that are refused, and their cause.
REFUSED = ((">+0g\n", "char"), ("<+0g\n", "char"), (">+012\n", "odd"), ("<-0\n", "count"), (">%\n", "char"), ("<%\n", "char"),
           ("+01\n", "char"), ("=+01\n", "char"), ("\n", "char"))
NUMBERS = re.compile(r"^([<>])(?:sealed|passed) (\d+) at ", re.M)


def lines_of(ticks, draw):
    """Lines of tick text for these ticks, cut at random places."""
    lines, place = [], 0
    while place < len(ticks):
        end = place + 1
        most = place + draw.randint(1, 32)
        while end < min(len(ticks), most) and (ticks[end] is None) == (ticks[place] is None):
            end += 1
        run = ticks[place:end]
        lines.append("-%d\n" % len(run) if run[0] is None else "+%s\n" % bytes(run).hex())
        place = end
    return lines


def mixed(ways, draw):
    """The lines of both ways, with their letters, in a random order."""
    rest = {way: [way + line for line in lines] for way, lines in ways.items()}
    found = []
    while any(rest.values()):
        way = draw.choice([way for way in WAYS if rest[way]])
        found += [rest[way].pop(0) for _ in range(min(len(rest[way]), draw.randint(1, 4)))]
    return found


def on(way, text):
    """What stands behind the letter of a way."""
    return "".join(line[1:] for line in text.splitlines(True) if line.startswith(way))


class Bench:
    """The program, and the files of its runs."""

    def __init__(self, program, folder):
        self.program, self.folder, self.made, self.wrong = program, folder, 0, 0
        with open(self.path("key"), "w") as file:
            file.write(KEY)

    def path(self, name):
        return os.path.join(self.folder, name)

    def see(self, what, found, wanted):
        self.made += 1
        if found != wanted:
            self.wrong += 1
            print("WRONG: %s\n    left   %.400r\n    wanted %.400r" % (what, found, wanted), flush=True)

    def put(self, name, link, number=0):
        """Makes a journal of this link, with this number."""
        with open(self.path(name), "wb") as file:
            file.write(bytes(32) + slot_of(number, link) + bytes(24))
        return self.path(name)

    def run(self, words, text):
        ran = subprocess.run([self.program, *words], input=text.encode(), capture_output=True)
        return ran.returncode, ran.stdout.decode(), ran.stderr.decode()

    def words(self, link):
        """The words of a live line of this link, over new journals."""
        return ["live", "line", *link, self.path("key"), self.put("sent", link), self.put("got", (link[0], OPPOSITE[link[1]]))]

    def wanted(self, link, ways, refused=""):
        """What is wanted of each way: its ticks, its notes, and the last number. With `refused` behind its text nothing is added to it."""
        word, back = link[0], (link[0], OPPOSITE[link[1]])
        _, line, sealed = self.run(["seal", *link, self.path("key"), self.put("apart", link)], ways[">"] + refused)
        number = floor_of(self.path("apart"), link)
        _, checked, passed = self.run(["check", *back, self.path("key"), self.put("apart", back)], ways["<"] + refused)
        spaced = self.run(["space", word], checked + refused)[1]
        notes = [log[:log.index("fault: ")] if refused else log for log in (sealed, passed)]
        return {">": (ticks_of(line), notes[0], number), "<": (ticks_of(spaced), notes[1], floor_of(self.path("apart"), back))}

    def left(self, link, out, log):
        """What a run left of each way, as `wanted`."""
        files = {">": ("sent", link), "<": ("got", (link[0], OPPOSITE[link[1]]))}
        return {way: (ticks_of(on(way, out)), on(way, log), floor_of(self.path(name), of)) for way, (name, of) in files.items()}

    def session(self, link, draw):
        """The lines of a device with some frames, and those of the link to it: packets, of which some are altered, repeated or lost."""
        frames = FRAMES["rtu" if link[0].startswith("rtu") else "dnp3"]
        device = "".join("+%s\n-%d\n" % (draw.choice(frames), draw.randint(3, 90)) for _ in range(12))
        back = (link[0], OPPOSITE[link[1]])
        far = "".join("+%s\n-%d\n" % (draw.choice(frames), draw.randint(60, 120)) for _ in range(8))
        packets = ticks_of(self.run(["seal", *back, self.path("key"), self.put("far", back)], far)[1])
        places = [place for place, tick in enumerate(packets) if tick is not None]
        for place in draw.sample(places, 3):
            packets[place] ^= 1 << draw.randint(0, 7)
        return {">": lines_of(ticks_of(device), draw), "<": lines_of(packets + [None] * 50 + packets[:60], draw)}


def whole(bench, link, draw):
    """A stream that comes at once."""
    ways = bench.session(link, draw)
    stream = "".join(mixed(ways, draw))
    status, out, log = bench.run(bench.words(link), stream)
    bench.see("%s %s at once: status" % link, status, 0)
    bench.see("%s %s at once" % link, bench.left(link, out, log), bench.wanted(link, {way: "".join(ways[way]) for way in WAYS}))


class Paced:
    """A run into which a line goes at a time, in two writes, and which must return all its ticks before the next one."""

    def __init__(self, bench, link):
        self.run = subprocess.Popen([bench.program, *bench.words(link)], stdin=subprocess.PIPE, stdout=subprocess.PIPE, stderr=subprocess.PIPE)
        self.out, self.due = "", {way: 0 for way in WAYS}

    def has_come(self, way):
        return self.out.endswith("\n") and len(ticks_of(on(way, self.out))) >= self.due[way]

    def give(self, line):
        """Whether the ticks of a line come back."""
        half = len(line) // 2
        for part in (line[:half], line[half:]):
            self.run.stdin.write(part.encode())
            self.run.stdin.flush()
        self.due[line[0]] += len(ticks_of(line[1:]))
        end = time.time() + PATIENCE
        while not self.has_come(line[0]):
            if not select.select([self.run.stdout], [], [], max(0, end - time.time()))[0]:
                return False
            got = os.read(self.run.stdout.fileno(), 65536).decode()
            if not got:
                return False
            self.out += got
        return True

    def end(self):
        out, log = self.run.communicate()
        return self.run.returncode, self.out + out.decode(), log.decode()


def paced(bench, link, draw):
    """A stream that comes line by line."""
    ways = bench.session(link, draw)
    lines, run = mixed(ways, draw), Paced(bench, link)
    stood = next((number for number, line in enumerate(lines, 1) if not run.give(line)), None)
    if stood:
        run.run.kill()
        run.run.communicate()
    bench.see("%s %s line by line: the line at which it stood still" % link, stood, None)
    if not stood:
        status, out, log = run.end()
        bench.see("%s %s line by line: status" % link, status, 0)
        bench.see("%s %s line by line" % link, bench.left(link, out, log), bench.wanted(link, {way: "".join(ways[way]) for way in WAYS}))


def refused(bench, draw):
    """Lines that are refused, behind right ones: what ended before has left, and nothing is added."""
    link = ("rtu", "ab")
    for bad, cause in REFUSED:
        lines = mixed(bench.session(link, draw), draw)
        front = "".join(lines[:draw.randint(1, len(lines))])
        status, out, log = bench.run(bench.words(link), front + bad + "".join(lines))
        fault = "fault: line %d %s\n" % (front.count("\n") + 1, cause)
        bench.see("%r: status and fault line" % bad, (status, log[log.find("fault: "):]), (4, fault))
        left = bench.left(link, out, log)
        right = bench.wanted(link, {way: on(way, front) for way in WAYS}, "x\n")
        for way in WAYS:
            bench.see("%r: way %s" % (bad, way), left[way][:2], right[way][:2])
            ahead = AHEAD if way == ">" else 0
            bench.see("%r: journal of %s" % (bad, way), right[way][2] <= left[way][2] <= right[way][2] + ahead, True)


def full(bench, draw):
    """An output or a log that is full: the run ends, and each number that was noted is kept."""
    link = ("rtu", "ab")
    for name in ("stdout", "stderr"):
        stream = "".join(mixed(bench.session(link, draw), draw))
        with open("/dev/full", "w") as file:
            streams = {"stdout": subprocess.PIPE, "stderr": subprocess.PIPE, name: file}
            ran = subprocess.run([bench.program, *bench.words(link)], input=stream.encode(), **streams)
        log = (ran.stderr or b"").decode()
        bench.see("%s is full: status and fault" % name, (ran.returncode, "fault" in log), (6, False))
        if name == "stderr":
            bench.see("the log is full: nothing leaves", ran.stdout, b"")
        bench.see("%s is full: numbers" % name, unkept(bench, link, log), [])


def numbers(log):
    """The numbers that were noted, for each way."""
    return {way: [int(number) for letter, number in NUMBERS.findall(log) if letter == way] for way in WAYS}


def unkept(bench, link, log):
    """The ways of which a number was noted that the journal doesn't hold."""
    left = bench.left(link, "", "")
    return [way for way, noted in numbers(log).items() if max(noted, default=0) > left[way][2]]


def kill_one(bench, words, most, pause):
    """Whether a run was killed that had noted so many bytes, and what it noted in whole lines."""
    with open(bench.path("stream")) as source, open(bench.path("log"), "w") as log, open(os.devnull, "w") as out:
        run = subprocess.Popen([bench.program, *words], stdin=source, stdout=out, stderr=log)
        while run.poll() is None and os.path.getsize(bench.path("log")) < most:
            time.sleep(0.001)
        time.sleep(pause)
        run.kill()
        hit = run.wait() != 0
    with open(bench.path("log")) as file:
        noted = file.read()
    return hit, noted[:noted.rfind("\n") + 1]


def killed(bench, draw):
    """Runs over the same stream and journals, each killed at a random moment."""
    link, back = ("rtu", "ab"), ("rtu", "ba")
    frames = "".join("+%s\n-70\n" % FRAMES["rtu"][0] for _ in range(1000))
    packets = bench.run(["seal", *back, bench.path("key"), bench.put("far", back)], frames)[1]
    ways = {">": frames.splitlines(True), "<": packets.splitlines(True)}
    with open(bench.path("stream"), "w") as file:
        file.write("".join(mixed(ways, draw)))
    words, seen, hit = bench.words(link), {way: 0 for way in WAYS}, 0
    for _ in range(KILLS):
        was_killed, log = kill_one(bench, words, draw.randint(1, 6000), draw.random() * 0.02)
        hit += was_killed
        bench.see("a killed run: numbers that aren't kept", unkept(bench, link, log), [])
        for way, noted in numbers(log).items():
            later = noted == sorted(set(noted)) and (not noted or noted[0] > seen[way])
            bench.see("a killed run: numbers of %s twice" % way, later, True)
            seen[way] = max([seen[way], *noted])
    bench.see("runs that were killed, and numbers that were seen", (hit > 0, all(seen.values())), (True, True))


def main():
    program, draw = built.program(sys.argv, 1), random.Random(1)
    with tempfile.TemporaryDirectory(prefix="both_ways.") as folder:
        bench = Bench(program, folder)
        for word in ("rtu", "rtu24", "dnp3", "dnp24"):
            for direction in ("ab", "ba"):
                whole(bench, (word, direction), draw)
                paced(bench, (word, direction), draw)
        refused(bench, draw)
        full(bench, draw)
        killed(bench, draw)
    print("%d looks, %d wrong" % (bench.made, bench.wrong))
    return 1 if bench.wrong else 0


if __name__ == "__main__":
    sys.exit(main())
