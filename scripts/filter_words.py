#!/usr/bin/env python3
"""Compares the words, the input and the streams that bridge/out/filter takes with those that `link_replay` takes.

    python3 scripts/filter_words.py [PROGRAM] [TEXTS] [SEED]

PROGRAM is a link_replay, crates/link_replay/out/link_replay unless it is given. Right and wrong words, texts of each form and with each
fault, TEXTS right texts that are changed at random (300, drawn from SEED, 1), streams that are closed, full or a folder: status, lines,
notes and journal must be the same in both, but reasons of faults and usage lines are PROGRAM's alone. Only if an output can't be written may the filter stop at a lower number, since it writes
each note at once. It ends with 1 if anything differs, and with 2 if something isn't installed. It is no part of the gate.
"""
import collections, itertools, os, random, re, subprocess, sys, tempfile

import bridge_build, built
from killed import KEY, floor_of, slot_of

NEW = bytes(32) + slot_of(0) + bytes(24)
NO_WRITE = 6
FRAME = "+01030000000ac5cd\n-40\n"
RIGHT = "# two frames\n" + FRAME + "\r\n+01030000000a\r\n+C5CD\r\n-28\n+01034021\n-40\n"

WORDS = [
    "seal rtu ab", "check rtu ab", "seal dnp3 ba", "check dnp24 ab", "seal rtu24 ba",
    "Seal rtu ab", "SEAL rtu ab", "seals rtu ab", "sea rtu ab", "checks rtu ab", "-seal rtu ab", "init rtu ab", "space rtu ab", "help rtu ab",
    "seal rtux ab", "seal RTU ab", "seal rt ab", "seal rtu18 ab", "seal rtu2 ab", "seal rtu244 ab", "seal dnp ab", "seal dnp33 ab", "seal 24 ab",
    "seal rtu AB", "seal rtu a", "seal rtu abc", "seal rtu aba", "seal rtu ba2", "seal rtu -", "seal rtu", "seal rtu ab ab", "seal ab rtu", "",
]
TEXTS = [
    "", "\n", "\r\n", "\r", "\r\r\n", "\r+01\n", RIGHT, RIGHT[:-1], RIGHT.replace("\n", "\r\n"), RIGHT.replace("-28", "-4"),
    "+", "+\n", "+\r\n", "+0", "+0\n", "+0\r\n", "+0g\n", "+g\n", "+01 \n", " +01\n", "+01#x\n", "+01\t\n", "+01\0\n", "+01\r", "+01\r ", "+01+02\n",
    "+" + "a5" * 32, "+" + "a5" * 32 + "\n", "+" + "a5" * 33 + "\n", "+" + "a5" * 32 + "g\n", "+" + "a5" * 31 + "a\n", "+" + "a5" * 32 + "a\n",
    "-", "-\n", "-\r\n", "-0\n", "-00\n", "-07\n", "-7\n", "-7", "-7\r", "-7\r\n", "-abc\n", "--7\n", "-+7\n", "-7a\n", "-7 \n", "- 7\n", "-7.0\n",
    "-1000000\n", "-1000001\n", "-10000000\n", "-4294967297\n", "-18446744073709551617\n", "-99999999999999999999999999\n", "-0x10\n",
    "#", "#\n", "#" + "x" * 120 + "\n", "#" + "x" * 121 + "\n", "#" + "x" * 119 + "\r\n", "#" + "x" * 120 + "\r\n", "#\0\xff\r\r\n" + FRAME, " #\n", "%\n", "%", "x\n", "1\n",
    "\n" * 300 + "x", FRAME * 3 + "-0\n" + FRAME, FRAME + "+0103", FRAME * 2 + "x" + FRAME,
    "-1000000\n" * 16 + "-777216\n", "-1000000\n" * 16 + "-777217\n", "-1000000\n" * 17 + "x\n", FRAME + "-1000000\n" * 16 + "-777168\n" + FRAME,
]
LETTERS = "+-#%0123456789abcdefABCDEFgx \t\r\n\0"


class Pair:
    """The two programs, and what differs between them."""

    def __init__(self, folder, program):
        self.programs, self.made, self.wrong = (program, bridge_build.build("filter")), collections.Counter(), 0
        self.statuses = collections.Counter()
        self.key, self.journal = os.path.join(folder, "key.txt"), os.path.join(folder, "journal")

    def both(self, what, run):
        """Runs both programs on a new key and journal. What `run` returns for them must be the same, and so must their files."""
        ends = []
        for program in self.programs:
            for path, content in ((self.key, KEY.encode()), (self.journal, NEW)):
                with open(path, "wb") as file:
                    file.write(content)
            end = run(program)
            ends.append([end, floor_of(self.journal), *(open(path, "rb").read() for path in (self.key, self.journal))])
        self.made[what.split(":")[0]] += 1
        self.statuses[ends[0][0][0]] += 1
        if ends[0][0][0] == NO_WRITE and None is not ends[1][1] <= ends[0][1]:
            ends = [end[:1] + end[2:3] for end in ends]
        if ends[0] != ends[1]:
            self.wrong += 1
            print("WRONG: %s\n    program %r\n    filter  %r" % (what, ends[0], ends[1]), flush=True)

    def words(self, words):
        return words.split() + ([self.key, self.journal] if len(words.split()) == 3 else [])


def plain(log):
    """A log with the first words of its fault line alone: the filter says neither reasons nor the words of commands."""
    log = re.sub(rb"^fault: (read|journal)( key| input)?:.*$", rb"fault: \1", log, flags=re.M)
    return re.sub(rb"^(usage|commands): .*\n", b"", log, flags=re.M)


def ran(words, text):
    done = subprocess.run(words, input=text, capture_output=True, timeout=60)
    return done.returncode, done.stdout, plain(done.stderr)


def texts(pair, count, draw):
    for command in ("seal", "check"):
        for text in TEXTS:
            content = text.encode("latin-1")
            pair.both("texts: %s of %r" % (command, text[:200]), lambda program: ran([program, *pair.words(command + " rtu ab")], content))
    for _ in range(count):
        text, changes = list(RIGHT), draw.randint(1, 3)
        for _ in range(changes):
            place = draw.randrange(len(text))
            text[place:place + draw.randint(0, 1)] = draw.choice(LETTERS)
        content = "".join(text).encode()
        pair.both("random texts: %r" % content, lambda program: ran([program, *pair.words("seal rtu ab")], content))


def streams(pair):
    """Gives both programs streams that are closed, full, or a folder."""
    for closed in itertools.chain.from_iterable(itertools.combinations(range(3), n) for n in range(1, 4)):
        def run(program):
            with open(pair.journal + ".in", "w+") as source, open(pair.journal + ".out", "w+") as out, open(pair.journal + ".log", "w+") as log:
                source.write(RIGHT)
                source.seek(0)
                done = subprocess.run([program, *pair.words("seal rtu ab")], stdin=source, stdout=out, stderr=log,
                                      preexec_fn=lambda: [os.close(place) for place in closed])
                return (done.returncode,)
        pair.both("closed: %s" % (closed,), run)
    for name, way, place in (("/dev/full", os.O_WRONLY, "stdout"), ("/dev/full", os.O_WRONLY, "stderr"), ("/", os.O_RDONLY, "stdin")):
        def run(program):
            other = os.open(name, way)
            try:
                with open(pair.journal + ".in", "w+") as source:
                    source.write(RIGHT)
                    source.seek(0)
                    ways = {"stdin": source, "stdout": subprocess.DEVNULL, "stderr": subprocess.DEVNULL, place: other}
                    return (subprocess.run([program, *pair.words("seal rtu ab")], **ways).returncode,)
            finally:
                os.close(other)
        pair.both("streams: %s as %s" % (name, place), run)


def files(pair):
    """Gives both programs keys and journals that can't be read."""
    for name, words in (("no key", ["/no/such/key", pair.journal]), ("a folder as key", ["/", pair.journal])):
        pair.both("files: %s" % name, lambda program: ran([program, "seal", "rtu", "ab", *words], FRAME.encode()))


def main():
    program = built.program(sys.argv, 1)
    count = int(sys.argv[2]) if len(sys.argv) > 2 else 300
    draw = random.Random(int(sys.argv[3]) if len(sys.argv) > 3 else 1)
    with tempfile.TemporaryDirectory(dir="/dev/shm" if os.path.isdir("/dev/shm") else None) as folder:
        pair = Pair(folder, program)
        for words in WORDS:
            pair.both("words: %r" % words, lambda program: ran([program, *pair.words(words)], FRAME.encode()))
        texts(pair, count, draw)
        streams(pair)
        files(pair)
    print(", ".join("%s %d" % each for each in pair.made.items()))
    print("statuses: %s" % ", ".join("%d %d times" % each for each in sorted(pair.statuses.items())))
    print("%d wrong" % pair.wrong)
    return 1 if pair.wrong else 0


try:
    sys.exit(main())
except bridge_build.Missing as why:
    print("filter_words: %s" % why, file=sys.stderr)
    sys.exit(2)
