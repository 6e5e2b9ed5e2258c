#!/usr/bin/env python3
"""Runs `link_replay` with any of standard input, output and error closed, and checks what each run leaves.

    python3 scripts/closed_streams.py [PROGRAM]

A file that a program opens gets the lowest file descriptor that is free. So if a stream is closed, a file of the run could
take its place: a note would be written into the journal, or the key would be read as the input. Each command must end with
status 5 if it needs its input and this is closed, and with status 6 if it must write and can't. The key must stay as it was,
and the journal as it was or as a right run leaves it; `live seal` may leave it ahead if a write fails. What is in an open stream must be the front of what a right run writes,
perhaps followed by a fault line. It ends with 1 if a run leaves anything else. It is no part of the gate: which descriptor a
file gets is the system's choice. PROGRAM is crates/link_replay/out/link_replay unless it is given.
"""
import itertools, os, subprocess, sys, tempfile

import built
from killed import KEY, slot_of

NEW, BACK = (bytes(32) + slot_of(0, ("rtu", way)) + bytes(24) for way in ("ab", "ba"))
# What `live seal` and `live line` leave if a write fails behind the settle of its first number: one that is 15 above it.
AHEAD = bytes(32) + slot_of(0) + slot_of(16)
REQUEST = b"+01030000000ac5cd\n-40\n"
FAULTS = {5: b"fault: read input: is a folder\n", 11: b"fault: journal stands at 0\n"}

# The words, the journal before the run (None if it is missing), and the streams that the command needs.
COMMANDS = [
    ("seal rtu ab KEY JOURNAL", NEW, (0, 1, 2)),
    ("check rtu ab KEY JOURNAL", NEW, (0, 1, 2)),
    ("live seal rtu ab KEY JOURNAL", NEW, (0, 1, 2)),
    ("live check rtu ab KEY JOURNAL", NEW, (0, 1, 2)),
    ("live line rtu ab KEY JOURNAL GOT", NEW, (0, 1, 2)),
    ("init rtu ab JOURNAL", None, ()),
    ("init rtu ab JOURNAL", NEW, ()),
    ("read rtu", NEW, (0, 1)),
    ("space rtu", NEW, (0, 1)),
    ("replay rtu ab KEY", NEW, (0, 1)),
    ("audit rtu ab KEY 0 0", NEW, (0, 1)),
    ("duplex rtu ab KEY", NEW, (0, 1, 2)),
    ("two_wire rtu ab answers 45 4 KEY", NEW, (0, 1, 2)),
    ("vectors", NEW, (1,)),
    ("help", NEW, (1,)),
    ("version", NEW, (1,)),
    ("trial rtu 7 3", NEW, (1,)),
    ("poll rtu 7 3", NEW, (1,)),
]


def bytes_of(path):
    return open(path, "rb").read() if os.path.exists(path) else None


class Runs:
    def __init__(self, program, folder):
        self.program = program
        self.places = {name: os.path.join(folder, name) for name in ("KEY", "JOURNAL", "GOT", "in", "out", "log")}

    def put(self, name, content):
        if content is not None:
            open(self.places[name], "wb").write(content)
        elif os.path.exists(self.places[name]):
            os.remove(self.places[name])

    def run(self, words, text, journal, closed):
        """The status of a run, and what the output, the log, the key and both journals have after it."""
        files = {"KEY": KEY.encode(), "JOURNAL": journal, "GOT": BACK, "in": text, "out": b"", "log": b""}
        for name, content in files.items():
            self.put(name, content)
        with open(self.places["in"]) as source, open(self.places["out"], "w") as out, open(self.places["log"], "w") as log:
            status = subprocess.call(
                [self.program] + [self.places.get(word, word) for word in words.split()], stdin=source, stdout=out, stderr=log,
                preexec_fn=lambda: [os.close(place) for place in closed])
        return (status,) + tuple(bytes_of(self.places[name]) for name in ("out", "log", "KEY", "JOURNAL", "GOT"))


def wanted(right, needed, closed):
    """The status with which a run must end. A closed input counts before closed outputs."""
    missing = [place for place in needed if place in closed]
    return right if not missing else 5 if 0 in missing else 6


def look_at(words, before, closed, right, seen, status):
    """What is wrong with a run, in words."""
    faults = []
    if seen[0] != status:
        faults.append("status %d instead of %d" % (seen[0], status))
    if seen[3] != KEY.encode():
        faults.append("the key's file was written")
    may = (before, right[4], AHEAD) if words.startswith(("live seal", "live line")) and status == 6 else (before, right[4])
    if seen[4] not in may or (0 in closed and status == 5 and seen[4] != before):
        faults.append("the journal's file holds %r" % seen[4])
    if seen[5] not in (BACK, right[5]) or (0 in closed and status == 5 and seen[5] != BACK):
        faults.append("the second journal's file holds %r" % seen[5])
    for place, name in ((1, "output"), (2, "log")):
        text, whole = seen[place], right[place]
        if place in closed:
            whole = b""
        elif place == 2:
            text = text[:-len(FAULTS[status])] if status in FAULTS and text.endswith(FAULTS[status]) else text
        if status == right[0] and place not in closed and seen[place] != right[place]:
            faults.append("the %s is another one" % name)
        elif not whole.startswith(text):
            faults.append("the %s holds %r" % (name, seen[place][:80]))
    return faults


def texts(replay):
    """The input of each command, other than the request, by a `link_replay`."""
    link = replay.run("seal rtu ab KEY JOURNAL", REQUEST, NEW, ())[1]
    received = replay.run("check rtu ab KEY JOURNAL", link, NEW, ())[1]
    back = replay.run("seal rtu ba KEY GOT", REQUEST, NEW, ())[1]
    both = b"".join(way + line for way, text in ((b">", REQUEST), (b"<", back)) for line in text.splitlines(True))
    lists = {"check": [link], "live check": [link], "replay": [REQUEST, link], "duplex": [REQUEST, link],
             "two_wire": [REQUEST, link], "live line": [both], "audit": [REQUEST, link, received]}
    return {command: b"%\n".join(parts) for command, parts in lists.items()}


def try_all(runs, commands, inputs):
    """Runs each command with each choice of closed streams. Returns how many runs were made, and how many commands were wrong."""
    wrong = runs_made = 0
    for words, before, needed in commands:
        text = inputs.get(words.split(" rtu")[0], REQUEST)
        right, ends = runs.run(words, text, before, ()), []
        wrong_here = right[0] != (11 if words.startswith("init") and before else 0)
        for closed in itertools.chain.from_iterable(itertools.combinations(range(3), n) for n in range(4)):
            seen, status = runs.run(words, text, before, closed), wanted(right[0], needed, closed)
            faults = look_at(words, before, closed, right, seen, status)
            runs_made += 1
            ends.append("%s: %d" % ("".join(map(str, closed)) or "none", seen[0]))
            for fault in faults:
                print("wrong: %s with %s closed: %s" % (words, closed, fault))
            wrong_here += bool(faults)
        journal = "no journal" if before is None else "journal"
        print("%-30s %s  closed and status  %s" % (words, journal, ", ".join(ends)))
        wrong += wrong_here
    return runs_made, wrong


def main():
    program = built.program(sys.argv, 1)
    with tempfile.TemporaryDirectory() as folder:
        replay = Runs(program, folder)
        made, wrong = try_all(replay, COMMANDS, texts(replay))
    print("%d runs, %d wrong" % (made, wrong))
    sys.exit(wrong > 0)


main()
