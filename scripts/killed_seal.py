#!/usr/bin/env python3
"""Kills `link_replay seal` at random moments, starts it again over the same journal file, and looks for a number that comes twice.

    python3 scripts/killed_seal.py [RUNS] [PROGRAM] [FOLDER]

Each run seals a recording of many frames and is killed (SIGKILL) after a random time. A number counts as used if a byte of its
trailer reached the output, or if its note reached the log. It must be above every number that was used before, and the journal's
floor after the kill must not be below it. No trailer may be on the link without its note in the log. The numbers that a run noted must
follow each other from the floor on, and only numbers of one settle may be lost: those of a part of the text that was going out. It also
ends with 1 if no run was killed or no number was seen.
The files are in a new folder inside FOLDER, which is removed at the end. On a tmpfs (/dev/shm) a sync is quick, and a run seals
thousands of frames.
It is no part of the gate: what a killed process leaves of a file depends on the system.
"""
import re, sys, tempfile

import built
from killed import Killed

FRAME = "01030000000ac5cd"

# A part of the text has 65,536 bytes at most, and a frame takes 55: `+` and 16 digits, `-3`, `+` and 28 digits, and `-23`, each with LF.
MOST = 65536 // 55 + 1


def trailers(text):
    """The words of the trailers that have begun in the text of a link: the two bytes that come three silent ticks after a frame."""
    for frame, word in re.findall(r"^\+([0-9a-f]+)\n-3\n\+([0-9a-f]{4})", text, re.M):
        if frame == FRAME:
            yield int(word, 16)


def full(floor, word):
    return floor + 1 + (word - floor - 1) % 65536


def kill_all(box, runs):
    """Seals the recording in that many runs, and looks at what each of them left."""
    open(box.path("line"), "w").write("+%s\n-40\n" % FRAME * 200000)
    for _ in range(runs):
        before = box.run()
        numbers = []
        for word in trailers(box.text("out")):
            numbers.append(full(numbers[-1] if numbers else before, word))
        noted = [number for number, _ in box.noted("sealed")]
        for seen in (numbers, noted):
            box.look_at(seen)
        box.settled(noted, before)
        assert set(numbers) <= set(noted), "a trailer is on the link without its note"
        box.keep(numbers + noted)
    print(box.summary(runs))


def main():
    runs, program = int(sys.argv[1]) if len(sys.argv) > 1 else 200, built.program(sys.argv, 2)
    with tempfile.TemporaryDirectory(prefix="killed_seal.", dir=sys.argv[3] if len(sys.argv) > 3 else None) as folder:
        kill_all(Killed(program, "seal", folder, 0.5, MOST), runs)


main()
