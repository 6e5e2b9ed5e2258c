#!/usr/bin/env python3
"""Kills `link_replay check` at random moments, starts it again over the same link and journal file, and looks for a number that passes twice.

    python3 scripts/killed_check.py [RUNS] [PROGRAM] [FOLDER]

The link has many packets, of numbers 1, 2, .. in order. Each run checks it from its beginning and is killed (SIGKILL) after
a random time, so it meets all packets that earlier runs have passed. When the journal has the last number, a new journal
begins. A number counts as passed if the last byte of its frame left unspoiled, or if its note reached the log. It must be
above every number that passed before, and the journal's floor after the kill must not be below it. No frame may leave whole
without its note in the log. The numbers that a run noted as passed must follow each other from the floor on, and only numbers
of one settle may be lost: those of a part of the text that was going out. It also ends with 1 if no run was killed or no
number was seen.
The files are in a new folder inside FOLDER, which is removed at the end. On a tmpfs (/dev/shm) a sync is quick, and a run passes
thousands of frames.
It is no part of the gate: what a killed process leaves of a file depends on the system.
"""
import subprocess, sys, tempfile

import built
from killed import Killed

FRAME = "01030000000ac5cd"

# The ticks from the first tick of a packet to that of the next: the frame, and 40 silent ticks of the device's line.
PERIOD = 48

# How many ticks later a frame leaves.
DELAY = 18

PACKETS = 200000

# A part of the text has 65,536 bytes at most, and a packet that passes takes 22: `+` and 16 digits, and `-40`, each with LF. Its note takes
# 20 or more.
MOST = 65536 // 20 + 1


def left_whole(text):
    """The numbers of the frames that have left with their right ending: packet N begins at tick (N - 1) * PERIOD."""
    tick = 0
    for line in text.splitlines():
        if line.startswith("-"):
            tick += int(line[1:] or 0)
        else:
            if line[1:] == FRAME:
                number, rest = divmod(tick - DELAY, PERIOD)
                assert rest == 0, "a frame left at tick %d, where none was due" % tick
                yield number + 1
            tick += len(line) // 2


def seal_link(box):
    """Makes the link: the frames, sealed over a journal of their own."""
    frames = "".join("+%s\n-40\n" % FRAME for _ in range(PACKETS))
    box.init("sealer")
    with open(box.path("line"), "w") as link:
        subprocess.run(box.words("seal", "sealer"), check=True, input=frames, text=True, stdout=link, stderr=subprocess.DEVNULL)


def kill_all(box, runs):
    """Checks the link in that many runs, and looks at what each of them left."""
    seal_link(box)
    for _ in range(runs):
        before = box.run()
        numbers = list(left_whole(box.text("out")))
        noted = [number for number, start in box.noted("passed") if start == (number - 1) * PERIOD]
        assert len(noted) == len(box.noted("passed")), "a packet passed at a tick that isn't its own"
        for seen in (numbers, noted):
            box.look_at(seen)
        box.settled([number for number, _ in box.noted("passed")], before)
        assert set(numbers) <= set(noted), "a frame left whole without its note"
        box.keep(numbers + noted)
        if box.floor() == PACKETS:
            box.begin_anew()
    print(box.summary(runs))


def main():
    runs, program = int(sys.argv[1]) if len(sys.argv) > 1 else 200, built.program(sys.argv, 2)
    with tempfile.TemporaryDirectory(prefix="killed_check.", dir=sys.argv[3] if len(sys.argv) > 3 else None) as folder:
        kill_all(Killed(program, "check", folder, 0.2, MOST), runs)


main()
