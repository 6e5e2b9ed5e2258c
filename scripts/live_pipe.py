#!/usr/bin/env python3
"""Runs `link_replay live seal` and then `link_replay live check` on pipes, with a writer that waits for the ticks of the other line before it goes on.

    python3 scripts/live_pipe.py [PROGRAM]

A frame goes into `live seal` tick by tick. The next tick is sent only after the ticks of the other line at all places so far
have come. So if a box held anything back until its next read, it would stand still, and the run would end with a failure after 20
seconds. What it wrote goes into `live check` in the same way. At the end each text must have the same ticks as the canonical text
that `seal` or `check` writes for the same line, with the same notes and the same floor of the journal. This is done for both protocols, both
profiles and both directions. It ends with 1 if anything differs. PROGRAM is crates/link_replay/out/link_replay unless it is given.
"""
import os, select, subprocess, sys, tempfile, time

import built
from killed import KEY, floor_of
from model import ticks_of

PATIENCE = 20
# A request of Modbus RTU, and a DNP3 frame that is only a header.
FRAMES = {"rtu": "01030000000ac5cd", "dnp3": "056405c901000004a657"}
LINKS = {"rtu": "rtu", "rtu24": "rtu", "dnp3": "dnp3", "dnp24": "dnp3"}


def lines_of(ticks):
    """The lines of a tick text for these ticks, one for each tick."""
    return [b"-1\n" if tick is None else b"+%02x\n" % tick for tick in ticks]


class Box:
    """A run of a box on a live line. A line goes in, and the caller waits for each tick of the other line that is due."""

    def __init__(self, program, words):
        self.run = subprocess.Popen([program] + words, stdin=subprocess.PIPE, stdout=subprocess.PIPE, stderr=subprocess.PIPE)
        self.text = ""
        self.taken = 0

    def come(self, count):
        """Waits until `count` more ticks have come. Returns False if they don't."""
        end = time.time() + PATIENCE
        self.taken += count
        while len(ticks_of(self.text)) < self.taken:
            ready = select.select([self.run.stdout], [], [], max(0, end - time.time()))[0]
            if not ready:
                return False
            got = os.read(self.run.stdout.fileno(), 65536)
            if not got:
                return False
            self.text += got.decode()
        return True

    def pass_on(self, line, count):
        self.run.stdin.write(line)
        self.run.stdin.flush()
        return self.come(count)

    def end(self):
        self.run.stdin.close()
        rest = self.run.stdout.read()
        notes = self.run.stderr.read()
        return self.run.wait(), self.text + rest.decode(), notes


def recorded(program, words, text):
    run = subprocess.run([program] + words, input=text, capture_output=True)
    return run.returncode, run.stdout.decode(), run.stderr


def tried(program, folder, word, direction, command, ticks):
    """What differs between a live run and a recorded one, and the ticks of the other line."""
    key = os.path.join(folder, "key")
    open(key, "w").write(KEY)
    journals = [os.path.join(folder, "%s.%s.%s.%d" % (word, direction, command, n)) for n in (0, 1)]
    for journal in journals:
        subprocess.check_call([program, "init", word, direction, journal])
    box = Box(program, ["live", command, word, direction, key, journals[0]])
    stood = not all(box.pass_on(line, 1) for line in lines_of(ticks))
    if stood:
        box.run.kill()
        return ["it stood still after %d of %d ticks" % (box.taken - 1, len(ticks))], []
    status, text, notes = box.end()
    right = recorded(program, [command, word, direction, key, journals[1]], b"".join(lines_of(ticks)))
    faults = []
    if (status, notes) != (right[0], right[2]):
        faults.append("status %d with notes %r, not %d with %r" % (status, notes, right[0], right[2]))
    if ticks_of(text) != ticks_of(right[1]):
        faults.append("the other line differs")
    floors = [floor_of(journal, (word, direction)) for journal in journals]
    if floors[0] is None or floors[0] != floors[1]:
        faults.append("the journals have the floors %s and %s" % tuple(floors))
    return faults, ticks_of(text)


def main():
    program = built.program(sys.argv, 1)
    failed = 0
    with tempfile.TemporaryDirectory() as folder:
        for word, protocol in LINKS.items():
            for direction in ("ab", "ba"):
                frame = list(bytes.fromhex(FRAMES[protocol]))
                ticks = (frame + [None] * 40) * 2
                for command in ("seal", "check"):
                    faults, ticks = tried(program, folder, word, direction, command, ticks)
                    for fault in faults:
                        print("%s %s %s: %s" % (command, word, direction, fault))
                    failed += len(faults)
                    if faults:
                        break
    print("%d faults" % failed)
    return 1 if failed else 0


if __name__ == "__main__":
    sys.exit(main())
