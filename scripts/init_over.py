#!/usr/bin/env python3
"""Runs `link_replay init` over files of each kind, and checks the status and what the file holds after the run.

    python3 scripts/init_over.py [PROGRAM]

Nothing may be written over a key, a damaged journal, or any other file whose first 80 bytes aren't all 00: from a new floor of
0 on, the numbers of an old key would come twice. It ends with 1 if a run leaves anything else. It is no part of the gate.
"""
import os, subprocess, sys, tempfile

import built
from killed import KEY, old_slot_of, slot_of

OLD = bytes(32)
ZERO, SEVEN, OTHER = slot_of(0), slot_of(7), slot_of(9, ("dnp24", "ba"))
OLD_SEVEN, OLD_TORN, TORN = old_slot_of(7), b"\x11" * 16, b"\x11" * 24
STANDS, NO_JOURNAL = "fault: journal stands at %d\n", "fault: journal: not empty\n"

# What the file is, its bytes (None if it is missing), the status, the log, and its bytes after the run (None if as before).
CASES = [
    ("missing", None, 0, "", OLD + ZERO),
    ("empty", b"", 0, "", OLD + ZERO),
    ("zeros of both old slots", OLD, 0, "", OLD + ZERO),
    ("zeros of all slots", bytes(80), 0, "", OLD + ZERO + bytes(24)),
    ("zeros, and more after the slots", bytes(80) + b"more", 0, "", OLD + ZERO + bytes(24) + b"more"),
    ("a new journal", OLD + ZERO + bytes(24), 11, STANDS % 0, None),
    ("a journal, one slot torn", OLD + TORN + SEVEN, 11, STANDS % 7, None),
    ("a journal, the other slot torn", OLD + SEVEN + TORN, 11, STANDS % 7, None),
    ("a journal, both slots torn", OLD + TORN + TORN, 7, NO_JOURNAL, None),
    ("a journal of another link", OLD + SEVEN + OTHER, 11, STANDS % 9, None),
    ("an old journal", OLD_SEVEN + bytes(16), 11, STANDS % 7, None),
    ("an old journal, both slots torn", OLD_TORN + OLD_TORN, 7, NO_JOURNAL, None),
    ("a journal cut off in slot A", OLD + ZERO[:15], 7, NO_JOURNAL, None),
    ("one byte that isn't 00 at the end of slot B", bytes(79) + b"\x01", 7, NO_JOURNAL, None),
    ("a key", KEY.encode(), 7, NO_JOURNAL, None),
    ("a recording", b"+01030000000ac5cd\n-40\n", 7, NO_JOURNAL, None),
    ("one byte", b"\n", 7, NO_JOURNAL, None),
]


def main():
    program = built.program(sys.argv, 1)
    wrong = 0
    with tempfile.TemporaryDirectory() as folder:
        path = os.path.join(folder, "file")
        for name, before, status, log, left in CASES:
            if os.path.exists(path):
                os.remove(path)
            if before is not None:
                open(path, "wb").write(before)
            run = subprocess.run([program, "init", "rtu", "ab", path], stdin=subprocess.DEVNULL, stdout=subprocess.PIPE, stderr=subprocess.PIPE)
            after = open(path, "rb").read() if os.path.exists(path) else None
            right = (run.returncode, run.stdout, run.stderr.decode(), after) == (status, b"", log, before if left is None else left)
            wrong += not right
            print("init over %-44s status %2d, %s%s" % (name, run.returncode, "unchanged" if after == before else "written", "" if right else "  WRONG"))
    print("%d files, %d wrong" % (len(CASES), wrong))
    sys.exit(wrong > 0)


main()
