#!/usr/bin/env python3
"""Counts the instructions that `check` takes for packets with a wrong tag: their number must be the same whichever byte is wrong.

    python3 scripts/tag_instructions.py PROGRAM

PROGRAM is a built link_replay. Each run of `check` has fifty packets of number 1 with the same wrong tag, and a new journal. The
tags are made here, with Python's hmac. It needs valgrind, which counts. It ends with 0 only if all packets were refused for the tag
and the counts of all runs of a profile are the same, and with 2 if valgrind isn't installed. The counts are those of this build on
this machine: no clause says anything about time.
"""
import hashlib, hmac, os, re, shutil, subprocess, sys, tempfile

import built

KEY = bytes(range(16))
FRAME = bytes.fromhex("01030000000ac5cd")
# For each profile how many bytes the word and the tag have, and the hash function.
PROFILES = {"rtu": (2, 12, hashlib.sha1), "rtu24": (4, 16, hashlib.sha256)}


def packet(profile, flips):
    """A packet of number 1, and silence after it. `flips` has the bits that are changed in each byte of the tag."""
    word, size, digest = PROFILES[profile]
    tag = hmac.new(KEY, bytes([1, 0]) + FRAME + (1).to_bytes(8, "big"), digest).digest()[:size]
    wrong = bytes(byte ^ bits for byte, bits in zip(tag, flips))
    return "+%s\n-3\n+%s\n-60\n" % (FRAME.hex(), ((1).to_bytes(word, "big") + wrong).hex())


def instructions(program, profile, flips, folder):
    """How many instructions a run takes, and its notes."""
    journal, key, counts = (os.path.join(folder, name) for name in ("journal", "key", "counts"))
    with open(key, "w") as file:
        file.write(KEY.hex())
    if os.path.exists(journal):
        os.remove(journal)
    subprocess.run([program, "init", profile, "ab", journal], check=True)
    words = ["valgrind", "--tool=callgrind", "--callgrind-out-file=" + counts, program, "check", profile, "ab", key, journal]
    ran = subprocess.run(words, input=packet(profile, flips) * 50, capture_output=True, text=True, check=True)
    notes = [line for line in ran.stderr.splitlines() if not line.startswith("==")]
    return int(re.search(r"Collected : (\d+)", ran.stderr).group(1)), notes


def main(program):
    same = True
    with tempfile.TemporaryDirectory(prefix="tag.") as folder:
        for profile, (_, size, _) in PROFILES.items():
            rows = {"byte %d" % (at + 1): [int(place == at) for place in range(size)] for at in range(size)}
            rows["all bytes"] = [255] * size
            counts = set()
            for name, flips in rows.items():
                count, notes = instructions(program, profile, flips, folder)
                refused = len(notes) == 50 and all(re.fullmatch(r"refused at \d+ tag", note) for note in notes)
                print("%-6s wrong in %-9s  %d instructions%s" % (profile, name, count, "" if refused else "  NOT REFUSED FOR THE TAG"))
                counts.add(count)
                same &= refused
            same &= len(counts) == 1
    print("as many whichever byte is wrong" if same else "they differ")
    return 0 if same else 1


if __name__ == "__main__":
    if len(sys.argv) != 2:
        sys.exit(__doc__)
    if shutil.which("valgrind") is None:
        print("skipped: valgrind isn't installed")
        sys.exit(2)
    sys.exit(main(built.program(sys.argv, 1)))
