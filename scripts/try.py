#!/usr/bin/env python3
"""Builds the program without proving it, and shows what it makes of a recorded session, or of a capture of your own.

    python3 scripts/try.py
    python3 scripts/try.py CAPTURE=FILE RATE=BAUDxBITS P=PROTOCOL [START=TIME] [FRAMES=1]

Without words the session is the recorded line of a control centre (examples/requests.ticks) and its link as an attacker left it
(examples/altered.ticks). It prints what the attacker did and what became of it. What the program writes is compared with
examples/expected/.

FILE is a capture that `line_capture` takes (pcap, pcapng, text, Logic 2, sigrok: docs/LINE_CAPTURE.md), or tick text. Its form is
found out from its first bytes. RATE is such as 9600x11, and P is rtu, dnp3, rtu24 or dnp24. Of each way that has bytes it prints the
frames that a device reads and the notes of `seal`. START is the date and time of its first byte, such as 2026-11-30T14:05:09.250,
for the picture. With FRAMES=1 each record is taken for a frame.

Both draw a picture. What is built stays in out/try/, and is built anew only when a source file has changed. The exit status is 0 if
the programs end well and nothing differs.
"""
import os, re, sys

import timeline, try_session, unproved
from try_session import NOT_PROVED, Bench, Capture, Failed, Programs

USAGE = "usage: make try [CAPTURE=FILE RATE=9600x11 P=rtu [START=2026-11-30T14:05:09] [FRAMES=1]]; P is rtu, dnp3, rtu24 or dnp24"
NAMES = ("CAPTURE", "RATE", "P", "START", "FRAMES")


def capture_of(words):
    """The capture that the words name."""
    pairs = [word.partition("=") for word in words]
    given = {name: value for name, _, value in pairs}
    if not all(sign and name in NAMES for name, sign, _ in pairs) or not {"CAPTURE", "RATE", "P"} <= given.keys():
        raise Failed(USAGE)
    if not re.fullmatch(r"[1-9][0-9]{2,5}x1[01]", given["RATE"]) or given["P"] not in try_session.DELAYS:
        raise Failed(USAGE)
    if given.get("START"):
        timeline.start_of(given["START"])
    try_session.content_of(given["CAPTURE"])
    return Capture(given["CAPTURE"], given["RATE"], given["P"], given.get("START", ""), bool(given.get("FRAMES")))


def main(words):
    capture = capture_of(words) if words else None
    names = ["link_replay"] + ["line_capture"] * (capture is not None)
    programs = [unproved.program(name) for name in names]
    bench = Bench(Programs(*programs, *[None] * (2 - len(programs))), unproved.OUT)
    print("%s\n" % NOT_PROVED)
    if capture:
        is_whole = try_session.show_capture(bench, capture)
    else:
        differs = try_session.show_example(bench)
    print("The programs, which aren't proved, and all texts are in %s." % os.path.relpath(unproved.OUT))
    if not capture and differs:
        raise Failed("what the program writes differs from examples/expected/: %s" % ", ".join(differs))
    if capture and not is_whole:
        raise Failed("not all of the capture could be taken")


if __name__ == "__main__":
    try:
        main(sys.argv[1:])
    except (Failed, timeline.Wrong, unproved.Failed) as why:
        sys.exit("try: %s" % why)
    except FileNotFoundError as missing:
        sys.exit("try: %s isn't there. `rt` comes with the toolchain, and must be on the path." % missing.filename)
