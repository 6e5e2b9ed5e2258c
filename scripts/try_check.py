#!/usr/bin/env python3
"""Compares what `make try` shows of the recorded session, and of captures, with texts that were written by hand.

    python3 scripts/try_check.py [LINK_REPLAY [LINE_CAPTURE]]

It runs built programs, and builds none. Those of `make try` do too: out/try/link_replay and out/try/line_capture. The status is 0 if
all is as it must be, and 2 if a program isn't there. It is no part of the gate.
"""
import contextlib, io, os, subprocess, sys, tempfile

import built, try_session
from try_session import Bench, Capture, Failed, Programs, example

ROOT = try_session.ROOT

# The session. The first sentences are those of examples/altered.ticks, and the notes those that were worked out by hand
# (examples/README.md).
SESSION = """== What came over the link to the receiver, by examples/altered.ticks, and what became of it

The first packet as it was sent.
    passed 1 at 0 len 8
A frame of the attacker's own, which would switch a coil on.
    refused at 50 trailer
The first packet again.
    refused at 100 tag
The second packet, its function 03 changed to 06 and its CRC made right again.
    refused at 150 tag
The second packet of the other direction (expected/replies.link.ticks), sent this way.
    refused at 200 tag
The second packet, its tag cut off, and the attacker's frame right behind it: while that one comes, the bytes before it still leave.
    refused at 250 trailer
    dropped at 264 busy
The second packet as it was sent, late.
    passed 2 at 300 len 4

What these notes mean:

    passed          its number is new and its tag right: it leaves as it came
    refused trailer no number and tag behind it: it leaves with a wrong ending
    refused tag     its tag isn't that of its bytes and a new number: it leaves with a wrong ending
    dropped busy    an earlier burst still leaves: nothing of it leaves

== What the device reads, 18 ticks later: the two frames that the transmitter sealed, and nothing of the attacker's

    read at 18 01030000000ac5cd
    read at 318 01034021

A picture of it, for a browser: session.html (docs/TIMELINE.md says what it shows)
"""

# What is shown of a way: its letter, the words of `read` and `seal`, their lines, what the notes mean, and the counts.
WAY = """== Way %s: the frames that a device reads (`read %s`)

%s

== Way %s: what the transmitter makes of it (`seal %s`, with a new journal)

%s

%s

Frames that are read: %d. Sealed: %d. Read behind the receiver, over an untouched link: %d.
%s
"""
# The bytes of each frame follow each other at once.
APART = "distances inside bursts: shortest 1, usual 1\n"
COUNTED = "counted: overlaps 0, errors 0, breaks 0, control lines 0\n" + APART
PICTURE = "A picture of it, for a browser: capture.html (docs/TIMELINE.md says what it shows)\n"
SEALED = "    sealed          forwarded, with its number and tag behind it"
FORM = "    unsealed form   no frame: forwarded, with nothing behind it"
EARLY = "    unsealed early  fewer than 21 silent ticks after a sealed frame: not forwarded"
CLOSE = "`unsealed early`: `read` needs four silent ticks between two frames, and the boxes need 21.\n"


def way(letter, protocol, frames, notes, meanings, counts, more=""):
    """What is shown of a way of a capture."""
    link = "%s %s" % (protocol, {"a": "ab", "b": "ba"}[letter])
    indented = ["\n".join("    " + row for row in rows) for rows in (frames, notes)]
    return WAY % (letter, protocol.replace("rtu24", "rtu").replace("dnp24", "dnp3"), indented[0], letter, link, indented[1], "\n".join(meanings), *counts, more)


# The frames of examples/captures/, by their README.md: the requests begin in ticks 0 and 100 and have eight bytes each, and the
# replies in ticks 28 and 120 and have 25 and 5.
def modbus(word):
    """What is shown of the Modbus RTU captures, by the protocol's word with its profile."""
    return (way("a", word, ["read at 0 01030000000ac5cd", "read at 100 0103000a0002e409"], ["sealed 1 at 0 len 8", "sealed 2 at 100 len 8"], [SEALED], (2, 2, 2))
            + way("b", word, ["read at 28 01031408fd08fa090100650067006301f400000000000198d2", "read at 120 018302c0f1"],
                  ["sealed 1 at 28 len 25", "sealed 2 at 120 len 5"], [SEALED], (2, 2, 2)))


def dnp3(word):
    """What is shown of the DNP3 captures."""
    return (way("a", word, ["read at 0 056405c001000004e921", "read at 100 05640bc401000004f45cc0c0013c020654e0"],
                ["sealed 1 at 0 len 10", "sealed 2 at 100 len 18"], [SEALED], (2, 2, 2))
            + way("b", word, ["read at 20 056405000004010019a6", "read at 130 05640a4400040100595ec0c08100009ce8"],
                  ["sealed 1 at 20 len 10", "sealed 2 at 130 len 17"], [SEALED], (2, 2, 2)))


# Five replies of 85 bytes, with four silent ticks between two of them where each record is a frame.
REPLY = ("01035003e803e903ea03eb03ec03ed03ee03ef03f003f103f203f303f403f503f603f703f803f903fa03fb03fc03fd03fe03ff"
         "0400040104020403040404050406040704080409040a040b040c040d040e040f11df")
GATEWAY = way("a", "rtu", ["read at %d %s" % (tick, REPLY) for tick in range(0, 445, 89)],
              ["sealed 1 at 0 len 85", "unsealed at 89 early", "sealed 2 at 178 len 85", "unsealed at 267 early", "sealed 3 at 356 len 85"],
              [SEALED, EARLY], (5, 3, 3),
              CLOSE + "With FRAMES=1 the silences aren't those of the line, and this says nothing about it.\n")
REFUSED = ("counted: overlaps 4, errors 0, breaks 0, control lines 0\n" + APART + "fault: way a byte 85 overlap\n"
           "It is refused there, and what comes before that place is shown (docs/LINE_CAPTURE.md).\nIf each of its records is a frame, say so: FRAMES=1.\n")
FIRST = way("a", "rtu", ["read at 0 " + REPLY], ["sealed 1 at 0 len 85"], [SEALED], (1, 1, 1))
REQUESTS = way("a", "rtu", ["read at 0 01030000000ac5cd", "read at 131 01034021", "read at 156 01030000000ac5cd"],
               ["sealed 1 at 0 len 8", "unsealed at 73 form", "unsealed at 101 form", "sealed 2 at 131 len 4", "unsealed at 156 early"],
               [SEALED, FORM, EARLY], (3, 2, 2), CLOSE + "A spacer in front of the transmitter sends such frames apart (docs/FIT.md).\n")
ONE_PAIR = ("The other way has no byte. If the line has one pair of wires, this way has requests and replies: give it to\n"
            "`link_replay two_wire` (docs/USAGE.md).\n\n")
NOTHING = way("a", "dnp3", ["none"], ["unsealed at 0 form", "unsealed at 100 form"], [FORM], (2, 0, 0)).replace("read: 2", "read: 0").replace(
    "link: 0.\n", "link: 0.\nIf you know that frames were sent, RATE or P is wrong, or their bytes lie too far apart (docs/LINE_CAPTURE.md).\n")

# A file, the rate, the protocol, whether each record is a frame, its form, what is shown, and whether all of it is taken.
CAPTURES = [("captures/modbus.pcap", "9600x11", "rtu", False, "pcap", COUNTED + "\n" + modbus("rtu"), True),
            ("captures/modbus.pcapng", "9600x11", "rtu24", False, "pcap", COUNTED + "\n" + modbus("rtu24"), True),
            ("captures/modbus.logic2.csv", "9600x11", "rtu", False, "logic2", COUNTED + "\n" + modbus("rtu"), True),
            ("captures/modbus.sigrok.json", "9600x11", "rtu", False, "sigrok", COUNTED + "\n" + modbus("rtu"), True),
            ("captures/modbus.ticks", "9600x11", "rtu", False, "ticks", "\n" + modbus("rtu"), True),
            ("captures/dnp3.pcap", "9600x10", "dnp3", False, "pcap", COUNTED + "\n" + dnp3("dnp3"), True),
            ("captures/dnp3.pcapng", "9600x10", "dnp24", False, "pcap", COUNTED + "\n" + dnp3("dnp24"), True),
            ("captures/gateway_replies.text", "9600x11", "rtu", False, "text", REFUSED + "\n" + FIRST, False),
            ("captures/gateway_replies.text", "9600x11", "rtu", True, "text", COUNTED + "\n" + GATEWAY, True),
            ("requests.ticks", "9600x11", "rtu", False, "ticks", "\n" + REQUESTS, True),
            ("captures/modbus_requests.text", "9600x11", "dnp3", False, "text", COUNTED + "\n" + NOTHING, True)]


def printed(folder, show, *words):
    """What a call prints, with names of files as from the folder, and what it returns."""
    out, before = io.StringIO(), os.getcwd()
    os.chdir(folder)
    try:
        with contextlib.redirect_stdout(out):
            returned = show(*words)
    finally:
        os.chdir(before)
    return out.getvalue(), returned


def is_said_in(page):
    """Whether each session of a page says that its build isn't proved."""
    with open(page) as file:
        text = file.read()
    sessions = text.count('class="session">')
    return sessions > 0 and text.count(try_session.REMARK.split("=", 1)[1]) == sessions


def wrong_words():
    """Words for try.py, none of which name a capture."""
    capture = "CAPTURE=" + example("captures", "modbus.pcap")
    return [["x"], ["RATE=9600x11"], [capture, "RATE=9600x11"], [capture, "RATE=9600", "P=rtu"], [capture, "RATE=9600x11", "P=modbus"],
            [capture, "RATE=9600x11", "P=rtu", "START=noon"], ["CAPTURE=/nowhere", "RATE=9600x11", "P=rtu"],
            ["CAPTURE=" + os.path.join(ROOT, "README.md"), "RATE=9600x11", "P=rtu"]]


def main():
    programs, wrong = Programs(built.program(sys.argv, 1), built.program(sys.argv, 2, "line_capture")), []

    def see(what, got, wanted):
        if got != wanted:
            wrong.append(what)
            print("WRONG: %s\n-- shown:\n%s\n-- wanted:\n%s" % (what, got, wanted))

    with tempfile.TemporaryDirectory(prefix="try_check.") as folder:
        bench = Bench(programs, folder)
        see("the session", printed(folder, try_session.show_example, bench), (SESSION, []))
        see("its picture", is_said_in(bench.name("session.html")), True)
        for name, rate, protocol, is_of_frames, form, shown, is_whole in CAPTURES:
            words = Capture(example(name), rate, protocol, "", is_of_frames)
            wanted = "%s is of the form %s.\n%s%s" % (os.path.basename(name), form, shown, PICTURE)
            see(name, printed(folder, try_session.show_capture, bench, words), (wanted, is_whole))
            see("the picture of " + name, is_said_in(bench.name("capture.html")), True)
        one = bench.write("one.ticks", "%\n+01034021\n")
        text, _ = printed(folder, try_session.show_capture, bench, Capture(one, "9600x11", "rtu", "", False))
        see("a capture with one way", text.endswith(ONE_PAIR + PICTURE), True)
        try:
            printed(folder, try_session.show_capture, bench, Capture(bench.write("none.ticks", "-5\n"), "9600x11", "rtu", "", False))
            see("a capture without a byte", "shown", "refused")
        except Failed as why:
            see("a capture without a byte", str(why).endswith("none.ticks has no byte"), True)
    for words in wrong_words():
        ran = subprocess.run([sys.executable, os.path.join(ROOT, "scripts", "try.py"), *words], capture_output=True, text=True)
        refused = ran.returncode == 1 and not ran.stdout and ran.stderr.startswith(("try: ", "timeline: ")) and "Traceback" not in ran.stderr
        see("the words %s: %s" % (words, ran.stderr), refused, True)
    print("The session, %d captures and %d wrong words: %d wrong" % (len(CAPTURES) + 2, len(wrong_words()), len(wrong)))
    return 1 if wrong else 0


if __name__ == "__main__":
    sys.exit(main())
