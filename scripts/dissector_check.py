#!/usr/bin/env python3
"""Runs tshark, with the dissector of tools/wireshark/, over links that the program seals.

    python3 scripts/dissector_check.py [PROGRAM]

A line of frames of each protocol is sealed with each profile, and put into two captures by
text2pcap: one whose records are whole packets, and one in which a frame and its trailer have a record
each. Both end with a packet in whose first byte a bit is flipped. The frames, words and tags that
tshark shows must be those of the frames that were sent and of the notes of `seal`. The tags are
computed here, with hashlib. If tshark or text2pcap isn't installed, nothing is tested and the status
is 2. It is 0 only if all is as it must be. It is no part of the gate.
"""
import os, random, shutil, subprocess, sys, tempfile

import built, model
from capture_fixtures import packets_text, packets_to, tool
from capture_model import SECOND, Record, lines_of, runs_of
from killed import KEY, slot_of
from model import Y18, Y24, Dnp3, Rtu
from plausible_frames import EXCHANGES

ROOT = os.path.dirname(os.path.dirname(os.path.abspath(__file__)))
DISSECTOR = os.path.join(ROOT, "tools", "wireshark", "yasir.lua")

# The floor of the journals: the words of y24 above it use all four bytes, and wrap.
FLOOR = 0x1FFFFFFF5

FIELDS = ("yasir.frame", "yasir.word", "yasir.tag", "yasir.other", "mbrtu.crc16.status",
          "dnp.hdr.CRC.status")


def sealed_by(program, proto, profile, line):
    """The link that the program makes of a line, and the numbers in its notes."""
    link = (model.word_of(proto, profile), "ab")
    with tempfile.TemporaryDirectory() as folder:
        key, journal = os.path.join(folder, "key"), os.path.join(folder, "journal")
        with open(key, "w") as file:
            file.write(KEY)
        with open(journal, "wb") as file:
            file.write(bytes(32) + slot_of(FLOOR, link))
        ran = subprocess.run([program, "seal", *link, key, journal],
                             input=model.canonical(line).encode(), capture_output=True, check=True)
    notes = [note.split() for note in ran.stderr.decode().splitlines()]
    return lines_of(ran.stdout.decode())[0], [int(note[1]) for note in notes if note[0] == "sealed"]


def shown(path, proto, profile):
    """What tshark shows of each record: the fields of the dissector, and the states of CRCs."""
    words = ["tshark", "-X", "lua_script:" + DISSECTOR, "-r", path, "-d", "rtacser.data,yasir",
             "-o", "mbrtu.crc_verification:TRUE",
             "-o", "yasir.profile:" + ("y24" if profile is Y24 else "y18"),
             "-o", "yasir.protocol:" + ("Modbus RTU" if proto is Rtu else "DNP3"), "-T", "fields"]
    rows = tool(words + [word for field in FIELDS for word in ("-e", field)]).decode()
    return [tuple(row.split("\t")) for row in rows.split("\n")[:-1]]


def capture(folder, parts):
    """A capture whose records are these."""
    path = os.path.join(folder, "link.pcap")
    records = [Record("a", SECOND * place, data) for place, data in enumerate(parts)]
    packets_to("pcap", packets_text(records), path)
    return path


def rows_due(proto, profile, frames, numbers):
    """What must be shown of each frame, and of the trailer after it."""
    state = ("1", "") if proto is Rtu else ("", "1")
    for frame, number in zip(frames, numbers):
        word = number % (1 << 8 * profile.word)
        tag = model.tag(proto, bytes.fromhex(KEY), 0, list(frame), number, profile)
        yield (frame.hex(),), (str(word), tag.hex(), ""), state


def compare(program, proto, profile, chance, folder):
    """Returns whether tshark shows the packets of one line as they are."""
    frames = [frame for _ in range(10) for frame in EXCHANGES[proto](chance)]
    line = [tick for frame in frames for tick in list(frame) + [None] * 40]
    link, numbers = sealed_by(program, proto, profile, line)
    runs = [data for _, data in runs_of(link)]
    packets = [frame + trailer for frame, trailer in zip(runs[::2], runs[1::2])]
    altered = bytes([packets[0][0] ^ 1]) + packets[0][1:]
    whole, parted = [], []
    for frame, trailer, state in rows_due(proto, profile, frames, numbers):
        whole.append(frame + trailer + state)
        parted += [frame + ("", "", "") + state, ("",) + trailer + ("", "")]
    odd, right = ("", "", "", altered.hex(), "", ""), len(numbers) == len(frames)
    ways = [("whole packets", packets, whole), ("frames and trailers", runs, parted)]
    for name, parts, due in ways:
        found, due = shown(capture(folder, parts + [altered]), proto, profile), due + [odd]
        wrong = [pair for pair in zip(found, due) if pair[0] != pair[1]]
        is_same = not wrong and len(found) == len(due)
        said = "as they are" if is_same else "of which the first wrong one is"
        link = "%s y%s" % (proto.word, profile.name or "18")
        print("%s, %s: %d records %s" % (link, name, len(found), said))
        for each in wrong[:1]:
            print("  shown   %s\n  must be %s" % each)
        right &= is_same
    return right


def main(words):
    program = built.program(words, 0)
    for name in ("tshark", "text2pcap"):
        if shutil.which(name) is None:
            print("skipped: %s isn't installed" % name)
            return 2
    chance, right = random.Random(1), True
    with tempfile.TemporaryDirectory() as folder:
        for proto in (Rtu, Dnp3):
            for profile in (Y18, Y24):
                right &= compare(program, proto, profile, chance, folder)
    return 0 if right else 1


if __name__ == "__main__":
    sys.exit(main(sys.argv[1:]))
