#!/usr/bin/env python3
"""Runs each command of `link_replay` on inputs at the limits, and on inputs one tick or byte above them, and checks how it ends.

    python3 scripts/limits.py [PROGRAM] [WORD..]

With WORDs only the commands of these names run. With 16,777,216 ticks, and with 268,435,456 bytes, a run must end well. With one
more, the input must be refused, and the fault line names the first sum that was too great. For 70,000 frames, which are more than
a word of two bytes can count, `replay` must print each one that is sealed, passes and is read, and `audit` must count them. It
prints the status, the CPU time and the last line of the log of each run, and ends with 1 if one isn't as it must be. It is no
part of the gate: all runs together read some 8 GB.
"""
import os, subprocess, sys, tempfile

import built
from killed import KEY, slot_of
from model import AUDIT_STATUS, PAUSE, Dnp3, Rtu, Y18, trailer

TICKS, BYTES = 16_777_216, 268_435_456
FRAMES = {"rtu": b"01030000000ac5cd", "dnp3": b"056405c001000004e921"}
MANY, SILENCE = 70_000, 40
MARKS = {"replay": 1, "duplex": 1, "two_wire": 1, "audit": 2}
FULL_LINE, COMMENT = b"+" + b"5a" * 32 + b"\n", b"#" + b"x" * 120 + b"\n"


def inputs(proto, marks):
    """The name, parts and fault line of each input: of one recording, or of two or three with marks between them."""
    frame = FRAMES["rtu" if proto.startswith("rtu") else "dnp3"]
    head = b"+" + frame + b"\n-40\n" + b"%\n" * marks
    many = [FULL_LINE] * (TICKS // 64)
    ticks = many + [b"%\n"] * marks + many
    silence = TICKS - len(frame) // 2 - 40 - 16 * 1_000_000
    comments, left = divmod(BYTES - len(head), len(COMMENT))
    too_many, too_long = "fault: too long 16777217 ticks", "fault: too long 268435457 bytes"
    yield "ticks, no silence", ticks, ""
    yield "ticks, no silence, one more", ticks + [b"-1\n"], too_many
    for more, fault in ((0, ""), (1, too_many)):
        yield "ticks, silence" + ", one more" * more, [head] + [b"-1000000\n"] * 16 + [b"-%d\n" % (silence + more)], fault
    for more, fault in ((0, ""), (1, too_long)):
        yield "bytes" + ", one more" * more, [head] + [COMMENT] * comments + [b"\n" * (left + more)], fault


def many_frames(command, proto):
    """The recordings of many frames, none of which is lost, and what the command must print for them."""
    frame, rules = FRAMES[proto], Rtu if proto == "rtu" else Dnp3
    key, bare = bytes.fromhex(KEY), bytes.fromhex(frame.decode())
    device, link, sealed, passed, read = [], [], [], [], []
    for number in range(1, MANY + 1):
        behind = bytes(trailer(rules, key, 0, bare, number))
        start = (number - 1) * (len(bare) + SILENCE)
        device.append(b"+%s\n-%d\n" % (frame, SILENCE))
        link.append(b"+%s\n-%d\n+%s\n-%d\n" % (frame, PAUSE, behind.hex().encode(), SILENCE - PAUSE - len(behind)))
        sealed.append(b"sealed %d at %d %s\n" % (number, start, frame))
        passed.append(b"passed %d at %d %s\n" % (number, start, frame))
        read.append(b"read at %d %s\n" % (start + Y18.delay, frame))
    if command == "audit":
        counts = b"audit clean sealed %d passed %d read %d\n" % (MANY, MANY, MANY)
        return device + [b"%\n"] + link + [b"%%\n-%d\n" % Y18.delay] + device, counts
    return device + [b"%\n"] + link, b"".join(sealed + passed + read)


def run(program, words, parts, folder):
    """The status, the CPU time in seconds and the last line of the log."""
    places = {name: os.path.join(folder, name) for name in ("KEY", "JOURNAL", "NEW", "out", "log")}
    link = (words.split()[1], "ab") if "JOURNAL" in words else ("rtu", "ab")
    for name, content in (("KEY", KEY.encode()), ("JOURNAL", bytes(32) + slot_of(0, link) + bytes(24)), ("NEW", b"")):
        with open(places[name], "wb") as file:
            file.write(content)
    with open(places["out"], "wb") as out, open(places["log"], "wb") as log:
        child = subprocess.Popen([program] + [places.get(word, word) for word in words.split()], stdin=subprocess.PIPE, stdout=out, stderr=log)
        try:
            for part in parts:
                child.stdin.write(part)
            child.stdin.close()
        except BrokenPipeError:
            pass
        _, status, usage = os.wait4(child.pid, 0)
    with open(places["log"], "rb") as log:
        lines = log.read()[-200:].decode().splitlines()
    return os.waitstatus_to_exitcode(status), usage.ru_utime + usage.ru_stime, lines[-1] if lines else ""


def main():
    program = built.program(sys.argv, 1)
    commands = ["init rtu ab NEW", "vectors", "help", "version", "trial rtu 7 10000", "trial dnp3 7 10000", "poll rtu 7 10000", "poll dnp3 7 10000", "read rtu", "read dnp3", "space rtu", "space dnp3"]
    for box in ("seal %s ab KEY JOURNAL", "check %s ab KEY JOURNAL", "replay %s ab KEY", "audit %s ab KEY 0 0", "duplex %s ab KEY",
                "two_wire %s ab answers 45 4 KEY"):
        commands += [box % proto for proto in ("rtu", "dnp3")]
    wrong, names = 0, sys.argv[2:]
    unknown = set(names) - {words.split()[0] for words in commands}
    if unknown:
        sys.exit("limits: no command is called %s" % ", ".join(sorted(unknown)))
    with tempfile.TemporaryDirectory(dir="/dev/shm" if os.path.isdir("/dev/shm") else None) as folder:
        for words in commands:
            name, proto = (words.split() + [""])[:2]
            if names and name not in names:
                continue
            kinds = [("nothing is read", [], "")] if name in ("init", "vectors", "help", "version", "trial", "poll") else inputs(proto, MARKS.get(name, 0))
            for kind, parts, fault in kinds:
                status, seconds, last = run(program, words, parts, folder)
                whole = AUDIT_STATUS.values() if name == "audit" else (0,)
                right = status in ((10,) if fault else whole) and (last == fault or not fault)
                wrong += not right
                print("%-24s %-30s status %2d %6.2f s  %s%s" % (words, kind, status, seconds, last, "" if right else "  WRONG"), flush=True)
            if name in ("replay", "audit"):
                parts, lines = many_frames(name, proto)
                status, seconds, last = run(program, words, parts, folder)
                with open(os.path.join(folder, "out"), "rb") as out:
                    right = (status, last, out.read()) == (0, "", lines)
                wrong += not right
                print("%-24s %-30s status %2d %6.2f s  %s%s" % (words, "%d frames" % MANY, status, seconds, last, "" if right else "  WRONG"), flush=True)
    sys.exit(1 if wrong else 0)


main()
