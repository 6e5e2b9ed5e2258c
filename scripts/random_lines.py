#!/usr/bin/env python3
"""Runs `link_replay` over random lines of both protocols, and compares what it writes with the model in model.py.

    python3 scripts/random_lines.py [LINES] [PROGRAM] [SEED]

A line has frames, packets (altered, cut, repeated or whole), noise and silence, with the lengths at which the rules change. The
commands are `read`, and with both profiles `seal`, `check`, `space`, `replay`, `duplex` and `audit`. For each run the standard
output, the notes and the floor of the journal after the run are compared. The journal is one of the link, or an old one that is
taken over. The link for `replay` or `audit` is the one that the transmitter made of the device's line, or parts of it, some of
them altered, or an unrelated one. `audit` also gets the line that a receiver makes of this link, in some runs with one tick altered.
The line for `space` is one like the others, or has many close frames, some of them cut, so that more would have to wait than may.
It is no part of the gate.
"""
import os, random, subprocess, sys, tempfile

import built, model
from killed import KEY, floor_of, old_slot_of, slot_of
from model import LIMIT, PAUSE, Y18, Y24, Dnp3, Rtu

# The words in notes and printed lines by which runs are counted.
WORDS = ("sealed", "unsealed", "passed", "refused", "dropped", "read", "forged", "early", "form", "spent", "trailer", "number", "tag",
         "busy", "head", "lost", "clean", "differs", "empty")

# The commands that keep no journal, those of them that take two recordings and a floor of 0, and those without a key.
NO_JOURNAL, TWO_LINES, NO_KEY = ("read", "space", "replay", "duplex", "audit"), ("replay", "duplex"), ("read", "space")


def some_frame(proto, chance):
    if proto is Rtu:
        body = [chance.randrange(256) for _ in range(chance.choice([2, 2, 3, 4, 7, 22, 254]))]
        return body + list(Rtu.end(body))
    user = [chance.choice([0x00, 0x05, 0x64, chance.randrange(256)]) for _ in range(chance.choice([0, 1, 6, 15, 16, 17, 32, 250]))]
    header = [0x05, 0x64, 5 + len(user)] + [chance.randrange(256) for _ in range(5)]
    frame = header + list(Dnp3.end(header))
    for place in range(0, len(user), 16):
        block = user[place:place + 16]
        frame += block + list(Dnp3.end(block))
    return frame


def altered(ticks, chance):
    """The ticks with one of them changed or taken out, or with the last ones cut off."""
    place, deed = chance.randrange(len(ticks)), chance.randrange(4)
    if deed == 0:
        return ticks[:place] + ticks[place + 1:]
    if deed == 1:
        return ticks[:place + 1]
    return ticks[:place] + [None if deed == 2 else chance.randrange(256)] + ticks[place + 1:]


def with_gaps(frame, chance):
    """The frame with single silent ticks inside."""
    ticks = frame[:1]
    for byte in frame[1:]:
        ticks += [None] * (chance.random() < 0.3) + [byte]
    return ticks


def some_line(proto, key, direction, floor, packets, chance, profile=Y18):
    line, number, sent = [], floor, [some_frame(proto, chance)]
    for _ in range(chance.randrange(1, 8)):
        kind, frame = chance.randrange(10), some_frame(proto, chance)
        if kind < 5:
            number = min(number + chance.choice([1, 1, 1, 2, 100]), LIMIT)
            behind = [None] * PAUSE + model.trailer(proto, key, direction, frame, number, profile) if packets else []
            sent.append((frame if kind else with_gaps(frame, chance)) + behind)
            line += sent[-1]
        elif kind == 5:
            line += chance.choice(sent)
        elif kind < 8:
            line += altered(sent[-1], chance)
        elif kind == 8:
            line += [chance.choice([0x05, 0x64, None, None, chance.randrange(256)]) for _ in range(chance.randrange(60))]
        else:
            line += [chance.randrange(256) for _ in range(chance.choice([255, 256, 257, 292, 293, 300]))]
        line += [None] * chance.choice([0, 1, 2, 3, 4, 5, 9, 17, 18, 19, 20, 21, 22, 40, 100, 300])
    return line


def some_crowd(proto, chance):
    """A line of many close frames, most of them short, with cut ones and noise between them."""
    line, gaps = [], chance.choice([[4], [4, 5, 9], [4, 20, 21, 22], [0, 3, 4]] + [[0], [0, 1, 2], [0, 40]] * (proto is Dnp3))
    frames = [some_frame(proto, chance) for _ in range(8)]
    short = min(frames, key=len)
    for _ in range(chance.choice([3, 66, 67, 100, 200, 300])):
        kind, frame = chance.randrange(60), chance.choice(frames) if chance.random() < 0.2 else short
        if kind == 0:
            frame = altered(frame, chance)
        elif kind == 1:
            frame = with_gaps(frame, chance)
        elif kind == 2:
            frame = [chance.randrange(256) for _ in range(chance.randrange(1, 300))]
        line += frame + [None] * chance.choice(gaps)
    return line + [None] * chance.choice([0, 0, 10, 5000])


def some_link(proto, key, direction, line, floor, chance, profile):
    """A link for this line: what its transmitter sends, or parts of this, some of them altered, or an unrelated link."""
    link, parts = model.seal(proto, key, direction, floor, line, profile)[0], []
    if chance.random() < 0.2:
        return link
    for _ in range(chance.randrange(1, 6)):
        first = chance.randrange(len(link))
        part = link[first:first + chance.choice([30, 60, 200, 1000])]
        parts += altered(part, chance) if chance.random() < 0.4 else part
        parts += [None] * chance.choice([0, 4, 20, 40])
    return parts if chance.random() < 0.7 else some_line(proto, key, direction, floor, True, chance, profile)


def run(program, words, text, journal, floor, old):
    """What the program writes, and the journal's floor after the run, which begins with a journal at `floor`, an old one with `old`."""
    link = tuple(words[1:3]) if words[0] not in NO_KEY else ("rtu", "ab")
    with open(journal, "wb") as file:
        file.write(old_slot_of(floor) if old else bytes(32) + slot_of(floor, link))
    ran = subprocess.run([program] + words, input=text, capture_output=True, text=True)
    return ran.returncode, ran.stdout, ran.stderr.splitlines(), floor_of(journal, link)


def expected(proto, profile, command, key, direction, lines, floor):
    if command == "read":
        return 0, "".join("read at %d %s\n" % (start, bytes(frame).hex()) for start, frame in model.reads(proto, lines[0])), [], floor
    if command == "replay":
        return 0, "".join(line + "\n" for line in model.replay(proto, key, direction, lines[0], lines[1], profile)), [], floor
    if command == "duplex":
        sent, received, notes = model.duplex(proto, key, direction, lines[0], lines[1], profile)
        return 0, model.canonical(sent) + "%\n" + model.canonical(received), notes, floor
    if command == "audit":
        text, status = model.audit(proto, key, direction, (floor, floor), lines[0], lines[1], lines[2], profile)
        return status, text, [], floor
    if command == "space":
        spaced, lost, _ = model.space(proto, lines[0], profile)
        return 0, model.canonical(spaced), lost, floor
    box = model.seal if command == "seal" else model.check
    other, notes, floor, _ = box(proto, key, direction, floor, lines[0], profile)
    return 0, model.canonical(other), notes, floor


def words_of(proto, profile, command, direction, key_file, journal, floor):
    name = proto.word if command == "read" else model.word_of(proto, profile)
    named = [["ab", "ba"][direction], key_file] + [journal] * (command not in NO_JOURNAL) + [str(floor)] * 2 * (command == "audit")
    return [command, name] + named * (command not in NO_KEY)


def some_lines(proto, key, direction, command, floor, chance, profile):
    """The recordings that a command gets."""
    given = [some_line(proto, key, direction, floor, command == "check", chance, profile)]
    if command == "space" and chance.random() < 0.5:
        given = [some_crowd(proto, chance)]
    if command == "duplex":
        given.append(some_line(proto, key, 1 - direction, 0, True, chance, profile))
    if command in ("replay", "audit"):
        given.append(some_link(proto, key, direction, given[0], floor, chance, profile))
    if command == "audit":
        received = model.check(proto, key, direction, floor, given[1], profile)[0]
        there = [place for place, byte in enumerate(received) if byte is not None]
        if there and chance.random() < 0.3:
            received[chance.choice(there)] = chance.choice([None, chance.randrange(256)])
        given.append(received)
    return given


def main():
    lines = int(sys.argv[1]) if len(sys.argv) > 1 else 1000
    program = built.program(sys.argv, 2)
    chance, key, seen = random.Random(int(sys.argv[3]) if len(sys.argv) > 3 else 1), bytes.fromhex(KEY.strip()), {}
    with tempfile.TemporaryDirectory(prefix="random_lines.") as folder:
        key_file, journal = os.path.join(folder, "key"), os.path.join(folder, "journal")
        open(key_file, "w").write(KEY)
        for _ in range(lines):
            proto, direction, profile = chance.choice([Rtu, Dnp3]), chance.randrange(2), chance.choice([Y18, Y18, Y24])
            command = chance.choice(["read", "seal", "check", "check", "replay", "space", "duplex", "audit"])
            floor = 0 if command in TWO_LINES else chance.choice([0, 0, 5, 65530, 70000, LIMIT - 3, LIMIT])
            old = chance.random() < 0.25
            given = some_lines(proto, key, direction, command, floor, chance, profile)
            words = words_of(proto, profile, command, direction, key_file, journal, floor)
            text = "%\n".join(map(model.canonical, given))
            wrote = run(program, words, text, journal, floor, old)
            wanted = expected(proto, profile, command, key, direction, given, floor)
            if wrote != wanted:
                sys.exit("`%s` from floor %d writes\n%s\nand the model\n%s\nof\n%s" % (" ".join(words), floor, wrote, wanted, text))
            for note in wrote[2] + wrote[1].splitlines() * (command in ("read", "replay", "audit")):
                kind = " ".join(words[:2] + [word for word in note.split() if word.isalpha() and word in WORDS][:2])
                seen[kind] = seen.get(kind, 0) + 1
    print("%d lines, and all is what the model writes. Seen were:" % lines)
    print("\n".join("%7d %s" % (count, kind) for kind, count in sorted(seen.items())))


if __name__ == "__main__":
    main()
