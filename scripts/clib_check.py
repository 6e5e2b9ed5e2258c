#!/usr/bin/env python3
"""Compares a filter in C that uses the library yasir_c with the program, over attacked links.

    python3 scripts/clib_check.py PROGRAM [FRAMES] [SEED]

PROGRAM is a built link_replay. FRAMES frames (100,000 if not given) are drawn from SEED (1), a quarter of them for each of rtu,
dnp3, rtu24 and dnp24. PROGRAM seals each quarter, the link is attacked in ten ways, and PROGRAM checks it. bridge/out/filter then
seals and checks the same, with journals of its own. The exit status is 0 only if lines, notes and journals are the same byte for
byte, and 2 if something isn't installed. It is no part of the gate.
"""
import collections, os, random, subprocess, sys, tempfile

import bridge_build, built
from killed import KEY

KINDS = ("rtu", "dnp3", "rtu24", "dnp24")


def table(polynomial):
    rows = []
    for byte in range(256):
        for _ in range(8):
            byte = byte >> 1 ^ polynomial if byte & 1 else byte >> 1
        rows.append(byte)
    return rows


RTU_TABLE, DNP_TABLE = table(0xA001), table(0xA6BC)


def crc(rows, register, content):
    for byte in content:
        register = register >> 8 ^ rows[(register ^ byte) & 255]
    return register


def rtu_frame(draw):
    body = draw.randbytes(draw.randint(2, 60))
    return body + crc(RTU_TABLE, 0xFFFF, body).to_bytes(2, "little")


def dnp_block(content):
    return content + (crc(DNP_TABLE, 0, content) ^ 0xFFFF).to_bytes(2, "little")


def dnp_frame(draw):
    user = draw.randbytes(draw.randint(0, 48))
    frame = dnp_block(bytes((0x05, 0x64, 5 + len(user))) + draw.randbytes(5))
    for first in range(0, len(user), 16):
        frame += dnp_block(user[first:first + 16])
    return frame


def bytes_text(content):
    """The bytes as lines of tick text, at most 32 in a line."""
    return "".join("+%s\n" % content[first:first + 32].hex() for first in range(0, len(content), 32))


def device_line(kind, count, draw):
    lines = []
    for _ in range(count):
        frame = (rtu_frame if kind.startswith("rtu") else dnp_frame)(draw)
        if draw.random() < 0.05:  # no frame
            frame = frame[:-1] + bytes((frame[-1] ^ 1,))
        lines.append(bytes_text(frame))
        lines.append("-%d\n" % (draw.randint(1, 40) if draw.random() < 0.2 else draw.randint(28, 120)))
    return "".join(lines)


def runs_of(text):
    """The runs of a tick text: bytes, or a number of silent ticks."""
    runs = []
    for line in text.splitlines():
        if line.startswith("-"):
            if runs and isinstance(runs[-1], int):
                runs[-1] += int(line[1:])
            else:
                runs.append(int(line[1:]))
        else:
            content = bytes.fromhex(line[1:])
            if runs and isinstance(runs[-1], bytes):
                runs[-1] += content
            else:
                runs.append(content)
    return runs


def text_of(runs):
    return "".join("-%d\n" % run if isinstance(run, int) else bytes_text(run) for run in runs if run)


def attacked(text, draw):
    """The link with a third of its bursts attacked, in ten ways, and how often each way was used."""
    runs, result, counts = runs_of(text), [], collections.Counter()
    old = []
    for run in runs:
        if isinstance(run, int) or draw.random() > 0.33:
            result.append(run)
            if isinstance(run, bytes):
                old = (old + [run])[-50:]
            continue
        way = draw.choice(("change", "repeat", "cut", "insert", "drop", "replay", "pause", "split", "noise", "join"))
        counts[way] += 1
        place = draw.randrange(len(run))
        if way == "change":
            result.append(run[:place] + bytes((run[place] ^ 1 << draw.randrange(8),)) + run[place + 1:])
        elif way == "repeat":
            result += [run, draw.randint(1, 60), run]
        elif way == "cut":
            result.append(run[:place])
        elif way == "insert":
            result.append(run[:place] + draw.randbytes(1) + run[place:])
        elif way == "drop":
            result.append(len(run))
        elif way == "replay":
            result.append(draw.choice(old) if old else run)
        elif way == "pause":
            result += [draw.randint(1, 3), run]
        elif way == "split":
            result += [run[:place], draw.randint(1, 5), run[place:]]
        elif way == "noise":
            result.append(draw.randbytes(len(run)))
        elif isinstance(result[-1] if result else b"", int):
            result[-1] = 0
            result.append(run)
    return text_of(result), counts


def step_by(words, content, keep):
    done = subprocess.run(words, input=content, capture_output=True, text=True)
    if done.returncode != 0:
        sys.exit("clib_check: `%s` ended with status %d: %s" % (" ".join(words), done.returncode, done.stderr[-300:]))
    with open(keep, "rb") as file:
        return done.stdout, done.stderr, file.read()[:80].ljust(80, b"\0")


def main():
    if len(sys.argv) < 2:
        sys.exit(__doc__)
    program = built.program(sys.argv, 1)
    frames = int(sys.argv[2]) if len(sys.argv) > 2 else 100000
    draw = random.Random(int(sys.argv[3]) if len(sys.argv) > 3 else 1)
    both = [program], [bridge_build.build("filter")]
    total, notes = collections.Counter(), collections.Counter()
    with tempfile.TemporaryDirectory() as folder:
        key = os.path.join(folder, "key.txt")
        with open(key, "w") as file:
            file.write(KEY)
        for kind in KINDS:
            content = device_line(kind, frames // 4, draw)
            for command in ("seal", "check"):
                wrote = []
                for number, run in enumerate(both):
                    journal = os.path.join(folder, "%s.%s.%d" % (kind, command, number))
                    subprocess.run([program, "init", kind, "ab", journal], check=True)
                    wrote.append(step_by(run + [command, kind, "ab", key, journal], content, journal))
                for what, one, other in zip(("the line", "the notes", "the journal"), *wrote):
                    if one != other:
                        sys.exit("clib_check: %s of `%s %s` differs" % (what, command, kind))
                notes.update(line.split()[0] for line in wrote[0][1].splitlines())
                if command == "seal":
                    content, counts = attacked(wrote[0][0], draw)
                    total.update(counts)
            print("%s: the same lines, notes and journals of both ends" % kind, flush=True)
    print("%d frames; attacks: %s" % (frames, ", ".join("%s %d" % each for each in sorted(total.items()))))
    print("notes: %s" % ", ".join("%s %d" % each for each in sorted(notes.items())))
    if not (notes["passed"] and notes["refused"] and len(total) == 10):
        sys.exit("clib_check: too little happened for this to show anything")


try:
    main()
except bridge_build.Missing as why:
    print("clib_check: %s" % why, file=sys.stderr)
    sys.exit(2)
