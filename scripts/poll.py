#!/usr/bin/env python3
"""Polls over two wires at both ends of a link that is attacked, and checks that nobody reads a frame that wasn't sealed.

    python3 scripts/poll.py [PROGRAM] [SEEDS] [COUNT]

`poll` runs for each protocol and profile, and for each of SEEDS (100) seeds, with COUNT (250) requests. In each session all requests
must be asked, and of requests and of answers no frame may be read that wasn't sealed. In all sessions of a link together the attacker
must have been there: of each direction fewer frames pass than are sealed, some are read, and of MANY requests or more the gate holds
some bursts back.
A session that runs again must print the same line. `poll` doesn't count refused bursts, so this doesn't either.

Built with no gate in its boxes, and not proved, the program printed 5 unsealed frames in 2,000 requests (seeds 0 and 1, 250 each).

It ends with 1 if anything of that isn't so. It is no part of the gate.
"""
import re, subprocess, sys
from concurrent.futures import ThreadPoolExecutor

import built

LINKS = ("rtu", "rtu24", "dnp3", "dnp24")
WAY = r"sealed (\d+) passed (\d+) held (\d+) read (\d+) unsealed (\d+)"
LINE = re.compile(r"poll (\w+) (\d+) (\d+) asked (\d+) requests %s answers %s\n" % (WAY, WAY))
# With so many requests the gate holds something back for sure: in DNP3 some sessions of 250 have no burst that it holds.
MANY = 2000
SEALED, PASSED, HELD, READ, UNSEALED = range(5)


def line_of(program, link, seed, count):
    done = subprocess.run([program, "poll", link, str(seed), str(count)], stdin=subprocess.DEVNULL, capture_output=True, text=True)
    return done.stdout if done.returncode == 0 and not done.stderr else ""


def counted(line, link, seed, count):
    """The counts of the requests and of the answers in a line, or None if the line is wrong."""
    found = LINE.fullmatch(line)
    if not found or found.groups()[:4] != (link, str(seed), str(count), str(count)):
        return None
    numbers = [int(number) for number in found.groups()[4:]]
    return numbers[:5], numbers[5:]


def main():
    program = built.program(sys.argv, 1)
    seeds, count = (int(sys.argv[at]) if len(sys.argv) > at else most for at, most in ((2, 100), (3, 250)))
    wrong = 0
    with ThreadPoolExecutor(2) as pool:
        for link in LINKS:
            lines = list(pool.map(lambda seed: line_of(program, link, seed, count), range(seeds)))
            ways = [counted(line, link, seed, count) for seed, line in enumerate(lines)]
            for seed, way in enumerate(ways):
                if way is None or way[0][UNSEALED] or way[1][UNSEALED]:
                    print("wrong:", link, seed, lines[seed].strip() or "no line")
                    wrong += 1
            sums = [[sum(way[side][what] for way in ways if way) for what in range(5)] for side in range(2)]
            print("%-6s %d polls" % (link, count * sum(way is not None for way in ways)))
            for name, of in zip(("requests", "answers"), sums):
                print("%-6s %-9s sealed %d passed %d held %d read %d unsealed %d" % ((link, name) + tuple(of)))
                if not (of[PASSED] < of[SEALED] and of[READ] and (of[HELD] or seeds * count < MANY)):
                    print("wrong: the attacker wasn't there")
                    wrong += 1
            if line_of(program, link, 0, count) != lines[0]:
                print("wrong:", link, "0 prints another line when it runs again")
                wrong += 1
    print("%d seeds, %d requests each, %d faults" % (seeds, count, wrong))
    sys.exit(wrong > 0)


if __name__ == "__main__":
    main()
