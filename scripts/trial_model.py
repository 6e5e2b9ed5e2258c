"""What `trial P SEED COUNT` prints, by the model of the boxes (model.py) and the rules below, written anew in Python.

    python3 scripts/trial_model.py P SEED COUNT
    python3 scripts/trial_model.py compare [PROGRAM]

The first form prints it. The second form compares it with what the program prints, for both protocols and profiles and some
seeds, and ends with 1 if a line differs.

The rules. Numbers are drawn from a state x, which is SEED at first. A draw sets x to 6364136223846793005 x + 1442695040888963407,
modulo 2^64, and gives the whole part of x / 2^32. Each frame has a period of 640 ticks, on the device's line and on the link. The
frame comes first in its period on the device's line, and the rest is silent. For each frame the draws are, in this order:

1. The frame. Modbus RTU: its length is 4 plus a draw modulo 253, and each byte except the CRC is a draw modulo 256. DNP3: a draw
   modulo 251 is the number of bytes of user data, two draws modulo 65536 are destination and source, and each byte of user data is
   a draw modulo 256; CONTROL is C4.
2. What happens to the link in this period: a kind, modulo 8; a place j, modulo the length of its packet, which is that of the
   frame plus 17 (23 with y24); and a value v, which is 1 plus a draw modulo 255.

On the link the transmitter's ticks of the period are altered by the kind. 0 to 3: nothing is. 4: a byte at tick j is xored with v,
and a silent tick there becomes the byte v. 5: all of it is silent. 6: its second half is its first half again. 7: from tick j on it
is silent. 320 silent ticks follow the link.
"""
import subprocess, sys

import built
from model import Dnp3, Rtu, Y18, Y24, check, reads, seal

PERIOD, HALF, KEY = 640, 320, bytes(16)
LINKS = {"rtu": (Rtu, Y18), "dnp3": (Dnp3, Y18), "rtu24": (Rtu, Y24), "dnp24": (Dnp3, Y24)}


class Draws:
    def __init__(self, seed):
        self.state = seed

    def below(self, bound):
        self.state = (6364136223846793005 * self.state + 1442695040888963407) % (1 << 64)
        return (self.state >> 32) % bound


def rtu_frame(draws):
    body = [draws.below(256) for _ in range(draws.below(253) + 2)]
    return body + list(Rtu.end(body))


def dnp3_frame(draws):
    size = draws.below(251)
    addresses = [draws.below(1 << 16) for _ in range(2)]
    user = [draws.below(256) for _ in range(size)]
    header = [0x05, 0x64, size + 5, 0xC4] + [byte for address in addresses for byte in address.to_bytes(2, "little")]
    parts = [header] + [user[place:place + 16] for place in range(0, size, 16)]
    return [byte for part in parts for byte in part + list(Dnp3.end(part))]


def alter(ticks, kind, place, value):
    if kind == 4:
        return ticks[:place] + [value if ticks[place] is None else ticks[place] ^ value] + ticks[place + 1:]
    if kind == 5:
        return [None] * PERIOD
    if kind == 6:
        return ticks[:HALF] * 2
    if kind == 7:
        return ticks[:place] + [None] * (PERIOD - place)
    return ticks


def counted(proto, profile, seed, count):
    draws, line, alterations = Draws(seed), [], []
    for _ in range(count):
        frame = (rtu_frame if proto is Rtu else dnp3_frame)(draws)
        kind, place, value = draws.below(8), draws.below(len(frame) + profile.delay - 1), 1 + draws.below(255)
        line += frame + [None] * (PERIOD - len(frame))
        alterations.append((kind, place, value))
    sent, notes, _, _ = seal(proto, KEY, 0, 0, line, profile)
    link = []
    for period, alteration in enumerate(alterations):
        link += alter(sent[period * PERIOD:(period + 1) * PERIOD], *alteration)
    received, verdicts, _, _ = check(proto, KEY, 0, 0, link, profile)
    words = [note.split()[0] for note in notes + verdicts]
    return [words.count(word) for word in ("sealed", "passed", "refused", "dropped")] + [len(reads(proto, received))]


def line_of(word, seed, count):
    sealed, passed, refused, dropped, read = counted(*LINKS[word], seed, count)
    return f"trial {word} {seed} {count} sealed {sealed} passed {passed} refused {refused} dropped {dropped} read {read}\n"


def compare(program):
    for word in LINKS:
        for seed, count in ((0, 1), (7, 40), (4294967295, 40)):
            words = ["trial", word, str(seed), str(count)]
            ran = subprocess.run([program] + words, stdin=subprocess.DEVNULL, capture_output=True, text=True)
            if (ran.returncode, ran.stdout) != (0, line_of(word, seed, count)):
                sys.exit("`%s` prints %r, and the model %r" % (" ".join(words), ran.stdout, line_of(word, seed, count)))
    print("%d sessions, and all is what the model prints" % (3 * len(LINKS)))


def main(words):
    if words[:1] == ["compare"] and len(words) <= 2:
        compare(built.program(words, 1))
    elif len(words) == 3 and words[0] in LINKS and words[1].isdecimal() and words[2].isdecimal():
        print(line_of(words[0], int(words[1]), int(words[2])), end="")
    else:
        sys.exit(__doc__.strip())


if __name__ == "__main__":
    main(sys.argv[1:])
