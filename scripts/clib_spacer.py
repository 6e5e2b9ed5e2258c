#!/usr/bin/env python3
"""Compares the spacer of the static library, as C calls it, with the spacer of the model in model.py, over random lines.

    python3 scripts/clib_spacer.py [LINES] [SEED]

LINES lines (2,000 if not given) are drawn from SEED (1), of both protocols in turn, as random_lines.py makes them. The spacer takes
each of them tick by tick, with room for four waiting frames and the gap of either profile. It must return the ticks that the model's
spacer returns, and say which frames it loses. Its DNP3 device forgets a frame that was begun when 18 silent ticks in a row come, and so
does that of the model here. The exit status is 0 only if nothing differs and some frames were sent and some lost, and 2 if there is no C
compiler. It is no part of the gate.
"""
import os, random, subprocess, sys, tempfile

import bridge_build, model
from model import Y18, Y24, Dnp3, Rtu
from random_lines import KEY, some_crowd, some_line

WAITING, CUT, REST, SILENT = 4, 18, 3000, 256

PROGRAM = r"""
#include "yasir.h"
#include <stdio.h>
#include <stdlib.h>

/* Takes ticks as two bytes each, the low one first. Gives the spacer's so, and the frames that it loses on standard error. */
int main(int count, char **words) {
    yasir_handle spacer = {0};
    yasir_spaced spaced;
    int low, high;
    if (count != 4 || yasir_version() != YASIR_VERSION) return 1;
    if (yasir_spacer_new(&spacer, atoi(words[1]), atoi(words[2]), atoi(words[3])) != YASIR_OK) return 1;
    while ((low = getchar()) != EOF && (high = getchar()) != EOF) {
        uint16_t tick;
        if (yasir_spacer_step(&spacer, (uint16_t)(low + 256 * high), &spaced) != YASIR_OK || spaced.unused) return 1;
        tick = spaced.is_byte ? spaced.byte : YASIR_SILENT;
        putchar(tick & 255), putchar(tick >> 8);
        if (spaced.is_lost) fprintf(stderr, "%llu\n", (unsigned long long)spaced.lost_start);
        else if (spaced.lost_start) return 1;
    }
    yasir_free(&spacer);
    return yasir_spacer_step(&spacer, YASIR_SILENT, &spaced) != YASIR_EMPTY;
}
"""


class CutDnp3(Dnp3):
    """A DNP3 device that forgets what it has taken of a frame when many silent ticks in a row come."""

    @classmethod
    def arrivals(cls, line):
        first, silent = 0, 0
        for tick, byte in enumerate(line + [None] * CUT):
            silent = 0 if byte is not None else silent + 1
            if silent == CUT:
                yield from ((first + step, first + start, frame) for step, start, frame in Dnp3.arrivals(line[first:tick + 1]))
                first = tick + 1


def built(folder):
    main, path = os.path.join(folder, "main.c"), os.path.join(folder, "spacer")
    with open(main, "w") as file:
        file.write(PROGRAM)
    words = [bridge_build.compiler(), *bridge_build.FLAGS, "-I", bridge_build.BRIDGE, main, *bridge_build.library(), "-o", path]
    bridge_build.ran(words)
    return path


def given(program, proto, profile, line):
    """The ticks that the spacer returns for these, and the first tick of each frame that it loses."""
    content = b"".join((SILENT if byte is None else byte).to_bytes(2, "little") for byte in line)
    words = [program, "2" if proto is Dnp3 else "1", str(profile.delay), str(WAITING)]
    ran = subprocess.run(words, input=content, capture_output=True, check=True)
    ticks = [int.from_bytes(ran.stdout[place:place + 2], "little") for place in range(0, len(ran.stdout), 2)]
    return [None if tick == SILENT else tick for tick in ticks], [int(word) for word in ran.stderr.split()]


def main():
    count = int(sys.argv[1]) if len(sys.argv) > 1 else 2000
    seed = int(sys.argv[2]) if len(sys.argv) > 2 else 1
    chance, frames, lost, cut = random.Random(seed), 0, 0, 0
    with tempfile.TemporaryDirectory() as folder:
        program = built(folder)
        for number in range(count):
            proto, profile = (Rtu, Dnp3)[number % 2], chance.choice((Y18, Y24))
            if chance.random() < 0.3:
                line = some_crowd(proto, chance)
            else:
                line = some_line(proto, bytes.fromhex(KEY.strip()), 0, 0, chance.random() < 0.5, chance, profile)
            device = CutDnp3 if proto is Dnp3 else Rtu
            want, gone, accepted = model.space(device, line, profile, WAITING, REST)
            if given(program, proto, profile, line + [None] * REST) != (want, [int(note.split()[2]) for note in gone]):
                print("line %d of seed %d differs: %s" % (number, seed, model.canonical(line)))
                return 1
            frames, lost = frames + len(accepted), lost + len(gone)
            cut += proto is Dnp3 and want != model.space(Dnp3, line, profile, WAITING, REST)[0]
    print("%d lines: the spacer gave %d frames and lost %d, as the model does; the cut made a difference in %d" % (count, frames, lost, cut))
    return 0 if frames and lost and cut else 1


try:
    if __name__ == "__main__":
        sys.exit(main())
except bridge_build.Missing as why:
    print("clib_spacer: %s" % why, file=sys.stderr)
    sys.exit(2)
