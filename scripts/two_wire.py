#!/usr/bin/env python3
"""Compares what `two_wire` writes with the model, over random lines on both pairs of wires.

    python3 scripts/two_wire.py [LINES] [PROGRAM] [SEED]

What is on the wires is drawn from SEED (1) as for `duplex` (duplex.py), for a box of either side, with waits from the least ones
on. The program must write the ticks that the model drives both pairs with, and its notes in their order; and the same once more if
the wires carry an echo of what the box drives. Then the same is done with programs that are made wrong, each in one way (WRONG).
First the worked rows (ROWS), whose texts are by hand, are compared with both.

It ends with 0 only if all agree, if bursts of each kind were seen (SEEN), and if each wrong program was told from the right one. It
is no part of the gate.
"""
import collections, functools, random, sys, tempfile

import built, duplex, model
from audit import made_wrong
from duplex import WAYS, word_of
from killed import KEY
from model import LINK_REST, Y18, Y24, Rtu

# Polls over two wires at both ends, as each box takes them, with the least waits that let them through, and with one tick less for the
# master's or one more for the device's. What the box drives the link with, a line %, what it drives its device's wires with, and its
# notes. A master asks at ticks 0 to 7, the device hears it D + 2 ticks later, and answers behind four silent ticks; it is heard D + 2
# ticks later again. In the last row an attacker's burst would begin in the last tick of an answer. The tags are computed by openssl.
ASK, TELL = "+01030000000ac5cd\n", "+010302002a399b\n"
Y18_ASK, Y18_TELL = "%s-3\n+0001014c5b8d33c6d29a347013b0\n" % ASK, "%s-3\n+0001f39538b12dcd54a57ff24933\n" % TELL
Y24_ASK, Y24_TELL = "%s-3\n+0000000165d245ba109509aa6c32ac3cfa228fd6\n" % ASK, "%s-3\n+0000000160bb1780b9f7b41c90149528e6419343\n" % TELL
ROWS = (
    ("rtu ab answers 45 4", ASK, "-33\n" + Y18_TELL, "-1\n%s-351\n%%\n-52\n%s-318\n" % (Y18_ASK, TELL), "sealed 1 at 0 len 8, passed 1 at 33 len 7"),
    ("rtu ab answers 44 4", ASK, "-33\n" + Y18_TELL, "-1\n%s-351\n%%\n-377\n" % Y18_ASK, "sealed 1 at 0 len 8, held at 52, passed 1 at 33 len 7"),
    ("rtu ba asks 20 4", "-32\n" + TELL, "-1\n" + Y18_ASK, "-33\n%s-302\n%%\n-20\n%s-331\n" % (Y18_TELL, ASK), "passed 1 at 1 len 8, sealed 1 at 32 len 7"),
    ("rtu ba asks 21 4", "-32\n" + TELL, "-1\n" + Y18_ASK, "-33\n%s-302\n%%\n-359\n" % Y18_TELL, "held at 20, passed 1 at 1 len 8, sealed 1 at 32 len 7"),
    ("rtu24 ab answers 57 4", ASK, "-39\n" + Y24_TELL, "-1\n%s-357\n%%\n-64\n%s-318\n" % (Y24_ASK, TELL), "sealed 1 at 0 len 8, passed 1 at 39 len 7"),
    ("rtu24 ab answers 56 4", ASK, "-39\n" + Y24_TELL, "-1\n%s-357\n%%\n-389\n" % Y24_ASK, "sealed 1 at 0 len 8, held at 64, passed 1 at 39 len 7"),
    ("rtu24 ba asks 26 4", "-38\n" + TELL, "-1\n" + Y24_ASK, "-39\n%s-296\n%%\n-26\n%s-331\n" % (Y24_TELL, ASK), "passed 1 at 1 len 8, sealed 1 at 38 len 7"),
    ("rtu24 ba asks 27 4", "-38\n" + TELL, "-1\n" + Y24_ASK, "-39\n%s-296\n%%\n-365\n" % Y24_TELL, "held at 26, passed 1 at 1 len 8, sealed 1 at 38 len 7"),
    ("rtu ba asks 19 4", "-42\n" + TELL, Y18_ASK + "-4\n+5501060001beefe826\n", "-43\n%s-302\n%%\n-19\n%s-342\n" % (Y18_TELL, ASK),
     "passed 1 at 0 len 8, refused at 29 trailer, held at 48, sealed 1 at 42 len 7"),
)

Wires = collections.namedtuple("Wires", "both side window pause")

SEEN = ["held", "passed", "sealed", "let through", "asks", "answers"]


def some_wires(key, chance):
    both, side, pause = duplex.some_both(key, chance), chance.choice(["asks", "answers"]), chance.choice([4, 4, 5, 22])
    least = pause if side == "asks" else both.profile.delay + 5
    return Wires(both, side, least + chance.choice([0, 0, 1, 5, 40, 400]), pause)


def driven(own, on):
    return [on_wires if mine is None else mine for mine, on_wires in zip(own, on)]


class Program(duplex.Program):
    """The program that is tried. A wrong one of WRONG changes its words, its lists or what it writes."""

    def two_wire(self, wires, device, link):
        device, link = self.lists(device, link)
        words = self.words(["two_wire", word_of(wires.both), WAYS[wires.both.direction], wires.side, str(wires.window), str(wires.pause), self.key_file])
        return self.writes(*self.run(words, model.canonical(device) + "%\n" + model.canonical(link)))


def more(place, by):
    return lambda words: words[:place] + [str(int(words[place]) + by)] + words[place + 1:]


wrong = functools.partial(made_wrong, Program)

WRONG = {
    "the sides swapped": wrong(words=lambda words: words[:3] + [{"asks": "answers", "answers": "asks"}[words[3]], "400"] + words[5:]),
    "WINDOW one greater": wrong(words=more(4, 1)),
    "PAUSE one greater": wrong(words=lambda words: more(5, 1)(words if words[3] == "answers" else more(4, 1)(words))),
    "the lists exchanged": wrong(lists=lambda device, link: (link, device)),
    "the texts exchanged": wrong(writes=duplex.texts(lambda sent, got: got + "%\n" + sent)),
    "no note of the gate": wrong(writes=lambda status, out, notes: (status, out, [note for note in notes if not note.startswith("held")])),
    "the link a tick late": wrong(lists=lambda device, link: (device, [None] + link)),
}


def difference(program, wires, key):
    """What is wrong, in words, and what was seen in this run."""
    both, waits = wires.both, (wires.side, wires.window, wires.pause)
    to_link, to_device, notes = model.two_wire(both.proto, key, both.direction, waits, both.line, both.link, both.profile)
    modelled = (0, model.canonical(to_link) + "%\n" + model.canonical(to_device), notes)
    seen = [note.split()[0] for note in notes] + [wires.side] + ["let through"] * any(tick is not None for tick in to_device)
    device, link = model.filled(both.line, both.link)
    echo = [driven(own, on)[:-LINK_REST] for own, on in ((to_device, device), (to_link, link))]
    for name, lists in (("without an echo", (both.line, both.link)), ("with one", echo)):
        wrote = program.two_wire(wires, *lists)
        if wrote != modelled:
            return "%s it writes %s\nand the model %s" % (name, wrote, modelled), seen
    return None, seen


def rows_differ(program, key):
    """The worked rows of which the program or the model makes something else."""
    found = []
    for words, device, link, out, notes in ROWS:
        word, way, side, window, pause = words.split()
        profile, direction = Y24 if word.endswith("24") else Y18, 0 if way == "ab" else 1
        waits, lists = (side, int(window), int(pause)), (model.ticks_of(device), model.ticks_of(link))
        to_link, to_device, modelled = model.two_wire(Rtu, key, direction, waits, *lists, profile)
        status, wrote, noted = program.run(["two_wire"] + words.split() + [program.key_file], device + "%\n" + link)
        if (model.canonical(to_link) + "%\n" + model.canonical(to_device), ", ".join(modelled)) != (out, notes):
            found.append("of the row `%s` the model makes\n%s%%\n%s%s" % (words, model.canonical(to_link), model.canonical(to_device), modelled))
        if (status, wrote, ", ".join(noted)) != (0, out, notes):
            found.append("of the row `%s` the program makes\n%s%s" % (words, wrote, noted))
    return found


def differences(program, lines, seed, first_only=False):
    chance, key, seen, found = random.Random(seed), bytes.fromhex(KEY.strip()), collections.Counter(), []
    for turn in range(lines):
        wires = some_wires(key, chance)
        fault, told = difference(program, wires, key)
        seen.update(told + ["runs"])
        if fault:
            both = wires.both
            found.append("%s\nof `two_wire %s %s %s %d %d` and\n%s%%\n%s" % (fault, word_of(both), WAYS[both.direction], wires.side, wires.window,
                                                                      wires.pause, model.canonical(both.line), model.canonical(both.link)))
            if first_only:
                break
    return found, seen


def main(words):
    lines = int(words[0]) if words else 500
    path, seed, missed = built.program(words, 1), int(words[2]) if len(words) > 2 else 1, 0
    with tempfile.TemporaryDirectory(prefix="two_wire.") as folder:
        program = Program(path, folder)
        found, seen = differences(program, lines, seed)
        found = rows_differ(program, bytes.fromhex(KEY.strip())) + found
        for name in SEEN:
            print("%7d %s" % (seen[name], name))
        found += ["never seen: %s" % name for name in SEEN if not seen[name]]
        print("\n".join(found[:3] + ["%d differences in %d runs" % (len(found), lines)]))
        for name, made in {} if found else WRONG.items():
            told, tried = differences(made(path, folder), 600, seed, first_only=True)
            missed += not told
            print("%-40s %s" % (name, "told after %d runs" % tried["runs"] if told else "NOT TOLD"))
    return 1 if found or missed else 0


if __name__ == "__main__":
    try:
        sys.exit(main(sys.argv[1:]))
    except RuntimeError as why:
        sys.exit("two_wire: %s" % why)
