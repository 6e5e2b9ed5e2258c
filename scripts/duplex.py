#!/usr/bin/env python3
"""Compares what `duplex` writes with what `seal` and `check` write when they run apart, and with the model, over random lines of
both directions.

    python3 scripts/duplex.py [LINES] [PROGRAM] [SEED]

The device's line and the link are drawn from SEED (1), of either protocol, profile and direction. Sometimes one of them is empty
or much shorter than the other. Both are filled with silence to the longer one's length. `seal` and `check` take these lists with
new journals, and `duplex` must write the same ticks as they do: those of the link, a line %, and those of the receiver's line. Its
notes must be theirs, in the order of the steps in which the model says that they are made, and the transmitter's first within a
step. Then the same is done with programs that are made wrong, each in one way (WRONG).

It ends with 0 only if all agree, if each kind of note, a step with a note of each direction, and lists of different lengths were
seen, and if each wrong program was told from the right one. It is no part of the gate.
"""
import collections, functools, os, random, re, subprocess, sys, tempfile

import built, model
from audit import made_wrong
from killed import KEY, slot_of
from model import LINK_REST, Y18, Y24, Dnp3, Rtu
from random_lines import some_frame, some_line

WAYS = ("ab", "ba")
Both = collections.namedtuple("Both", "proto profile direction line link")

# What must have been seen: notes of both boxes, and special steps and lists.
NOTES = ["sealed", "unsealed form", "unsealed early", "passed", "refused trailer", "refused form", "refused tag", "dropped busy", "dropped head"]
TOLD = ["a step with two notes", "a longer line", "a longer link", "no line", "no link"]


def met(proto, key, profile, direction, chance):
    """A line and a link for which a verdict falls into the step in which a frame is sealed."""
    frame, reply = some_frame(proto, chance), some_frame(proto, chance)
    packet = reply + [None] * model.PAUSE + model.trailer(proto, key, 1 - direction, reply, 1, profile)
    line, link = frame + [None] * 3, packet[:-1]
    ticks = max(len(line), len(link))
    return [None] * (ticks - len(line)) + line + [None] * 5, [None] * (ticks - len(link)) + packet


def some_both(key, chance):
    proto, profile, direction = chance.choice([Rtu, Dnp3]), chance.choice([Y18, Y24]), chance.randrange(2)
    if chance.random() < 0.1:
        return Both(proto, profile, direction, *met(proto, key, profile, direction, chance))
    line = some_line(proto, key, direction, 0, False, chance, profile)
    # Sometimes the packets are of the box's own direction, and none passes.
    way = direction if chance.random() < 0.1 else 1 - direction
    link = some_line(proto, key, way, 0, True, chance, profile)
    if chance.random() < 0.1:
        line = chance.choice([[], line[:20]])
    elif chance.random() < 0.1:
        link = chance.choice([[], link[:20]])
    return Both(proto, profile, direction, line, link)


def word_of(both):
    return model.word_of(both.proto, both.profile)


class Program:
    """The program that is tried. A wrong one of WRONG changes its words, its lists or what it writes."""

    def __init__(self, path, folder):
        self.path, self.folder, self.key_file = path, folder, os.path.join(folder, "key")
        with open(self.key_file, "w") as file:
            file.write(KEY)

    def run(self, words, text):
        ran = subprocess.run([self.path] + words, input=text, capture_output=True, text=True)
        return ran.returncode, ran.stdout, ran.stderr.splitlines()

    def box(self, command, word, way, line):
        """What a box with a new journal writes of this line, and its notes."""
        journal = os.path.join(self.folder, "journal")
        with open(journal, "wb") as file:
            file.write(bytes(32) + slot_of(0, (word, way)))
        status, out, notes = self.run([command, word, way, self.key_file, journal], model.canonical(line))
        if status:
            raise RuntimeError("`%s %s %s` ends with status %d: %s" % (command, word, way, status, notes))
        return out, notes

    def apart(self, both):
        """What both boxes write of the filled lists: the output that `duplex` should have, and the notes of each."""
        line, link = model.filled(both.line, both.link)
        rest = both.profile.delay + 6
        sent, sealing = self.box("seal", word_of(both), WAYS[both.direction], line[:-rest])
        got, checking = self.box("check", word_of(both), WAYS[1 - both.direction], link[:-LINK_REST])
        return sent + "%\n" + got, sealing, checking

    def duplex(self, both):
        line, link = self.lists(both.line, both.link)
        words = self.words(["duplex", word_of(both), WAYS[both.direction], self.key_file])
        return self.writes(*self.run(words, model.canonical(line) + "%\n" + model.canonical(link)))

    def words(self, words):
        return words

    def lists(self, line, link):
        return line, link

    def writes(self, status, out, notes):
        return status, out, notes


wrong = functools.partial(made_wrong, Program)


def is_sealers(note):
    return note.startswith(("sealed", "unsealed"))


def sealers_last(status, out, notes):
    """A run with all notes of the transmitter after those of the receiver."""
    return status, out, sorted(notes, key=is_sealers)


class ReceiversFirst(Program):
    """A program whose two notes of one step come in the other order."""

    def duplex(self, both):
        status, out, _ = super().duplex(both)
        sealing, checking = noted_steps(both, bytes.fromhex(KEY.strip()))
        return status, out, [note for _, note in sorted(checking + sealing, key=lambda noted: noted[0])]


def texts(change):
    return lambda status, out, notes: (status, change(*out.split("%\n")) if "%\n" in out else out, notes)


WRONG = {
    "the directions swapped": wrong(words=lambda words: words[:2] + [{"ab": "ba", "ba": "ab"}[words[2]]] + words[3:]),
    "the lists exchanged": wrong(lists=lambda line, link: (link, line)),
    "the texts exchanged": wrong(writes=texts(lambda sent, got: got + "%\n" + sent)),
    "no mark between the texts": wrong(writes=texts(lambda sent, got: sent + got)),
    "the longer list cut to the shorter one": wrong(lists=lambda line, link: (line[:len(link)], link[:len(line)])),
    "one silent tick too many": wrong(writes=texts(lambda sent, got: re.sub(r"-(\d+)\n$", lambda found: "-%d\n" % (int(found[1]) + 1), sent) + "%\n" + got)),
    "the transmitter's notes last": wrong(writes=sealers_last),
    "the receiver's note first in a step": ReceiversFirst,
    "no notes of the receiver": wrong(writes=lambda status, out, notes: (status, out, [note for note in notes if is_sealers(note)])),
    "the link a tick late": wrong(lists=lambda line, link: (line, [None] + link)),
}


def difference(program, both, key):
    """What is wrong, in words, and what was seen in this run."""
    sent, got, steps = model.duplex(both.proto, key, both.direction, both.line, both.link, both.profile)
    modelled = (0, model.canonical(sent) + "%\n" + model.canonical(got), steps)
    out, sealing, checking = program.apart(both)
    wrote = program.duplex(both)
    seen = [" ".join(re.findall(r"[a-z]+", note.replace(" at ", " ").replace(" len ", " "))[:2]) for note in steps]
    if [note for note in steps if is_sealers(note)] != sealing or [note for note in steps if not is_sealers(note)] != checking:
        return "the boxes run apart note %s and %s, and the model %s" % (sealing, checking, steps), seen
    if wrote[:2] != (0, out):
        return "`duplex` ends with %d and writes\n%sand the boxes run apart\n%s" % (wrote[0], wrote[1], out), seen
    if wrote != modelled:
        return "`duplex` notes %s, and the model %s" % (wrote[2], steps), seen
    return None, seen


def noted_steps(both, key):
    """The notes of each box with the tick in whose step they are made, by the model."""
    line, link = model.filled(both.line, both.link)
    return (model.seal_steps(both.proto, key, both.direction, 0, line, both.profile)[1],
            model.check_steps(both.proto, key, 1 - both.direction, 0, link, both.profile)[1])


def told_of(both, key):
    sealing, checking = noted_steps(both, key)
    holds = [set(step for step, _ in sealing) & set(step for step, _ in checking), len(both.line) > len(both.link),
             len(both.link) > len(both.line), not both.line, not both.link]
    return [name for name, held in zip(TOLD, holds) if held]


def differences(program, lines, seed, first_only=False):
    chance, key, seen, found = random.Random(seed), bytes.fromhex(KEY.strip()), collections.Counter(), []
    for turn in range(lines):
        both = some_both(key, chance)
        fault, notes = difference(program, both, key)
        seen.update(notes + told_of(both, key) + ["runs"])
        if fault:
            found.append("%s\nof `duplex %s %s` and\n%s%%\n%s" % (
                fault, word_of(both), WAYS[both.direction], model.canonical(both.line), model.canonical(both.link)))
            if first_only:
                break
    return found, seen


def compare(path, lines, seed, folder):
    found, seen = differences(Program(path, folder), lines, seed)
    for name in NOTES + TOLD:
        print("%7d %s" % (seen[name], name))
    found += ["never seen: %s" % name for name in NOTES + TOLD if not seen[name]]
    print("\n".join(found[:3] + ["%d differences in %d runs" % (len(found), lines) if found else
                                 "%d runs, and all is what `seal` and `check` write apart" % lines]))
    return 1 if found else 0


def try_wrong_ones(path, seed, folder):
    missed = 0
    for name, made in WRONG.items():
        found, seen = differences(made(path, folder), 400, seed, first_only=True)
        missed += not found
        print("%-40s %s" % (name, "told after %d runs" % seen["runs"] if found else "NOT TOLD"))
    print("%d wrong programs, %d not told from the right one" % (len(WRONG), missed))
    return 1 if missed else 0


def main(words):
    lines = int(words[0]) if words else 500
    path = built.program(words, 1)
    seed = int(words[2]) if len(words) > 2 else 1
    with tempfile.TemporaryDirectory(prefix="duplex.") as folder:
        return compare(path, lines, seed, folder) or try_wrong_ones(path, seed, folder)


if __name__ == "__main__":
    try:
        sys.exit(main(sys.argv[1:]))
    except RuntimeError as why:
        sys.exit("duplex: %s" % why)
