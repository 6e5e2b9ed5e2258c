#!/usr/bin/env python3
"""Makes each read and each write of `link_replay` fail in turn, for each command, and checks what the run leaves.

    python3 scripts/failing_calls.py [PROGRAM]

A small library (journal_calls.py) is loaded before the C library. The inputs are so long that most commands read and write
several times. A run whose read of its key or input fails must end with 5 and one whose write fails with 6. Its output must have
a front of the ticks or lines of a whole run, and its notes a front of those of a whole run, with one fault line behind them if
a read failed. `replay`, `audit`, `duplex` and `two_wire` must print nothing if a read fails. No number may be noted that the
journal doesn't hold. It ends with 1 if a run leaves anything else, and with 2 if there is no `cc`. It is no part of the gate.
"""
import os, shutil, sys, tempfile

import built
from journal_calls import Calls, numbers
from killed import KEY, floor_of, slot_of

# The requests of a line: their text is longer than a read of 65,536 bytes.
FRAMES = 3200
LINE = b"+01030000000ac5cd\n-40\n" * FRAMES
NEW, BACK = (bytes(32) + slot_of(0, ("rtu", way)) + bytes(24) for way in ("ab", "ba"))
# The commands that print nothing before the end of their input, and the calls on each stream.
AT_ONCE = ("replay", "audit", "duplex", "two_wire")
STREAMS = {"in": ("r", 5), "out": ("w", 6), "log": ("w", 6), "key": ("r", 5)}


def is_front(part, whole):
    """Whether a text represents a front of what the whole text does. The last line of a front may have fewer ticks."""
    head, _, last = part.removesuffix(b"\n").rpartition(b"\n")
    head += b"\n" if head else b""
    behind = whole[len(head):].partition(b"\n")[0]
    if not whole.startswith(head):
        return False
    if last.startswith(b"-") and behind.startswith(b"-"):
        return int(last[1:]) <= int(behind[1:])
    return behind.startswith(last)


def ways(words, text):
    """The text of each way of a live line of both, or the whole text."""
    if words[:2] != ["live", "line"]:
        return [text]
    return [b"".join(line[1:] for line in text.splitlines(True) if line.startswith(letter)) for letter in (b">", b"<")]


class Tried:
    def __init__(self, program, folder):
        self.program, self.folder, self.made, self.wrong = program, folder, 0, 0
        self.paths = {name: os.path.join(folder, name) for name in (*STREAMS, "journal", "got")}
        with open(self.paths["key"], "w") as file:
            file.write(KEY)
        self.calls = {name: Calls(folder, self.paths[name]) for name in STREAMS}

    def run(self, words, text, name="in", fault=None):
        """Runs the program with journals that hold 0."""
        for journal, slots in (("journal", NEW), ("got", BACK)):
            with open(self.paths[journal], "wb") as file:
                file.write(slots)
        named = {"KEY": "key", "JOURNAL": "journal", "GOT": "got"}
        words = [self.paths.get(named.get(word), word) for word in words]
        return self.calls[name].run([self.program] + words, text, fault=fault)

    def see(self, holds, what):
        self.made += 1
        self.wrong += not holds
        if not holds:
            print("WRONG: %s" % what, flush=True)

    def is_part(self, words, name, whole, ran):
        """Whether a run in which a call on this stream failed leaves a part of what a whole run leaves."""
        notes, fault, more = ran.log.partition(b"fault: ")
        reads = STREAMS[name][0] == "r"
        right = ran.status == STREAMS[name][1] and all(map(is_front, ways(words, ran.out), ways(words, whole.out)))
        right = right and all(map(bytes.startswith, ways(words, whole.log), ways(words, notes)))
        right = right and (more.startswith(b"read") and more.count(b"\n") == 1 and more.endswith(b"\n") if reads else not fault)
        right = right and not (reads and words[0] in AT_ONCE and ran.out + notes)
        return right and ("JOURNAL" not in words or self.are_kept(words, notes))

    def are_kept(self, words, notes):
        """Whether the journals hold the numbers that were noted."""
        journals = ((self.paths["journal"], ("rtu", "ab")), (self.paths["got"], ("rtu", "ba")))
        kept = zip(ways(words, notes), journals)
        return all(max(numbers(noted), default=0) <= floor_of(*journal) for noted, journal in kept)

    def fail_each(self, words, text, name, whole):
        """Makes each call on this stream fail in turn, up to the first that isn't made. Returns how many there are."""
        letter, number = STREAMS[name][0], 1
        while True:
            ran = self.run(words, text, name, (letter, number, "error", 0))
            if sum(call.letter == letter for call in ran.calls) < number:
                self.see(ran[:3] == whole[:3], "%s: no call failed, and the run differs from a whole one" % " ".join(words))
                return number - 1
            what = "%s: call %d on %s: status %d, %r, %r" % (" ".join(words), number, name, ran.status, ran.out[-60:], ran.log[-60:])
            self.see(self.is_part(words, name, whole, ran), what)
            number += 1

    def try_command(self, words, text, streams):
        """Makes the calls on these streams fail, each of which the command uses."""
        words = words.split()
        whole = self.run(words, text)
        self.see(whole.status == 0, "%s: a whole run ends with %d" % (" ".join(words), whole.status))
        counts = {name: self.fail_each(words, text, name, whole) for name in STREAMS}
        used = " ".join(name for name in STREAMS if counts[name])
        self.see(used == streams, "%s: it uses %s, and not %s" % (" ".join(words), used, streams))
        print("%-30s %s" % (" ".join(words), ", ".join("%d calls on %s" % (counts[name], name) for name in STREAMS if counts[name])))
        return whole


def main():
    program = built.program(sys.argv, 1)
    if shutil.which("cc") is None:
        print("failing_calls: there is no cc", file=sys.stderr)
        return 2
    with tempfile.TemporaryDirectory(prefix="failing_calls.") as folder:
        tried = Tried(program, folder)
        link = tried.try_command("seal rtu ab KEY JOURNAL", LINE, "in out log key").out
        tried.try_command("check rtu ab KEY JOURNAL", link, "in out log key")
        short = LINE[:22 * 40]
        tried.try_command("live seal rtu ab KEY JOURNAL", short, "in out log key")
        tried.try_command("live check rtu ab KEY JOURNAL", link[:72 * 40], "in out log key")
        back = tried.run("seal rtu ba KEY GOT".split(), short).out
        both = b"".join(way + line for way, text in ((b">", short), (b"<", back)) for line in text.splitlines(True))
        tried.try_command("live line rtu ab KEY JOURNAL GOT", both, "in out log key")
        tried.try_command("read rtu", LINE, "in out")
        tried.try_command("space rtu", LINE, "in out")
        both = LINE + b"%\n" + link
        tried.try_command("replay rtu ab KEY", both, "in out key")
        tried.try_command("audit rtu ab KEY 0 0", both + b"%\n-18\n" + LINE, "in out key")
        tried.try_command("duplex rtu ab KEY", both, "in out log key")
        tried.try_command("two_wire rtu ab answers 45 4 KEY", both, "in out log key")
        for words in ("trial rtu 7 3", "poll rtu 7 3", "vectors", "help", "version"):
            tried.try_command(words, b"", "out")
    print("%d runs, %d wrong" % (tried.made, tried.wrong))
    return 1 if tried.wrong else 0


if __name__ == "__main__":
    sys.exit(main())
