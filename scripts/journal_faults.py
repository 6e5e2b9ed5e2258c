#!/usr/bin/env python3
"""Makes the calls of the C programs on their journals and keys fail, and compares them with `link_replay`.

    python3 scripts/journal_faults.py [PROGRAM]

PROGRAM is crates/link_replay/out/link_replay unless it is given. Its `seal` and `check`, over recordings and over live lines, and
bridge/out/filter seal and check three frames. Each call on the journal fails in turn, a write also after some bytes: no number may be
noted that the journal doesn't hold, the slot that keeps the last number must stay, and the next run must go on above all numbers that
were noted. Each number must be synced before its note. The filter commits each number by itself. PROGRAM must bring its journal to the
three numbers at once, by two writes, each with its sync, and nothing may go out before that. A second run over a journal must be refused,
whichever program it is. Journals of all kinds are given to filter: none may be written, and nobody may be told to make a damaged one
anew. Keys of many lengths in both cases are given to filter and PROGRAM. It ends with 1 if a program does anything else, and with 2 if something isn't installed. It is no part of the gate.
"""
import collections, os, re, subprocess, sys, tempfile, time

import bridge_build, built
from journal_calls import Calls, numbers
from killed import KEY, floor_of, old_slot_of, slot_of

LINK, OTHER = ("rtu", "ab"), ("dnp24", "ba")
FRAMES = 3
LINE = b"+01030000000ac5cd\n-40\n" * FRAMES
OLD, BLANK, NEW = bytes(32), bytes(24), bytes(32) + slot_of(0) + bytes(24)
STANDING = OLD + slot_of(6) + slot_of(5)
# A journal whose last number is in slot A, and one whose last number is in slot B.
KEPT = {"slot A": STANDING, "slot B": OLD + slot_of(5) + slot_of(6)}
# PROGRAM, with the words of a live line.
LIVE = "live"
DIGITS = "0123456789abcdefFEDCBA9876543210" * 5


class Tried:
    def __init__(self, folder, program):
        self.program, self.filter = program, bridge_build.build("filter")
        self.key, self.journal = (os.path.join(folder, name) for name in ("key.txt", "journal"))
        self.calls, self.made, self.wrong = Calls(folder, self.journal), 0, 0
        self.put(self.key, KEY.encode())

    def put(self, path, content):
        if content is None:
            if os.path.exists(path):
                os.remove(path)
        else:
            with open(path, "wb") as file:
                file.write(content)

    def bytes(self, path=None):
        with open(path or self.journal, "rb") as file:
            return file.read()

    def see(self, holds, what):
        self.made += 1
        self.wrong += not holds
        if not holds:
            print("WRONG: %s" % what, flush=True)

    def words(self, command, program=None):
        start = [self.program, "live"] if program == LIVE else [program or self.filter]
        return [*start, command, *LINK, self.key, self.journal]

    def run(self, command, text, program=None, **how):
        return self.calls.run(self.words(command, program), text, **how)


def at_once(tried, command, text, what):
    """Runs PROGRAM, and checks that it writes the last number over the slot that doesn't keep the floor and then the one before it over the
    other slot, each with its sync, and that nothing goes out before that. Returns the run."""
    run = tried.run(command, text, tried.program)
    letters = "".join(call.letter for call in run.calls)
    tried.see(re.fullmatch("lFfr+(wFf){2}", letters), "PROGRAM %s: calls %s" % (command, letters))
    writes = [call.at for call in run.calls if call.letter == "w"]
    tried.see(writes == ([56, 32] if what == "slot A" else [32, 56]), "PROGRAM %s, last number in %s: writes at %s" % (command, what, writes))
    tried.see(not any(call.out or call.log for call in run.calls), "PROGRAM %s: something went out before the journal was synced" % command)
    return run


def in_order(tried, command, text):
    """Checks the calls of a run: lock, sync, read, and for each number write, sync and then its note. Returns what the run wrote."""
    for what, content in KEPT.items():
        tried.put(tried.journal, content)
        run = tried.run(command, text, delay=2)
        kept = tried.bytes()
        letters = "".join(call.letter for call in run.calls)
        tried.see(run.status == 0 and re.fullmatch("lFfr+(wFf){%d}" % FRAMES, letters), "%s: status %d, calls %s" % (command, run.status, letters))
        writes = [call.at for call in run.calls if call.letter == "w"]
        tried.see(writes == ([56, 32, 56] if what == "slot A" else [32, 56, 32]), "%s, last number in %s: writes at %s" % (command, what, writes))
        lines = run.log.splitlines(True)
        before = [sum(map(len, lines[:number])) for number in range(FRAMES)]
        ends = [call.log for call in run.calls if call.letter == "f"][1:]
        tried.see(ends == before, "%s: the log has %s bytes at the ends of the syncs, not %s" % (command, ends, before))
        tried.put(tried.journal, content)
        right = at_once(tried, command, text, what)
        tried.see((run.status, run.out, run.log) == right[:3] and kept == tried.bytes(), "%s: not the same as PROGRAM" % command)
    return run.out


def fault_of(call, number, what, some):
    names = {"l": "lock", "r": "read", "w": "write", "F": "sync", "d": "sync of a folder"}
    return "%s number %d: %s after %d bytes" % (names[call], number, what, some)


def failed(tried, program, command, text, content, fault):
    """Checks a run at one of whose calls a fault happens, and the run after it."""
    what = "%s %s, %s" % (os.path.basename(program), command, fault_of(*fault))
    tried.put(tried.journal, content)
    run = tried.run(command, text, program, fault=fault)
    commits, used, floor = sum(call.letter == "w" for call in run.calls), numbers(run.log), floor_of(tried.journal)
    tried.see(run.status == 7, "%s: status %d" % (what, run.status))
    tried.see(floor is not None and floor >= max([6] + used), "%s: floor %s, noted %s" % (what, floor, used))
    if program == tried.filter:
        tried.see(used == list(range(7, 7 + max(0, commits - 1))), "%s: %d commits, noted %s" % (what, commits, used))
    elif program == tried.program:
        tried.see((run.out, run.log) == (b"", b"fault: journal: error 5 of the system\n"), "%s: wrote %r" % (what, run[1:3]))
    again = tried.run(command, text, program)
    used += numbers(again.log)
    tried.see(again.status == 0 and used == sorted(set(used)) and used[-1:] <= [floor_of(tried.journal)],
              "%s: the runs noted %s, status %d" % (what, used, again.status))


def each_fails(tried, program, command, text, content):
    """Lets each lock, read, write and sync of a run fail."""
    tried.put(tried.journal, content)
    calls = collections.Counter(call.letter for call in tried.run(command, text, program).calls)
    for letter in "lrwF":
        for number in range(1, calls[letter] + 1):
            for some in ((0, 12, 23, 24) if letter == "w" else (0,)):
                failed(tried, program, command, text, content, (letter, number, "error", some))


def moved_on(tried, command, text):
    """Interrupts each read and write of the filter, or lets it take only some bytes: the run must be as without that."""
    tried.put(tried.journal, STANDING)
    right, wrote = tried.run(command, text), tried.bytes()
    calls = collections.Counter(call.letter for call in right.calls)
    for letter, number in ((letter, number) for letter in "wr" for number in range(1, calls[letter] + 1)):
        for what, some in (("intr", 0), ("short", 1), ("short", 23)):
            tried.put(tried.journal, STANDING)
            run = tried.run(command, text, fault=(letter, number, what, some))
            tried.see(run[:3] == right[:3] and tried.bytes() == wrote, "%s, %s: %r" % (command, fault_of(letter, number, what, some), run[:3]))


def faults(tried):
    """Lets the calls of runs of each program fail in turn."""
    text = LINE
    for command in ("seal", "check"):
        other = in_order(tried, command, text)
        for content in KEPT.values():
            for program in (tried.filter, tried.program, LIVE):
                each_fails(tried, program, command, text, content)
        moved_on(tried, command, text)
        text = other


def second_runs(tried):
    """Holds a journal by one program, and gives it to each."""
    programs = [tried.filter, tried.program, LIVE]
    for holder in programs:
        tried.put(tried.journal, STANDING)
        first = subprocess.Popen(tried.words("seal", holder), stdin=subprocess.PIPE, stdout=subprocess.PIPE, stderr=subprocess.PIPE,
                                 env=tried.calls.around())
        end = time.monotonic() + 10
        while "r" not in tried.calls.letters() and time.monotonic() < end:
            time.sleep(0.002)
        time.sleep(0.05)
        what = "while %s waits" % os.path.basename(holder)
        for program in programs:
            done = subprocess.run(tried.words("seal", program), input=LINE, capture_output=True)
            tried.see((done.returncode, done.stdout) == (7, b"") and tried.bytes() == STANDING, "%s, %s: %r" % (what, program, done))
        first.communicate(LINE)
        tried.see(first.returncode == 0 and floor_of(tried.journal) == 6 + FRAMES, "the run that held the journal: %s" % first.returncode)


# A file that is given as a journal: its name, its content (None if it is missing), and what must be said of it.
FILES = [
    ("missing", None, b"No such file"),
    ("empty", b"", b"nothing but zeros"),
    ("zeros", bytes(80), b"nothing but zeros"),
    ("both slots torn", OLD + b"\x11" * 48, b"isn't a journal, or is damaged"),
    ("cut off in slot A", OLD + slot_of(7)[:15], b"isn't a journal, or is damaged"),
    ("a key", KEY.encode(), b"isn't a journal, or is damaged"),
    ("a recording", LINE, b"isn't a journal, or is damaged"),
    ("an old journal", old_slot_of(7) + bytes(16), b"has old slots with a number"),
    ("an old journal, in slot B", bytes(16) + old_slot_of(7), b"has old slots with a number"),
    ("an old journal that was taken over", old_slot_of(7) + bytes(16) + slot_of(9) + slot_of(8), b"has old slots with a number"),
    ("an old number and a torn old slot", b"\x11" * 16 + old_slot_of(7) + slot_of(9), b"has old slots with a number"),
    ("another link's", OLD + slot_of(7, OTHER), b"is another link's"),
]
ADVICE = re.compile(rb"-i\b|zero them|make it|link_replay init")


def other_files(tried):
    """Gives files that aren't journals of the link to filter."""
    for name, content, said in FILES:
        tried.put(tried.journal, content)
        run = tried.run("seal", LINE)
        as_said = run.status in (8, 12) or said in run.log
        tried.see(run.status in (7, 8, 12) and as_said and run.out == b"" and run.log and not ADVICE.search(run.log), "filter, %s: %r" % (name, run[:3]))
        tried.see((tried.bytes() if os.path.exists(tried.journal) else None) == content, "filter, %s: written" % name)
        if run.status in (8, 12):
            tried.see(run[:3] == tried.run("seal", LINE, tried.program)[:3], "filter, %s: not what PROGRAM says: %r" % (name, run[:3]))


def keys(tried):
    """Compares filter and PROGRAM over keys of many lengths, in both cases and with other ends."""
    rows = [(length, case, "\n") for length in (0, 30, 31, 32, 33, 34, 40, 62, 64, 66, 126, 128, 129, 130, 140) for case in (str.lower, str.upper, str)]
    rows += [(length, str, "") for length in (0, 30, 31, 33, 34, 64, 127, 130)]
    rows += [(length, str, end) for length in (32, 128) for end in ("", "\r\n", "\r", "\n\n", "\r\r\n", " \n", "g\n")]
    for length, case, end in rows:
        tried.put(tried.key, (case(DIGITS[3:3 + length]) + end).encode())
        ends = []
        for program in (tried.filter, tried.program):
            tried.put(tried.journal, NEW)
            done = subprocess.run(tried.words("seal", program), input=LINE[:22], capture_output=True)
            ends.append((done.returncode, done.stdout, done.stderr))
        right = 32 <= length <= 128 and length % 2 == 0 and end in ("\n", "", "\r\n")
        tried.see(ends[0] == ends[1] and ends[0][0] == (0 if right else 3), "a key of %d digits and %r: %r" % (length, end, ends))
    tried.put(tried.key, KEY.encode())


def main():
    program = built.program(sys.argv, 1)
    with tempfile.TemporaryDirectory(dir="/dev/shm" if os.path.isdir("/dev/shm") else None) as folder:
        tried = Tried(folder, program)
        for part in (faults, second_runs, other_files, keys):
            before, begun = tried.made, time.monotonic()
            part(tried)
            print("%-12s %4d checks in %.1f s" % (part.__name__, tried.made - before, time.monotonic() - begun), flush=True)
    print("%d wrong" % tried.wrong)
    return 1 if tried.wrong else 0


try:
    sys.exit(main())
except bridge_build.Missing as why:
    print("journal_faults: %s" % why, file=sys.stderr)
    sys.exit(2)
