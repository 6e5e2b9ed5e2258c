#!/usr/bin/env python3
"""Runs `link_replay` over journals of every link, old ones and torn ones, and cuts runs that take over an old journal off at each call.

    python3 scripts/taken_over.py [PROGRAM]

Only the box of a journal's link may go on from the journal. Each other box must end with status 12 and show the slot. An old
journal must be taken over. A run that takes one over is cut off at each call on its file, and after each byte of a write, and
slots are torn and changed in each byte: the next run must go on above all numbers that were used, with the old slots as they
were. Then the commands that docs/JOURNAL.md gives for the slots of an old journal are tried. A run must lock its journal and sync
it before it reads it, and sync it after each write. A small library, compiled by `cc` and loaded before the C library, ends a run
at a call, and writes down which calls a run makes. It ends with 1 if a run does anything else. It is no part of the gate.
"""
import os, random, re, subprocess, sys, tempfile

import built
from killed import KEY, LINKS, completed, floor_of, old_slot_of, slot_of

LINK, OTHER = ("rtu", "ab"), ("dnp24", "ba")
# The labels and the profiles of links that no words of the program name.
UNKNOWN = [(3, 18), (1, 20), (2, 0), (255, 255)]
FRAME = b"+01030000000ac5cd\n-40\n"
OLD, BLANK, BLANK_OLD, TORN = old_slot_of(5), bytes(24), bytes(16), b"\x11" * 24
ZERO_OLD = "dd if=/dev/zero of=%s bs=1 count=32 conv=notrunc"
ZERO_NEW = "dd if=/dev/zero of=%s bs=1 seek=32 count=48 conv=notrunc"
CUT, CUT_IN_WRITE = 97, 98

LIBRARY = r"""
#define _GNU_SOURCE
#include <dlfcn.h>
#include <fcntl.h>
#include <stdlib.h>
#include <sys/file.h>
#include <unistd.h>

static int journal = -1, calls;

/* Adds the letter of a call to the file CALLS, if there is one. */
static void note(char letter) {
    ssize_t (*real)(int, const void *, size_t) = dlsym(RTLD_NEXT, "write");
    const char *path = getenv("CALLS");
    int file = path ? open(path, O_WRONLY | O_APPEND) : -1;
    if (file < 0) return;
    if (real(file, &letter, 1) != 1) _exit(99);
    close(file);
}

/* Whether the run ends at this call on the journal: the one of this number. */
static int ends(int file, char letter) {
    const char *at = getenv("CUT_CALL");
    if (file != journal) return 0;
    note(letter);
    return ++calls == (at ? atoi(at) : 0);
}

int flock(int file, int operation) {
    int (*real)(int, int) = dlsym(RTLD_NEXT, "flock");
    journal = file;
    if (ends(file, 'l')) _exit(97);
    return real(file, operation);
}

off_t lseek(int file, off_t to, int from) {
    off_t (*real)(int, off_t, int) = dlsym(RTLD_NEXT, "lseek");
    if (ends(file, 's')) _exit(97);
    return real(file, to, from);
}

off_t lseek64(int file, off_t to, int from) { return lseek(file, to, from); }

ssize_t read(int file, void *to, size_t size) {
    ssize_t (*real)(int, void *, size_t) = dlsym(RTLD_NEXT, "read");
    if (ends(file, 'r')) _exit(97);
    return real(file, to, size);
}

ssize_t write(int file, const void *from, size_t size) {
    ssize_t (*real)(int, const void *, size_t) = dlsym(RTLD_NEXT, "write");
    if (ends(file, 'w')) {
        size_t some = atoi(getenv("CUT_BYTES"));
        if (some > 0) real(file, from, some < size ? some : size);
        _exit(98);
    }
    return real(file, from, size);
}

int fsync(int file) {
    int (*real)(int) = dlsym(RTLD_NEXT, "fsync");
    if (ends(file, 'F')) _exit(97);
    return real(file);
}

int fdatasync(int file) {
    int (*real)(int) = dlsym(RTLD_NEXT, "fdatasync");
    if (ends(file, 'D')) _exit(97);
    return real(file);
}
"""


class Runs:
    def __init__(self, program, folder):
        self.program, self.wrong = program, 0
        self.key, self.path, self.library, self.noted = (os.path.join(folder, name) for name in ("key", "journal", "cut.so", "calls"))
        open(self.key, "w").write(KEY)
        open(os.path.join(folder, "cut.c"), "w").write(LIBRARY)
        subprocess.run(["cc", "-shared", "-fPIC", "-O1", "-o", self.library, os.path.join(folder, "cut.c"), "-ldl"], check=True)

    def put(self, *slots):
        open(self.path, "wb").write(b"".join(slots))

    def bytes(self):
        return open(self.path, "rb").read().ljust(80, b"\0")

    def run(self, command="seal", link=LINK, text=FRAME, cut=None, noted=False):
        """The status and log of a run. `cut` is the call on the journal at which the run ends, and how many bytes this call writes first.

        If `noted`, the file of noted calls gets a letter for each call on the journal.
        """
        around = dict(os.environ)
        if cut:
            around.update(LD_PRELOAD=self.library, CUT_CALL=str(cut[0]), CUT_BYTES=str(cut[1]))
        if noted:
            around.update(LD_PRELOAD=self.library, CALLS=self.noted)
        run = subprocess.run([self.program, command, *link, self.key, self.path], input=text, stdout=subprocess.PIPE,
                             stderr=subprocess.PIPE, env=around)
        self.output = run.stdout
        self.numbers = [int(n) for n in re.findall(rb"^sealed (\d+) at \d+ len 8$", run.stderr, re.M)]
        return run.returncode, run.stderr

    def see(self, holds, what):
        self.wrong += not holds
        if not holds:
            print("WRONG: %s: the journal holds %s" % (what, self.bytes().hex()))

    def goes_on(self, number, what):
        """Checks that the next run seals with this number, and that the old slots stay."""
        before = self.bytes()
        end = self.run()
        self.see(end == (0, b"sealed %d at 0 len 8\n" % number), "%s: %r instead of number %d" % (what, end, number))
        self.see(self.bytes()[:32] == before[:32] and floor_of(self.path) == number, "%s: after the next run" % what)


def every_link(runs):
    """Checks each box with the journal of each link."""
    for command in ("seal", "check"):
        for own in LINKS:
            for link in LINKS:
                runs.put(BLANK_OLD, BLANK_OLD, slot_of(7, own), slot_of(6, own))
                before = runs.bytes()
                status, log = runs.run(command, link, b"")
                right = (0, b"") if link == own else (12, b"fault: wrong link %s\n" % slot_of(7, own).hex().encode())
                runs.see((status, log) == right and runs.bytes() == before, "%s %s over %s: status %d, %r" % (command, link, own, status, log))
        for label, profile in UNKNOWN:
            slot = completed((7).to_bytes(8, "big") + bytes([label, 0, profile, 2]))
            runs.put(BLANK_OLD, BLANK_OLD, slot)
            end = runs.run(command, LINK, b"")
            runs.see(end == (12, b"fault: wrong link %s\n" % slot.hex().encode()), "%s over %d %d: %r" % (command, label, profile, end))
    print("%d runs over journals of %d links, and %d over those of others" % (2 * len(LINKS) ** 2, len(LINKS), 2 * len(UNKNOWN)))


def other_slots(runs):
    """Checks slots of every kind, and the number of the next frame."""
    rows = [
        ("an old journal", (OLD,), 6),
        ("an old journal, the greater number in slot B", (OLD, old_slot_of(9)), 10),
        ("an old journal, one slot torn", (b"\x11" * 16, OLD), 6),
        ("an old journal, and other bytes after it", (OLD, BLANK_OLD, TORN, TORN), 6),
        ("a new journal", (BLANK_OLD, BLANK_OLD, slot_of(0)), 1),
        ("old numbers below the link's", (OLD, BLANK_OLD, slot_of(7), slot_of(8)), 9),
        ("old numbers above the link's", (OLD, old_slot_of(9), slot_of(7), slot_of(8)), 10),
        ("another link's number beside the link's", (BLANK_OLD, BLANK_OLD, slot_of(7), slot_of(90, OTHER)), 8),
        ("a torn slot that reads as a greater number", (OLD, BLANK_OLD, slot_of(50)), 51),
    ]
    for what, slots, number in rows:
        runs.put(*slots)
        runs.goes_on(number, what)
    for place in range(80):
        runs.put(BLANK_OLD, BLANK_OLD, slot_of(6), slot_of(5))
        changed = bytearray(runs.bytes())
        changed[place] ^= 0x40
        runs.put(bytes(changed))
        runs.goes_on(6 if 32 <= place < 56 else 7, "a journal with byte %d changed" % place)
    print("%d journals, and one changed in each of its 80 bytes" % len(rows))


def cut_off(runs):
    """Seals two frames with an old journal, in runs that are cut off at each call on it, and after each byte of a write."""
    made, last = 0, 5
    for call in range(1, 40):
        for some in range(25):
            runs.put(OLD, BLANK_OLD)
            status, _ = runs.run(text=FRAME * 2, cut=(call, some))
            if status == 0:
                runs.see(runs.numbers == [6, 7] and last == 7, "after the last call: %s, floor %d" % (runs.numbers, last))
                print("%d runs over an old journal, cut off at each of its %d calls and at each byte of a write" % (made, call - 1))
                return
            made += 1
            what, floor = "cut off at call %d after %d bytes" % (call, some), floor_of(runs.path)
            right = status in (CUT, CUT_IN_WRITE) and floor is not None and floor >= last and not runs.output
            runs.see(right and runs.bytes()[:32] == OLD + BLANK_OLD, "%s: status %d, floor %s after %d, output %r" % (what, status, floor, last, runs.output))
            if not right:
                return
            last = floor
            runs.goes_on(floor + 1, what)
            if status == CUT:
                break
    runs.see(False, "a run that is cut off at each call never ends")


def synced(runs):
    """Checks that a run locks its journal first, then syncs all of it, and after each write syncs it before it goes on.

    After a write, `F` is a sync of the whole file, which is due if it may be longer than it was, and `D` one of its data alone. Three
    numbers are used, and all of them are brought to the journal at once, by two writes.
    """
    rows = [
        ("a new journal", (BLANK_OLD, BLANK_OLD, slot_of(0)), "FD"),
        ("a journal with both slots", (BLANK_OLD, BLANK_OLD, slot_of(7), slot_of(6)), "FD"),
        ("an old journal", (OLD, BLANK_OLD), "FFD"),
    ]
    for what, slots, due in rows:
        runs.output = FRAME * 3
        for command in ("seal", "check"):
            runs.put(*slots)
            open(runs.noted, "w").close()
            status, log = runs.run(command, text=runs.output, noted=True)
            calls = open(runs.noted).read()
            right = re.fullmatch("lF[sr]+(s?w[FD])+", calls) and "".join(re.findall("w(.)", calls)) == due
            runs.see(status == 0 and right, "%s over %s: status %d, %r, calls %s" % (command, what, status, log, calls))
    print("%d runs that lock their journal, and sync it at first and after each write" % (2 * len(rows)))


def torn(runs):
    """Checks slots A that were torn while they were written over zeros to take over an old journal: each byte is the old or the new one."""
    chance, new, count = random.Random(1), slot_of(5), 300
    for _ in range(count):
        share = chance.choice([0.1, 0.5, 0.9])
        mixed = bytes(byte if chance.random() < share else 0 for byte in new)
        runs.put(OLD, BLANK_OLD, mixed)
        runs.goes_on(6, "slot A torn to %s" % mixed.hex())
    print("%d torn slots" % count)


def commands(runs):
    """Checks what docs/JOURNAL.md says about a journal that was taken over, and the commands that it gives."""
    zero = lambda command: subprocess.run((command % runs.path).split(), check=True, stderr=subprocess.DEVNULL)
    runs.put(OLD, BLANK_OLD)
    runs.goes_on(6, "taken over")
    taken = runs.bytes()
    runs.see(taken == OLD + BLANK_OLD + slot_of(5) + slot_of(6), "taken over: slots A and B")
    os.truncate(runs.path, 32)
    runs.goes_on(6, "taken over and cut to 32 bytes: the old number comes back")
    runs.put(taken)
    zero(ZERO_OLD)
    runs.see(runs.bytes() == bytes(32) + taken[32:], "the old slots zeroed")
    runs.goes_on(7, "the old slots zeroed")
    os.truncate(runs.path, 32)
    runs.see(runs.run()[0] == 8, "the old slots zeroed, and cut to 32 bytes")
    for what, slot in (("taken over by mistyped words", slot_of(5, ("rtu", "ba"))), ("a torn slot that reads as another link's", slot_of(90, OTHER))):
        runs.put(OLD, BLANK_OLD, slot)
        end = runs.run()
        runs.see(end == (12, b"fault: wrong link %s\n" % slot.hex().encode()), "%s: %r" % (what, end))
        zero(ZERO_NEW)
        runs.see(runs.bytes() == OLD + bytes(64), "%s: the new slots zeroed" % what)
        runs.goes_on(6, "%s: the new slots zeroed" % what)
    print("the commands of docs/JOURNAL.md")


def main():
    program = built.program(sys.argv, 1)
    with tempfile.TemporaryDirectory(dir="/dev/shm" if os.path.isdir("/dev/shm") else None) as folder:
        runs = Runs(program, folder)
        for part in (every_link, other_slots, cut_off, synced, torn, commands):
            part(runs)
    print("%d wrong" % runs.wrong)
    sys.exit(runs.wrong > 0)


main()
