#!/usr/bin/env python3
"""Runs several `link_replay` at the same time over one journal, and looks for a number that comes twice.

    python3 scripts/two_runs.py [PROGRAM] [SECONDS]

While a `seal` waits for its input, a second `seal`, a `check` and an `init` over the same journal must end with status 7,
with nothing read and nothing written. They must work again after the first has ended or was killed. Then eight processes
at a time race over one journal for SECONDS seconds (10 if not given): each run must seal all its frames, or end with status
7, and no number may come twice. It ends with 1 if a run leaves anything else. It is no part of the gate: locks are made by
the system.
"""
import os, re, subprocess, sys, tempfile, threading, time

import built
from journal_calls import open_files
from killed import KEY, floor_of

PROGRAM = built.program(sys.argv, 1)
SECONDS = float(sys.argv[2]) if len(sys.argv) > 2 else 10
RACERS, FRAMES = 8, 20
FRAME = b"+01030000000ac5cd\n-40\n"
REFUSED = (7, b"", b"fault: journal: held by another run\n")


class Journal:
    """A key, a journal and the runs over them."""

    def __init__(self, folder, name):
        self.folder, self.wrong = folder, []
        self.key, self.path = os.path.join(folder, "key"), os.path.join(folder, name)
        open(self.key, "w").write(KEY)
        subprocess.run([PROGRAM, "init", "rtu", "ab", self.path], check=True, stdin=subprocess.DEVNULL)

    def words(self, command):
        return [PROGRAM, "init", "rtu", "ab", self.path] if command == "init" else [PROGRAM, command, "rtu", "ab", self.key, self.path]

    def bytes(self):
        return open(self.path, "rb").read()

    def start(self, command):
        """Starts a run, and returns it when it has its journal's file open and waits for its input."""
        run = subprocess.Popen(self.words(command), stdin=subprocess.PIPE, stdout=subprocess.PIPE, stderr=subprocess.PIPE)
        while run.poll() is None and self.path not in open_files(run.pid):
            time.sleep(0.001)
        time.sleep(0.1)
        return run

    def run(self, command, frames):
        """The status, output and log of a run that has ended, and how many bytes of its input it has read."""
        with tempfile.TemporaryFile(dir=self.folder) as source:
            source.write(FRAME * frames)
            source.seek(0)
            run = subprocess.run(self.words(command), stdin=source, stdout=subprocess.PIPE, stderr=subprocess.PIPE)
            return (run.returncode, run.stdout, run.stderr), os.lseek(source.fileno(), 0, os.SEEK_CUR)

    def see(self, holds, what):
        print("%-8s%s" % ("right:" if holds else "WRONG:", what))
        if not holds:
            self.wrong.append(what)

    def see_refused(self, while_what):
        for command in ("seal", "check", "init"):
            before = self.bytes()
            ends, read = self.run(command, 1)
            self.see(ends == REFUSED and read == 0 and self.bytes() == before,
                     "%s while %s: status %d, %r, %d bytes read, journal %s" % (
                         command, while_what, ends[0], ends[2], read, "as it was" if self.bytes() == before else "written"))

    def see_seal(self, when, number):
        ends, _ = self.run("seal", 1)
        self.see(ends[0] == 0 and ends[2] == b"sealed %d at 0 len 8\n" % number,
                 "seal %s: status %d, %r" % (when, ends[0], ends[2]))


def numbers(log):
    return [int(number) for number in re.findall(rb"^sealed (\d+) at \d+ len 8$", log, re.M)]


def one_at_a_time(folder):
    journal = Journal(folder, "journal")
    for command, next_number in (("seal", 2), ("check", 3)):
        first = journal.start(command)
        journal.see_refused("a %s waits for its input" % command)
        out, log = first.communicate(FRAME)
        journal.see(first.returncode == 0 and (numbers(log) == [next_number - 1] or command == "check"),
                    "the first %s, after that: status %d, %r" % (command, first.returncode, log))
        journal.see_seal("after it", next_number)
    first = journal.start("seal")
    journal.see_refused("another seal waits")
    first.kill()
    first.communicate()
    journal.see_seal("once that was killed", 4)
    journal.see(floor_of(journal.path) == 4, "the journal's floor is %s" % floor_of(journal.path))
    return journal.wrong


def race(folder):
    journal = Journal(folder, "raced")
    ends, until = [], time.time() + SECONDS

    def racer():
        while time.time() < until:
            ends.append(journal.run("seal", FRAMES)[0])

    racers = [threading.Thread(target=racer) for _ in range(RACERS)]
    for thread in racers:
        thread.start()
    for thread in racers:
        thread.join()
    used = [number for _, _, log in ends for number in numbers(log)]
    whole = [log for status, _, log in ends if status == 0]
    journal.see(all(end == REFUSED or (end[0] == 0 and len(numbers(end[2])) == FRAMES) for end in ends),
                "%d runs of %d processes at a time: %d sealed all their frames, %d were refused" % (
                    len(ends), RACERS, len(whole), len(ends) - len(whole)))
    journal.see(whole and len(whole) < len(ends), "some runs were let through, and some met another")
    journal.see(len(set(used)) == len(used), "%d numbers were used, %d different ones" % (len(used), len(set(used))))
    journal.see(sorted(used) == list(range(1, len(used) + 1)) and floor_of(journal.path) == len(used),
                "they are those from 1 to the journal's floor, %s" % floor_of(journal.path))
    return journal.wrong


def main():
    with tempfile.TemporaryDirectory() as folder:
        wrong = one_at_a_time(folder) + race(folder)
    print("%d wrong" % len(wrong))
    sys.exit(1 if wrong else 0)


main()
