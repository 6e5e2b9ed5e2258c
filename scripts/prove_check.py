#!/usr/bin/env python3
"""Tests prove.py, which proves crates side by side, with a prover that only sleeps, and lanes.py with one that only writes.

    python3 scripts/prove_check.py

The crates are those of crates.txt, and some small ones. Each must be proved exactly once, after those that it depends on. No
more may be proved at a time than processors and memory allow, and not fewer where crates are ready. The longest chain must
come first, and after a crate fails to be proved no other one may begin. What one copy of a checkout has proved must be in the
checkout and all copies, and what isn't proved in none. It ends with 1 if anything else happens. It proves nothing, and needs
no toolchain.
"""
import os, sys, tempfile, threading, time

import lanes
from prove import CRATE_MEMORY, JOB_MEMORY, SHARING_FROM, Room, crates_below, jobs_for, lines_of, longest_chains, prove_all

# A chain of three crates and six crates without dependencies, below a crate that depends on all of them.
SMALL = {"low": [], "middle": ["low"], "high": ["middle"], **{"leaf%d" % each: [] for each in range(6)}}
SMALL["top"] = list(SMALL)


class Sleeper:
    """A prover that sleeps as long as a crate has work, and records what was asked of it."""

    def __init__(self, below, work, broken=None):
        self.below, self.work, self.broken = below, work, broken
        self.began, self.ended, self.running, self.crates, self.processes, self.held = [], [], {}, 0, 0, 0
        self.lock = threading.Lock()

    def prove(self, crate, jobs):
        with self.lock:
            assert all(other in self.ended for other in self.below[crate]), "%s began before those below it had ended" % crate
            self.began.append(crate)
            self.running[crate] = jobs
            self.crates = max(self.crates, len(self.running))
            self.processes = max(self.processes, sum(self.running.values()))
            self.held = max(self.held, sum(CRATE_MEMORY + JOB_MEMORY * (each - 1) for each in self.running.values()))
        time.sleep(self.work[crate])
        with self.lock:
            del self.running[crate]
            self.ended.append(crate)
        if crate == self.broken:
            raise RuntimeError(crate)


def ran(below, work, room, most=None, broken=None):
    """Runs all crates with a sleeper. Returns the sleeper, and the seconds that the run took."""
    sleeper, began = Sleeper(below, work, broken), time.monotonic()
    try:
        prove_all(below, work, sleeper.prove, lambda crate, seconds, left: None, room, most)
        assert broken is None, "a crate that isn't proved was passed over"
        assert sorted(sleeper.ended) == sorted(below), "not each crate was proved once"
    except RuntimeError as why:
        assert str(why) == broken, "it stopped for %s" % why
    return sleeper, time.monotonic() - began


def check_order():
    """Checks the crates of the program, each with two microseconds of work for each line, and two milliseconds more."""
    below = crates_below("link_replay")
    work = {crate: lines_of(crate) * 2e-6 + 0.002 for crate in below}
    chains = longest_chains(below, work)
    for room in (Room(4, 16.5), Room(2, 16), Room(8, 64), Room(4, 9), Room(1, 1)):
        sleeper, seconds = ran(below, work, room)
        most = room.processors * (2 if room.processors >= SHARING_FROM else 1)
        assert sleeper.crates <= room.processors, "%d crates on %d processors" % (sleeper.crates, room.processors)
        assert sleeper.processes <= most, "%d processes on %d processors" % (sleeper.processes, room.processors)
        assert sleeper.held <= max(room.memory, CRATE_MEMORY), "%.1f GB in use of %.1f" % (sleeper.held, room.memory)
        first = max((crate for crate in below if not below[crate]), key=chains.get)
        assert sleeper.began[0] == first, "%s began, and not %s" % (sleeper.began[0], first)
        wide = min(4, room.processors, max(1, int(room.memory / CRATE_MEMORY)))
        assert sleeper.processes >= wide, "never more than %d processes, where there is room for %d" % (sleeper.processes, wide)
        print("%d crates, %d processors, %4.1f GB: %.2f s; the longest chain is %.2f s, all is %.2f s"
              % (len(below), room.processors, room.memory, seconds, max(chains.values()), sum(work.values())))


def check_small():
    work = {crate: 0.05 for crate in SMALL}
    sleeper, _ = ran(SMALL, work, Room(2, 8))
    assert sleeper.began[0] == "low" and sleeper.ended.index("high") <= 6, "the chain came late: %s" % sleeper.ended
    sleeper, _ = ran(SMALL, work, Room(8, 64), most=1)
    assert sleeper.began == sleeper.ended, "two crates at a time, where one was asked for"
    sleeper, _ = ran(SMALL, work, Room(1, 8), broken="low")
    assert sleeper.began == ["low"], "%s began after a crate that isn't proved" % sleeper.began[1:]


def check_jobs():
    for (ready, used, room, most), wanted in {
            (1, (), Room(4, 16), 4): 4, (1, (), Room(4, 5), 4): 1, (4, (), Room(4, 16), 4): 1, (2, (), Room(4, 16), 4): 2,
            (1, (2,), Room(4, 10), 4): 0, (1, (2,), Room(4, 11), 4): 1, (1, (4,), Room(4, 64), 4): 1, (1, (), Room(4, 1), 4): 1,
            (5, (1,), Room(8, 64), 1): 0, (5, (), Room(8, 64), 1): 4}.items():
        found = jobs_for(ready, used, room, most)
        assert found == wanted, "%d processes in %s for one of %d, beside %s, and not %d" % (found, room, ready, used, wanted)
    for (ready, used, room, most), wanted in {
            (4, (1, 1, 1), Room(4, 20), 4): 2, (4, (1, 1, 2), Room(4, 22), 4): 2, (4, (1, 1, 2), Room(4, 20), 4): 1,
            (4, (1, 1, 1, 1), Room(4, 64), 4): 0, (4, (1, 1, 1), Room(4, 18), 4): 1, (1, (), Room(4, 16), 4): 4,
            (4, (), Room(4, 16), 4): 2, (2, (1,), Room(2, 20), 2): 1, (2, (2, 1), Room(3, 20), 3): 1}.items():
        found = jobs_for(ready, used, room, most, is_longest=True)
        assert found == wanted, "%d processes in %s for the longest chain, beside %s, and not %d" % (found, room, used, wanted)


def small_checkout(folder):
    for crate in ("low", "high"):
        os.makedirs(os.path.join(folder, "crates", crate, "src"))
    for name in ("crates.txt", "HANDLES"):
        open(os.path.join(folder, name), "w").close()


def check_lanes():
    """Checks three lanes of a checkout of two crates, with a prover that writes what `rt` leaves, and then ends with a status."""
    with tempfile.TemporaryDirectory() as folder:
        small_checkout(folder)
        lanes.ROOT = folder
        leave = "echo %s; mkdir -p out/rlib out/incremental; echo proved > out/rlib/stamp; echo known > out/incremental/known; exit %d"
        with lanes.Lanes(3) as three:
            assert len(three.all) == 3, "%d lanes, and not 3" % len(three.all)
            held = [three.free.get() for _ in three.all]
            assert held[0] == folder, "the checkout isn't the first lane"
            three.free.put(held[2])
            assert three.run("low", ["sh", "-c", leave % ("low", 0)]).stdout == "low\n", "what the prover says is lost"
            for lane in three.all:
                assert os.path.isfile(os.path.join(lanes.out_of(lane, "low", "rlib"), "stamp")), "a lane lacks what another has proved"
            assert os.path.isfile(os.path.join(lanes.out_of(folder, "low", "incremental"), "known")), "the checkout lacks what is known"
            assert three.run("high", ["sh", "-c", leave % ("high", 1)]).returncode == 1, "a crate that isn't proved was passed over"
            for lane in set(three.all) - {held[2]}:
                assert not os.path.exists(lanes.out_of(lane, "high", "rlib")), "a lane has what isn't proved"
        assert not os.path.exists(three.copies), "the copies are still there"
        with lanes.Lanes(2) as two:
            there = [os.path.isfile(os.path.join(lanes.out_of(lane, "low", "rlib"), "stamp")) for lane in two.all]
            assert there == [True, True], "a new copy lacks what was proved before"


try:
    check_jobs()
    check_small()
    check_order()
    check_lanes()
except AssertionError as wrong:
    sys.exit("prove_check: %s" % wrong)
print("as it must be")
