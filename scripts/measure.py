#!/usr/bin/env python3
"""Measures how much processor time and memory each command of `link_replay` takes for long recorded lines, which this script makes, or
how many instructions it takes. It can compare these with another build.

    python3 scripts/measure.py [PROGRAM] [--beside OTHER] [--rounds N] [--ticks N] [--only WORD] [--work FOLDER]
    python3 scripts/measure.py [PROGRAM] --instructions [--beside OTHER] [--most PERCENT] [--ticks N] [--only WORD] [--work FOLDER]

OTHER is another build, or another program with the same commands and journals of this form (0.7.0 or later). With OTHER the two
run in turn over the same inputs, what they write is compared, and the ratio of their times is printed: the median of the ratios of
the rounds, and the ratio of the least times.

With --instructions valgrind counts instructions, once for each command and over shorter lines, and no time is measured. The count
depends only on the build, not on what else the machine does. With OTHER, the last version, it ends with 1 if PROGRAM takes over
PERCENT % (5 % if not given) more than OTHER for some command. A command that OTHER doesn't know is counted without a comparison.

It also prints how many times as much `two_wire` takes as `duplex` over the same recordings, and says if that is more than the aim,
TWO_WIRE_AIM, which isn't reached yet. With --instructions it ends with 1 above TWO_WIRE_MOST: only this sees a `two_wire` that takes
tick by tick.

PROGRAM and OTHER are programs, or checkouts of this repository in which `make demo` has built one.
FOLDER should be in memory (/dev/shm), since numbers are synced. The lines are the same in each run.
It ends with 1 if a run doesn't end well or the two programs write different things, and with 2 if a program isn't there, or valgrind
is needed and isn't installed. It is no part of the gate.
"""
import argparse, filecmp, os, random, re, shutil, statistics, subprocess, sys, tempfile

import built, model
from killed import KEY
from model import Y18, Y24, Dnp3, Rtu
from killed import slot_of
from random_lines import some_frame

# How many ticks a line has when time is measured, and when instructions are counted.
TICKS, FEW_TICKS = 4000000, 1600000
# The ticks of a line for which one frame of `trial` counts, and the status for words that are no command.
TICKS_OF_A_FRAME, USAGE = 400, 2
# How many times as much as `duplex` the command `two_wire` should take at most, and may.
TWO_WIRE_AIM, TWO_WIRE_MOST = 3, 5


class Text:
    """A tick text that is made piece by piece."""

    def __init__(self, path):
        self.file, self.ticks = open(path, "w"), 0

    def add(self, line):
        self.file.write(model.canonical(line))
        self.ticks += len(line)


def frames(proto, chance, count):
    return [some_frame(proto, chance) for _ in range(count)]


def device_line(path, proto, ticks, chance):
    """Writes a line of frames, small and large, as far apart as the transmitter needs, or farther."""
    text, pool = Text(path), frames(proto, chance, 500)
    while text.ticks < ticks:
        text.add(chance.choice(pool) + [None] * chance.choice([21, 27, 60, 300]))


def dense_line(path, proto, ticks, chance):
    """Writes a line of large frames with only the silence between them that ends a burst. Some are damaged."""
    text, pool = Text(path), sorted(frames(proto, chance, 500), key=len)[-60:]
    while text.ticks < ticks:
        frame = list(chance.choice(pool))
        if chance.random() < 0.1:
            frame[chance.randrange(len(frame))] ^= 1
        text.add(frame + [None] * model.CUT)


def thin_line(path, ticks, chance):
    """Writes a line of bytes, each followed by a silent tick, so that each line of the text is one tick."""
    text = Text(path)
    while text.ticks < ticks // 4:
        text.add([chance.randrange(256), None] * 40)


def link_line(path, proto, profile, ticks, chance, attacked):
    """Writes a link of packets in order. If it is attacked, one packet in ten is changed, lost, repeated or cut."""
    text, pool, number, last = Text(path), frames(proto, chance, 500), 0, []
    key = bytes.fromhex(KEY.strip())
    while text.ticks < ticks:
        frame, number = chance.choice(pool), number + 1
        packet = frame + [None] * model.PAUSE + model.trailer(proto, key, 0, frame, number, profile)
        deed = chance.randrange(40) if attacked else 9
        if deed == 0:
            packet[chance.randrange(len(frame))] ^= 1
        elif deed == 1:
            packet = [None] * len(packet)
        elif deed == 2:
            packet = last or packet
        elif deed == 3:
            packet = packet[:chance.randrange(1, len(packet))]
        last = packet
        text.add(packet + [None] * chance.choice([21, 27, 60, 300]))


def session(path, line, link):
    with open(path, "w") as file:
        file.write(open(line).read() + "%\n" + open(link).read())


def audited(path, proto, ticks, chance):
    """Writes the recordings of a session that `audit` calls clean: a device's line, its link, on which one packet in ten is changed, and
    what a receiver makes of this link."""
    line, pool, key = [], frames(proto, chance, 500), bytes.fromhex(KEY.strip())
    while len(line) < ticks // 3:
        line += chance.choice(pool) + [None] * chance.choice([21, 27, 60, 300])
    link, _, _, sealed = model.seal(proto, key, 0, 0, line)
    for _, start, frame in sealed:
        if chance.random() < 0.1:
            link[start + chance.randrange(len(frame))] ^= 1
    received, _, _, _ = model.check(proto, key, 0, 0, link)
    with open(path, "w") as file:
        file.write("%\n".join(map(model.canonical, (line, link, received))))


def cases_of(folder, ticks):
    """The cases: a name, the input, and the words of the command. The link of a session comes in the direction ab, so a box for both
    directions seals in the direction ba."""
    at, cases = lambda name: os.path.join(folder, name), []
    for name, other in (("rtu", "rtu24"), ("dnp3", "dnp24")):
        device, dense, both = at("device." + name), at("dense." + name), at("session." + name)
        cases += [("read " + name, device, ["read", name]), ("read %s, dense" % name, dense, ["read", name]),
                  ("space " + name, device, ["space", name]), ("space %s, dense" % name, dense, ["space", name]),
                  ("seal " + name, device, ["seal", name, "ab"]), ("seal %s, dense" % name, dense, ["seal", name, "ab"])]
        for word, attacked in ((name, False), (name, True), (other, False)):
            cases.append(("check %s%s" % (word, ", attacked" * attacked), at("link.%s.%d" % (word, attacked)), ["check", word, "ab"]))
        cases += [("check %s, unsealed" % name, dense, ["check", name, "ab"]), ("replay " + name, both, ["replay", name, "ab"]),
                  ("duplex " + name, both, ["duplex", name, "ba"]),
                  ("two_wire " + name, both, ["two_wire", name, "ba", "asks", "20", "4"]), ("audit " + name, at("audit." + name), ["audit", name, "ab"]),
                  ("trial " + name, os.devnull, ["trial", name, "7", str(ticks // TICKS_OF_A_FRAME)])]
    return cases + [("read rtu, thin", at("thin"), ["read", "rtu"]), ("read rtu, comments", at("comments"), ["read", "rtu"])]


def make_inputs(folder, ticks):
    """Writes the lines of all cases."""
    at, chance = lambda name: os.path.join(folder, name), random.Random(1)
    for proto, name, other in ((Rtu, "rtu", "rtu24"), (Dnp3, "dnp3", "dnp24")):
        device_line(at("device." + name), proto, ticks, chance)
        dense_line(at("dense." + name), proto, ticks, chance)
        for word, profile, attacked in ((name, Y18, False), (name, Y18, True), (other, Y24, False)):
            link_line(at("link.%s.%d" % (word, attacked)), proto, profile, ticks, chance, attacked)
        device_line(at("half"), proto, ticks // 2, chance)
        link_line(at("link"), proto, Y18, ticks // 2, chance, True)
        session(at("session." + name), at("half"), at("link"))
    thin_line(at("thin"), ticks, chance)
    with open(at("comments"), "w") as file:
        file.write(("# " + "a comment " * 10 + "\n") * (ticks // 50))
    for proto, name in ((Rtu, "rtu"), (Dnp3, "dnp3")):
        audited(at("audit." + name), proto, ticks, chance)


def words_of(words, key, journal):
    """The words of a case, with the key and the journal that its command takes."""
    named = {"seal": [key, journal], "check": [key, journal], "replay": [key], "duplex": [key], "two_wire": [key], "audit": [key, "0", "0"]}
    return words + named.get(words[0], [])


def most_memory(child):
    """The most memory in MB that a running program has used, as the system reports it until the program ends."""
    most = 0
    while child.poll() is None:
        try:
            with open("/proc/%d/status" % child.pid) as status:
                most = next((int(line.split()[1]) for line in status if line.startswith("VmHWM")), most)
        except (FileNotFoundError, ProcessLookupError):
            break
    child.wait()
    return most / 1024


def make_journal(journal, words):
    """Writes a journal with the number 0 for the link of these words."""
    with open(journal, "wb") as file:
        file.write(bytes(32) + slot_of(0, tuple(words[1:3]) if words[0] in ("seal", "check") else ("rtu", "ab")) + bytes(24))


def run(program, words, source, written, journal, memory=False):
    """The seconds of processor time of a run, or with `memory` the most memory that it used in MB, and its status."""
    make_journal(journal, words)
    with open(source) as given, open(written[0], "w") as out, open(written[1], "w") as log:
        child = subprocess.Popen([program] + words, stdin=given, stdout=out, stderr=log)
        if memory:
            return most_memory(child), child.returncode
        _, status, used = os.wait4(child.pid, 0)
        child.returncode = os.waitstatus_to_exitcode(status)
    return used.ru_utime + used.ru_stime, child.returncode


def instructions(program, words, source, written, journal):
    """How many instructions a run takes, in millions, and its status."""
    make_journal(journal, words)
    counts = journal + ".counts"
    count = ["valgrind", "--tool=callgrind", "--callgrind-out-file=/dev/null", "--log-file=" + counts, program]
    with open(source) as given, open(written[0], "w") as out, open(written[1], "w") as log:
        status = subprocess.run(count + words, stdin=given, stdout=out, stderr=log).returncode
    with open(counts) as file:
        said = re.search(r"Collected : (\d+)", file.read())
    return int(said.group(1)) / 1e6 if said else 0, status


def count(programs, case, most, folder):
    """Counts the instructions of each program. Returns whether all is well, and how many millions this one takes."""
    name, source, words = case
    files = [[os.path.join(folder, "%s.%d" % (kind, place)) for kind in ("out", "log", "journal")] for place in range(len(programs))]
    key = os.path.join(folder, "key")
    counted = [instructions(program, words_of(words, key, paths[2]), source, paths[:2], paths[2]) for program, paths in zip(programs, files)]
    taken, status = counted[0]
    line, well = "%-22s %9.2f" % (name, taken), status == 0
    if len(programs) > 1 and counted[1][1] == USAGE:
        line += "   the other one doesn't know it"
    elif len(programs) > 1:
        other, other_status = counted[1]
        over = 100 * (taken / other - 1) if other else 0
        same = all(filecmp.cmp(a, b, shallow=False) for a, b in zip(*files))
        line += " %9.2f %+7.1f %%%s%s" % (other, over, "   MORE" if over > most else "", "" if same else "   DIFFERS")
        well = well and other_status == 0 and same and over <= most
    print(line + ("" if status == 0 else "   status %d" % status), flush=True)
    return well, taken


def print_wires(taken):
    """Prints how many times as much as `duplex` the command `two_wire` takes, from what each case takes. Returns whether that is what
    it may take."""
    ratios = {name: taken[name] / taken[name.replace("two_wire", "duplex")] for name in taken
              if name.startswith("two_wire") and taken.get(name.replace("two_wire", "duplex"))}
    for name, ratio in ratios.items():
        print("%-22s %9.2f times duplex%s" % (name, ratio, "   more than the aim" if ratio > TWO_WIRE_AIM else ""))
    return all(ratio <= TWO_WIRE_MOST for ratio in ratios.values())


def count_all(programs, cases, most, folder):
    print("%-22s %s, in millions of instructions" % ("case", "this one, the other one" if len(programs) > 1 else "this one"), flush=True)
    counted = [count(programs, case, most, folder) for case in cases]
    well = [fine for fine, _ in counted]
    well.append(print_wires({case[0]: taken for case, (_, taken) in zip(cases, counted)}))
    print("all is well" if all(well) else "%d of %d are not as they should be" % (well.count(False), len(well)))
    return 0 if all(well) else 1


def measure(programs, case, rounds, folder):
    name, source, words = case
    files = [[os.path.join(folder, "%s.%d" % (kind, place)) for kind in ("out", "log", "journal")] for place in range(len(programs))]
    key, times, statuses = os.path.join(folder, "key"), [[] for _ in programs], set()
    given = lambda place: (programs[place], words_of(words, key, files[place][2]), source, files[place][:2], files[place][2])
    for _ in range(rounds):
        for place in range(len(programs)):
            seconds, status = run(*given(place))
            times[place].append(seconds)
            statuses.add(status)
    memory, _ = run(*given(0), memory=True)
    size = os.path.getsize(source) / 1e6 if source != os.devnull else 0
    line = "%-22s %7.3f s %8s MB/s %6.1f MB" % (name, min(times[0]), "%.0f" % (size / min(times[0])) if size else "", memory)
    same = statuses == {0}
    if len(programs) > 1:
        ratios = [mine / other for mine, other in zip(*times)]
        same = same and all(filecmp.cmp(a, b, shallow=False) for a, b in zip(*files))
        line += "   ratio %.2f, least %.2f%s" % (statistics.median(ratios), min(times[0]) / min(times[1]), "" if same else "   DIFFERS")
    print(line + ("" if statuses == {0} else "   status %s" % sorted(statuses)), flush=True)
    return same, min(times[0])


def program_at(path):
    """A program, or the one that a checkout has."""
    return built.program([built.path_of("link_replay", path) if os.path.isdir(path) else path], 0)


def main():
    words = argparse.ArgumentParser(description=__doc__, formatter_class=argparse.RawDescriptionHelpFormatter)
    words.add_argument("program", nargs="?", default=built.path_of("link_replay"))
    words.add_argument("--beside")
    words.add_argument("--instructions", action="store_true")
    words.add_argument("--most", type=float, default=5)
    words.add_argument("--rounds", type=int, default=5)
    words.add_argument("--ticks", type=int)
    words.add_argument("--only", default="")
    words.add_argument("--work", default="/dev/shm" if os.path.isdir("/dev/shm") else None)
    asked = words.parse_args()
    programs = [program_at(program) for program in [asked.program] + [asked.beside] * bool(asked.beside)]
    if asked.instructions and shutil.which("valgrind") is None:
        print("measure: valgrind isn't on the path", file=sys.stderr)
        return 2
    ticks = asked.ticks or (FEW_TICKS if asked.instructions else TICKS)
    with tempfile.TemporaryDirectory(prefix="measure.", dir=asked.work) as folder:
        cases = [case for case in cases_of(folder, ticks) if any(word in case[0] for word in asked.only.split(","))]
        if not cases:
            sys.exit("measure: no case has one of `%s` in its name" % asked.only)
        make_inputs(folder, ticks)
        with open(os.path.join(folder, "key"), "w") as file:
            file.write(KEY)
        if asked.instructions:
            return count_all(programs, cases, asked.most, folder)
        print("%-22s %9s %13s %9s" % ("case", "CPU time", "input read", "memory"), flush=True)
        measured = [measure(programs, case, asked.rounds, folder) for case in cases]
        print_wires({case[0]: seconds for case, (_, seconds) in zip(cases, measured)})
    return 0 if all(same for same, _ in measured) else 1


if __name__ == "__main__":
    sys.exit(main())
