#!/usr/bin/env python3
"""Watches the calls of `link_replay` on its journal and its two outputs, and checks that each output comes behind the sync of its numbers.

    python3 scripts/settles.py [PROGRAM [FRAMES]]

`seal` takes a line of many frames, 25,000 if not given, and `check` the link that is made of it, each under strace. A run must bring its
journal to the numbers of a part of its text by one or two writes, each with its sync, and then write the notes to the log and the ticks to
standard output. So when a note or a tick is written, the slots that were synced by then must hold every number that it has, and no write
to the journal may be open. A run that syncs its journal for each number would make a sync a frame; this one may make one for 25 frames,
and five more. At the end the journal must hold the last number. The two outputs and the journal are files in a new folder, which is
removed at the end. It ends with 1 if a run does anything else, and with 2 if strace isn't there. It is no part of the gate.
"""
import os, re, shutil, subprocess, sys, tempfile

import built
from killed import KEY, floor_of, held, slot_of

FRAME = "01030000000ac5cd"
FRAMES_A_SYNC, MORE_SYNCS = 25, 5
CALLS = "trace=read,write,pread64,pwrite64,lseek,fsync,fdatasync"
# A note with its number, a trailer that has begun, and a frame that has left the receiver whole.
NOTE = re.compile("^(?:sealed|passed) ", re.M)
SENT = {"seal": re.compile("^-3\n\\+", re.M), "check": re.compile("^\\+%s$" % FRAME, re.M)}


class Numbers:
    """The text of a stream, and how many times something is in it."""

    def __init__(self, what):
        self.what, self.text, self.count, self.behind = what, "", 0, 0

    def add(self, piece):
        self.text += piece
        for met in self.what.finditer(self.text, self.behind):
            self.count, self.behind = self.count + 1, met.end()


class Watched:
    """A run of one command, whose calls are seen one after the other. `synced` are the slots A and B that were synced, `written` those that
    were written since then."""

    def __init__(self, command, slots):
        self.command, self.synced, self.written, self.wrong = command, dict(slots), {}, 0
        self.out, self.log, self.syncs, self.writes = Numbers(SENT[command]), Numbers(NOTE), 0, 0

    def see(self, holds, what):
        self.wrong += not holds
        if not holds:
            print("WRONG: %s: %s" % (self.command, what))

    def floor(self):
        return max(held(self.synced.values(), slot_of))

    def on_journal(self, name, at, piece):
        if name in ("fsync", "fdatasync"):
            self.syncs += 1
            self.synced.update(self.written)
            self.written = {}
        elif name in ("write", "pwrite64"):
            self.writes += 1
            self.see(at in (32, 56) and len(piece) == 24, "a write of %d bytes at %d" % (len(piece), at))
            self.see(not self.written, "a slot is written before the last one was synced")
            self.written[at] = piece

    def on_output(self, stream, piece):
        """A piece goes to the log or to standard output."""
        self.see(not self.written, "something goes out before the journal was synced")
        stream.add(piece)
        self.see(self.log.count <= self.floor(), "note %d goes out while the floor that was synced is %d" % (self.log.count, self.floor()))
        self.see(self.out.count <= self.log.count, "the ticks of number %d go out before its note" % self.out.count)


# A call as strace writes it with -f -xx -y: the process, the name, the file and its path, and what follows.
CALL = re.compile(r"(?:\d+ +)?(\w+)\((\d+)<(.*?)>(?:, )?(.*)\) += (-?\d+)")


def bytes_of(text):
    """The bytes of a string that strace wrote in hex."""
    return bytes.fromhex(text.split('"')[1].replace("\\x", ""))


def watch(run, trace, journal):
    """Shows a run the calls that strace noted."""
    place = 0
    for line in open(trace):
        call = CALL.match(line)
        if not call:
            continue
        name, file, path, rest, result = call.group(1), int(call.group(2)), call.group(3), call.group(4), int(call.group(5))
        path = bytes_of('"%s"' % path).decode() if "\\x" in path else path
        if path == journal and name == "lseek":
            place = result
        elif path == journal and name == "read":
            place += result
        elif path == journal:
            run.on_journal(name, int(rest.rsplit(", ", 1)[1]) if name == "pwrite64" else place, bytes_of(rest) if '"' in rest else b"")
            place += result if name == "write" else 0
        elif file in (1, 2) and name == "write":
            run.on_output(run.out if file == 1 else run.log, bytes_of(rest)[:result].decode())


def see_run(program, folder, command, frames):
    """Runs a command under strace, and checks its calls. Returns how many things were wrong."""
    path = {name: os.path.join(folder, name) for name in ("key", "journal", "line", "out", "log", "trace")}
    if os.path.exists(path["journal"]):
        os.remove(path["journal"])
    subprocess.run([program, "init", "rtu", "ab", path["journal"]], check=True, stdin=subprocess.DEVNULL)
    words = [program, command, "rtu", "ab", path["key"], path["journal"]]
    strace = ["strace", "-f", "-xx", "-y", "-s", "100000", "-e", CALLS, "-o", path["trace"]]
    with open(path["line"]) as line, open(path["out"], "w") as out, open(path["log"], "w") as log:
        status = subprocess.run(strace + words, stdin=line, stdout=out, stderr=log).returncode
    run = Watched(command, {32: slot_of(0), 56: bytes(24)})
    watch(run, path["trace"], os.path.realpath(path["journal"]))
    run.see(status == 0, "status %d" % status)
    run.see((run.out.text, run.log.text) == (open(path["out"]).read(), open(path["log"]).read()), "not all writes were seen")
    run.see(run.out.count == run.log.count == frames, "%d numbers went out, and %d notes" % (run.out.count, run.log.count))
    run.see(floor_of(path["journal"]) == frames == run.floor(), "the journal's floor is %s" % floor_of(path["journal"]))
    run.see(run.syncs <= frames // FRAMES_A_SYNC + MORE_SYNCS, "%d syncs for %d frames" % (run.syncs, frames))
    print("%s: %d frames, %d writes to the journal and %d syncs of it" % (command, frames, run.writes, run.syncs))
    os.replace(path["out"], path["line"])
    return run.wrong


def main():
    program, frames = built.program(sys.argv, 1), int(sys.argv[2]) if len(sys.argv) > 2 else 25000
    if not shutil.which("strace"):
        print("settles: strace isn't on the path", file=sys.stderr)
        return 2
    with tempfile.TemporaryDirectory(dir="/dev/shm" if os.path.isdir("/dev/shm") else None) as folder:
        with open(os.path.join(folder, "key"), "w") as file:
            file.write(KEY)
        with open(os.path.join(folder, "line"), "w") as file:
            file.write("+%s\n-40\n" % FRAME * frames)
        wrong = sum(see_run(program, folder, command, frames) for command in ("seal", "check"))
    print("%d wrong" % wrong)
    return 1 if wrong else 0


sys.exit(main())
