#!/usr/bin/env python3
"""Shows a live line on one machine: mbpoll reads registers of a libmodbus server through four boxes, under attack.

    python3 scripts/live.py [SECONDS] [--over PROGRAM]

The line is mbpoll - bridge - attacker - bridge - server, over pseudo-terminals at 9,600 baud with even parity, with both directions
sealed. mbpoll writes a register and reads all ten, while the attacker does ten sorts of things in turn, for at least
SECONDS seconds (40 if not given). A bridge is the adapter tty_ticks, and behind it `link_replay live line` or, with `--over`, PROGRAM,
which has the same words. The value that the attacker tries to get into a register is never one that mbpoll writes.

The exit status is 0 only if polls were answered, each sort of attack was done at least once, no attack changed a register, and the
journals have the numbers that the notes say were sealed and passed, and 2 if something isn't installed. It is no part of the gate.
"""
import os, re, shutil, subprocess, sys, tempfile, time

import bridge_build
from live_line import SORTS, Bridges, Port, ends_of, link_of, make_key, started
from model import Rtu

ROOT = os.path.dirname(os.path.dirname(os.path.abspath(__file__)))
PAGE = os.path.join(ROOT, "out", "live.html")
# The values that mbpoll writes, in turn. At first the server's registers hold 100 and more. The attacker writes 666.
WRITTEN, TARGET, EVIL = (1001, 1002, 1003), 5, 666


def write_request(value):
    body = bytes((1, 6, 0, TARGET)) + value.to_bytes(2, "big")
    return body + Rtu.end(body)


LINK = link_of("rtu", 9600, "even", write_request(EVIL))


class Session(Bridges):
    """One uptime of both bridges, with mbpoll at one end and the server at the other, each behind a plain wire."""

    def __init__(self, folder, programs, old, make):
        super().__init__(programs["ends"], folder, LINK, old, make)
        self.master, self.slave = Port(LINK.tick), Port(LINK.tick)
        self.ports += [self.master, self.slave]
        for one, other in ((self.master, self.a_device), (self.b_device, self.slave)):
            self.run(self.wire, one, other)
            self.run(self.wire, other, one)
        self.others.append(started([programs["server"], self.slave.path], self.log("server")))
        self.tries = 0
        time.sleep(0.5)

    def wire(self, port, other):
        while not self.stopping.is_set():
            content = port.come(0.2)
            if content is None:
                return
            other.write(content)

    def poll(self, *values):
        words = ["mbpoll", "-m", "rtu", "-a", "1", "-b", "9600", "-P", "even", "-t", "4", "-0", "-1", "-o", "2"]
        words += ["-r", str(TARGET) if values else "0", *([] if values else ["-c", "10"]), self.master.path, *map(str, values)]
        done = subprocess.run(words, capture_output=True, text=True)
        return done.returncode == 0, [int(value) for value in re.findall(r"^\[\d+\]:\s+(\d+)", done.stdout, re.M)]

    def surely(self, *values):
        """Polls until a poll is answered, at most twelve times: on a busy machine a byte can come so late that its frame is refused."""
        for tries in range(1, 13):
            right, read = self.poll(*values)
            if right:
                self.tries += tries - 1
                return True, read
        return False, []


def built(words):
    """Builds the server and the bridge, and returns their paths and the other words. Names what isn't installed before the library is proved, which takes long."""
    missing, programs = [] if shutil.which("mbpoll") else ["mbpoll isn't installed: apt-get install mbpoll"], {}
    for needed in (bridge_build.kit, bridge_build.server):
        try:
            programs[needed.__name__] = needed()
        except bridge_build.Missing as why:
            missing.append(str(why))
    if missing:
        raise bridge_build.Missing("\n".join(missing))
    words, programs["ends"] = ends_of(words)
    return words, programs


def first_session(folder, programs, see):
    """A session without an attack. Returns the requests that the attacker recorded: those that write, if there are any."""
    print("== A first session, which the attacker records: mbpoll writes %d into register %d, and reads" % (WRITTEN[0], TARGET), flush=True)
    session = Session(folder, programs, [], True)
    wrote, _ = session.surely(WRITTEN[0])
    read, values = session.surely()
    session.end()
    see(wrote and read and values[TARGET:TARGET + 1] == [WRITTEN[0]], "mbpoll wrote and read through four boxes: %s" % values)
    if not wrote:
        print(session.text("a")[-800:], session.text("b")[-800:])
    recorded = session.attacker.seen["ab"]
    return [sent for sent in recorded if sent[0][1:2] == b"\x06"] or recorded


def polled(session, seconds):
    """Polls under attack for at least so long, and until each sort of attack was done. Returns how many polls there were, how many were
    answered, and the values that they read."""
    session.attacker.quiet = False
    begun, polls, answered, read = time.monotonic(), 0, 0, set()
    while time.monotonic() - begun < seconds or (len(session.attacker.done) < len(SORTS) and polls < 80):
        polls += 1
        right, values = session.poll()
        answered += right
        if right:
            read.add(tuple(values))
    session.attacker.quiet = True
    return polls, answered, read


def last_line(text):
    return (text.splitlines() or ["nothing"])[-1]


def second_session(folder, programs, old, seconds, see):
    """A session over the same journals, in which the requests are attacked."""
    print("== A second one over the same journals, with ten sorts of attack on the requests", flush=True)
    session = Session(folder, programs, old, False)
    good = [session.surely(value)[0] for value in WRITTEN[1:]]
    polls, answered, read = polled(session, seconds)
    last, values = session.surely()
    done, statuses = session.attacker.done, session.end()
    expected = [100 + i for i in range(10)]
    expected[TARGET] = WRITTEN[-1]
    server = session.text("server")
    writes = re.findall(r"^write (\d+) (\d+)", server, re.M)
    see(all(good) and last and values == expected, "mbpoll wrote before the attacks, and read after them: %s" % values)
    print("      polls under attack: %d, answered %d; polls that were repeated without one: %d" % (polls, answered, session.tries))
    see(len(done) == len(SORTS), "attacks: %s" % ", ".join("%s %d" % (sort, done[sort]) for sort in SORTS))
    # a write whose reply was lost is sent again
    runs = [write for number, write in enumerate(writes) if writes[:number][-1:] != [write]]
    see(runs == [(str(TARGET), str(value)) for value in WRITTEN[1:]], "the server carried out mbpoll's writes alone: %s" % writes)
    held = last_line(server)
    see(read <= {tuple(expected)} and held == "registers " + " ".join(map(str, expected)), "no attack changed a register: the server has %s" % held)
    see(statuses == [0, 0], "both bridges ended with status 0")
    for kept, number, word, noted in session.numbers():
        see(number is not None and number == noted, "journal %s has the number %s, the last one that was %s" % (kept, number, word))
    for end in ("a", "b"):
        print("      %s" % last_line(session.text(end)))


def notes_of(folder, end, words):
    """The path of a file with the notes that begin with one of these words, of those that a bridge wrote."""
    path = os.path.join(folder, "%s.%s.notes" % (end, words[0]))
    with open(os.path.join(folder, end + ".log")) as log, open(path, "w") as notes:
        notes.writelines(line.lstrip("<>") for line in log if line.lstrip("<>").split(" ")[0] in words)
    return path


def drawn(folder, title, near, far):
    """The words for timeline.py by which it shows the direction from the bridge `near` to the bridge `far`: the lines and the notes of
    what the first one sealed, and of what the second one took from the link."""
    (one, sender), (other, device) = near, far
    ends = {"device": one, "sent": one, "came": other, "received": other}
    lanes = [(lane, os.path.join(folder, "%s.%s.ticks" % (end, lane))) for lane, end in ends.items()]
    notes = notes_of(folder, one, ("sealed", "unsealed")), notes_of(folder, other, ("passed", "refused", "dropped"))
    return ["rtu", "title=" + title, "title.device=the line from " + sender, "title.received=the line to " + device,
            *("%s=%s" % lane for lane in lanes), *("notes=" + path for path in notes)]


def draw(folder, see):
    """Writes the picture of the second session, with both directions."""
    os.makedirs(os.path.dirname(PAGE), exist_ok=True)
    mbpoll, server = ("a", "mbpoll"), ("b", "the server")
    sessions = drawn(folder, "make live: requests", mbpoll, server) + drawn(folder, "make live: replies", server, mbpoll)
    page = subprocess.run([sys.executable, os.path.join(ROOT, "scripts", "timeline.py"), PAGE, *sessions], capture_output=True, text=True)
    paths = [word.split("=", 1)[1] for word in sessions if word.startswith("notes=")]
    counts = [sum(1 for _ in open(path)) for path in paths]
    see(page.returncode == 0 and all(counts), "the picture of the session, with %d notes: %s%s" % (sum(counts), PAGE, page.stderr))


def main():
    words, programs = built(sys.argv[1:])
    seconds, wrong = float(words[0]) if words else 40, []

    def see(holds, what):
        print("%s %s" % ("  ok  " if holds else "WRONG ", what), flush=True)
        if not holds:
            wrong.append(what)

    with tempfile.TemporaryDirectory() as folder:
        make_key(folder)
        old = first_session(folder, programs, see)
        if old:
            second_session(folder, programs, old, seconds, see)
            draw(folder, see)
        else:
            see(False, "a packet came to the attacker: none did, so there is nothing to repeat in a second session")
    if wrong:
        if os.getloadavg()[0] > os.cpu_count():
            print("This machine is busy, with a load of %.0f on %d processors: polls may have failed by that alone." % (os.getloadavg()[0], os.cpu_count()))
        sys.exit("live: %d of these checks failed" % len(wrong))
    print("All of these checks passed.")


try:
    main()
except bridge_build.Missing as why:
    print("live: something isn't installed, or can't be built:\n%s" % why, file=sys.stderr)
    sys.exit(2)
