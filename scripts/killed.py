"""What the scripts that kill runs of a box have in common: the numbers in a journal's file, and a run that is killed at a random
moment."""
import os, random, re, signal, subprocess, time

KEY = "000102030405060708090a0b0c0d0e0f\n"
LIMIT = (1 << 48) - 1
PROTOCOLS = {"rtu": (1, 18), "dnp3": (2, 18), "rtu24": (1, 24), "dnp24": (2, 24)}
LINKS = [(protocol, direction) for protocol in PROTOCOLS for direction in ("ab", "ba")]


def completed(half):
    return half + bytes(255 - byte for byte in half)


def old_slot_of(number):
    return completed(number.to_bytes(8, "big"))


def slot_of(number, link=("rtu", "ab")):
    """The slot with this number for a link, which is given by its words."""
    label, profile = PROTOCOLS[link[0]]
    return completed(number.to_bytes(8, "big") + bytes([label, ("ab", "ba").index(link[1]), profile, 2]))


def held(slots, made):
    """The numbers of those slots that `made` makes from their number."""
    numbers = [(int.from_bytes(slot[:8], "big"), slot) for slot in slots]
    return [number for number, slot in numbers if number <= LIMIT and slot == made(number)]


def holds_any(slot):
    """Whether a slot holds a number for a link of any label and profile, whose direction is 0 or 1."""
    return slot == completed(slot[:12]) and slot[9] < 2 and slot[11] == 2 and int.from_bytes(slot[:8], "big") <= LIMIT


def floor_of(path, link=("rtu", "ab")):
    """The number that a run of this link loads from the file, or None if it loads none."""
    data = open(path, "rb").read().ljust(80, b"\0")
    new, old = (data[32:56], data[56:80]), held((data[:16], data[16:32]), old_slot_of)
    own = held(new, lambda number: slot_of(number, link))
    if not own and any(map(holds_any, new)):
        return None
    return max(own + old, default=None)


class Killed:
    """Runs of one command over the same input and journal, with their files in `folder`, each killed after a random time of at most
    `seconds` seconds. A part of the text that goes out at once has `most` numbers at most."""

    def __init__(self, program, command, folder, seconds, most):
        self.program, self.command, self.folder, self.seconds, self.most = program, command, folder, seconds, most
        self.killed, self.seen, self.used, self.last, self.lost = 0, 0, set(), 0, 0
        open(self.path("key"), "w").write(KEY)
        self.init("journal")
        random.seed(1)

    def path(self, name):
        return os.path.join(self.folder, name)

    def text(self, name):
        return open(self.path(name)).read()

    def init(self, journal):
        subprocess.run([self.program, "init", "rtu", "ab", self.path(journal)], check=True, stdin=subprocess.DEVNULL)

    def words(self, command, journal):
        return [self.program, command, "rtu", "ab", self.path("key"), self.path(journal)]

    def floor(self):
        floor = floor_of(self.path("journal"))
        assert floor is not None, "the journal has no floor for this link"
        return floor

    def run(self):
        """Starts one run and kills it. Returns the journal's floor before the run."""
        before = self.floor()
        with open(self.path("line")) as line, open(self.path("out"), "w") as out, open(self.path("log"), "w") as log:
            run = subprocess.Popen(self.words(self.command, "journal"), stdin=line, stdout=out, stderr=log)
            time.sleep(random.uniform(0, self.seconds))
            run.send_signal(signal.SIGKILL)
            self.killed += run.wait() < 0
        return before

    def noted(self, word):
        """The numbers of the notes that begin with this word, and the ticks at which their bursts begin."""
        return [(int(n), int(s)) for n, s in re.findall(r"^%s (\d+) at (\d+) len \d+\n" % word, self.text("log"), re.M)]

    def look_at(self, numbers):
        """Checks the numbers that a run used, in the order in which they were seen: each must be above all before it, and none above the
        journal's floor."""
        assert numbers == sorted(set(numbers)), "a number came twice in one run"
        assert not numbers or numbers[0] > self.last, "number %d came again" % numbers[0]
        assert not numbers or numbers[-1] <= self.floor(), "number %d is above the journal's floor" % numbers[-1]

    def settled(self, noted, before):
        """Checks that a run that began with the floor `before` noted the numbers from there on without a gap, and that it lost none but
        those of one settle: the run brings the journal to the numbers of a part of the text, of 65,536 bytes at most, and then the part goes
        out. `self.most` is how many numbers a part has at most."""
        assert noted == list(range(before + 1, before + 1 + len(noted))), "a number is missing among those that were noted"
        lost = self.floor() - (noted[-1] if noted else before)
        assert lost <= self.most, "%d numbers were lost, more than one settle can have" % lost
        self.lost = max(self.lost, lost)

    def keep(self, numbers):
        self.used.update(numbers)
        self.last = max([self.last] + numbers)

    def begin_anew(self):
        """Makes a new journal, with which no number is used yet."""
        os.remove(self.path("journal"))
        self.init("journal")
        self.seen += len(self.used)
        self.used, self.last = set(), 0

    def summary(self, runs):
        """What was seen in all runs. If none was killed, or no number was seen, they show nothing."""
        assert self.killed, "none of %d runs was killed" % runs
        assert self.seen + len(self.used), "no number was seen in %d runs, of which %d were killed" % (runs, self.killed)
        return "%d runs, %d killed, %d numbers seen, the last one %d, floor %d: none came twice, and a run lost %d at most" % (
            runs, self.killed, self.seen + len(self.used), self.last, self.floor(), self.lost)
