#!/usr/bin/env python3
"""Checks the pages that timeline.py makes, in a headless Chromium, with mouse, keys and files as a user has them.

    python3 scripts/timeline_check.py [PART..] [picture=FILE]

PART is one of example, outstation, words, values, altered, joined, replayed, own, clock, small, collisions, malformed, escaped,
dropped, wires, profiles and load. Without one all are run. What a page must say is taken from the texts themselves, from examples/, and from the model (model.py), never from the
page's own code. `load` makes a session of 100,000 frames, which must be shown within 3 s of processor time. `picture=FILE` writes
the picture of docs/TIMELINE.md.
It installs nothing: without a Chromium nothing is tested, and the status is 2. It is 0 only if all parts that were asked for
are as they must be. It is no part of the gate.
"""
import datetime, json, math, os, random, re, subprocess, sys, tempfile, time

import browser, model, timeline_wires
from model import Y18, Y24, Dnp3, Rtu

SCRIPTS = os.path.dirname(os.path.abspath(__file__))
EXAMPLES = os.path.join(os.path.dirname(SCRIPTS), "examples")
TITLES = {"device": "the device's line", "sent": "the link as sent", "came": "the link as it came", "received": "the received line"}
KEY = bytes(range(16))


def example(name):
    return os.path.join(EXAMPLES, name)


def expected(name):
    return os.path.join(EXAMPLES, "expected", name)


def lines_of(path):
    with open(path) as file:
        return file.read().splitlines()


def ticks_in(path):
    """The ticks of a file with tick text."""
    with open(path) as file:
        return model.ticks_of(file.read())


class Checked:
    """Counts what was compared, and prints what differs."""

    def __init__(self):
        self.count = self.wrong = 0

    def equal(self, what, got, wanted):
        self.count += 1
        if got != wanted:
            self.wrong += 1
            if self.wrong <= 40:
                print("WRONG: %s\n  shown:  %r\n  wanted: %r" % (what, got, wanted))

    def true(self, what, got):
        self.equal(what, bool(got), True)


class Page:
    """A page of timeline.py in the browser."""

    def __init__(self, checked, window, folder):
        self.checked, self.window, self.folder = checked, window, folder

    def make(self, *words):
        """Makes a page from these words for timeline.py, and opens it. Returns the seconds until it is painted."""
        path = os.path.join(self.folder, "page.html")
        subprocess.run([sys.executable, os.path.join(SCRIPTS, "timeline.py"), path, *words], check=True)
        return self.window.open(path)

    def see(self, script):
        return self.window.see(script)

    def text(self, name):
        return self.see("document.getElementById(%r).textContent" % name)

    def chips(self):
        """The counts above the lanes: each a word and how many there are, with the reasons."""
        return self.see("[...document.querySelectorAll('#counts button')].map((chip) => chip.textContent)")

    def messages(self):
        return self.see("[...document.querySelectorAll('#messages p')].map((row) => row.textContent)")

    def choose(self, name, value):
        self.see("{const list = document.getElementById(%r); list.value = %r; list.dispatchEvent(new Event('change'));}" % (name, value))

    def place(self, lane, tick):
        """The place on the screen of the middle of a tick's cell in a lane."""
        left, start, scale = self.see("(() => {const c = document.getElementById('lanes');"
                                      "return [c.getBoundingClientRect().left, +c.dataset.from, +c.dataset.scale];})()")
        top = self.see("document.querySelector('[data-lane=%s]').getBoundingClientRect().top" % lane)
        return left + (tick + 0.5 - start) * scale, top + 44

    def bring(self, tick, scale):
        """Zooms with the wheel until a tick is `scale` pixels wide, and drags until this tick is at the left."""
        x, y = self.place("came", tick)
        now = float(self.see("document.getElementById('lanes').dataset.scale"))
        left = self.see("document.getElementById('lanes').getBoundingClientRect().left")
        self.window.mouse("mouseWheel", left + 400, y, deltaX=0, deltaY=-math.log(scale / now) / 0.0022)
        by = left + 40 - self.place("came", tick)[0]
        self.window.mouse("mousePressed", left + 400, y, button="left", buttons=1, clickCount=1)
        self.window.mouse("mouseMoved", left + 400 + by, y, button="left", buttons=1)
        self.window.mouse("mouseReleased", left + 400 + by, y, button="left", clickCount=1)
        self.checked.equal("a drag moves the ticks with the mouse", round(self.place("came", tick)[0]), round(left + 40))

    def hover(self, lane, tick):
        """What the page says about a tick under the mouse."""
        self.window.mouse("mouseMoved", *self.place(lane, tick))
        return self.see("document.getElementById('tip').hidden ? [] : [...document.getElementById('tip').children].map((row) => row.textContent)")

    def search(self, query, shift=False):
        """Types into the search, and returns what the page says was found."""
        self.see("{const field = document.getElementById('search'); field.focus(); field.value = %r;}" % query)
        self.window.key("Enter", shift)
        self.see("document.activeElement.blur()")
        return self.text("found")

    def details(self):
        return self.see("[...document.querySelectorAll('#details .said')].map((row) => row.textContent)")

    def colour(self, lane, tick, down=-12):
        """The colour painted in the cell of a tick, `down` pixels below its middle."""
        x, y = self.place(lane, tick)
        return self.see("(() => {const c = document.getElementById('lanes'), r = c.getBoundingClientRect();"
                        "return [...c.getContext('2d').getImageData(Math.round(%f - r.left), Math.round(%f - r.top), 1, 1).data].slice(0, 3);})()"
                        % (x - 4, y + down + 2))

    def has_frame(self, lane, tick):
        """Whether a cell has the dashed frame of what was altered, and is otherwise empty."""
        x, y = self.place(lane, tick)
        altered, panel = self.legend("altered"), self.see("(() => {const s = document.createElement('i'); s.style.color = 'var(--panel)';"
                                                          "document.body.append(s); const c = getComputedStyle(s).color; s.remove(); return c;})()")
        pixels = self.see("(() => {const c = document.getElementById('lanes'), r = c.getBoundingClientRect();"
                          "return [...c.getContext('2d').getImageData(Math.round(%f - r.left), Math.round(%f - r.top), 14, 32).data];})()"
                          % (x - 7, y - 14))
        colours = [pixels[place:place + 3] for place in range(0, len(pixels), 4)]
        ground = [int(part) for part in re.findall(r"\d+", panel)[:3]]
        near = lambda colour: all(abs(one - other) < 70 for one, other in zip(colour, altered))
        return any(map(near, colours)) and 2 * sum(colour == ground for colour in colours) > len(colours)

    def legend(self, name):
        """The colour that the legend has for a word."""
        found = self.see("getComputedStyle(document.querySelector('#legend i.%s')).backgroundColor" % name)
        return [int(part) for part in re.findall(r"\d+", found)[:3]]

    def hover_bytes(self, lane, ticks):
        """Checks that for every byte of a line the page names its lane, its tick and its value."""
        for tick, byte in enumerate(ticks):
            if byte is not None:
                said = self.hover(lane, tick)
                self.checked.equal("the lane at %s %d" % (lane, tick), said[:1], [TITLES[lane]])
                self.checked.true("the byte at %s %d: %r" % (lane, tick, said), any(row.startswith("%02x · byte " % byte) for row in said))
                self.checked.true("the tick at %s %d: %r" % (lane, tick, said), any(row.startswith("tick %d · " % tick) for row in said))

    def hover_notes(self, lane, path, shift=0, without=()):
        """Checks that the page shows each note where its burst begins, in the note's own words."""
        for note in lines_of(path):
            word, tick = note.split()[0], int(re.search(r" at (\d+)", note).group(1))
            if word not in without:
                self.checked.true("%r on %s" % (note, TITLES[lane]), note in self.hover(lane, tick + shift))

    def pills(self):
        """What stands above the bursts: for each pill its lane, place, width, text, and how many notes it stands for."""
        return json.loads(self.see("document.getElementById('lanes').dataset.pills"))

    def outside(self, lane):
        """What of a lane's cells isn't in view: in words, or "" if they are all in the window and in the part of it that has lanes."""
        top, low, *limits = self.see(
            "(() => {const lane = document.querySelector('[data-lane=%s]').getBoundingClientRect(),"
            "stage = document.getElementById('stage').getBoundingClientRect();"
            "return [lane.top + 30, lane.top + 62, stage.top, stage.bottom, 0, window.innerHeight];})()" % lane)
        inside = limits[0] <= top and low <= limits[1] and limits[2] <= top and low <= limits[3]
        return "" if inside else "cells from %d to %d, lanes from %d to %d, window to %d" % (top, low, limits[0], limits[1], limits[3])

    def troubles(self):
        """The ticks of the places of trouble, from the first one on, in the order in which the key n goes through them."""
        found, last = [], None
        for _ in range(200):
            self.window.key("n")
            shown = re.match(r"(\d+) of (\d+)$", self.text("place"))
            if not shown:
                return found
            number, count = int(shown.group(1)), int(shown.group(2))
            self.checked.true("n goes to the next place of trouble", last is None or number == last % count + 1)
            last = number
            if number == len(found) + 1:
                found.append(re.search(r"ticks (\d+) to", self.details()[0]).group(1))
            if len(found) == count:
                self.window.key("p")
                self.checked.equal("p goes to the one before", self.text("place"), "%d of %d" % (count - 1 or count, count))
                return found
        return found


def counts(*paths):
    """How often each word is the first one of a note in these texts."""
    found = {}
    for path in paths:
        for line in lines_of(path):
            found[line.split()[0]] = found.get(line.split()[0], 0) + 1
    return found


def look_at_counts(page, paths):
    shown = {chip.split()[0]: int(chip.split()[1]) for chip in page.chips()}
    for word, count in counts(*paths).items():
        page.checked.equal("how many are %s" % word, shown.get(word), count)


RTU_FILES = {"device": example("requests.ticks"), "sent": expected("requests.link.ticks"), "came": example("altered.ticks"),
             "received": expected("altered.received.ticks")}
RTU_NOTES = [expected("requests.notes.txt"), expected("altered.verdicts.txt"), expected("altered.acts.txt")]
DNP_FILES = {"device": example("outstation.ticks"), "sent": expected("outstation.link.ticks"), "came": example("outstation_altered.ticks"),
             "received": expected("outstation_altered.received.ticks")}
DNP_NOTES = [expected("outstation.notes.txt"), expected("outstation_altered.verdicts.txt"), expected("outstation_altered.acts.txt")]


def words_of(protocol, title, files, notes):
    return [protocol, "title=" + title] + ["%s=%s" % pair for pair in files.items()] + ["notes=" + path for path in notes]


def test_example(page):
    """Checks the Modbus RTU example: all bytes, notes, what was altered and spoiled, search, trouble and time."""
    checked, ticks = page.checked, {lane: ticks_in(path) for lane, path in RTU_FILES.items()}
    page.make(*words_of("rtu", "Requests", RTU_FILES, RTU_NOTES))
    checked.equal("messages", page.messages(), [])
    look_at_counts(page, RTU_NOTES)
    for lane in ticks:
        page.hover_bytes(lane, ticks[lane])
    page.hover_notes("device", RTU_NOTES[0])
    page.hover_notes("sent", RTU_NOTES[0], without=("unsealed",))
    page.hover_notes("came", RTU_NOTES[1])
    page.hover_notes("received", RTU_NOTES[1], 18, without=("dropped",))
    # In examples/altered.ticks, tick 150, the function 03 was changed to 06, and the CRC from 40 21 to 80 22, so that it is right.
    for tick, left, came in ((151, "03", "06"), (153, "40", "80"), (154, "21", "22")):
        checked.true("%s was altered" % tick, "left as %s, came as %s" % (left, came) in page.hover("came", tick))
    for tick in (0, 7, 100, 150, 158, 171, 300):
        checked.true("%d wasn't altered" % tick, not any(row.startswith("left as") for row in page.hover("came", tick)))
    checked.true("a foreign frame", "left as silence, came as 05" in page.hover("came", 51))
    checked.true("the first packet again", "repeated: it left at 0 and came 100 ticks later" in page.hover("came", 100))
    checked.true("the second one late", "moved: it left at 131 and came 169 ticks later" in page.hover("came", 300))
    for tick in spoiled_of(ticks["came"], ticks["received"], 18):
        was, now = ticks["came"][tick - 18], ticks["received"][tick]
        checked.true("%d is spoiled" % tick, "spoiled: came as %02x, leaves as %02x" % (was, now) in page.hover("received", tick))
    look_for(page, ticks)
    # By the comments in both texts: two bursts that aren't sealed and don't come, one that is early, and what the attacker did.
    checked.equal("places of trouble", page.troubles(), "50 73 73 100 101 101 150 156 200 250 264".split())
    look_at_time(page)


def spoiled_of(came, received, delay):
    """The ticks of the received line whose byte isn't the one that came `delay` ticks before."""
    return [tick for tick, byte in enumerate(received) if byte is not None and came[tick - delay] is not None and came[tick - delay] != byte]


def occurrences(ticks, wanted):
    """How often these bytes come one after the other within a burst."""
    found = 0
    for start, end in model.bursts(ticks):
        body = bytes(byte for byte in ticks[start:end + 1] if byte is not None)
        found += sum(body.startswith(wanted, place) for place in range(len(body)))
    return found


def look_for(page, ticks):
    checked = page.checked
    # cd ends a burst and 01 begins the next one, so cd01 isn't found there.
    for text in ("01050000ff008c3a", "01 03", "c5cd", "00027d8e", "8c3b", "cd01"):
        count = sum(occurrences(line, bytes.fromhex(text)) for line in ticks.values())
        checked.equal("search for %s" % text, page.search(text), "1 of %d" % count if count else "nothing found")
    notes = [line for path in RTU_NOTES for line in lines_of(path)]
    tags = sum(line.startswith("refused") and line.endswith("tag") for line in notes)
    checked.equal("search for words: on the link, and on the received line", page.search("refused tag"), "1 of %d" % (2 * tags))
    checked.equal("the next one", page.search("refused tag"), "2 of %d" % (2 * tags))
    checked.equal("the one before", page.search("refused tag", shift=True), "1 of %d" % (2 * tags))
    checked.equal("search for a number: sealed on two lanes, passed on two", page.search("#2"), "1 of 4")
    checked.equal("what is dropped leaves nothing", page.search("busy"), "1 of 1")
    checked.equal("the burst that was found", page.details()[1:2], ["dropped at 264 busy"])
    checked.equal("search for what isn't there", page.search("dead"), "nothing found")
    checked.equal("search for a function", page.search("write single coil"), "1 of 3")
    page.bring(131, 16)
    page.window.key("0")
    page.search("@131")
    checked.true("the tick that was sought", page.hover("device", 131)[1] == "sealed 2 at 131 len 4")
    page.window.key("0")


def look_at_time(page):
    """Checks that a tick takes 11 bits at 9600 baud, or else what is chosen, and that zoom and move change the view."""
    page.window.key("0")
    checked = page.checked
    checked.equal("at 9600x11", page.hover("came", 131)[-1], "tick 131 · %.1f ms" % (131 * 11 / 9.6))
    page.choose("baud", "1200")
    page.choose("bits", "10")
    checked.equal("at 1200x10", page.hover("came", 131)[-1], "tick 131 · %.1f ms" % (131 * 10 / 1.2))
    before = page.text("view")
    page.window.key("+")
    page.window.key("ArrowRight")
    checked.true("zoom and move change the view", page.text("view") != before)
    page.window.key("0")
    checked.equal("all of it again", page.text("view"), before)


def test_outstation(page):
    """Checks the DNP3 example: headers in words, a fill, and notes about headers."""
    checked, ticks = page.checked, {lane: ticks_in(path) for lane, path in DNP_FILES.items()}
    page.make(*words_of("any", "Outstation", DNP_FILES, DNP_NOTES))
    checked.equal("the protocol, by the bytes", page.see("document.getElementById('protocol').value"), "dnp3")
    checked.equal("messages", page.messages(), [])
    look_at_counts(page, DNP_NOTES)
    for note in lines_of(DNP_NOTES[0]):
        tick = int(re.search(r" at (\d+)", note).group(1))
        page.search("@%d" % tick)
        checked.true(note, note in page.hover("device", tick) and note in page.hover("sent", tick))
    # The header of ten bytes says that the frame has 292 bytes. The 282 that are lacking leave as a fill from tick 28 on.
    for tick, place in ((28, 1), (100, 73), (309, 282)):
        page.search("@%d" % tick)
        checked.true("the fill at %d" % tick, "00 · byte %d of 282 of the fill" % place in page.hover("received", tick))
    page.search("@5")
    said = page.hover("came", 5)
    checked.true("a header in words: %r" % said, "from 1024 to 1" in said and "LEN 255: 292 bytes" in said)
    checked.true("a header's function: %r" % said, "unconfirmed user data (control c4), from the master" in said)
    for note in lines_of(DNP_NOTES[1]):
        tick = int(re.search(r" at (\d+)", note).group(1))
        page.search("@%d" % tick)
        checked.true(note, note in page.hover("came", tick))
    page.search("@200")
    said = page.hover("device", 205)
    checked.true("an application's function: %r" % said, "application: direct operate (05)" in said)
    page.search("@0")
    checked.true("a header alone", "reset link states (control c0), from the master" in page.hover("device", 0))
    checked.equal("search for an operation: it left, and didn't come", page.search("direct operate"), "1 of 2")
    checked.equal("what was lost", page.search("lost"), "1 of 1")
    checked.equal("places of trouble", page.troubles(), "0 100 200 320".split())
    count = sum(occurrences(line, bytes.fromhex("0564")) for line in ticks.values())
    checked.equal("search for 0564", page.search("0564"), "1 of %d" % count)


def altered_session(proto, profile, folder):
    """The texts of a session by the model, and the altered tick: a byte 64 of the second packet comes as 65, and the third packet is
    lost."""
    if proto is Rtu:
        bodies = [[1, 3, 0, 0, 0, 10], [1, 6, 0, 0x64, 0, 7], [1, 5, 0, 2, 0xff, 0], [7, 16, 0, 1, 0, 1, 2, 0, 9]]
        frames = [body + list(Rtu.end(body)) for body in bodies]
    else:
        heads = [[5, 0x64, 5, 0xc0, 1, 0, 0, 4], [5, 0x64, 5, 0xc9, 1, 0, 0, 4], [5, 0x64, 5, 0xc2, 2, 0, 0, 4], [5, 0x64, 5, 0xc0, 3, 0, 0, 4]]
        frames = [head + list(Dnp3.end(head)) for head in heads]
    line = [tick for frame in frames for tick in frame + [None] * 60]
    link, notes, _, sealed = model.seal(proto, KEY, 0, 0, line, profile)
    came, second, third = list(link), sealed[1][1], sealed[2][1]
    tick = next(tick for tick in range(second, len(link)) if link[tick] == 0x64)
    came[tick] = 0x65
    came[third:third + 60] = [None] * 60
    received, verdicts, _, _ = model.check(proto, KEY, 0, 0, came, profile)
    files = {"device": model.canonical(line), "sent": model.canonical(link), "came": model.canonical(came), "received": model.canonical(received)}
    paths = {}
    for name, text in list(files.items()) + [("seal", "\n".join(notes) + "\n"), ("check", "\n".join(verdicts) + "\n")]:
        paths[name] = os.path.join(folder, name + ".txt")
        with open(paths[name], "w") as file:
            file.write(text)
    return paths, tick, third, verdicts


# Frames without their CRCs, and what the standards call them: Modbus by function code, DNP3 by the control octet (DIR 80, PRM 40)
# and by the function of the application layer, which follows the transport octet and the application control octet.
RTU_WORDS = (
    ("01030000000a", "device 1: read holding registers (03)", "from 0 on, 10 of them"), ("0701000a0003", "device 7: read coils (01)", "from 10 on, 3 of them"),
    ("0105000aff00", "device 1: write single coil (05)", "coil 10: on"), ("0105000a0000", "device 1: write single coil (05)", "coil 10: off"),
    ("00060102ffff", "to all devices: write single register (06)", "register 258: 65535"), ("018302", "device 1: read holding registers (83)", "exception: illegal data address"),
    ("1110000100020400010002", "device 17: write multiple registers (10)", ""), ("0141", "device 1: function (41)", ""),
)
DNP_WORDS = (
    ("c4", "c0c001", "unconfirmed user data (control c4), from the master", "application: read (01)"),
    ("44", "c0c081", "unconfirmed user data (control 44), from the outstation", "application: response (81)"),
    ("d3", "c1c10d", "confirmed user data (control d3), from the master", "application: cold restart (0d)"),
    ("00", "", "ACK (control 00), from the outstation", ""), ("0b", "", "link status (control 0b), from the outstation", ""),
    ("c9", "", "request link status (control c9), from the master", ""), ("f2", "", "test link states (control f2), from the master", ""),
)


def test_words(page):
    """Checks functions and headers in words."""
    frames = []
    for body, *words in RTU_WORDS:
        frame = list(bytes.fromhex(body))
        frames.append(("rtu", frame + list(Rtu.end(frame)), words + ["CRC right"]))
    for control, user, *words in DNP_WORDS:
        head, user = [5, 0x64, 5 + len(user) // 2, int(control, 16), 1, 4, 2, 3], list(bytes.fromhex(user))
        frame = head + list(Dnp3.end(head)) + (user + list(Dnp3.end(user)) if user else [])
        frames.append(("dnp3", frame, words + ["from 770 to 1025", "LEN %d: %d bytes" % (head[2], len(frame))]))
    words = []
    for index, (protocol, frame, _) in enumerate(frames):
        path = os.path.join(page.folder, "frame%d.ticks" % index)
        with open(path, "w") as file:
            file.write(model.canonical(frame))
        words += [protocol, "device=" + path]
    page.make(*words)
    for index, (_, frame, said) in enumerate(frames):
        page.choose("session", str(index))
        shown = page.hover("device", 0)
        for row in filter(None, said):
            page.checked.true("%s of %s: %r" % (row, bytes(frame).hex(), shown), row in shown)


def test_values(page):
    """Checks that decoded values are found: registers, coils, values, addresses and lengths, and no codes and times."""
    checked = page.checked
    bodies = ["01060102ffff", "0105010aff00", "010304ffff0102", "011000100002040007ffff", "010300070002"]
    frames = [list(bytes.fromhex(body)) for body in bodies]
    line = [tick for frame in frames for tick in frame + list(Rtu.end(frame)) + [None] * 40]
    page.make("rtu", "device=" + write(page, "values", model.canonical(line)))
    # Words are found one behind the other, and the first letters of a word are enough. The code of write multiple registers is 10 in
    # hex. 65535 is ffff, 258 is 0102 and 266 is 010a. Nothing has 6 as a value: there it is a function's code.
    for query, count in (("=65535", 3), ("65535", 3), ("=258", 2), ("=266", 1), ("=7", 2), ("=16", 1), ("=6", 0), ("=10", 0), ("register 258", 2),
                         ("values 65535", 2), ("values 7 65535", 1), ("=1", 5), ("=655", 0)):
        checked.equal("search for %s" % query, page.search(query), "1 of %d" % count if count else "nothing found")
    page.search("values 65535")
    checked.true("what a reply brings: %r" % page.details(), "values 65535 258" in page.details())
    page.make(*words_of("dnp3", "Outstation", DNP_FILES, DNP_NOTES))
    # In examples/outstation.ticks the first header, c0 from 0400 to 0001, and others go from 1024 to 1.
    checked.true("an address", page.search("=1024").startswith("1 of "))
    checked.equal("a control octet is none", page.search("=40"), "nothing found")


def test_own(page):
    """Checks lanes with names of their own, and names for the others."""
    checked = page.checked
    requests, replies = open(example("captures/modbus.ticks")).read().split("%\n")
    page.make("rtu", "--lane", "requests,replies=" + example("captures/modbus.ticks"), "--lane", "all=" + write(page, "one", requests))
    names = "[...document.querySelectorAll('[data-lane]')].map((lane) => lane.textContent)"
    checked.equal("names", page.see(names), ["requests", "replies", "all"])
    checked.equal("messages", page.messages(), [])
    for index, (name, text) in enumerate((("requests", requests), ("replies", replies), ("all", requests))):
        for tick, byte in enumerate(model.ticks_of(text)):
            if byte is not None:
                said = page.hover("own%d" % index, tick)
                checked.equal("the lane %s at %d" % (name, tick), said[0], name)
                checked.true("the byte at %d: %r" % (tick, said), any(row.startswith("%02x · byte " % byte) for row in said))
    checked.equal("nothing is in trouble", page.text("place"), "none")
    page.make(*words_of("rtu", "Requests", RTU_FILES, RTU_NOTES), "title.device=from the master", "title.received=to the device")
    shown = [name.split("before")[0].split("after")[0] for name in page.see(names)]
    checked.equal("names of the other lanes", shown, ["from the master", TITLES["sent"], TITLES["came"], "to the device"])
    checked.equal("under the mouse", page.hover("received", 18)[0], "to the device")
    page.make("rtu", "--lane", "one,two=" + write(page, "single", "+01\n"))
    checked.true("a file with one line: %r" % page.messages(), "single: no line % is there, so two isn't shown." in page.messages())
    for words in (["rtu", "--lane", "x"], ["rtu", "--lane"], ["rtu", "--lane", "a,b,c=" + example("altered.ticks")], ["rtu", "start=noon", "device=" + RTU_FILES["device"]],
                  ["rtu", "title.sent=x"], ["rtu", "title.both=x", "device=" + RTU_FILES["device"]]):
        wrong = subprocess.run([sys.executable, os.path.join(SCRIPTS, "timeline.py"), os.path.join(page.folder, "no.html"), *words],
                               capture_output=True, text=True)
        checked.true("%s is refused in words: %r" % (words[1:], wrong.stderr),
                     wrong.returncode == 1 and wrong.stderr.startswith("timeline: ") and "Traceback" not in wrong.stderr)


def test_clock(page):
    """Checks the time of day, if a session has a start: in the page and on its axis; and a remark."""
    checked, start = page.checked, datetime.datetime(2026, 11, 30, 23, 59, 59, 900000)
    page.make(*words_of("rtu", "Requests", RTU_FILES, RTU_NOTES), "start=2026-11-30T23:59:59.9+01:00", "remark=Said of it <b>.")
    for tick in (0, 7, 100, 171, 300):
        time = start + datetime.timedelta(seconds=tick * 11 / 9600)
        wanted = "%s.%03d+01:00" % (time.strftime("%Y-%m-%d %H:%M:%S"), round(time.microsecond / 1000))
        checked.equal("the time of day at %d" % tick, page.hover("came", tick)[-1], "tick %d · %.1f ms · %s" % (tick, tick * 11 / 9.6, wanted))
    page.search("@100")
    checked.true("and on the right: %r" % page.details(), any("2026-12-01 00:00:00.015+01:00, for " in row for row in page.details()))
    checked.equal("the remark", page.text("remark"), "Said of it <b>.")


SIZES = ((800, 600), (1400, 800))


def test_small(page):
    """Checks at two sizes that each place of trouble and each match of a search comes into view, and that the page needs no scrolling."""
    checked = page.checked
    for width, height in SIZES:
        page.window.size(width, height)
        page.make(*words_of("rtu", "Requests, as an attacker left the link", RTU_FILES, RTU_NOTES), "--lane", "one more=" + RTU_FILES["device"],
                  "--lane", "the last=" + RTU_FILES["came"], "remark=More lanes than there is room for.")
        whole = page.see("document.documentElement.scrollHeight <= window.innerHeight && document.documentElement.scrollWidth <= window.innerWidth")
        checked.true("the page is no larger than %d by %d" % (width, height), whole)
        lanes, queries = set(), ["refused tag"] * 6 + ["sealed"] * 4 + ["c5cd"] * 14
        names = dict(TITLES, own4="one more", own5="the last")
        for step in range(11 + len(queries)):
            if step < 11:
                page.window.key("n")
            else:
                page.search(queries[step - 11])
            lane = next(lane for lane in names if page.details()[0].startswith(names[lane] + ", "))
            lanes.add(lane)
            checked.equal("%s at %d by %d" % (page.details()[0], width, height), page.outside(lane), "")
        checked.equal("lanes that were looked at", lanes, set(names))


def test_collisions(page):
    """Checks at two sizes that with all ticks in view each note is in some pill, that no pills overlap, and what a pill of several says."""
    checked, count = page.checked, 60
    notes = {"device": 5, "sent": 4, "came": 8, "received": 7}
    line = "".join("+010300000001840a\n-%d\n" % (30 if number % 3 else 200) for number in range(count))
    ticks, told, tick = model.ticks_of(line), [], 0
    for number, (start, _) in enumerate(model.bursts(ticks)):
        told.append("unsealed at %d early" % start if number % 4 == 3 else "sealed %d at %d len 8" % (number + 1, start))
    many = ["rtu", "device=" + write(page, "many", line), "notes=" + write(page, "told", "\n".join(told) + "\n")]
    for width, height in SIZES:
        page.window.size(width, height)
        page.make(*words_of("rtu", "Requests", RTU_FILES, RTU_NOTES))
        page.window.key("0")
        look_at_pills(page, notes, width)
        found = next(pill for pill in page.pills() if pill["lane"] == "came" and pill["count"] == 2)
        left, top = page.see("(() => {const c = document.getElementById('lanes').getBoundingClientRect(),"
                             "l = document.querySelector('[data-lane=came]').getBoundingClientRect(); return [c.left, l.top];})()")
        page.window.mouse("mouseMoved", left + found["x"] + 5, top + 16)
        said = page.see("[...document.getElementById('tip').children].map((row) => row.textContent)")
        checked.equal("what a pill of two notes stands for", [row.split(",")[0] for row in said],
                      [TITLES["came"] + ": refused 1", "@250 refused trailer", "@264 dropped busy"])
        page.window.click(left + found["x"] + 5, top + 16)
        checked.equal("a click shows each of them", [pill["count"] for pill in page.pills() if pill["lane"] == "came" and "busy" in pill["text"]], [1])
        page.make(*many)
        look_at_pills(page, {"device": count}, width)
        texts = " ".join(pill["text"] for pill in page.pills())
        checked.true("counts by word: %r" % texts, "sealed 2, unsealed 1" in texts or "sealed 3" in texts or re.search(r"\b[2-9]\b", texts))


def look_at_pills(page, notes, width):
    """Checks how many notes the pills of each lane stand for, and that they are in view, one beside the other."""
    left, right = page.see("(() => {const c = document.getElementById('lanes').getBoundingClientRect(); return [c.left, c.right];})()")
    for lane, count in notes.items():
        pills = [pill for pill in page.pills() if pill["lane"] == lane]
        page.checked.equal("notes of %s at a width of %d" % (lane, width), sum(pill["count"] for pill in pills), count)
        ends = [pill["x"] + pill["wide"] for pill in pills]
        page.checked.true("pills of %s don't overlap: %r" % (lane, pills), all(end <= other["x"] for end, other in zip(ends, pills[1:])))
        page.checked.true("pills of %s are in view: %r" % (lane, pills), pills[0]["x"] >= 0 and ends[-1] <= right - left)


def write(page, name, text):
    path = os.path.join(page.folder, name)
    with open(path, "w") as file:
        file.write(text)
    return path


def test_joined(page):
    """Checks two bursts that came as one, since the silence between them was filled, and one that came as two."""
    checked, page_words = page.checked, ["rtu"]
    page_words += ["sent=" + write(page, "sent", "+01020304\n-5\n+05060708\n-40\n+1112131415161718\n-9\n")]
    page_words += ["came=" + write(page, "came", "+010203040000000000050607ff\n-40\n+1112\n-4\n+1718\n-9\n")]
    page.make(*page_words)
    for tick, said in ((4, "left as silence, came as 00"), (12, "left as 08, came as ff"), (55, "left as 13, came as silence"),
                       (58, "left as 16, came as silence")):
        checked.true("%d: %s" % (tick, said), said in page.hover("came", tick))
    for tick in (0, 3, 9, 11, 53, 60):
        checked.true("%d came as it left" % tick, not any(row.startswith("left as") for row in page.hover("came", tick)))
    for tick, said in ((0, "altered: 6 bytes"), (53, "altered: 4 bytes"), (59, "altered: 4 bytes")):
        page.search("@%d" % tick)
        checked.true("%s at %d: %r" % (said, tick, page.hover("came", tick)), said in page.hover("came", tick))
    page.search("@53")
    page.window.mouse("mouseMoved", 5, 5)
    for tick, is_painted in ((52, False), (54, False), (55, True), (58, True), (59, False)):
        checked.equal("a frame where a byte is missing, at %d" % tick, page.has_frame("came", tick), is_painted)
    page.window.key("0")
    checked.equal("nothing is lost as a whole", page.search("lost"), "nothing found")
    checked.equal("what is altered", page.chips(), ["altered 3"])


def test_replayed(page):
    """Checks what `replay` reads and prints: two lines with a mark between them, and lists of frames."""
    checked = page.checked
    with open(RTU_FILES["device"]) as device, open(RTU_FILES["came"]) as came:
        both = write(page, "both", device.read() + "%\n" + came.read())
    page.make("rtu", "both=" + both, "notes=" + expected("session.lists.txt"))
    checked.equal("messages", page.messages(), [])
    look_at_counts(page, [expected("session.lists.txt")])
    for note, lane in (("sealed 2 at 131 01034021", "device"), ("passed 2 at 300 01034021", "came")):
        checked.true(note, note in page.hover(lane, 131 if lane == "device" else 300))
    page.make("rtu", "came=" + RTU_FILES["came"], "notes=" + expected("session_forged.lists.txt"))
    look_at_counts(page, [expected("session_forged.lists.txt")])
    checked.equal("what is forged is trouble", page.troubles(), ["0", "300"])
    checked.true("it is said", "It passed, and wasn't sealed with this number." in page.details())


def test_altered(page):
    """Checks an altered byte and a lost packet in both protocols and profiles, which the page finds by the bytes."""
    checked = page.checked
    for proto, profile in ((Rtu, Y18), (Rtu, Y24), (Dnp3, Y18), (Dnp3, Y24)):
        word = model.word_of(proto, profile)
        paths, tick, third, verdicts = altered_session(proto, profile, page.folder)
        page.make("any", *["%s=%s" % (lane, paths[lane]) for lane in TITLES], "notes=" + paths["seal"], "notes=" + paths["check"])
        checked.equal("%s by the bytes" % word, page.see("document.getElementById('protocol').value"), word)
        checked.equal("%s: messages" % word, page.messages(), [])
        page.search("@%d" % tick)
        checked.true("%s: the altered byte" % word, "left as 64, came as 65" in page.hover("came", tick))
        verdict = next(note for note in verdicts if re.search(r" at (\d+)", note) and
                       tick - 4 < int(re.search(r" at (\d+)", note).group(1)) <= tick)
        checked.true("%s: %s" % (word, verdict), verdict in page.hover("came", tick))
        for beside in (tick - 1, tick + 1):
            checked.true("%s: the byte beside it" % word, not any("left as" in row for row in page.hover("came", beside)))
        page.window.mouse("mouseMoved", 5, 5)
        checked.equal("%s: its colour" % word, page.colour("came", tick), page.legend("altered"))
        checked.true("%s: the colour beside it" % word, page.colour("came", tick + 1) != page.legend("altered"))
        checked.equal("%s: the colour of what left" % word, page.colour("sent", tick), page.legend("frame"))
        page.search("@%d" % third)
        checked.true("%s: the lost packet" % word, "lost: it didn't come" in page.hover("sent", third))
        checked.true("%s: in its place" % word, any(row.startswith("left as ") and row.endswith("came as silence") for row in page.hover("came", third)))
        checked.equal("%s: places of trouble" % word, len(page.troubles()), 2)


# Texts, each with the line and the cause by docs/TICK_TEXT.md, or None if the text is right.
TICK_TEXTS = (
    ("+01030000000ac5cd\n-4\n+0103\n-07\n", "line 4 count"), ("x", "line 1 char"), ("+0g\n", "line 1 char"), ("+012\n", "line 1 odd"),
    ("+0", "line 1 odd"), ("+\n", "line 1 empty"), ("+01\n-\n", "line 2 empty"), ("-1000001\n", "line 1 count"), ("+" + "00" * 33, "line 1 long"),
    ("+" + "00" * 32 + "g", "line 1 char"), ("#" + "x" * 121 + "\n", "line 1 long"), ("-5\r-5\n", "line 1 char"), ("%x\n", "line 1 char"),
    ("%\n+01\n%\n", "line 3 char"), ("+01\n-1x\n", "line 2 char"), ("+01\n\r\rx", "line 2 char"), ("+01\r\n-5\r", None),
    ("#" + "x" * 120 + "\n+01\n", None), ("", None), ("\n\r\n+aA\n-1000000", None),
)


def test_malformed(page):
    """Checks that a wrong tick text gets a message with line and cause, and that what comes before this place is shown."""
    words = []
    for index, (text, _) in enumerate(TICK_TEXTS):
        path = os.path.join(page.folder, "text%d.ticks" % index)
        with open(path, "w", newline="") as file:
            file.write(text)
        words += ["any", "both=" + path] if "%" in text else ["any", "device=" + path]
    page.make(*words)
    for index, (text, cause) in enumerate(TICK_TEXTS):
        page.choose("session", str(index))
        said = page.messages()
        page.checked.equal("%r has a message" % text[:40], len(said), 0 if cause is None else 1)
        if cause and said:
            page.checked.true("%r: %s, not %r" % (text[:40], cause, said), "text%d.ticks: %s " % (index, cause) in said[0])
    page.choose("session", "0")
    page.checked.true("the frame before the fault is shown", "01 · byte 1 of 8 of the frame" in page.hover("device", 0))


HOSTILE = "</script><script>window.hit = 1</script><img src=x onerror='window.hit = 2'><b>&amp;"


def test_escaped(page):
    """Checks lines that aren't notes, notes of other texts, and texts and names that must not be taken as HTML."""
    checked = page.checked
    path = os.path.join(page.folder, "<b>notes&amp;.txt")
    with open(path, "w") as file:
        file.write("sealed 1 at 0 len 8\n%s\nrefused at 50 trailer2\npassed 9 at 51 len 8\nfault: journal\n" % HOSTILE)
    page.make("rtu", "title=" + HOSTILE, "device=" + RTU_FILES["device"], "came=" + RTU_FILES["came"], "notes=" + path)
    checked.equal("the title", page.text("title"), HOSTILE)
    checked.equal("nothing ran", page.see("String(window.hit)"), "undefined")
    checked.equal("nothing was made of it", page.see("document.querySelectorAll('img, b:not(#rows b)').length"), 0)
    said = "\n".join(page.messages())
    checked.true("a line that is no note", "<b>notes&amp;.txt: line 2 is no note: " + HOSTILE[:60] in said)
    checked.true("a cause that is none", "line 3 is no note: refused at 50 trailer2" in said)
    checked.true("a note of another text", "passed 9 at 51 len 8: no burst of the link as it came begins there" in said)
    checked.true("a fault", 'the run ended with "fault: journal"' in said)
    wrong = subprocess.run([sys.executable, os.path.join(SCRIPTS, "timeline.py"), os.path.join(page.folder, "no.html"), "rtu", "device=/nowhere"],
                           capture_output=True, text=True)
    checked.true("a missing file is a message", wrong.returncode == 1 and "/nowhere" in wrong.stderr and "Traceback" not in wrong.stderr)


def test_dropped(page):
    """Checks that an empty page takes texts by drag and drop, and knows by name and content what each text is."""
    checked = page.checked
    page.make()
    checked.true("it says what to do", "Drop the texts" in page.see("document.getElementById('empty').innerText"))
    page.window.drop(list(RTU_FILES.values()) + RTU_NOTES)
    until = time.monotonic() + 10
    while not page.chips() and time.monotonic() < until:
        time.sleep(0.05)
    checked.true("the hint is gone", page.see("document.getElementById('empty').hidden"))
    look_at_counts(page, RTU_NOTES)
    lanes = page.see("[...document.querySelectorAll('#texts select')].map((list) => list.value)")
    checked.equal("what each text is", lanes, list(RTU_FILES) + ["notes"] * 3)
    checked.true("a note on it", "refused at 150 tag" in page.hover("came", 150))
    page.see("{const list = document.querySelectorAll('#texts select')[2]; list.value = 'none'; list.dispatchEvent(new Event('change'));}")
    checked.equal("lanes without the link as it came", page.see("[...document.querySelectorAll('[data-lane]')].map((lane) => lane.dataset.lane)"),
                  ["device", "sent", "received"])


def big_session(folder, count=100000):
    """Writes texts of many frames, one in ten with an altered byte and one in ten lost. The tags are random, since the page has no key."""
    chance = random.Random(1)
    pool = []
    for _ in range(500):
        body = [chance.randrange(1, 248), chance.choice([3, 4, 6, 16])] + [chance.randrange(256) for _ in range(chance.choice([2, 4, 4, 4, 10, 20]))]
        pool.append(bytes(body + list(Rtu.end(body))))
    texts, tick = {name: [] for name in ("device", "sent", "came", "received", "seal", "check")}, 0
    texts["received"].append("-18\n")
    for number in range(1, count + 1):
        frame, gap = chance.choice(pool), chance.choice([40, 60, 90])
        trailer = number.to_bytes(8, "big")[-2:] + chance.getrandbits(96).to_bytes(12, "big")
        put = "+%s\n-3\n+%s\n-%d\n" % (frame.hex(), trailer.hex(), gap - 17)
        texts["device"].append("+%s\n-%d\n" % (frame.hex(), gap))
        texts["sent"].append(put)
        texts["seal"].append("sealed %d at %d len %d\n" % (number, tick, len(frame)))
        came = frame
        if number % 10 == 3:
            place = chance.randrange(len(frame))
            came = frame[:place] + bytes([frame[place] ^ 1]) + frame[place + 1:]
        lost = number % 10 == 7
        texts["came"].append("-%d\n" % (len(frame) + gap) if lost else put.replace(frame.hex(), came.hex(), 1))
        texts["received"].append("-%d\n" % (len(frame) + gap) if lost else "+%s\n-%d\n" % (came.hex(), gap))
        if not lost:
            texts["check"].append("passed %d at %d len %d\n" % (number, tick, len(frame)) if came == frame else "refused at %d form\n" % tick)
        tick += len(frame) + gap
    for name, parts in texts.items():
        with open(os.path.join(folder, "big." + name), "w") as file:
            file.writelines(parts)


def test_load(page):
    """Checks that 100,000 frames are shown within 3 s of processor time of the page's own thread, and that trouble and search are quick."""
    big_session(page.folder)
    file = lambda name: os.path.join(page.folder, "big." + name)
    page.window.ask("Performance.enable", timeDomain="threadTicks")
    seconds = page.make("rtu", *["%s=%s" % (lane, file(lane)) for lane in TITLES], "notes=" + file("seal"), "notes=" + file("check"))
    metrics = {each["name"]: each["value"] for each in page.window.ask("Performance.getMetrics")["metrics"]}
    size = os.path.getsize(os.path.join(page.folder, "page.html")) / 1e6
    print("load: 100000 frames, %.0f MB, in %.2f s of the processor, %.2f s by the clock" % (size, metrics["TaskDuration"], seconds))
    page.checked.true("loaded in 3 s of the processor: %.2f" % metrics["TaskDuration"], metrics["TaskDuration"] <= 3)
    page.checked.equal("messages", page.messages(), [])
    page.checked.equal("counts", sorted(page.chips()), sorted(["sealed 100000", "passed 80000", "refused 10000 (form 10000)", "lost 10000", "altered 10000"]))
    page.checked.equal("places of trouble", page.text("place"), "20000")
    page.window.key("n")
    page.checked.equal("the first of them", page.text("place"), "1 of 20000")
    page.checked.true("is that of the third frame", page.details()[1].startswith("refused at "))
    page.checked.equal("search for a number", page.search("#99998"), "1 of 4")
    page.checked.equal("search for words", page.search("lost"), "1 of 10000")


def take_picture(page, path):
    """Writes the picture of docs/TIMELINE.md: an altered packet of the example, beside the one that left."""
    page.window.size(1280, 740)
    page.make(*words_of("rtu", "Requests, as an attacker left the link", RTU_FILES, RTU_NOTES))
    page.window.key("n")
    while not page.details()[0].endswith("ticks 150 to 171"):
        page.window.key("n")
    page.bring(131, 16)
    page.hover("came", 151)
    page.window.picture(path)


PARTS = {"example": test_example, "outstation": test_outstation, "words": test_words, "values": test_values, "altered": test_altered,
         "joined": test_joined, "replayed": test_replayed, "own": test_own, "clock": test_clock, "small": test_small,
         "collisions": test_collisions, "malformed": test_malformed,
         "escaped": test_escaped, "dropped": test_dropped, **timeline_wires.PARTS, "load": test_load}


def run_part(program, part, checked):
    """Runs one part in a browser of its own."""
    with tempfile.TemporaryDirectory(prefix="timeline.") as folder:
        window = browser.Browser(program)
        try:
            before = checked.count
            part(Page(checked, window, folder))
            checked.equal("what the page should never do", window.faults, [])
            return checked.count - before
        finally:
            window.close()


def main(words):
    pictures = [word.split("=", 1)[1] for word in words if word.startswith("picture=")]
    parts = [word for word in words if not word.startswith("picture=")]
    if any(part not in PARTS for part in parts):
        sys.exit(__doc__.strip())
    program = browser.find()
    if program is None:
        print("skipped: no Chromium is on the path (%s). Nothing was tested." % ", ".join(browser.NAMES))
        return 2
    checked = Checked()
    for part in parts or ([] if pictures else PARTS):
        print("%s: %d compared" % (part, run_part(program, PARTS[part], checked)), flush=True)
    for path in pictures:
        run_part(program, lambda page: take_picture(page, path), checked)
        print("picture: %s, %d bytes" % (path, os.path.getsize(path)))
    print("All %d are as they must be." % checked.count if checked.wrong == 0 else "%d of %d are wrong." % (checked.wrong, checked.count))
    return 0 if checked.wrong == 0 else 1


if __name__ == "__main__":
    try:
        sys.exit(main(sys.argv[1:]))
    except browser.Fault as why:
        sys.exit("timeline_check: %s" % why)
