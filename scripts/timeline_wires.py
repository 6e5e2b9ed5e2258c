"""The parts of timeline_check.py that look at two-wire lines: the example, and a packet in both protocols and profiles."""
import os, re

import model
from model import Y18, Y24, Dnp3, Rtu

EXAMPLES = os.path.join(os.path.dirname(os.path.dirname(os.path.abspath(__file__))), "examples")
TITLES = {"near": "the device's wires", "link": "the link's wires", "far": "the remote device's wires"}
SIZES, NAMES = ((800, 600), (1280, 800)), {"near": "wires_master", "far": "wires_device"}
KEY = bytes(range(16))


def content(*names):
    with open(os.path.join(EXAMPLES, *names)) as file:
        return file.read()


def put(page, name, text):
    path = os.path.join(page.folder, name)
    with open(path, "w") as file:
        file.write(text)
    return path


def words_of(page, texts):
    """The words for timeline.py, from the texts of each end: what `two_wire` read, what it wrote, and its notes."""
    words = []
    for end, parts in texts.items():
        for kind, text in zip(("", ".drives", ".notes"), parts):
            words.append("%s%s=%s" % (end, kind, put(page, end + kind, text)))
    return words


def over(own, other):
    """Two lists of ticks on one pair of wires."""
    ticks = max(len(own), len(other))
    own, other = (line + [None] * (ticks - len(line)) for line in (own, other))
    return [there if mine is None else mine for mine, there in zip(own, other)]


def example_texts():
    link = content("wires_link.ticks")
    return {end: (content(name + ".ticks") + "%\n" + link, content("expected", name + ".gated.txt"), content("expected", name + ".gated_notes.txt"))
            for end, name in NAMES.items()}


def look_at_wires(page, texts):
    """Checks each byte of the three pairs of wires, and who said those at the ends."""
    link = model.ticks_of(content("wires_link.ticks"))
    for end, name in NAMES.items():
        said, given = model.ticks_of(content(name + ".ticks")), model.ticks_of(texts[end][1].split("%\n")[1])
        for tick, byte in enumerate(over(said, given)):
            if byte is not None:
                shown = page.hover(end, tick)
                page.checked.equal("the lane at %s %d" % (end, tick), shown[:1], [TITLES[end]])
                page.checked.true("the byte at %s %d: %r" % (end, tick, shown), any(row.startswith("%02x · byte " % byte) for row in shown))
                who = "said by the device" if tick < len(said) and said[tick] is not None else "said by the box"
                page.checked.true("%s at %s %d: %r" % (who, end, tick, shown), who in shown)
    for tick, byte in enumerate(link):
        if byte is not None:
            shown = page.hover("link", tick)
            page.checked.true("the byte at %d of the link: %r" % (tick, shown), any(row.startswith("%02x · byte " % byte) for row in shown))


def look_at_notes(page, texts):
    """Checks that each note of both boxes stands where its burst begins, and what is held where it would begin."""
    for end, who in (("near", "this box"), ("far", "the remote box")):
        for note in texts[end][2].splitlines():
            word, tick = note.split()[0], int(re.search(r" at (\d+)", note).group(1))
            wanted = "%s · %s" % (note, who)
            places = {"sealed": [(end, tick), ("link", tick + 1)], "held": [(end, tick), ("link", tick - 19)]}.get(word, [("link", tick)])
            for lane, at in places:
                page.checked.true("%s at %s %d: %r" % (wanted, lane, at, page.hover(lane, at)), wanted in page.hover(lane, at))
    # By examples/wires_link.ticks the attacker's bursts are 5501.. at 30 and 0106.. at 200, and 19 ticks later they would begin.
    for lane, start, body in (("far", 49, "5501060001beefe826"), ("near", 219, "010600010003980b")):
        for place, byte in enumerate(bytes.fromhex(body)):
            page.checked.true("%02x is held back" % byte, "held back: %02x" % byte in page.hover(lane, start + place))
    for lane, tick in (("far", 48), ("far", 58), ("near", 218), ("near", 227)):
        page.checked.true("nothing is at %s %d" % (lane, tick), not any("held" in row for row in page.hover(lane, tick)))
    for tick, who in ((1, "said by this box"), (30, "said by no box"), (44, "said by the remote box"), (101, "said by this box"),
                      (144, "said by the remote box"), (200, "said by no box")):
        page.checked.true("%s at %d" % (who, tick), who in page.hover("link", tick))
    page.checked.true("what the device gets is spoiled", "spoiled: came as 0b, leaves as 0a" in page.hover("far", 226))


def look_at_pills(page):
    """Checks the notes above the bursts of each lane, in their order, and what is found."""
    page.window.key("0")
    told = {lane: ", ".join(pill["text"].replace(" | ", ", ") for pill in page.pills() if pill["lane"] == lane) for lane in ("near", "far")}
    page.checked.equal("held on both wires", [told["near"].count("held"), told["far"].count("held")], [1, 1])
    page.checked.equal("search for what is held: on the link, and on the wires", page.search("held"), "1 of 4")
    page.checked.equal("places of trouble", page.troubles(), ["30", "44", "200"])
    page.checked.equal("search for a number: sealed on both its wires and passed on two", page.search("#2"), "1 of 6")


def test_wires(page):
    """Checks the example of a two-wire line at two sizes: its three pairs of wires, notes, what is held back, and who said what."""
    texts = example_texts()
    for width, height in SIZES:
        page.window.size(width, height)
        page.make("rtu", *words_of(page, texts))
        page.checked.equal("messages", page.messages(), [])
        page.checked.equal("lanes", page.see("[...document.querySelectorAll('[data-lane]')].map((lane) => lane.dataset.lane)"), ["near", "link", "far"])
        page.checked.equal("counts", sorted(page.chips()), sorted(["refused 4 (trailer 2, tag 2)", "dropped 1 (busy 1)", "held 2", "sealed 4",
                                                                   "passed 3", "added 2"]))
        whole = page.see("document.documentElement.scrollHeight <= window.innerHeight && document.documentElement.scrollWidth <= window.innerWidth")
        page.checked.true("the page is no larger than %d by %d" % (width, height), whole)
        look_at_wires(page, texts)
        look_at_notes(page, texts)
        look_at_pills(page)
        for query, lane in (("@49", "far"), ("@219", "near"), ("@30", "link")):
            page.window.key("0")
            page.search(query)
            page.checked.equal("%s at %d by %d" % (query, width, height), page.outside(lane), "")
    look_at_parts(page, texts)


def look_at_parts(page, texts):
    """Checks an end alone, with and without what its box wrote, words that are refused, and notes that belong elsewhere."""
    checked, (read, drives, notes) = page.checked, texts["far"]
    acts = os.path.join(EXAMPLES, "expected", "wires_device.gated_acts.txt")
    page.make("any", *words_of(page, {"near": (read, drives, notes)}), "near.notes=" + acts)
    checked.equal("one end: messages", page.messages(), [])
    checked.true("what the device reads: %r" % page.chips(), "read 2" in page.chips())
    for tick, note in zip((20, 120), content("expected", "wires_device.gated_acts.txt").splitlines()):
        checked.true("%s: %r" % (note, page.hover("near", tick)), note in page.hover("near", tick))
    checked.true("one end: what is held", "held at 49 · this box" in page.hover("near", 50))
    checked.equal("who said it isn't known of the link", [row for row in page.hover("link", 30) if row.startswith("said")], [])
    page.make("rtu", "near=" + put(page, "near", read), "near.notes=" + put(page, "notes", notes), "title.near=the pump")
    checked.equal("without what it wrote: messages", page.messages(), [])
    checked.equal("its name", page.hover("near", 50)[:2], ["the pump", "held at 49 · this box"])
    page.make("rtu", "near=" + put(page, "near", "+01\n"), "notes=" + put(page, "notes", "held at 3\n"))
    checked.equal("what is wrong is said", page.messages(), ["near: no line % is there. Two lines are needed.",
                                                             "A two-wire line is here: lines and notes of one direction aren't shown."])
    page.make("rtu", "device=" + put(page, "device", "+01\n"), "notes=" + put(page, "notes", "held at 3\n"))
    checked.equal("a note of the gate elsewhere", page.messages(), ["held at 3: this is a note of a two-wire line"])


def test_profiles(page):
    """Checks in both protocols and profiles that a packet is shown from the one device to the other, in the ticks of the model."""
    for proto, profile in ((Rtu, Y18), (Rtu, Y24), (Dnp3, Y18), (Dnp3, Y24)):
        word = model.word_of(proto, profile)
        head = [1, 6, 0, 1, 0, 3] if proto is Rtu else [5, 0x64, 5, 0xc9, 1, 0, 0, 4]
        frame, waits = head + list(proto.end(head)), {"near": ("answers", 100, 4), "far": ("asks", 10, 4)}
        link = [None] + model.seal(proto, KEY, 0, 0, frame + [None] * 60, profile)[0]
        texts = {}
        for end, direction, device in (("near", 0, frame), ("far", 1, [])):
            to_link, to_device, notes = model.two_wire(proto, KEY, direction, waits[end], list(device), list(link), profile)
            texts[end] = [model.canonical(device) + "%\n" + model.canonical(link), model.canonical(to_link) + "%\n" + model.canonical(to_device),
                          "\n".join(notes) + "\n"]
        page.make("any", *words_of(page, texts))
        page.checked.equal("%s by the bytes" % word, page.see("document.getElementById('protocol').value"), word)
        page.checked.equal("%s: messages" % word, page.messages(), [])
        passed, leaves = "passed 1 at 1 len %d · the remote box" % len(frame), profile.delay + 2
        page.checked.true("%s: it passes" % word, passed in page.hover("link", 1) and "said by this box" in page.hover("link", 1))
        for tick, there in ((leaves - 1, False), (leaves, True), (leaves + len(frame) - 1, True), (leaves + len(frame), False)):
            shown = page.hover("far", tick)
            page.checked.equal("%s: at %d of the remote wires: %r" % (word, tick, shown), passed in shown and "said by the box" in shown, there)
        page.checked.equal("%s: nothing is in trouble" % word, page.text("place"), "none")


PARTS = {"wires": test_wires, "profiles": test_profiles}
