#!/usr/bin/env python3
"""Runs `line_capture` over captures that other tools made, and compares it with the model.

    python3 scripts/captures.py [PROGRAM] [read=PROGRAM] [PART..] [seed=N] [first]

PROGRAM is crates/line_capture/out/line_capture unless another is given. One whose name ends in .py
is run by Python, such as scripts/capture_model.py, the model itself. `read=` names a `link_replay`,
whose devices then read the lines too. PART is one of

    fixtures   the captures of examples/captures/, against ticks that were written by hand
    refusals   captures that are cut off, broken or of another kind, and wrong words
    edges      captures of single bytes with silences of about 1.5, 3.5 and 320 characters
    given      what `give` writes, taken again
    tshark     what `give pcap` writes, through tshark, editcap and back
    sigrok     what `give vcd` writes, through sigrok's UART and Modbus decoders and back
    wrong      the other parts, on models with one thing wrong each: each of these must be found. It is
               given alone, without any other word

Without a PART all but the last are run. With `first` it ends at the first thing that differs. What
needs a tool that isn't installed, or a form that the program doesn't have, is skipped, and a line
says so. The exit status is 0 if nothing differs, 1 if something does, and 2 if nothing differs but
a tool isn't installed. It is no part of the gate.
"""
import os, random, re, shutil, subprocess, sys, tempfile

import built, capture_model
from capture_fixtures import BOTH_WIRES, CAPTURES, Missing, packets_text, packets_to, sigrok, tool
from capture_fixtures import logic2_table
from capture_model import SECOND, Record, character_of, given_records, lines_of, nearest, runs_of
from model import Dnp3, Rtu, canonical, reads
from plausible_frames import EXCHANGES
from swap_capture import swapped_file

SCRIPTS = os.path.dirname(os.path.abspath(__file__))

# A capture of examples/captures/, its form and rate, the word after the way, and its ticks' file.
FIXTURES = [(name, "pcap", "9600x11", [], "modbus.ticks") for name in (
    "modbus.pcap", "modbus.pcapng", "modbus_nanoseconds.pcap", "modbus_nanoseconds.pcapng",
    "swapped_modbus.pcap", "swapped_modbus.pcapng", "swapped_modbus_nanoseconds.pcap",
    "swapped_modbus_nanoseconds.pcapng")] + [
    ("modbus.logic2.csv", "logic2", "9600x11", [], "modbus.ticks"),
    ("modbus.sigrok.json", "sigrok", "9600x11", [], "modbus.ticks"),
    ("dnp3.pcap", "pcap", "9600x10", [], "dnp3.ticks"),
    ("dnp3.pcapng", "pcap", "9600x10", [], "dnp3.ticks"),
    ("events.pcap", "pcap", "9600x11", [], "events.ticks"),
    ("gateway.pcap", "pcap", "9600x11", ["frames"], "gateway.ticks")]

# Captures that are refused, each with its form and the ways that are asked for.
REFUSED = [("errors.pcap", "pcap", "a"), ("ethernet.pcap", "pcap", "a"),
           ("gateway.pcap", "pcap", "b"), ("gateway_replies.text", "text", "a"),
           ("errors.sigrok.json", "sigrok", "a"), ("modbus.vcd", "pcap", "a"),
           ("modbus.pcap", "text", "a"), ("modbus.pcap", "logic2", "a")]

# Traces that are refused for an error of a byte, the ways that are asked for, and the ticks before
# it. In the second trace the error is of a pulse too short for a start bit, and of no byte.
TRACES_WITH_ERRORS = [("framing.sigrok.json", "both", b"+01\n%\n-1\n+5a\n"),
                      ("framing.sigrok.json", "a", b"+01\n"),
                      ("framing.sigrok.json", "b", b"+5a\n"),
                      ("spurious.sigrok.json", "a", b"+0103\n"),
                      ("errors.sigrok.json", "a", b"")]

# Tick texts that `give` refuses: a line without its sign, and a mark too many.
REFUSED_TICKS = [("pcap", b"+01\n01\n"), ("pcap", b"+01\n%\n+02\n%\n"), ("text", b"+01\n%\n+02\n")]

# Words that are no command.
WRONG_WORDS = ["", "take", "take pcap", "take pcap 9600x11", "take vcd 9600x11 a",
               "give logic2 9600x11", "take pcap 9600x11 c", "take pcap 9600x11 a frame",
               "take pcap 9600x12 a", "take pcap 299x11 a", "take pcap 115201x10 a",
               "take pcap 09600x11 a", "give pcap 9600"]

# Rates of the tests of edges, and of those by tools. At 62,500 baud and 10 bits a character is
# 160,000 ns, so that a silence can be 1.5 characters exactly.
EDGE_RATES = ("300x11", "9600x11", "62500x10", "115200x11")
TOOL_RATES = ((Rtu, "9600x11"), (Rtu, "115200x11"), (Rtu, "19200x10"), (Dnp3, "9600x10"),
              (Dnp3, "115200x10"))

# For each protocol its dissector in tshark, and its fields that say whether checksums are right.
DISSECTORS = {Rtu: ("mbrtu", ("mbrtu.crc16.status",)),
              Dnp3: ("dnp3", ("dnp.hdr.CRC.status", "dnp.data_chunk.CRC.status"))}

# One wrong thing each: a text in the model, and what replaces it.
WRONG_MODELS = [
    ("value + Fraction(1, 2)", "value"),
    ("* character:\n        return 2", "* character:\n        return 3"),
    ("FRAME_SILENCE = 320, 4", "FRAME_SILENCE = 320, 3"),
    ("DRIFT_SILENCE, FRAME_SILENCE = 320", "DRIFT_SILENCE, FRAME_SILENCE = 20"),
    ("                    tick = max(nearest(time / character), len(line) + DRIFT_SILENCE)",
     "                    tick = tick"),
    ("max(nearest(time / character), len(line) + DRIFT_SILENCE)", "nearest(time / character)"),
    ("2 * gap < character", "gap < character"),
    ("if not frames and", "if False and"),
    ("WAYS = 250, 12, {1: \"a\", 2: \"b\"}", "WAYS = 250, 12, {1: \"b\", 2: \"a\"}"),
    ("kinds = {0xA1B2C3D4: 1000, 0xA1B23C4D: 1}", "kinds = {0xA1B2C3D4: 1000, 0xA1B23C4D: 1000}"),
    ("options.get(9, b\"\\x06\")", "options.get(9, b\"\\x09\")"),
    ("data[8] in (7, 8)", "data[8] in (7,)"),
    ("error.start - records[last].start < character", "False"),
    ("error.start - records[last].start < character", "True"),
    ("if kept != had or len(data) < at + 16 + kept:", "if kept != had:"),
    ("record.start - origin) if count == 0", "record.start - origin) if True"),
    ("levels = [0] + [byte >> place & 1 for place in range(8)]",
     "levels = [0] + [byte >> 7 - place & 1 for place in range(8)]"),
    ("divmod(record.start, SECOND)\n        file",
     "divmod(record.start // 10 * 10, SECOND)\n        file"),
    ("event, 0, 0) + record.data", "event, 0, 0) + record.data[:254]"),
    ("int((fraction + \"000000000\")[:9])", "int((\"000000000\" + fraction)[-9:])"),
    ("fraction // 1000, event", "fraction // 1001, event"),
    ("300 <= int(found.group(1)) <= 115200", "300 <= int(found.group(1)) <= 115201"),
]


# How many things that differ are shown.
SHOWN = 10


class Differs(Exception):
    """The first thing that differs was found."""


class Lacking(Exception):
    """The program doesn't have a form."""


class Trial:
    """A program, and what was found about it."""

    def __init__(self, program, options, folder):
        self.program = [sys.executable, program] if program.endswith(".py") else [program]
        self.reader, self.seed, self.folder = options.get("read"), options.get("seed", "1"), folder
        self.ends_at_first = "first" in options
        self.checked, self.wrong, self.skipped = 0, 0, 0
        self.lacks = {}

    def path(self, name):
        return os.path.join(self.folder, name)

    def chance(self, word):
        """Random numbers for what this word names, the same in each run with this seed."""
        return random.Random("%s %s" % (self.seed, word))

    def lines(self, proto, rate, count, longest):
        """Two lines of `count` requests and replies, the same in each run with this seed."""
        return exchange_lines(proto, self.chance(rate), count, longest)

    def run(self, words, data):
        """The program's status and standard output."""
        ran = subprocess.run(self.program + words, input=data, capture_output=True, timeout=600)
        return ran.returncode, ran.stdout

    def has(self, *form):
        """Whether the program has a form. If not, what needs it is skipped, and one line says so."""
        if form not in self.lacks:
            self.lacks[form] = self.is_refused(*form)
            if self.lacks[form]:
                print("skipped what needs `%s`: the program doesn't have it" % " ".join(form))
        return not self.lacks[form]

    def is_refused(self, verb, form):
        if form == "pcapng":
            return self.run(["take", "pcap", "9600x11", "a"], content_of("modbus.pcapng"))[1] == b""
        return self.run([verb, form, "9600x11"] + ["a"] * (verb == "take"), b"")[0] == 2

    def needs(self, *form):
        """Ends a part of the test that a program without this form can't do."""
        if not self.has(*form):
            raise Lacking(" ".join(form))

    def same(self, what, found, expected):
        """Counts a check, and prints what differs."""
        self.checked += 1
        if found == expected:
            return
        self.wrong += 1
        if self.wrong <= SHOWN:
            print("  %s\n    is      %.300r\n    must be %.300r" % (what, found, expected))
        if self.ends_at_first:
            raise Differs

    def take(self, what, words, data, expected):
        """Takes a capture, which must result in this text, and returns the text."""
        status, out = self.run(["take"] + words, data)
        self.same("%s: take %s" % (what, " ".join(words)), (status, out), (0, expected))
        return out

    def give(self, what, words, lines):
        """Gives these lines as a capture, and returns it."""
        status, out = self.run(["give"] + words, text_of(lines))
        self.same("%s: give %s" % (what, " ".join(words)), status, 0)
        return out


def content_of(name):
    with open(os.path.join(CAPTURES, name), "rb") as file:
        return file.read()


def seen_by_tshark(trial, proto, path):
    """The records of a capture as tshark reports them, and whether it says of each that its CRCs
    are right."""
    name, fields = DISSECTORS[proto]
    words = ["tshark", "-r", path, "-Y", "rtacser.eventtype in {1, 2}", "-T", "fields", "-e",
             "frame.time_epoch", "-e", "rtacser.timestamp", "-e", "rtacser.eventtype"]
    plain = [row.split("\t") for row in tool(words + ["-e", "data.data"]).decode().splitlines()]
    checks = tool(words + ["-o", "mbrtu.crc_verification:TRUE", "-d", "rtacser.data," + name]
                  + [word for field in fields for word in ("-e", field)]).decode().splitlines()
    records = [Record("ab"[int(event, 16) - 1], time_of(time), bytes.fromhex(data))
               for time, _, event, data in plain]
    stamps = all(0 <= time_of(time) - time_of(stamp) < 1000 for time, stamp, _, _ in plain)
    good = [set("".join(row.split("\t")[3:]).replace(",", "")) == {"1"} for row in checks]
    trial.same("the headers' times", stamps, True)
    return records, good


def time_of(text):
    whole, _, fraction = text.partition(".")
    return int(whole) * SECOND + int(fraction.ljust(9, "0"))


def read_as_tshark(trial, what, proto, text, path):
    """Checks that devices read from taken ticks the frames whose CRCs tshark calls right."""
    records, good = seen_by_tshark(trial, proto, path)
    for way, part in zip("ab", text.decode().split("%\n")):
        frames = [record.data for record, is_good in zip(records, good)
                  if is_good and record.way == way]
        read = [bytes(frame) for _, frame in reads(proto, lines_of(part)[0])]
        trial.same("%s, way %s: frames read" % (what, way), read, frames)
        if trial.reader:
            ran = subprocess.run([trial.reader, "read", proto.word], input=part.encode(),
                                 capture_output=True)
            rows = [bytes.fromhex(row.split()[3]) for row in ran.stdout.decode().splitlines()]
            trial.same("%s, way %s: `read`" % (what, way), rows, frames)


def fixtures(trial):
    taken = {}
    for name, form, rate, more, ticks in FIXTURES:
        if not trial.has("take", "pcapng" if name.endswith("ng") else form):
            continue
        data = content_of(name)
        taken[name] = trial.take(name, [form, rate, "both"] + more, data, content_of(ticks))
        for way in "ab":
            expected, _ = capture_model.take(form, rate, way, bool(more), data)
            trial.take(name, [form, rate, way] + more, data, expected)
    requests = lines_of(content_of("modbus.ticks").decode())[0]
    trial.take("modbus_requests.text", ["text", "9600x11", "a"],
               content_of("modbus_requests.text"), canonical(requests).encode())
    trial.take("forms.text", ["text", "62500x10", "a"], content_of("forms.text"),
               content_of("forms.ticks"))
    for name in ("gateway_requests.text", "gateway_replies.text"):
        data = content_of(name)
        expected, _ = capture_model.take("text", "9600x11", "a", True, data)
        trial.take(name, ["text", "9600x11", "a", "frames"], data, expected)
    for name in [name for name, form, _, _, _ in FIXTURES if form == "pcap" and name in taken]:
        proto = Dnp3 if "dnp3" in name else Rtu
        read_as_tshark(trial, name, proto, taken[name], os.path.join(CAPTURES, name))


def is_front(text, whole):
    """Whether other ticks begin with these, apart from the silence at their end."""
    line, other = lines_of(text.decode())[0], lines_of(whole.decode())[0]
    while line and line[-1] is None:
        line.pop()
    return line == other[:len(line)]


def refused(trial, what, words, data):
    """Checks that a capture is refused, and that what the model takes of it was taken before."""
    status, out = trial.run(["take"] + words, data)
    expected, _ = capture_model.take(words[0], words[1], words[2], len(words) > 3, data)
    trial.same("%s: take %s: status" % (what, " ".join(words)), status, 4)
    trial.same("%s: take %s: bytes" % (what, " ".join(words)), bytes_in(out), bytes_in(expected))
    trial.same("%s: take %s: ticks" % (what, " ".join(words)), is_front(out, expected), True)


def bytes_in(text):
    return bytes(byte for byte in lines_of(text.decode())[0] if byte is not None)


def refusals(trial):
    for name, form, way in [row for row in REFUSED if trial.has("take", row[1])]:
        refused(trial, name, [form, "9600x11", way], content_of(name))
    for name, way, ticks in [row for row in TRACES_WITH_ERRORS if trial.has("take", "sigrok")]:
        ran = trial.run(["take", "sigrok", "9600x11", way], content_of(name))
        trial.same("%s: take %s" % (name, way), ran, (4, ticks))
    for words in WRONG_WORDS:
        trial.same("words `%s`" % words, trial.run(words.split(), b"")[0], 2)
    for form, text in [row for row in REFUSED_TICKS if trial.has("give", row[0])]:
        ran = trial.run(["give", form, "9600x11"], text)
        trial.same("give %s of %r" % (form, text), ran, (4, b""))
    cut_off(trial, "modbus.pcap")
    if trial.has("take", "pcapng"):
        cut_off(trial, "modbus_nanoseconds.pcapng")


def cut_off(trial, name):
    """Checks beginnings of a capture: those that end with a packet are right, others refused."""
    data, words = content_of(name), ["pcap", "9600x11", "a"]
    for length in list(range(1, 60)) + list(range(60, len(data), 7)):
        front = data[:length]
        text, why = capture_model.take("pcap", "9600x11", "a", False, front)
        what = "%s cut off at %d" % (name, length)
        if why:
            trial.same(what + ": status", trial.run(["take"] + words, front)[0], 4)
        else:
            trial.take(what, words, front, text)


def edge_records(rate, chance):
    """Records of single bytes, with silences close to those at which the rules change."""
    character, records, time = character_of(rate), [], 1000 * SECOND
    gaps = [nearest(character * half / 2) + off for half in range(1, 13) for off in (-1, 0, 1)]
    gaps = [gap for gap in gaps if 2 * gap >= character]
    gaps += [nearest(character * (ticks + share / 10)) for ticks in (320, 321, 322, 323, 400)
             for share in (-4, -1, 0, 1, 4, 5)]
    gaps += [nearest(character * chance.uniform(0.8, 1.2)) for _ in range(200)]
    gaps += [nearest(character * chance.uniform(1, 700)) for _ in range(50)]
    chance.shuffle(gaps)
    for gap in gaps:
        records.append(Record(chance.choice("aaab"), time, bytes([chance.randrange(256)])))
        time += gap
    return records


def edges(trial):
    made = {rate: edge_records(rate, trial.chance(rate)) for rate in EDGE_RATES}
    for rate, records in made.items():
        rows = ["%d.%09d %02x\n" % (*divmod(each.start, SECOND), each.data[0]) for each in records]
        table = logic2_table(records, character_of(rate))
        for form, text, way in (("text", "".join(rows), "a"), ("logic2", table, "both")):
            data = text.encode()
            expected, _ = capture_model.take(form, rate, way, False, data)
            if trial.has("take", form):
                trial.take("edges", [form, rate, way], data, expected)
    for rate, records in made.items():
        for kind in ("nsecpcap", "pcap"):
            edges_by_pcap(trial, rate, kind, records)


def edges_by_pcap(trial, rate, kind, records):
    path = trial.path("edges.pcap")
    packets_to(kind, packets_text(records), path)
    with open(path, "rb") as file:
        data = file.read()
    for words in (["both"], ["a"], ["b"], ["both", "frames"]):
        expected, why = capture_model.take("pcap", rate, words[0], len(words) > 1, data)
        if not why:
            trial.take("%s at %s" % (kind, rate), ["pcap", rate] + words, data, expected)


def exchange_lines(proto, chance, count, longest):
    """Two lines of requests and replies. Each begins and ends with a byte."""
    lines, at = ([], []), 0
    for _ in range(count):
        for line, frame in zip(lines, EXCHANGES[proto](chance)):
            line += [None] * (at - len(line)) + list(frame)
            at = len(line) + chance.choice([4, 5, 21, 40, 319, 320, 321, longest])
    return lines


def times_are_those_of_ticks(trial, what, lines, rate, records, unit):
    """Checks that each run of bytes is a record with the time of its first tick, from any epoch."""
    runs = [(way, tick, data) for way, line in zip("ab", lines) for tick, data in runs_of(line)]
    found = sorted((record.way, record.start, record.data) for record in records)
    trial.same(what + ": records", [(way, data) for way, _, data in found],
               [(way, data) for way, _, data in runs])
    due = [nearest(tick * character_of(rate) / unit) * unit for _, tick, _ in runs]
    epochs = {start - time for (_, start, _), time in zip(found, due)}
    trial.same(what + ": times", len(epochs), 1)


def given(trial):
    trial.needs("give", "pcap")
    long = [[0xA5] * 70000 + [None] * 400 + [0x5A], [None] * 65536 + [0x33] * 3]
    whole, _ = capture_model.run(["give", "pcap", "9600x11"], text_of(long))
    capture = trial.give("a run of 70,000 bytes", ["pcap", "9600x11"], long)
    trial.same("a run of 70,000 bytes: give", capture, whole)
    trial.take("a run of 70,000 bytes", ["pcap", "9600x11", "both"], capture, text_of(long))
    for proto, rate in TOOL_RATES:
        what, lines = "%s at %s" % (proto.word, rate), trial.lines(proto, rate, 40, 2000)
        one = lines[:1]
        for form, way, some in (("pcap", "both", lines), ("pcap", "a", one), ("text", "a", one)):
            capture = trial.give(what, [form, rate], some)
            trial.take(what, [form, rate, way], capture, text_of(some))


def text_of(lines):
    """The tick text of lines, with marks between."""
    return "%\n".join(canonical(line) for line in lines).encode()


def through_tshark(trial, proto, rate):
    what, lines = "%s at %s" % (proto.word, rate), trial.lines(proto, rate, 40, 2000)
    capture, path = trial.give(what, ["pcap", rate], lines), trial.path("given.pcap")
    with open(path, "wb") as file:
        file.write(capture)
    records, good = seen_by_tshark(trial, proto, path)
    trial.same(what + ": checksums that tshark calls right", (sum(good), len(good)), (80, 80))
    unit = 1 if capture[:4] in (b"\x4d\x3c\xb2\xa1", b"\xa1\xb2\x3c\x4d") else 1000
    times_are_those_of_ticks(trial, what, lines, rate, records, unit)
    read_as_tshark(trial, what, proto, text_of(lines), path)
    for kind in ("pcap", "nsecpcap", "pcapng"):
        other = trial.path("other")
        tool(["editcap", "-F", kind, path, other])
        with open(other, "rb") as file:
            data = file.read()
        for name, file in (("", data), (" swapped", swapped_file(data))):
            said = "%s, as %s%s" % (what, kind, name)
            trial.take(said, ["pcap", rate, "both"], file, text_of(lines))


def tshark(trial):
    trial.needs("give", "pcap")
    for proto, rate in TOOL_RATES:
        through_tshark(trial, proto, rate)


def decoders_for(vcd, rate):
    """How sigrok's UART decoder is to look at a VCD file with a wire for each way."""
    wires = re.findall(r"\$var wire 1 \S+ (\S+)", vcd.decode())
    if len(wires) != 2:
        raise RuntimeError("the VCD file has no wire for each way")
    baud, bits = rate.split("x")
    decoder = BOTH_WIRES % (int(baud), "ignore" if bits == "11" else "none")
    return decoder.replace("rx=a:tx=b", "rx=%s:tx=%s" % tuple(wires))


def through_sigrok(trial, proto, rate):
    what, lines = "%s at %s" % (proto.word, rate), trial.lines(proto, rate, 8, 400)
    vcd, path = trial.give(what, ["vcd", rate], lines), trial.path("given.vcd")
    with open(path, "wb") as file:
        file.write(vcd)
    decoder = decoders_for(vcd, rate)
    trace = sigrok(path, [decoder], "uart=rx-data:tx-data")
    seen = {"RX": b"", "TX": b""}
    for row, byte in re.findall(r'"ph": "B".*"tid": "(..)", "name": "(..)"', trace.decode()):
        seen[row] += bytes.fromhex(byte)
    for row, line in zip(("RX", "TX"), lines):
        sent = bytes(byte for byte in line if byte is not None)
        trial.same("%s: bytes that sigrok sees on %s" % (what, row), seen[row], sent)
    trial.take(what, ["sigrok", rate, "both"], trace, text_of(lines))
    if proto is Rtu:
        # The Modbus decoder of sigrok takes RX for the device's side.
        turned = decoder.replace("rx=", "?").replace("tx=", "rx=").replace("?", "tx=")
        said = sigrok(path, [turned + ",modbus"], "modbus", "samplenum").decode()
        calls = said.count("CRC correct"), said.count("should")
        trial.same(what + ": CRCs that sigrok calls right and wrong", calls, (16, 0))


def by_sigrok(trial):
    trial.needs("give", "vcd")
    for proto, rate in TOOL_RATES:
        through_sigrok(trial, proto, rate)


PARTS = {"fixtures": fixtures, "refusals": refusals, "edges": edges, "given": given,
         "tshark": tshark, "sigrok": by_sigrok}

# The parts, in an order in which wrong models are found soon.
QUICK_FIRST = ["edges", "given", "fixtures", "refusals", "tshark", "sigrok"]


def run_parts(trial, names):
    """Runs these parts of the test, and prints the result of each."""
    for name in names:
        checked, wrong = trial.checked, trial.wrong
        try:
            PARTS[name](trial)
        except Missing as why:
            trial.skipped += 1
            print("skipped the rest of %s: %s isn't installed" % (name, why))
        except Lacking as form:
            print("skipped the rest of %s: the program has no `%s`" % (name, form))
        except (RuntimeError, UnicodeDecodeError, capture_model.Refused) as why:
            trial.wrong += 1
            print("  what the program wrote can't be read: %s" % why)
        except Differs:
            print("%-9s differs" % name)
            break
        counts = trial.checked - checked, trial.wrong - wrong
        print("%-9s %5d checked, %d wrong" % (name, *counts), flush=True)
    return 1 if trial.wrong else 2 if trial.skipped else 0


def wrong_models(folder):
    """Runs all parts on models with one thing wrong each. Returns whether each was found."""
    shutil.copy(os.path.join(SCRIPTS, "model.py"), folder)
    with open(os.path.join(SCRIPTS, "capture_model.py")) as file:
        right = file.read()
    missed = 0
    for old, new in WRONG_MODELS:
        if right.count(old) == 0:
            raise RuntimeError("the model has no %r" % old)
        path = os.path.join(folder, "wrong.py")
        with open(path, "w") as file:
            file.write(right.replace(old, new))
        words = [sys.executable, os.path.abspath(__file__), path, "first"] + QUICK_FIRST
        ran = subprocess.run(words, capture_output=True, text=True)
        missed += ran.returncode != 1
        found = [row.split()[0] for row in ran.stdout.splitlines() if row.endswith(" differs")]
        print("%-15s %r" % ("found by " + found[0] if found else "MISSED", new.strip()), flush=True)
    return 1 if missed else 0


def program_of(words):
    """The program that these words name. One whose name ends in .py only has to be there."""
    is_model = bool(words) and words[0].endswith(".py") and os.path.isfile(words[0])
    return os.path.abspath(words[0]) if is_model else built.program(words, 0, "line_capture")


def main(words):
    options = dict(word.partition("=")[::2] for word in words if "=" in word or word == "first")
    parts = [word for word in words if word in PARTS or word == "wrong"]
    programs = [word for word in words if word not in parts and word.split("=")[0] not in options]
    is_mixed = "wrong" in parts and words != ["wrong"]
    if len(programs) > 1 or is_mixed or set(options) - {"read", "seed", "first"}:
        sys.exit(__doc__.strip())
    if programs and os.sep not in programs[0] and not os.path.isfile(programs[0]):
        sys.exit("captures: `%s` is no PART, and no program either" % programs[0])
    if "read" in options:
        options["read"] = built.program([options["read"]], 0)
    with tempfile.TemporaryDirectory() as folder:
        if parts == ["wrong"]:
            return wrong_models(folder)
        return run_parts(Trial(program_of(programs), options, folder), parts or list(PARTS))


if __name__ == "__main__":
    sys.exit(main(sys.argv[1:]))
