#!/usr/bin/env python3
"""A model of `line_capture`: the rules of docs/CAPTURES.md, written anew in Python.

    python3 scripts/capture_model.py take FORM RATE WAY [frames] < CAPTURE > TICKS
    python3 scripts/capture_model.py give FORM RATE < TICKS > CAPTURE

It shares nothing with the program, so that the two can be compared (captures.py). A line is a list
of ticks: a byte, or None for silence. Times are whole nanoseconds, or fractions if a character
doesn't take a whole number of them. It keeps the whole capture in memory.
"""
import collections, csv, io, json, re, struct, sys
from fractions import Fraction

from model import canonical

# The most bytes in a record that `give` writes.
MOST_BYTES = 65536

# Drift is taken up only in silences of more ticks than this, and a record that is taken for a frame
# has this many silent ticks before it.
DRIFT_SILENCE, FRAME_SILENCE = 320, 4

SECOND = 10 ** 9

# A record: the start of its first byte in nanoseconds, and its bytes, each a character later.
Record = collections.namedtuple("Record", "way start data")

# The link type of RTAC serial lines, the length of its header, and the events that data follows.
RTAC_SERIAL, RTAC_HEADER, WAYS = 250, 12, {1: "a", 2: "b"}


class Refused(Exception):
    """A capture or a text is refused, for this reason: status 4."""


class ErrorBehind(Refused):
    """An error of a byte, in a form in which an error comes after its byte."""

    def __init__(self, way, start):
        super().__init__("a byte with an error")
        self.way, self.start = way, start


class Usage(Exception):
    """The words are no command: status 2."""


def character_of(rate):
    """The time of a character in nanoseconds."""
    found = re.fullmatch(r"([1-9][0-9]{2,5})x(10|11)", rate)
    if not found or not 300 <= int(found.group(1)) <= 115200:
        raise Usage("the rate %s" % rate)
    return Fraction(int(found.group(2)) * SECOND, int(found.group(1)))


def nearest(value):
    """The nearest whole number. A half is rounded up."""
    return int((value + Fraction(1, 2)) // 1)


def ticks_apart(gap, character):
    """Ticks from the start of a byte to that of the next: rounded to the nearest, but down if the
    silence between them is 1.5 characters."""
    if gap == Fraction(5, 2) * character:
        return 2
    return max(nearest(gap / character), 1)


def place(records, character, frames, origin):
    """The line of the records of one way, from the origin up to the first byte that overlaps the
    one before it, and how many bytes do."""
    line, time, overlaps, kept = [], None, 0, None
    for record in records:
        for count, byte in enumerate(record.data):
            if time is None:
                time = Fraction(record.start - origin)
                tick = nearest(time / character)
            else:
                before = time
                time = Fraction(record.start - origin) if count == 0 else before + character
                gap = max(time - before, 0)
                if not frames and 2 * gap < character:
                    kept = len(line) if kept is None else kept
                    overlaps += 1
                tick = len(line) - 1 + steps_apart(gap, character, frames and count == 0)
                if tick > len(line) + DRIFT_SILENCE:
                    tick = max(nearest(time / character), len(line) + DRIFT_SILENCE)
            line += [None] * (tick - len(line)) + [byte]
    return line[:kept], overlaps


def steps_apart(gap, character, begins_frame):
    """Ticks from the start of a byte to that of the next, if there is no drift."""
    steps = ticks_apart(gap, character)
    return max(steps, FRAME_SILENCE + 1) if begins_frame else steps


def rtac_record(start, data):
    """The record of a packet, or None for an event without data."""
    if len(data) < RTAC_HEADER:
        raise Refused("a packet without its header")
    if data[8] in (7, 8):
        raise Refused("a byte with an error")
    way = WAYS.get(data[8])
    return Record(way, start, data[RTAC_HEADER:]) if way and data[RTAC_HEADER:] else None


def pcap_records(data):
    if data[:4] == b"\n\r\r\n":
        yield from pcapng_records(data)
        return
    kinds = {0xA1B2C3D4: 1000, 0xA1B23C4D: 1}
    magics = {mark: struct.unpack(mark + "I", data[:4])[0] for mark in "<>" if len(data) >= 24}
    order = next((mark for mark, magic in magics.items() if magic in kinds), None)
    if order is None or struct.unpack(order + "I", data[20:24])[0] != RTAC_SERIAL:
        raise Refused("no pcap file of link type 250")
    unit, at = kinds[magics[order]], 24
    while at < len(data):
        if len(data) < at + 16:
            raise Refused("the file is cut off")
        seconds, fraction, kept, had = struct.unpack(order + "IIII", data[at:at + 16])
        if kept != had or len(data) < at + 16 + kept:
            raise Refused("a packet is cut off")
        yield rtac_record(seconds * SECOND + fraction * unit, data[at + 16:at + 16 + kept])
        at += 16 + kept


def options_of(order, data):
    """The options of a block, by their codes."""
    found, at = {}, 0
    while at + 4 <= len(data):
        code, length = struct.unpack(order + "HH", data[at:at + 4])
        if code == 0:
            break
        found[code] = data[at + 4:at + 4 + length]
        at += 4 + (length + 3) // 4 * 4
    return found


def unit_of(options):
    """The unit of an interface's time stamps, in seconds: microseconds if it doesn't say."""
    exponent = options.get(9, b"\x06")[0]
    return Fraction(1, 2 ** (exponent & 127)) if exponent & 128 else Fraction(1, 10 ** exponent)


def pcapng_records(data):
    order, units, at = "<", [], 0
    while at < len(data):
        if data[at:at + 4] == b"\n\r\r\n":
            order = {b"\x4d\x3c\x2b\x1a": "<", b"\x1a\x2b\x3c\x4d": ">"}.get(data[at + 8:at + 12])
            units = []
        if order is None or len(data) < at + 12:
            raise Refused("the file is cut off, or no pcapng file")
        kind, length = struct.unpack(order + "II", data[at:at + 8])
        body = data[at + 8:at + length - 4]
        end = data[at + length - 4:at + length]
        if length % 4 or length < 12 or end != struct.pack(order + "I", length):
            raise Refused("a block is cut off")
        if kind == 1:
            if struct.unpack(order + "H", body[:2])[0] != RTAC_SERIAL:
                raise Refused("an interface of another link type")
            units.append(unit_of(options_of(order, body[8:])))
        elif kind == 6:
            interface, high, low, kept, had = struct.unpack(order + "IIIII", body[:20])
            if kept != had or interface >= len(units):
                raise Refused("a packet is cut off")
            start = ((high << 32) + low) * units[interface] * SECOND
            yield rtac_record(int(start), body[20:20 + kept])
        at += length


def nanoseconds(text):
    """Decimal seconds as whole nanoseconds. Digits after the ninth one after the point are
    ignored."""
    if not re.fullmatch(r"[0-9]+(\.[0-9]+)?", text):
        raise Refused("the time %s" % text)
    whole, _, fraction = text.partition(".")
    return int(whole) * SECOND + int((fraction + "000000000")[:9])


def text_records(data):
    for line in data.decode("ascii", "replace").split("\n"):
        line = line.removesuffix("\r")
        found = re.fullmatch(r"([0-9.]+)[ \t]((?:[0-9a-fA-F]{2})+)", line)
        if found:
            yield Record("a", nanoseconds(found.group(1)), bytes.fromhex(found.group(2)))
        elif line and not line.startswith("#"):
            raise Refused("the line %s" % line)


def logic2_records(data):
    """The records of Logic 2's table of Async Serial analyzers; its analyzers are the ways."""
    names = []
    for row in csv.DictReader(io.StringIO(data.decode())):
        if row.get("error"):
            raise Refused("a byte with an error")
        if row["name"] not in names:
            names.append(row["name"])
        start = int(Fraction(row["start_time"]) * SECOND)
        yield Record("ab"[names.index(row["name"])], start, bytes([int(row["data"], 16)]))


def sigrok_records(data):
    """The records of a trace that sigrok-cli writes of its UART decoder; its rows are the ways. An
    error comes after its byte."""
    names = []
    for event in json.loads(data, parse_float=Fraction)["traceEvents"]:
        name = event["pid"], event["tid"].split()[0]
        if name not in names:
            names.append(name)
        way, start = "ab"[names.index(name)], int(event["ts"] * 1000)
        if event["name"] in ("Parity error", "Frame error"):
            raise ErrorBehind(way, start)
        if event["ph"] == "B":
            yield Record(way, start, bytes([int(event["name"], 16)]))


READERS = {"pcap": pcap_records, "text": text_records, "logic2": logic2_records,
           "sigrok": sigrok_records}


def read_until_refused(form, data):
    """The records of a capture up to the refused place, and the refusal, if there is one."""
    records = []
    try:
        for record in READERS[form](data):
            records += [record] if record else []
    except Refused as why:
        return records, why
    except (ValueError, KeyError, IndexError, struct.error) as why:
        return records, Refused(repr(why))
    return records, None


def without_wrong(records, error, character):
    """The records without the byte that an error is about: the last one of its way, if it began
    less than a character before the error."""
    last = max((at for at, record in enumerate(records) if record.way == error.way), default=None)
    if last is not None and error.start - records[last].start < character:
        return records[:last] + records[last + 1:]
    return records


def take(form, rate, way, frames, data):
    """The tick text of a capture, and why it is refused, if it is."""
    character = character_of(rate)
    records, why = read_until_refused(form, data)
    if isinstance(why, ErrorBehind):
        records = without_wrong(records, why, character)
    ways = "ab" if way == "both" else way
    chosen = [[each for each in records if each.way == one] for one in ways]
    origin = min((record.start for each in chosen for record in each), default=0)
    placed = [place(each, character, frames, origin) for each in chosen]
    overlaps = sum(count for _, count in placed)
    if overlaps and not why:
        why = Refused("%d bytes overlap" % overlaps)
    return "%\n".join(canonical(line) for line, _ in placed).encode(), why


def lines_of(text):
    """The lines of a tick text, separated by marks."""
    lines = [[]]
    for each in text.split("\n"):
        if each.startswith("+"):
            lines[-1] += bytes.fromhex(each[1:])
        elif each.startswith("-"):
            lines[-1] += [None] * int(each[1:])
        elif each == "%":
            lines.append([])
        elif each and not each.startswith("#"):
            raise Refused("the line %s" % each)
    return lines


def runs_of(line):
    """The runs of bytes of a line, each with its first tick. Long ones are cut."""
    found = []
    for tick, byte in enumerate(line):
        if byte is not None and (tick == 0 or line[tick - 1] is None
                                 or len(found[-1][1]) == MOST_BYTES):
            found.append((tick, [byte]))
        elif byte is not None:
            found[-1][1].append(byte)
    return [(tick, bytes(data)) for tick, data in found]


def given_records(lines, character):
    """The runs of bytes of the lines, as records in the order of their times."""
    records = [Record(way, nearest(tick * character), data)
               for way, line in zip("ab", lines) for tick, data in runs_of(line)]
    return sorted(records, key=lambda record: record.start)


def rtac_packet(record):
    event = next(event for event, way in WAYS.items() if way == record.way)
    seconds, fraction = divmod(record.start, SECOND)
    return struct.pack(">IIBBH", seconds, fraction // 1000, event, 0, 0) + record.data


def give_pcap(lines, rate):
    file = struct.pack("<IHHIIII", 0xA1B23C4D, 2, 4, 0, 0, 262144, RTAC_SERIAL)
    for record in given_records(lines, character_of(rate)):
        packet = rtac_packet(record)
        seconds, fraction = divmod(record.start, SECOND)
        file += struct.pack("<IIII", seconds, fraction, len(packet), len(packet)) + packet
    return file


def give_text(lines, rate):
    return "".join("%d.%09d %s\n" % (*divmod(record.start, SECOND), record.data.hex())
                   for record in given_records(lines[:1], character_of(rate))).encode()


def bits_of(byte, bits):
    """The levels of a character: a start bit, eight of data, and even parity if it has eleven."""
    levels = [0] + [byte >> place & 1 for place in range(8)]
    return levels + [sum(levels) & 1] * (bits == 11) + [1]


def give_vcd(lines, rate):
    """The wires of the ways, quiet for a character before tick 0 and after the last tick."""
    character, bits = character_of(rate), int(rate.split("x")[1])
    events = []
    for mark, line in zip("!\"", lines):
        level = 1
        for tick, byte in enumerate(line):
            for place, now in enumerate(bits_of(byte, bits) if byte is not None else []):
                if now != level:
                    time = nearest((tick + 1 + Fraction(place, bits)) * character)
                    events.append((time, mark, now))
                level = now
    wires = zip("!\"", "ab", lines)
    names = "".join("$var wire 1 %s %s $end\n" % (mark, way) for mark, way, _ in wires)
    quiet = "#0\n" + "".join("1%s\n" % mark for mark, _ in zip("!\"", lines))
    changes = "".join("#%d\n%d%s\n" % (time, level, mark) for time, mark, level in sorted(events))
    end = "#%d\n" % nearest((max(len(line) for line in lines) + 2) * character)
    return ("$timescale 1 ns $end\n$scope module line $end\n" + names + "$upscope $end\n"
            "$enddefinitions $end\n" + quiet + changes + end).encode()


# What is said of words that fit no command, by their first word.
USAGES = {"take": "usage: line_capture take FORM RATE WAY [frames]", "give": "usage: line_capture give FORM RATE",
          "help": "usage: line_capture help", "version": "usage: line_capture version"}
WRITERS = {"pcap": give_pcap, "text": give_text, "vcd": give_vcd}


def run(words, data):
    """What the words make of the input, and why it is refused, if it is."""
    is_take = len(words) in (4, 5) and words[0] == "take" and words[4:] in ([], ["frames"])
    if is_take and words[1] in READERS and words[3] in ("a", "b", "both"):
        return take(words[1], words[2], words[3], words[4:] == ["frames"], data)
    if len(words) == 3 and words[0] == "give" and words[1] in WRITERS:
        character_of(words[2])
        try:
            lines = lines_of(data.decode())
            if len(lines) > (1 if words[1] == "text" else 2):
                raise Refused("a mark")
            return WRITERS[words[1]](lines, words[2]), None
        except Refused as why:
            return b"", why
    raise Usage("the words")


def main(words):
    try:
        out, why = run(words, sys.stdin.buffer.read())
    except Usage:
        print("fault: usage\n%s" % USAGES.get(words[0] if words else "", "commands: take give help version"), file=sys.stderr)
        return 2
    sys.stdout.buffer.write(out)
    if why:
        print("fault: %s" % why, file=sys.stderr)
    return 4 if why else 0


if __name__ == "__main__":
    sys.exit(main(sys.argv[1:]))
