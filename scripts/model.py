"""A model of transmitter, receiver, spacer and devices, for whole lines: the rules of docs/LINK.md, written anew in Python.

It shares nothing with the program, so that the two can be compared (random_lines.py, audit.py, duplex.py). A line is a list of
ticks: a byte, or None for silence. The tags are computed with hashlib.
"""
import collections, hashlib, hmac, itertools

LIMIT = (1 << 48) - 1

# The silent ticks that end a burst, those between a frame and its trailer, and those that the program takes to follow a link,
# whether or not the line of a device comes with it.
CUT, PAUSE, LINK_REST = 4, 3, 320

# How many frames may wait in the spacer of the program, and the silent ticks that it takes to follow a line.
WAITING, SPACER_REST = 64, 21000

# The bytes of a word and of a tag, the hash function, and the ticks by which the receiver is late.
Profile = collections.namedtuple("Profile", "name word tag hash delay")
Y18 = Profile("", 2, 12, hashlib.sha1, 18)
Y24 = Profile("24", 4, 16, hashlib.sha256, 24)


def word_of(proto, profile):
    """The word of a protocol and a profile in the program's commands."""
    return proto.word if profile is Y18 else {"rtu": "rtu24", "dnp3": "dnp24"}[proto.word]


def crc(poly, register, data):
    for byte in data:
        register ^= byte
        for _ in range(8):
            register = register >> 1 ^ (poly if register & 1 else 0)
    return register


class Rtu:
    """Modbus RTU: frames of 4 to 256 bytes, of which the last two are the CRC. It has no header that says a size."""

    word, label, header = "rtu", 1, 0

    @staticmethod
    def room(data):
        return 256

    @staticmethod
    def end(data):
        return crc(0xA001, 0xFFFF, data).to_bytes(2, "little")

    @classmethod
    def has_right_ending(cls, data):
        return len(data) >= 2 and bytes(data[-2:]) == cls.end(data[:-2])

    @classmethod
    def is_frame(cls, data):
        return 4 <= len(data) <= 256 and cls.has_right_ending(data)

    @staticmethod
    def is_good_header(data):
        return True

    @staticmethod
    def size(data):
        return len(data)

    @classmethod
    def arrivals(cls, line):
        """The frames that a device reads from this line: the step in which each is read, the tick of its first byte, and its bytes."""
        for start, end in bursts(line):
            body = line[start:end + 1]
            frame = [byte for byte in body if byte is not None]
            if end + CUT < len(line) and first_pause(body) is None and cls.is_frame(frame):
                yield end + CUT, start, frame


class Dnp3:
    """The DNP3 link layer: a header of ten bytes, which says the size, and blocks of up to 16 bytes of user data."""

    word, label, header = "dnp3", 2, 10

    @staticmethod
    def end(data):
        return (crc(0xA6BC, 0, data) ^ 0xFFFF).to_bytes(2, "little")

    @staticmethod
    def size_by(length):
        user = length - 5
        return 10 + user + 2 * ((user + 15) // 16)

    @classmethod
    def room(cls, data):
        return cls.size_by(data[2]) if len(data) >= 3 and data[2] >= 5 else 292

    @classmethod
    def ends_in_crc(cls, data):
        return len(data) >= 2 and bytes(data[-2:]) == cls.end(data[:-2])

    @classmethod
    def is_good_header(cls, data):
        return len(data) >= 10 and data[0] == 0x05 and data[1] == 0x64 and data[2] >= 5 and cls.ends_in_crc(data[:10])

    @classmethod
    def size(cls, data):
        return cls.size_by(data[2])

    @classmethod
    def is_frame(cls, data):
        blocks = [data[place:place + 18] for place in range(10, len(data), 18)]
        return cls.is_good_header(data) and len(data) == cls.size(data) and all(cls.ends_in_crc(block) for block in blocks)

    @classmethod
    def has_right_ending(cls, data):
        if len(data) < 3 or data[2] < 5 or len(data) != cls.size(data):
            return False
        last = 0 if len(data) == 10 else 10 + 18 * ((len(data) - 11) // 18)
        return cls.ends_in_crc(data[last:])

    @classmethod
    def arrivals(cls, line):
        """The frames that a device reads from this line, which hunts for 05 64 and ignores silence: the step in which each is read,
        the tick of its first byte, and its bytes."""
        found = [(tick, byte) for tick, byte in enumerate(line) if byte is not None]
        data, place = [byte for _, byte in found], 0
        while place < len(data):
            if data[place] != 0x05 or data[place + 1:place + 2] not in ([0x64], []):
                place += 1
                continue
            if len(data) - place < 10:
                return
            if not cls.is_good_header(data[place:place + 10]):
                place += 10
                continue
            size = cls.size(data[place:])
            if len(data) - place < size:
                return
            if cls.is_frame(data[place:place + size]):
                yield found[place + size - 1][0], found[place][0], data[place:place + size]
            place += size


def reads(proto, line):
    """The frames that a device reads from the line and four silent ticks after it, each with the tick of its first byte."""
    return [(start, frame) for _, start, frame in proto.arrivals(line + [None] * CUT)]


def bursts(line):
    """The first and the last tick of each burst."""
    found, quiet = [], CUT
    for tick, byte in enumerate(line):
        if byte is None:
            quiet += 1
            continue
        if quiet >= CUT:
            found.append([tick, tick])
        found[-1][1], quiet = tick, 0
    return found


def first_pause(body):
    """The first place at which two silent ticks in a row begin, or None."""
    return next((place for place in range(len(body) - 1) if body[place] is None and body[place + 1] is None), None)


def live(proto, line, start, end):
    """The live bytes of a burst with their ticks, and whether it has other bytes too."""
    body = line[start:end + 1]
    before = [(start + place, byte) for place, byte in enumerate(body[:first_pause(body)]) if byte is not None]
    kept = before[:proto.room([byte for _, byte in before])]
    return kept, len(kept) < sum(byte is not None for byte in body)


def tag(proto, key, direction, frame, number, profile=Y18):
    text = bytes([proto.label, direction]) + bytes(frame) + number.to_bytes(8, "big")
    return hmac.new(key, text, profile.hash).digest()[:profile.tag]


def trailer(proto, key, direction, frame, number, profile=Y18):
    return list(number.to_bytes(8, "big")[-profile.word:] + tag(proto, key, direction, frame, number, profile))


def seal(proto, key, direction, floor, line, profile=Y18):
    """What `seal` makes of a line: the link, the notes, the journal's floor after the run, and the sealed frames, each with its number
    and start."""
    link, notes, floor, sealed = seal_steps(proto, key, direction, floor, line + [None] * (profile.delay + 6), profile)
    return link, [note for _, note in notes], floor, sealed


def seal_steps(proto, key, direction, floor, line, profile=Y18):
    """What a transmitter makes of exactly these ticks, as in `seal`. Each note comes with the tick in whose step it is made."""
    link, notes, free, sealed = [None] * len(line), [], 0, []
    for start, end in bursts(line):
        kept, has_extra = live(proto, line, start, end)
        frame, last = [byte for _, byte in kept], kept[-1][0]
        early = start < free
        if not early:
            for tick, byte in kept:
                link[tick] = byte
        if end + CUT >= len(line):
            continue
        if early:
            notes.append((end + CUT, "unsealed at %d early" % start))
        elif has_extra or not proto.is_frame(frame):
            notes.append((end + CUT, "unsealed at %d form" % start))
        elif floor == LIMIT:
            notes.append((end + CUT, "unsealed at %d spent" % start))
        else:
            floor += 1
            for place, byte in enumerate(trailer(proto, key, direction, frame, floor, profile)):
                if last + PAUSE + 1 + place < len(link):
                    link[last + PAUSE + 1 + place] = byte
            free = last + profile.delay + CUT
            notes.append((end + CUT, "sealed %d at %d len %d" % (floor, start, len(frame))))
            sealed.append((floor, start, frame))
    return link, notes, floor, sealed


def spoil(proto, before, byte):
    return byte ^ 1 if proto.has_right_ending(before + [byte]) else byte


def verdict(proto, key, direction, floor, frame, after, profile):
    """The verdict on live bytes and the ticks after them: a number or a reason, and how many of these ticks it took."""
    for place, byte in enumerate(after, 1):
        if (byte is not None) != (place > PAUSE):
            return None, "trailer", place
    if not proto.is_frame(frame):
        return None, "form", len(after)
    word = int.from_bytes(bytes(after[PAUSE:PAUSE + profile.word]), "big")
    number = floor + 1 + (word - floor - 1) % (1 << 8 * profile.word)
    if number > LIMIT:
        return None, "number", len(after)
    if bytes(after[PAUSE + profile.word:]) != tag(proto, key, direction, frame, number, profile):
        return None, "tag", len(after)
    return number, None, len(after)


def check(proto, key, direction, floor, link, profile=Y18):
    """What `check` makes of a link: the receiver's line, the notes, the journal's floor after the run, and the passed frames, each
    with its number and start."""
    line, notes, floor, passed = check_steps(proto, key, direction, floor, link + [None] * LINK_REST, profile)
    return line, [note for _, note in notes], floor, passed


def check_steps(proto, key, direction, floor, link, profile=Y18):
    """What a receiver makes of exactly these ticks, as in `check`. Each note comes with the tick in whose step it is made."""
    delay = profile.delay
    behind = link + [None] * delay
    sent, notes, free, passed = {}, [], 0, []
    for start, end in bursts(link):
        kept, _ = live(proto, link, start, end)
        frame, last = [byte for _, byte in kept], kept[-1][0]
        if start < free:
            notes.append((start, "dropped at %d busy" % start))
        elif len(frame) < proto.header:
            notes.append((last + 2, "dropped at %d head" % start))
        elif not proto.is_good_header(frame):
            notes.append((kept[proto.header - 1][0], "dropped at %d head" % start))
        else:
            number, why, took = verdict(proto, key, direction, floor, frame, behind[last + 1:last + delay], profile)
            sent.update((tick + delay, byte) for tick, byte in kept)
            free = last + delay + 1
            if why is None:
                notes.append((last + took, "passed %d at %d len %d" % (number, start, len(frame))))
                if last + took < len(link):
                    floor = number
                    passed.append((number, start, frame))
                continue
            notes.append((last + took, "refused at %d %s" % (start, why)))
            owed = proto.size(frame) - len(frame)
            whole = frame + [0] * owed
            sent.update((last + delay + place, 0) for place in range(1, owed + 1))
            sent[last + delay + owed] = spoil(proto, whole[:-1], whole[-1])
            free += owed
    told = [noted for noted in sorted(notes, key=lambda noted: noted[0]) if noted[0] < len(link)]
    return [sent.get(tick) for tick in range(len(link))], told, floor, passed


def filled(line, link):
    """Both lists, filled with silence up to the longer one's length and LINK_REST more ticks."""
    ticks = max(len(line), len(link)) + LINK_REST
    return [ticks_before + [None] * (ticks - len(ticks_before)) for ticks_before in (line, link)]


def duplex(proto, key, direction, line, link, profile=Y18):
    """What a duplex box makes of its device's line and of the link: the ticks that it sends to the link and to the device, and the
    notes in the order of their steps, the transmitter's first within a step."""
    line, link = filled(line, link)
    sent, sealing, _, _ = seal_steps(proto, key, direction, 0, line, profile)
    received, checking, _, _ = check_steps(proto, key, 1 - direction, 0, link, profile)
    return sent, received, [note for _, note in sorted(sealing + checking, key=lambda noted: noted[0])]


def gated(side, window, pause, ticks, heard):
    """What a gate lets through of a receiver's ticks while this is heard on the wires, and the ticks in which a burst begins that it
    keeps back. Who spoke last is nobody, the asker or the answerer, so many silent ticks ago."""
    who, ago, quiet, opened, through, held = "nobody", 0, 2, False, [], []
    for tick, (own, other) in enumerate(zip(ticks, heard)):
        if own is not None and quiet >= 2:
            if side == "asks":
                opened = ago >= window or who == "asker" and ago < 4 or who == "answerer" and ago >= pause
            else:
                opened = who == "asker" and 4 <= ago < window or who == "answerer" and ago < pause
            held += [] if opened else [tick]
        quiet = 0 if own is not None else quiet + 1
        said = own if opened else None
        through.append(said)
        asked, answered = (said, other) if side == "asks" else (other, said)
        if side == "asks" and who == "nobody" and said is None and other is not None:
            ago = 0
        elif asked is not None or answered is not None:
            who, ago = "asker" if asked is not None else "answerer", 0
        else:
            ago += 1
    return through, held


def two_wire(proto, key, direction, waits, device, link, profile=Y18):
    """What a two-wire box drives the link and the wires to its device with, if this is on both, and its notes. `waits` are its side,
    WINDOW and PAUSE. It hears what it doesn't drive, and drives the wires one tick after it decides. So the ticks that are known of
    what it drives grow by one with each turn, and often by many."""
    device, link = filled(device, link)
    later = lambda ticks: [None] + ticks[:-1]
    to_link, to_device = [None] * len(link), [None] * len(device)
    while True:
        heard_device, heard_link = [[None if own is not None else on for own, on in zip(owns, wires)]
                                    for owns, wires in ((to_device, device), (to_link, link))]
        sent, sealing, _, _ = seal_steps(proto, key, direction, 0, heard_device, profile)
        given, checking, _, _ = check_steps(proto, key, 1 - direction, 0, heard_link, profile)
        let, held = gated(*waits, later(given), heard_device)
        if (later(sent), let) == (to_link, to_device):
            notes = sealing + checking + [(tick, "held at %d" % tick) for tick in held]
            return to_link, to_device, [note for _, note in sorted(notes, key=lambda noted: noted[0])]
        to_link, to_device = later(sent), let


def space(proto, line, profile=Y18, cap=WAITING, rest=SPACER_REST):
    """The spaced line, the notes of the frames that are lost, and the accepted frames: for each the step in which it is read, the tick
    at which it begins on the spaced line, and its bytes."""
    line, gap = line + [None] * rest, profile.delay + PAUSE
    spaced, lost, accepted = [None] * len(line), [], []
    for step, start, frame in proto.arrivals(line):
        if sum(begin > step for _, begin, _ in accepted) >= cap:
            lost.append("lost at %d %s" % (start, bytes(frame).hex()))
            continue
        free = accepted[-1][1] + len(accepted[-1][2]) + gap if accepted else 0
        accepted.append((step, max(step + 1, free), frame))
    for _, begin, frame in accepted:
        spaced[begin:begin + len(frame)] = frame
    return spaced[:len(line)], lost, accepted


def replay(proto, key, direction, line, link, profile=Y18):
    """The lines that `replay` writes: the frames that are sealed, passed, read and forged."""
    sealed = seal(proto, key, direction, 0, line, profile)[3]
    received, _, _, passed = check(proto, key, direction, 0, link, profile)
    numbered = lambda word, entries: ["%s %d at %d %s" % (word, number, start, bytes(frame).hex()) for number, start, frame in entries]
    read = ["read at %d %s" % (start, bytes(frame).hex()) for start, frame in reads(proto, received)]
    return numbered("sealed", sealed) + numbered("passed", passed) + read + numbered("forged", forged_of(sealed, passed))


def forged_of(sealed, passed):
    """The passed frames that weren't sealed with their number."""
    known = {(number, bytes(frame)) for number, _, frame in sealed}
    return [entry for entry in passed if (entry[0], bytes(entry[2])) not in known]


AUDIT_STATUS = {"clean": 0, "forged": 14, "differs": 15, "empty": 16}


def frame_or_none(word, frame):
    """The line of a frame that should have been read or was, or of none."""
    return "%s none\n" % word if frame is None else "%s at %d %s\n" % (word, frame[0], bytes(frame[1]).hex())


# How late the frames that are expected may be read: from `least` to `most` ticks later than the receiver sends them or, if the third
# line is `spaced`, than a device reads them of the spaced line of what the receiver sends.
Late = collections.namedtuple("Late", "least most spaced")
EXACT = Late(0, 0, False)


def is_in_time(expected, found, late):
    """Whether a frame that was read is the expected one, in time. Each is its tick and its bytes, or None if there is no frame."""
    if expected is None or found is None:
        return False
    return expected[1] == found[1] and late.least <= found[0] - expected[0] <= late.most


def audit(proto, key, direction, floors, line, link, received, profile=Y18, late=EXACT):
    """The verdict on three recordings, as `audit` writes it, and the exit status. It compares what was sealed from the sender's floor
    on, what passed from the receiver's floor on, and what the device reads from the third recording."""
    sealed = seal(proto, key, direction, floors[0], line, profile)[3]
    sent, _, _, passed = check(proto, key, direction, floors[1], link, profile)
    read, forged = reads(proto, received), forged_of(sealed, passed)
    expected = [(start + profile.delay, frame) for _, start, frame in passed]
    if late.spaced:
        expected = reads(proto, space(proto, sent, profile)[0])
    pairs = itertools.zip_longest(expected, read)
    places = [place for place, (one, other) in enumerate(pairs) if not is_in_time(one, other, late)]
    found, frames = "clean", ""
    if not (sealed or passed or read):
        found = "empty"
    elif forged:
        found = "forged %d at %d" % forged[0][:2]
    elif places:
        place = places[0]
        found = "differs %d" % place
        frames = "".join(frame_or_none(word, frames[place] if place < len(frames) else None)
                         for word, frames in (("expected", expected), ("found", read)))
    text = "audit %s sealed %d passed %d read %d\n%s" % (found, len(sealed), len(passed), len(read), frames)
    return text, AUDIT_STATUS[found.split()[0]]


def canonical(line):
    """The tick text of a line, as the program writes it."""
    text, place = "", 0
    while place < len(line):
        end = place
        if line[place] is None:
            while end < len(line) and line[end] is None and end - place < 1000000:
                end += 1
            text += "-%d\n" % (end - place)
        else:
            while end < len(line) and line[end] is not None and end - place < 32:
                end += 1
            text += "+%s\n" % bytes(line[place:end]).hex()
        place = end
    return text


def ticks_of(text):
    """The ticks of a tick text without marks."""
    ticks = []
    for line in text.splitlines():
        if line.startswith("+"):
            ticks += bytes.fromhex(line[1:])
        elif line.startswith("-"):
            ticks += [None] * int(line[1:])
        elif line and not line.startswith("#"):
            raise ValueError("%r is no line of ticks" % line)
    return ticks
