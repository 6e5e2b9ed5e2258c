#!/usr/bin/env python3
"""Compares the verdicts of `audit` with the model's, over sessions whose recordings or floors were tampered with.

    python3 scripts/audit.py [SESSIONS] [PROGRAM] [SEED]

Each session is drawn from SEED (1): the line of a device with some frames, its link, and the line of an honest receiver, with
either protocol, profile and direction, a key of its own, and floors up to the greatest number. The deeds in DEEDS and LIVE take
turns, and one of them is done to each session. The program must write the text that model.py makes of the same recordings and end with its
status, and the model's verdict must be one that the deed allows: a tag that an insider forged is always named, and an honest
receiver never differs. A mistake of the person who audits (MISTAKES, the table of docs/AUDIT.md) must have one of its answers. Then
the same is done with programs that are made wrong, each in one way (WRONG).

It ends with 0 only if all agree, every verdict was seen, and each wrong program was told from the right one. It is no part of the
gate.
"""
import collections, functools, os, random, re, subprocess, sys, tempfile

import built, model
from model import CUT, EXACT, LIMIT, PAUSE, Y18, Y24, Dnp3, Late, Rtu, frame_or_none

# `late` is how late frames may be, or None if the words behind the floors, `more`, are no words of an audit.
Session = collections.namedtuple("Session", "proto profile key direction floors device link received sent late more", defaults=(EXACT, ()))

CLEAN, FORGED, DIFFERS, EMPTY, USAGE = "clean", "forged", "differs", "empty", "usage"
VERDICTS = (CLEAN, FORGED, DIFFERS, EMPTY)
KINDS = VERDICTS + (USAGE,)


def some_frame(proto, chance):
    if proto is Rtu:
        body = [chance.randrange(256) for _ in range(chance.choice([2, 3, 6, 6, 6, 13, 30]))]
        return body + list(Rtu.end(body))
    user = [chance.randrange(256) for _ in range(chance.choice([0, 0, 6, 6, 15, 17]))]
    header = [0x05, 0x64, 5 + len(user), 0xC4] + [chance.randrange(256) for _ in range(4)]
    parts = [header] + [user[place:place + 16] for place in range(0, len(user), 16)]
    return [byte for part in parts for byte in part + list(Dnp3.end(part))]


def with_gaps(frame, chance):
    """A frame with a silent tick between some of its bytes, but never two in a row."""
    ticks = [tick for byte in frame for tick in ([byte, None] if chance.randrange(3) == 0 else [byte])]
    return ticks[:-1] if ticks[-1] is None else ticks


def some_session(chance, gaps=False):
    """An untouched session of 2 to 6 frames, all of which are sealed, pass and are read. With `gaps`, frames have silent ticks inside."""
    proto, profile, direction = chance.choice([Rtu, Dnp3]), chance.choice([Y18, Y24]), chance.randrange(2)
    key = bytes(chance.randrange(256) for _ in range(chance.choice([16, 32, 64])))
    floor = chance.choice([0, 0, 7, 65530, 70000, LIMIT - 20])
    device = [None] * chance.choice([0, 5, 40])
    for _ in range(chance.randrange(2, 7)):
        frame = some_frame(proto, chance)
        device += (with_gaps(frame, chance) if gaps else frame) + [None] * chance.choice([profile.delay + PAUSE, 30, 60])
    got = max(0, floor - chance.choice([0, 0, 3, 500]))
    link, _, _, sent = model.seal(proto, key, direction, floor, device, profile)
    return heard(Session(proto, profile, key, direction, (floor, got), device, link, None, sent))


def heard(session, link=None):
    """The session with this link, or its own without one, and the line that an honest receiver makes of it."""
    link = session.link if link is None else link
    received = model.check(session.proto, session.key, session.direction, session.floors[1], link, session.profile)[0]
    return session._replace(link=link, received=received)


def packets(session):
    """For each packet its first tick, and the tick after its last one."""
    return [(start, start + len(frame) + session.profile.delay - 1) for _, start, frame in session.sent]


def put(ticks, place, piece):
    """The ticks with a piece in place of as many ticks from `place` on."""
    return ticks[:place] + piece + ticks[place + len(piece):]


def packet_of(session, number, frame):
    return frame + [None] * PAUSE + model.trailer(session.proto, session.key, session.direction, frame, number, session.profile)


def other_byte(ticks, place, chance):
    return put(ticks, place, [(ticks[place] or 0) ^ chance.randrange(1, 256)])


# ---- what an attacker does to a link that an honest receiver takes

def on_link(change):
    return lambda session, chance: heard(session, change(session, chance))


def change_a_frame(session, chance):
    first, _ = chance.choice(packets(session))
    return other_byte(session.link, first + chance.randrange(4), chance)


def change_a_trailer(session, chance):
    _, behind = chance.choice(packets(session))
    return other_byte(session.link, behind - 1 - chance.randrange(session.profile.word + session.profile.tag), chance)


def remove(session, chance):
    first, behind = chance.choice(packets(session))
    return put(session.link, first, [None] * (behind - first))


def repeat(session, chance):
    first, behind = chance.choice(packets(session))
    return session.link + [None] * 40 + session.link[first:behind]


def swap(session, chance):
    one, other = sorted(chance.sample(packets(session), 2))
    link = session.link
    return link[:one[0]] + link[other[0]:other[1]] + link[one[1]:other[0]] + link[one[0]:one[1]] + link[other[1]:]


def cut(session, chance):
    first, behind = chance.choice(packets(session))
    kept = chance.randrange(1, behind - first)
    return put(session.link, first + kept, [None] * (behind - first - kept))


def send_back(session, chance):
    """A link that the same key sealed for the other direction, sent back as it came."""
    return model.seal(session.proto, session.key, 1 - session.direction, session.floors[1], session.device, session.profile)[0]


def delay_all(session, chance):
    return [None] * chance.randrange(1, 500) + session.link


# ---- what somebody with the key does

def forge(session, chance):
    """A frame that an insider seals with the next number, after all others."""
    number = session.sent[-1][0] + 1
    return session.link + [None] * 40 + packet_of(session, number, some_frame(session.proto, chance)) + [None] * 4


def forge_ahead(session, chance):
    """A frame that an insider seals with a number so far ahead that it may be too far."""
    number = min(LIMIT, session.sent[-1][0] + chance.choice([2, 1000, 65535, 65536, 65537, 1 << 33]))
    return session.link + [None] * 40 + packet_of(session, number, some_frame(session.proto, chance)) + [None] * 4


def forge_a_sealed_number(session, chance):
    """Another frame in place of one that was sealed, with the same number and the right tag."""
    number, start, frame = chance.choice(session.sent)
    other = some_frame(session.proto, chance)
    while other == frame:
        other = some_frame(session.proto, chance)
    behind = start + len(frame) + session.profile.delay - 1
    return session.link[:start] + packet_of(session, number, other) + session.link[behind:]


def bring_an_old_one(session, chance):
    """A packet from before the session, sent to a receiver whose journal was put back."""
    while session.floors[0] == 0:
        session = some_session(chance)
    floor = session.floors[0]
    old = packet_of(session, floor, some_frame(session.proto, chance))
    return heard(session._replace(floors=(floor, floor - 1)), [None] * 4 + old + [None] * 40 + session.link)


# ---- what is done to the line that the device got

def on_received(change):
    return lambda session, chance: session._replace(received=change(session, chance))


def leaves(session, chance):
    """The tick at which a frame begins to leave the receiver, and its length."""
    _, start, frame = chance.choice(session.sent)
    return start + session.profile.delay, len(frame)


def change_what_was_got(session, chance):
    place, size = leaves(session, chance)
    return other_byte(session.received, place + chance.randrange(size), chance)


def add_a_frame(session, chance):
    return session.received + [None] * 40 + some_frame(session.proto, chance)


def insert_a_frame(session, chance):
    place, size = leaves(session, chance)
    return session.received[:place] + some_frame(session.proto, chance) + [None] * 30 + session.received[place:]


def take_a_frame(session, chance):
    place, size = leaves(session, chance)
    return put(session.received, place, [None] * size)


def let_one_come_later(session, chance):
    place, size = leaves(session, chance)
    return put(session.received, place, [None] + session.received[place:place + size])


def cut_short(session, chance):
    place, size = leaves(session, chance)
    return session.received[:place + chance.randrange(size)]


def cut_after_all(session, chance):
    _, start, frame = session.sent[-1]
    return session.received[:start + session.profile.delay + len(frame) + chance.randrange(20)]


def stop_at_the_verdict(session, chance):
    """All three recordings end in the tick of the last verdict: the last byte of the frame leaves one tick later."""
    ticks = packets(session)[-1][1]
    return session._replace(device=session.device[:ticks], link=session.link[:ticks], received=session.received[:ticks])


def one_tick_longer(session, chance):
    """All three recordings end in the tick of the last verdict, but the third one is a tick longer."""
    short = stop_at_the_verdict(session, chance)
    return short._replace(received=session.received[:len(short.link) + 1])


# ---- wrong floors, wrong first lists, and lists in which no frame is

def sender_floor(session, chance):
    floor = session.floors[0]
    wrong = chance.choice([other for other in (floor - 1, floor + 1, floor + 5, 0, LIMIT) if 0 <= other <= LIMIT and other != floor])
    return session._replace(floors=(wrong, session.floors[1]))


def receiver_floor(session, chance):
    """A floor at or above the first number of the session, so that a packet seems to be refused."""
    return session._replace(floors=(session.floors[0], chance.choice([session.sent[0][0], session.sent[-1][0], LIMIT])))


def low_receiver_floor(session, chance):
    """A floor below the right one, but near enough."""
    return session._replace(floors=(session.floors[0], max(0, session.floors[1] - chance.choice([1, 2, 1000]))))


def miss_a_frame(session, chance):
    _, start, frame = chance.choice(session.sent)
    return session._replace(device=put(session.device, start, [None] * len(frame)))


def begin_late(session, chance):
    """The device's recording begins after its first frame."""
    _, start, frame = session.sent[0]
    return session._replace(device=session.device[start + len(frame):])


def end_early(session, chance):
    """The device's recording ends before its last frame."""
    return session._replace(device=session.device[:session.sent[-1][1]])


def silence(session, chance):
    return session._replace(**{name: [None] * chance.choice([0, 1, 50, 1000]) for name in ("device", "link", "received")})


def some_noise(chance):
    return [chance.choice([0x05, 0x64, None, None, chance.randrange(256)]) for _ in range(chance.randrange(1, 300))]


def noise(session, chance):
    return session._replace(device=some_noise(chance), link=some_noise(chance), received=some_noise(chance))


def noise_between(session, chance):
    """Noise on the link after the packets, taken by an honest receiver."""
    return heard(session, session.link + [None] * 40 + some_noise(chance))


def other_key(session, chance):
    return session._replace(key=bytes(byte ^ 1 for byte in session.key))


def lose_a_list(session, chance):
    return session._replace(**{chance.choice(["device", "link", "received"]): []})


# What is done, and the verdicts that may result from it.
DEEDS = {
    "nothing": (lambda session, chance: session, CLEAN),
    "link: a frame changed": (on_link(change_a_frame), CLEAN),
    "link: a trailer changed": (on_link(change_a_trailer), CLEAN),
    "link: a packet removed": (on_link(remove), CLEAN),
    "link: a packet repeated": (on_link(repeat), CLEAN),
    "link: two packets swapped": (on_link(swap), CLEAN),
    "link: a packet cut": (on_link(cut), CLEAN),
    "link: sent back the way it came": (on_link(send_back), CLEAN),
    "link: all of it later": (on_link(delay_all), CLEAN),
    "link: noise after it": (noise_between, CLEAN),
    "insider: a tag forged": (on_link(forge), FORGED),
    "insider: a number ahead": (on_link(forge_ahead), FORGED, CLEAN),
    "insider: a frame under a sealed number": (on_link(forge_a_sealed_number), FORGED),
    "journal put back: an old packet": (bring_an_old_one, FORGED),
    "got: a byte changed": (on_received(change_what_was_got), DIFFERS),
    "got: a frame more": (on_received(add_a_frame), DIFFERS),
    "got: a frame between": (on_received(insert_a_frame), DIFFERS),
    "got: a frame less": (on_received(take_a_frame), DIFFERS),
    "got: a frame a tick later": (on_received(let_one_come_later), DIFFERS),
    "got: cut inside a frame": (on_received(cut_short), DIFFERS),
    "got: cut after the last frame": (on_received(cut_after_all), CLEAN),
    "all: cut in the tick of a verdict": (stop_at_the_verdict, DIFFERS),
    "all: so cut, but the third longer": (one_tick_longer, CLEAN),
    "floors: the sender's wrong": (sender_floor, FORGED),
    "floors: the receiver's too high": (receiver_floor, DIFFERS),
    "floors: the receiver's too low": (low_receiver_floor, CLEAN),
    "first list: a frame missing": (miss_a_frame, FORGED),
    "first list: begins too late": (begin_late, FORGED),
    "first list: ends too soon": (end_early, FORGED),
    "key: that of another line": (other_key, DIFFERS),
    "silence alone": (silence, EMPTY),
    "noise alone": (noise,) + VERDICTS,
    "a list missing": (lose_a_list,) + VERDICTS,
}


# ---- the line of a device on a live line, where each frame comes later, and behind a spacer

def may_be_late(session, least, most, spaced=False):
    """The session, audited with these words."""
    more = ["%d..%d" % (least, most)] + ["spaced"] * spaced
    return session._replace(late=Late(least, most, spaced), more=more)


def some_range(chance):
    """LEAST and MOST as a live line has them, and narrow and wide ones."""
    least = chance.choice([0, 0, 1, 128, 128, 5000])
    return least, least + chance.choice([0, 1, 3, 60, 60, 400])


def laid(frames):
    """A line with these frames, each from its tick on, and silence after the last one."""
    line = []
    for start, frame in sorted(frames):
        line += [None] * (start - len(line)) + frame
    return line + [None] * 40


def jittered(session, chance, least, most):
    """The frames of the third line, each from `least` to `most` ticks later, but none into the one before it."""
    free, frames = 0, []
    for start, frame in model.reads(session.proto, session.received):
        tick = max(start + chance.randrange(least, most + 1), free)
        frames.append((tick, frame))
        free = tick + len(frame) + CUT
    return frames


def later(session, chance, spaced=False):
    """The session with a third line whose frames jitter, and the range of it."""
    least, most = some_range(chance)
    return session._replace(received=laid(jittered(session, chance, least, most))), least, most


def live(session, chance):
    session, least, most = later(session, chance)
    return may_be_late(session, least, most)


def live_with_room(session, chance):
    session, least, most = later(session, chance)
    return may_be_late(session, max(0, least - chance.randrange(1, 200)), most + chance.randrange(1, 3000))


def live_as_a_whole(session, chance):
    least, most = some_range(chance)
    return may_be_late(session._replace(received=[None] * chance.randrange(least, most + 1) + session.received), least, most)


def one_at(session, chance, ticks, least, most):
    """All frames `least` ticks later, but the last one, which has room, this many ticks later than the receiver sends it."""
    frames = [(start + least, frame) for start, frame in model.reads(session.proto, session.received)]
    frames[-1] = (frames[-1][0] - least + ticks, frames[-1][1])
    return may_be_late(session._replace(received=laid(frames)), least, most)


def one_too_late(session, chance):
    least, most = some_range(chance)
    return one_at(session, chance, most + 1, least, most)


def one_too_early(session, chance):
    least, most = chance.choice([(1, 1), (1, 9), (128, 190)])
    first = model.reads(session.proto, session.received)[0]
    return one_at(session, chance, least - 1, least, most) if first else session


def range_too_small(session, chance):
    session = live(session, chance)
    read = model.reads(session.proto, session.received)
    passed = model.check(session.proto, session.key, session.direction, session.floors[1], session.link, session.profile)[3]
    waits = [tick - start - session.profile.delay for (tick, _), (_, start, _) in zip(read, passed)]
    if chance.randrange(2) and max(waits):
        return may_be_late(session, 0, max(waits) - 1)
    return may_be_late(session, min(waits) + 1, max(waits) + 1)


def swapped_in_range(session, chance):
    """Two other frames change places, in a range that is wide enough for both."""
    frames = model.reads(session.proto, session.received)
    while frames[0][1] == frames[1][1]:
        session = some_session(chance)
        frames = model.reads(session.proto, session.received)
    (one, first), (other, second) = frames[:2]
    moved = [(one, second), (one + len(second) + 30, first)] + [(tick + 2000, frame) for tick, frame in frames[2:]]
    return may_be_late(session._replace(received=laid(moved)), 0, 5000)


def spaced_line(session):
    return session._replace(received=model.space(session.proto, session.received, session.profile)[0])


def spaced(session, chance):
    return may_be_late(spaced_line(session), 0, 0, True)._replace(more=chance.choice([["spaced"], ["0..0", "spaced"]]))


def spaced_and_late(session, chance):
    session, least, most = later(spaced_line(session), chance)
    return may_be_late(session, least, most, True)


def spaced_after(change):
    """What an attacker does to the link, taken by an honest receiver with a spacer behind it."""
    return lambda session, chance: spaced(change(session, chance), chance)


def spaced_and_changed(session, chance):
    session = spaced_line(session)
    start, frame = chance.choice(model.reads(session.proto, session.received))
    return may_be_late(session._replace(received=other_byte(session.received, start + chance.randrange(len(frame)), chance)), 0, 9, True)


def uneven(change):
    """The same of a session whose frames have silent ticks inside, which a spacer leaves out."""
    return lambda session, chance: change(some_session(chance, gaps=True), chance)


def one_tick_off(session, chance):
    """The spaced line of a session whose frames have silent ticks inside, a tick earlier or later."""
    session = spaced_line(some_session(chance, gaps=True))
    received = chance.choice([[None] + session.received, session.received[1:]])
    return may_be_late(session._replace(received=received), *chance.choice([(0, 0), (2, 9)]), True)


def without_a_spacer(session, chance):
    return may_be_late(session, 0, chance.choice([0, 0, 9]), True)


def not_said_to_be_spaced(session, chance):
    return may_be_late(spaced_line(session), 0, 0)


def no_words(*all_of_them):
    """Words behind the floors that are no words of an audit."""
    return lambda session, chance: session._replace(late=None, more=chance.choice(all_of_them))


LIVE = {
    "live: in the range": (live, CLEAN),
    "live: a range with room": (live_with_room, CLEAN),
    "live: all as late": (live_as_a_whole, CLEAN),
    "live: `0..0` said": (lambda session, chance: may_be_late(session, 0, 0), CLEAN),
    "live: a frame a tick too late": (one_too_late, DIFFERS),
    "live: a frame a tick too early": (one_too_early, DIFFERS),
    "live: a range too small": (range_too_small, DIFFERS),
    "live: two frames change places": (swapped_in_range, DIFFERS),
    "live: LEAST above MOST": (no_words(["5..4"], ["1000000..999999"], ["1..0", "spaced"]), USAGE),
    "live: MOST above 1,000,000": (no_words(["0..1000001"], ["0..4294967296"], ["0..18446744073709551616", "spaced"]), USAGE),
    "live: no canonical decimals": (no_words(["00..1"], ["0..01"], ["+0..1"], ["0.1"], ["0...1"], ["..1"], ["0.."], ["0-1"], [""]), USAGE),
    "live: words in the wrong order": (no_words(["spaced", "0..5"], ["spaced", "0..0"], ["spaced", "spaced"], ["0..5", "0..5"]), USAGE),
    "live: a word too many": (no_words(["0..5", "spaced", "spaced"], ["0..5", "spaced", ""], ["0..5", "Spaced"], ["spaced "]), USAGE),
    "spacer: said": (spaced, CLEAN),
    "spacer: said, and in the range": (spaced_and_late, CLEAN),
    "spacer: a packet removed": (spaced_after(on_link(remove)), CLEAN),
    "spacer: a frame changed": (spaced_after(on_link(change_a_frame)), CLEAN),
    "spacer: a trailer changed": (spaced_after(on_link(change_a_trailer)), CLEAN),
    "spacer: noise after it": (spaced_after(noise_between), CLEAN),
    "spacer: a byte changed behind it": (spaced_and_changed, DIFFERS),
    "spacer: frames with silence inside": (uneven(spaced), CLEAN),
    "spacer: such frames, in the range": (uneven(spaced_and_late), CLEAN),
    "spacer: such frames, one removed": (uneven(spaced_after(on_link(remove))), CLEAN),
    "spacer: such frames, a byte changed": (uneven(spaced_and_changed), DIFFERS),
    "spacer: such frames, a tick off": (one_tick_off, DIFFERS),
    "spacer: not said": (not_said_to_be_spaced, DIFFERS),
    "spacer: said, and there is none": (without_a_spacer, DIFFERS),
}


# ---- mistakes of the person who audits a session to which nothing was done

def in_order(*names):
    """The recordings in another order, or one of them more than once."""
    return lambda session, chance: session._replace(**dict(zip(("device", "link", "received"), (getattr(session, name) for name in names))))


def wrong_direction(session, chance):
    return session._replace(direction=1 - session.direction)


def wrong_profile(session, chance):
    return session._replace(profile=Y24 if session.profile is Y18 else Y18)


def wrong_protocol(session, chance):
    return session._replace(proto=Dnp3 if session.proto is Rtu else Rtu)


def floors_of(sender, receiver):
    """Floors that are this much too high, or too low where the number is negative."""
    def change(session, chance):
        while session.floors[1] < 3:
            session = some_session(chance)
        return session._replace(floors=(session.floors[0] + sender, session.floors[1] + receiver))
    return change


def receiver_above_all(session, chance):
    return session._replace(floors=(session.floors[0], session.sent[-1][0]))


def receiver_above_the_first(session, chance):
    return session._replace(floors=(session.floors[0], session.sent[0][0]))


def third_later(session, chance):
    return session._replace(received=[None] * chance.choice([1, 2, 30]) + session.received)


def third_earlier(session, chance):
    return session._replace(received=session.received[1:])


def third_silent(session, chance):
    return session._replace(received=[None] * len(session.received))


def second_silent(session, chance):
    return session._replace(link=[None] * len(session.link))


def behind_a_spacer(session, chance):
    return session._replace(received=model.space(session.proto, session.received, session.profile)[0])


def of_another_day(session, chance):
    """The device's line of another session, with the same floors."""
    other = some_session(chance)
    while other.proto is not session.proto or [frame for _, _, frame in other.sent][0] == session.sent[0][2]:
        other = some_session(chance)
    return session._replace(device=other.device)


ALL_READ = r"sealed (\d+) passed \1 read \1\n"
LATER = r"audit differs 0 %sexpected at \d+ (\w+)\nfound at \d+ \2\n" % ALL_READ
NONE_PASSED = r"audit differs 0 sealed \d+ passed 0 read [1-9]\d*\nexpected none\nfound at \d+ \w+\n"
NOTHING_CAME = r"audit clean sealed [1-9]\d* passed 0 read 0\n"
ENDS_SOON = r"audit differs (\d+) sealed \d+ passed \d+ read \1\nexpected at \d+ \w+\nfound none\n"


def first_is_forged(text, session):
    return re.fullmatch("audit forged %d at %d %s" % (session.sent[0][0], session.sent[0][1], ALL_READ), text)


def second_is_expected(text, session):
    """The second frame of the session was expected, and the first one was found, which comes earlier."""
    (_, first, frame), (_, second, other) = session.sent[:2]
    lines = [frame_or_none("expected", (second + session.profile.delay, other)), frame_or_none("found", (first + session.profile.delay, frame))]
    return re.fullmatch(r"audit differs 0 sealed \d+ passed \d+ read \d+\n%s" % "".join(lines), text)


def found_later(text, session):
    ticks = re.findall(r" at (\d+) ", text)
    return re.fullmatch(LATER, text) and int(ticks[0]) < int(ticks[1])


def found_earlier(text, session):
    ticks = re.findall(r" at (\d+) ", text)
    return re.fullmatch(LATER, text) and int(ticks[0]) > int(ticks[1])

# What is done, and the answers that it may have: an expression over the whole output, or a function of it and the session.
MISTAKES = {
    "mistake: first and second swapped": (in_order("link", "device", "received"), NONE_PASSED),
    "mistake: second and third swapped": (in_order("device", "received", "link"), NOTHING_CAME, NONE_PASSED),
    "mistake: first and third swapped": (in_order("received", "link", "device"), found_earlier),
    "mistake: the link first": (in_order("link", "received", "device"), NONE_PASSED),
    "mistake: the link last": (in_order("received", "device", "link"), NOTHING_CAME, NONE_PASSED),
    "mistake: the first three times": (in_order("device", "device", "device"), NONE_PASSED),
    "mistake: the link three times": (in_order("link", "link", "link"), r"audit forged \d+ at \d+ sealed 0 passed [1-9]\d* read \d+\n"),
    "mistake: the third three times": (in_order("received", "received", "received"), NONE_PASSED),
    "mistake: another key": (other_key, NONE_PASSED),
    "mistake: the other direction": (wrong_direction, NONE_PASSED),
    "mistake: the other profile": (wrong_profile, NONE_PASSED),
    "mistake: the other protocol": (wrong_protocol, r"audit empty sealed 0 passed 0 read 0\n"),
    "mistake: F too high": (floors_of(1, 0), first_is_forged),
    "mistake: F too low": (floors_of(-1, 0), first_is_forged),
    "mistake: G above all numbers": (receiver_above_all, NONE_PASSED),
    "mistake: G above the first number": (receiver_above_the_first, second_is_expected),
    "mistake: G a little too low": (floors_of(0, -1), r"audit clean %s" % ALL_READ),
    "mistake: the third begins earlier": (third_later, found_later),
    "mistake: the third begins a tick later": (third_earlier, found_earlier),
    "mistake: the third silent": (third_silent, r"audit differs 0 sealed (\d+) passed \1 read 0\nexpected at \d+ \w+\nfound none\n"),
    "mistake: the second silent": (second_silent, NONE_PASSED),
    "mistake: second and third silent": (lambda session, chance: second_silent(third_silent(session, chance), chance), NOTHING_CAME),
    "mistake: the third behind a spacer": (behind_a_spacer, found_later),
    "mistake: the third ends too soon": (on_received(cut_short), ENDS_SOON),
    "mistake: the first of another day": (of_another_day, r"audit forged \d+ at \d+ sealed \d+ passed (\d+) read \1\n"),
}


def words_of(session, key_file):
    link = [model.word_of(session.proto, session.profile), ("ab", "ba")[session.direction]]
    return ["audit"] + link + [key_file] + [str(floor) for floor in session.floors] + list(session.more)


def wanted_of(session):
    """What the model says of a session: the text and the status. Words that are none of an audit are refused."""
    if session.late is None:
        return "fault: usage\nusage: link_replay audit P DIR KEY F G [LEAST..MOST] [spaced]\n", 2
    return model.audit(session.proto, session.key, session.direction, session.floors, *lists_of(session), session.profile, session.late)


def lists_of(session):
    return [session.device, session.link, session.received]


def answer_of(text, status):
    """A text and a status as one text."""
    return "%sstatus %d\n" % (text, status)


class Program:
    """The program that is tried. A wrong one of WRONG changes its words, its lists or its line."""

    def __init__(self, path, folder):
        self.path, self.key_file = path, os.path.join(folder, "key")

    def run(self, session):
        """What it writes, with the log and the status behind it."""
        with open(self.key_file, "w") as file:
            file.write(session.key.hex())
        text = "%\n".join(map(model.canonical, self.lists(lists_of(session))))
        ran = subprocess.run([self.path] + self.words(words_of(session, self.key_file)), input=text, capture_output=True, text=True)
        return self.line(answer_of(ran.stdout + ran.stderr, ran.returncode))

    def words(self, words):
        return words

    def lists(self, lists):
        return lists

    def line(self, line):
        return line


def made_wrong(program, **changes):
    """A class of programs like this one, with the methods that are named changed."""
    return type("Wrong", (program,), {name: staticmethod(change) for name, change in changes.items()})


wrong = functools.partial(made_wrong, Program)


def one_more(pattern):
    """A line in which the number after this word is one greater."""
    return lambda line: re.sub(pattern, lambda found: found[1] + str(int(found[2]) + 1), line)


def as_clean(line):
    """The answer with the same counts, but clean."""
    return answer_of("audit clean " + re.search(r"sealed .*\n", line)[0], 0)


def counts_for_numbers(line):
    """The answer of a program that only compares counts, and so doesn't see that a frame that passed wasn't read."""
    return as_clean(line) if line.startswith("audit differs") else line


def sealed_in(session):
    return model.seal(session.proto, session.key, session.direction, session.floors[0], session.device, session.profile)[3]


def passed_in(session):
    return model.check(session.proto, session.key, session.direction, session.floors[1], session.link, session.profile)[3]


def counted(session):
    """The line of a clean verdict, whatever is in the lists."""
    read = model.reads(session.proto, session.received)
    return answer_of("audit clean sealed %d passed %d read %d\n" % (len(sealed_in(session)), len(passed_in(session)), len(read)), 0)


class ByNumberAlone(Program):
    """A program that takes a passed frame for sealed if any frame was sealed with its number."""

    def run(self, session):
        line = super().run(session)
        found = re.match(r"audit forged (\d+) ", line)
        return counted(session) if found and int(found[1]) in [number for number, _, _ in sealed_in(session)] else line


class ByFrameAlone(Program):
    """A program that takes a passed frame for sealed if its bytes were sealed with any number."""

    def run(self, session):
        line, frames = super().run(session), [frame for _, _, frame in sealed_in(session)]
        found = re.match(r"audit forged (\d+) ", line)
        named = [frame for number, _, frame in passed_in(session) if found and number == int(found[1])]
        return counted(session) if named and named[0] in frames else line


class LongerIsClean(Program):
    """A program that doesn't see frames after the last one that passed."""

    def run(self, session):
        line = super().run(session)
        return counted(session) if line.startswith("audit differs %d " % len(passed_in(session))) else line


WRONG = {
    "differences counted from 1": wrong(line=one_more(r"(differs )(\d+)")),
    "floors swapped": wrong(words=lambda words: words[:4] + words[:3:-1]),
    "floors taken for 0": wrong(words=lambda words: words[:4] + ["0", "0"]),
    "forged called clean": wrong(line=lambda line: as_clean(line) if "forged" in line else line),
    "forged called different": wrong(line=lambda line: re.sub("forged \\d+ at \\d+", "differs 0", line)),
    "empty called clean": wrong(line=lambda line: as_clean(line) if "empty" in line else line),
    "nothing passed called empty": wrong(line=lambda line: re.sub("clean (.* passed 0 read 0\n)", r"empty \1", line)),
    "each verdict with status 0": wrong(line=lambda line: re.sub(r"status 1[456]\n", "status 0\n", line)),
    "differences with the status of forged": wrong(line=lambda line: line.replace("status 15", "status 14")),
    "expected and found exchanged": wrong(line=lambda line: re.sub(r"expected (.*)\nfound (.*)\n", r"expected \2\nfound \1\n", line)),
    "the frame behind the one that was found": wrong(line=lambda line: line.replace("found at", "found none\nfound at")),
    "expected in the tick of the link": wrong(line=lambda line: re.sub(r"(expected at )(\d+)", lambda found: found[1] + str(int(found[2]) - 18), line)),
    "differences not seen": wrong(line=counts_for_numbers),
    "forged told by the number alone": ByNumberAlone,
    "forged told by the frame alone": ByFrameAlone,
    "frames after the last one not seen": LongerIsClean,
    "the tick of a forged frame a tick late": wrong(line=one_more(r"(forged \d+ at )(\d+)")),
    "one too many read": wrong(line=one_more(r"(read )(\d+)")),
    "counts of a clean verdict alone": wrong(line=lambda line: re.sub(r"((?:forged|differs) .*?) sealed .*\n", r"\1\n", line)),
    "sealed and passed exchanged": wrong(line=lambda line: re.sub(r"sealed (\d+) passed (\d+)", r"sealed \2 passed \1", line)),
    "the third list cut to the second's length": wrong(lists=lambda lists: lists[:2] + [lists[2][:len(lists[1])]]),
    "the first list taken for the second": wrong(lists=lambda lists: [lists[1], lists[1], lists[2]]),
    "the third list without its last tick": wrong(lists=lambda lists: lists[:2] + [lists[2][:-1]]),
    "the other direction": wrong(words=lambda words: words[:2] + [{"ab": "ba", "ba": "ab"}[words[2]]] + words[3:]),
    "a fault line beside the verdict": wrong(line=lambda line: line + "fault: memory\n"),
    "any frame as late as it likes": wrong(words=lambda words: [re.sub(r"^(\d+)\.\.\d+$", r"\1..1000000", word) for word in words]),
    "any frame as early as it likes": wrong(words=lambda words: [re.sub(r"^\d+\.\.(\d+)$", r"0..\1", word) for word in words]),
    "the range not read": wrong(words=lambda words: [word for word in words if ".." not in word]),
    "the spacer not read": wrong(words=lambda words: [word for word in words if word != "spaced"]),
    "the spacer taken for granted": wrong(words=lambda words: [word for word in words if word != "spaced"] + ["spaced"]),
}


ALL = {**DEEDS, **LIVE, **MISTAKES}


def is_allowed(answer, name, text, session):
    """Whether an answer that a deed may have is this one: its kind alone, or for a mistake all of it."""
    if callable(answer):
        return answer(text, session)
    return re.fullmatch(answer, text if name in MISTAKES else text.split()[1])


def disagreements(program, sessions, seed, first_only=False):
    """The places where program, model and deed disagree, in words, and how often each deed led to each verdict."""
    chance, seen, found = random.Random(seed), collections.Counter(), []
    for turn in range(sessions):
        name = list(ALL)[turn % len(ALL)]
        deed, *allowed = ALL[name]
        session = deed(some_session(chance), chance)
        text, status = wanted_of(session)
        kind, wanted, wrote = text.split()[1], answer_of(text, status), program.run(session)
        seen[name, kind] += 1
        if not any(is_allowed(answer, name, text, session) for answer in allowed):
            found.append("%s: the model says `%s`, which can't come of it" % (name, text.strip()))
        if wrote != wanted:
            found.append("%s: the program says `%s` and the model `%s`, of `%s` and the lists\n%s" % (
                name, wrote.strip(), wanted.strip(), " ".join(words_of(session, "KEY")),
                "%\n".join(map(model.canonical, lists_of(session)))))
        if found and first_only:
            break
    return found, seen


def compare(path, sessions, seed, folder):
    found, seen = disagreements(Program(path, folder), sessions, seed)
    print("%-40s%s" % ("%d sessions, seed %d" % (sessions, seed), "".join("%9s" % kind for kind in KINDS)))
    for name in ALL:
        print(("%-40s%s" % (name, "".join("%9s" % (seen[name, kind] or "") for kind in KINDS))).rstrip())
    sums = [sum(count for (_, kind), count in seen.items() if kind == each) for each in KINDS]
    print("%-40s%s" % ("all of them", "".join("%9d" % count for count in sums)))
    found += ["no verdict was `%s`" % kind for kind, count in zip(KINDS, sums) if not count]
    print("\n".join(found[:5] + ["%d disagreements" % len(found) if found else "all verdicts are what the model says"]))
    return 1 if found else 0


def try_wrong_ones(path, seed, folder):
    missed = 0
    for name, made in WRONG.items():
        found, seen = disagreements(made(path, folder), 20 * len(ALL), seed, first_only=True)
        missed += not found
        said = "told after %3d sessions: %s" % (sum(seen.values()), found[0].split("\n")[0].split(", of `")[0]) if found else "NOT TOLD"
        print("%-43s %s" % (name, said))
    print("%d wrong programs, %d not told from the right one" % (len(WRONG), missed))
    return 1 if missed else 0


def main(words):
    sessions = int(words[0]) if words else 1120
    path = built.program(words, 1)
    seed = int(words[2]) if len(words) > 2 else 1
    with tempfile.TemporaryDirectory(prefix="audit.") as folder:
        return compare(path, sessions, seed, folder) or try_wrong_ones(path, seed, folder)


if __name__ == "__main__":
    sys.exit(main(sys.argv[1:]))
