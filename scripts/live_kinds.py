#!/usr/bin/env python3
"""Runs live lines over both protocols and profiles, at two rates, between a master and a device of its own.

    python3 scripts/live_kinds.py [KIND..] [BAUD..] [--over PROGRAM]

KIND is rtu, dnp3, rtu24 or dnp24, and BAUD is 9600 or 115200. Without them all kinds and rates are run. As in live.py, the line of
each is a master, a bridge, an attacker, a bridge and a device, over pseudo-terminals. The device counts bytes: it
takes as many as a request has, and acts on them at once. A bridge is the adapter tty_ticks, and behind it `link_replay live line` or,
with `--over`, PROGRAM, which has the same words. In a first session nobody attacks. In a second one, with the same journals,
ten sorts of things are done to the requests.

The exit status is 0 only if each poll without an attack was answered (in up to 25 tries: a byte that this machine hands on too late
breaks its frame), each sort of attack was done, all bytes that the device got are requests of the master, whole, in order and each at
most once, and the journals have the numbers that the notes say were sealed and passed. It is 2 if something isn't installed. It is no
part of the gate.
"""
import sys, tempfile, time

import bridge_build
from live_line import SORTS, Bridges, ends_of, link_of, make_key
from model import Dnp3, Rtu

KINDS, RATES = ("rtu", "dnp3", "rtu24", "dnp24"), (9600, 115200)
POLLS, TRIES, PATIENCE = 8, 25, 0.8
TARGET, EVIL = 5, 666


def request_of(kind, number, value):
    """A request with its own number that asks the device to put a value into its register."""
    content = number.to_bytes(4, "big") + bytes((1, TARGET)) + value.to_bytes(2, "big")
    if kind.startswith("rtu"):
        body = bytes((1, 0x41)) + content
        return body + Rtu.end(body)
    header = bytes((0x05, 0x64, 5 + len(content), 0xC4, 1, 0, 2, 0))
    return header + Dnp3.end(header) + content + Dnp3.end(content)


class Session(Bridges):
    """One uptime of both bridges between a master and a device, and what came to the device. `first` is the number of the master's
    first request."""

    def __init__(self, programs, folder, link, old, make, first):
        self.given, self.asked, self.replies, self.first = b"", [], b"", first
        super().__init__(programs, folder, link, old, make)
        self.size = len(link.evil)
        self.run(self.serve)

    def serve(self):
        """Runs the device, which sends each request back. It counts bytes, and ignores silence."""
        taken = 0
        while not self.stopping.is_set():
            content = self.b_device.come(0.2)
            if content is None:
                return
            self.given += content
            while len(self.given) - taken >= self.size:
                self.b_device.write(self.given[taken:taken + self.size])
                taken += self.size

    def poll(self, value):
        """Sends a request, and returns whether it is answered."""
        request = request_of(self.link.kind, self.first + len(self.asked), value)
        self.asked.append(request)
        self.a_device.write(request)
        end = time.monotonic() + PATIENCE
        while request not in self.replies and time.monotonic() < end:
            self.replies += self.a_device.come(0.05) or b""
        return request in self.replies

    def surely(self, value):
        """Polls until a poll is answered. Returns how many polls it took, or None if none was answered."""
        return next((tries for tries in range(1, TRIES + 1) if self.poll(value)), None)

    def device_got_requests_alone(self):
        """Whether all bytes that the device got are requests that the master sent, whole, in order and each at most once."""
        got = [self.given[place:place + self.size] for place in range(0, len(self.given), self.size)]
        places = [self.asked.index(request) if request in self.asked else -1 for request in got]
        return -1 not in places and all(one < other for one, other in zip(places, places[1:]))


def under_attack(session):
    """Polls until each sort of attack was done, with one poll before and one after that isn't attacked. Returns whether these two were
    answered, and how many polls there were under attack and how many of them were answered."""
    before = session.surely(2000)
    session.attacker.quiet, polls, answered = False, 0, 0
    while len(session.attacker.done) < len(SORTS) and polls < 80:
        polls += 1
        answered += session.poll(2000 + polls)
    session.attacker.quiet = True
    return None not in (before, session.surely(3000)), polls, answered


def tried(programs, kind, baud):
    """Runs one kind at one rate. Returns what was wrong, and prints it and what was seen."""
    parity = "even" if kind.startswith("rtu") else "none"
    link, wrong = link_of(kind, baud, parity, request_of(kind, 0, EVIL)), []

    def see(holds, what):
        if not holds:
            wrong.append(what)
            print("WRONG  %s at %d baud: %s" % (kind, baud, what), flush=True)

    with tempfile.TemporaryDirectory() as folder:
        make_key(folder)
        session = Session(programs, folder, link, [], True, 1)
        begun, tries = time.monotonic(), [session.surely(1000 + number) for number in range(POLLS)]
        seconds = time.monotonic() - begun
        old, statuses = list(session.attacker.seen["ab"]), session.end()
        numbers = {kept: number for kept, number, _, _ in session.numbers()}
        see(statuses == [0, 0], "a bridge ended with a status other than 0")
        see(None not in tries, "of the polls without an attack some were never answered: %s" % tries)
        see(session.device_got_requests_alone(), "the device got bytes that are no requests: %s" % session.given.hex())
        if not old:
            return wrong
        session = Session(programs, folder, link, old, False, 1000)
        both, polls, answered = under_attack(session)
        done = session.attacker.done
        see(session.end() == [0, 0], "a bridge ended with a status other than 0")
        see(both, "no poll was answered before the attacks, or none after them")
        see(len(done) == len(SORTS), "some attack wasn't done: %s" % dict(done))
        see(session.device_got_requests_alone(), "the device got bytes that are no requests: %s" % session.given.hex())
        for kept, number, word, noted in session.numbers():
            noted = numbers[kept] if noted is None else noted
            see(number is not None and number == noted,
                "journal %s has the number %s, and the last one that was %s is %s" % (kept, number, word, noted))
        counted = sum(each or TRIES for each in tries)
        print("%-5s %6d baud: %d polls without an attack took %d tries and %.0f ms each; under attack %d of %d were answered%s"
              % (kind, baud, POLLS, counted, 1000 * seconds / counted, answered, polls, "; WRONG" if wrong else ""), flush=True)
    return wrong


def main():
    words = [word for place, word in enumerate(sys.argv) if place > 0 and "--over" not in sys.argv[place - 1:place + 1]]
    kinds = [word for word in words if word in KINDS] or KINDS
    rates = [int(word) for word in words if word.isdecimal() and int(word) in RATES] or RATES
    if len([word for word in words if word not in KINDS and word not in map(str, RATES)]):
        print(__doc__.strip(), file=sys.stderr)
        return 1
    _, programs = ends_of(sys.argv[1:])
    wrong = [what for kind in kinds for baud in rates for what in tried(programs, kind, baud)]
    return 1 if wrong else 0


try:
    sys.exit(main())
except bridge_build.Missing as why:
    print("live_kinds: something isn't installed, or can't be built:\n%s" % why, file=sys.stderr)
    sys.exit(2)
