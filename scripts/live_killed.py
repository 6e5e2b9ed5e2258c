#!/usr/bin/env python3
"""Kills the adapter and the program of a live line at random, and looks for a number that is used or passes twice.

    python3 scripts/live_killed.py [ROUNDS] --over PROGRAM [SEED]

PROGRAM has the words `live line P DIR KEY SENT GOT` and `init P DIR JOURNAL`. One end of a link runs over pseudo-terminals at 9,600 baud,
and again in each of ROUNDS rounds (20 if not given). In each a master sends requests, and an attacker on the link sends all packets
again that another end has sealed in this round and the rounds before. Then the adapter or the program behind it is killed with SIGKILL.
SEED is a number from which the rounds are drawn (1).

It ends with 1 if a number comes twice on the link, or below one before it, if a frame passes twice, if the device gets anything but such
frames, or if packets came in fewer than a tenth of the rounds. Numbers may be skipped. It is no part of the gate.
"""
import os, random, signal, subprocess, sys, tempfile, time

import bridge_build, model
from live_line import Port, make_key, packet

BAUD, TICK, KIND = 9600, 11 / 9600, "rtu"
ROUNDS, REQUESTS, TRAILER = 20, 3, 14
NO_PARITY = ["-P", "none", "-S", "2"]


def frame_of(number):
    body = bytes((1, 0x41)) + number.to_bytes(4, "big")
    return body + model.Rtu.end(body)


def bytes_of(port, seconds):
    """What comes to a port within so many seconds."""
    content, end = b"", time.monotonic() + seconds
    while time.monotonic() < end:
        content += port.come(0.02) or b""
    return content


class End:
    """An end of the link: the adapter and the program, their ports, and their journals."""

    def __init__(self, folder, name, way, adapter, program):
        self.path, self.way, self.adapter, self.program = os.path.join(folder, name), way, adapter, program
        self.key = os.path.join(folder, "key.txt")
        for kept, direction in ((".sent", way), (".got", "ba" if way == "ab" else "ab")):
            subprocess.run([program, "init", KIND, direction, self.path + kept], check=True)

    def begin(self):
        self.device, self.link = Port(TICK), Port(TICK)
        words = [self.adapter, "-b", str(BAUD), *NO_PARITY, "-H", "30", "-D", "60", self.device.path, self.link.path, "--", self.program,
                 "live", "line", KIND, self.way, self.key, self.path + ".sent", self.path + ".got"]
        with open(self.path + ".log", "a") as log:
            self.run = subprocess.Popen(words, stdin=subprocess.DEVNULL, stdout=log, stderr=log, start_new_session=True)
        time.sleep(0.8)

    def programs(self):
        """The program and those that it has started."""
        found, left = [], [self.run.pid]
        while left:
            with open("/proc/%d/task/%d/children" % (left[0], left[0])) as file:
                left += map(int, file.read().split())
            found.append(left.pop(0))
        return found[1:]

    def end(self, how):
        programs = self.programs()
        for each in [self.run.pid] if how == "adapter" else programs if how == "program" else []:
            os.kill(each, signal.SIGKILL)
        if how == "stop":
            self.run.send_signal(signal.SIGTERM)
        self.run.wait(timeout=20)
        until = time.monotonic() + 10
        while any(os.path.exists("/proc/%d/fd/0" % each) for each in programs) and time.monotonic() < until:
            time.sleep(0.02)
        self.device.close(), self.link.close()


def sealed_in(link, key, direction):
    """The packets in what came to a link: each with its number, frame and trailer. A frame that wasn't sealed, or was cut, is none."""
    size, found, place = len(frame_of(0)), [], 0
    while place + size + TRAILER <= len(link):
        frame, trailer = link[place:place + size], link[place + size:place + size + TRAILER]
        number = int.from_bytes(trailer[:2], "big")
        if trailer == bytes(model.trailer(model.Rtu, key, direction, frame, number)):
            found.append((number, frame, trailer))
            place += size + TRAILER
        else:
            place += 1
    return found


class Rounds:
    def __init__(self, folder, program, seed):
        adapter = bridge_build.adapter()
        self.near, self.far = End(folder, "a", "ab", adapter, program), End(folder, "b", "ba", adapter, program)
        self.draw, self.asked, self.recorded, self.wrong = random.Random(seed), 0, [], 0
        self.numbers, self.passed, self.came = [], [], 0
        with open(self.near.key) as file:
            self.key = bytes.fromhex(file.read())

    def see(self, holds, what):
        if not holds:
            self.wrong += 1
            print("WRONG: %s" % what, flush=True)

    def seal_at(self, end, cut):
        """Sends requests to an end, and returns the packets that come from it. If `cut` isn't None it is killed so, at any moment."""
        end.begin()
        for _ in range(REQUESTS):
            self.asked += 1
            end.device.write(packet(frame_of(self.asked), b"") + [None] * 40)
        link = b""
        if cut:
            time.sleep(self.draw.uniform(0, 0.2))
        else:
            link = bytes_of(end.link, 0.5)
            end.end("stop")
        return link

    def round(self, how):
        self.recorded += [sealed[1:] for sealed in sealed_in(self.seal_at(self.far, None), self.key, 1)]
        self.seal_at(self.near, how)
        link = bytes_of(self.near.link, 0.02)
        for frame, trailer in self.recorded[-6:] + self.draw.sample(self.recorded, min(4, len(self.recorded))):
            self.near.link.write(packet(frame, trailer) + [None] * 30)
            link += bytes_of(self.near.link, 0.02)
        time.sleep(self.draw.uniform(0, 0.3))
        link += bytes_of(self.near.link, 0.02)
        given = bytes_of(self.near.device, 0.05)
        self.near.end(how)
        numbers = [number for number, _, _ in sealed_in(link, self.key, 0)]
        self.see(numbers == sorted(set(numbers)) and (not numbers or not self.numbers or numbers[0] > self.numbers[-1]),
                 "numbers %s after %s" % (numbers, self.numbers[-3:]))
        self.numbers += numbers
        self.came += bool(numbers)
        size, known = len(frame_of(0)), {frame for frame, _ in self.recorded}
        frames = [given[place:place + size] for place in range(0, len(given), size)]
        self.see(all(frame in known for frame in frames if len(frame) == size), "the device got %s" % given.hex())
        self.see(not set(frames) & set(self.passed) and len(set(frames)) == len(frames), "a frame passed twice: %s" % given.hex())
        self.passed += frames


def main(words):
    if "--over" not in words[:-1]:
        print(__doc__.strip(), file=sys.stderr)
        return 2
    at = words.index("--over")
    program, before, behind = os.path.abspath(words[at + 1]), words[:at], words[at + 2:]
    rounds = int(before[0]) if before else ROUNDS
    with tempfile.TemporaryDirectory() as folder:
        make_key(folder)
        tried = Rounds(folder, program, int(behind[0]) if behind else 1)
        for number in range(rounds):
            tried.round(tried.draw.choice(("adapter", "program")))
        print("%d rounds: numbers up to %s on the link, %d frames passed, %d wrong"
              % (rounds, tried.numbers[-1:] or "none", len(tried.passed), tried.wrong))
        tried.see(tried.came * 10 >= rounds, "packets came in %d of %d rounds" % (tried.came, rounds))
    return 1 if tried.wrong else 0


if __name__ == "__main__":
    try:
        sys.exit(main(sys.argv[1:]))
    except bridge_build.Missing as why:
        print("live_killed: %s" % why, file=sys.stderr)
        sys.exit(2)
