#!/usr/bin/env python3
"""Runs a libmodbus server over attacked links, once directly behind the receiver and once with a spacer between them.

    python3 scripts/guard.py [PROGRAM] [ATTACKS] [SEED]

Such a server counts bytes, and doesn't wait for the silence after a frame. ATTACKS attacks are made (300 if not given), of the
ten kinds in KINDS in turn. For each of them a line of four requests is sealed, and somebody without the key adds a frame to the
link that writes registers or coils. What `check` writes for this link goes to one server over a pseudo-terminal, and what
`check | space` writes goes to another, one byte in each tick of 9,600 baud, with silence where the line is silent. The attacks are
drawn from SEED (1), which is printed.

It ends with 0 only if the server behind the spacer carried out exactly the frames that passed, in order, so that no attack changed
a register or a coil, and if some attack changed one without the spacer: otherwise there was nothing to guard against. It ends with
2 if it can't run, and says why. It is no part of the gate, and what it shows is about this server and these links only.
"""
import collections, concurrent.futures, os, pty, random, re, subprocess, sys, tempfile, time, tty

import built, model
from model import Y18, Y24, Rtu

# The seconds of a tick (eleven bits at 9,600 baud), and those that a server gets to finish: at first, and at most.
TICK, SETTLE, PATIENCE = 11 / 9600, 0.2, 10
SIDE_BY_SIDE = 12

SERVER = r"""
#include <errno.h>
#include <modbus/modbus.h>
#include <stdio.h>

/* A server with sixteen coils and sixteen registers at a terminal. It says what it carries out, and what it then holds. */
int main(int count, char **words) {
    modbus_t *line = modbus_new_rtu(words[count - 1], 9600, 'E', 8, 1);
    modbus_mapping_t *held = modbus_mapping_new(16, 0, 16, 0);
    uint8_t request[MODBUS_RTU_MAX_ADU_LENGTH];
    if (!line || !held || modbus_set_slave(line, 1) || modbus_connect(line)) return 1;
    printf("libmodbus %s\n", LIBMODBUS_VERSION_STRING);
    for (;;) {
        fflush(stdout);
        int size = modbus_receive(line, request);
        if (size < 0 && (errno == EIO || errno == EBADF)) return 0;
        if (size <= 0 || modbus_reply(line, request, size, held) < 0) continue;
        for (int i = 0; i < size; i++) printf("%02x", request[i]);
        for (int i = 0; i < 16; i++) printf(" %d %d", held->tab_bits[i], held->tab_registers[i]);
        printf("\n");
    }
}
"""

Session = collections.namedtuple("Session", "kind word link requests passed")


def framed(*parts):
    body = [byte for part in parts for byte in part]
    return body + list(Rtu.end(body))


def two(number):
    return list(number.to_bytes(2, "big"))


def poll(chance):
    return framed([1, 3], two(chance.randrange(8)), two(chance.randrange(1, 9)))


def write(register, value):
    return framed([1, 6], two(register), two(value))


def some_write(chance):
    """A request that writes registers other than the first, or coils."""
    place, value = chance.randrange(1, 14), chance.randrange(1, 65536)
    return chance.choice([write(place, value), framed([1, 5], two(place), [0xFF, 0]), framed([1, 15], two(place), two(2), [1, 3]),
                          framed([1, 16], two(place), two(2), [4], two(value), two(value))])


def some_bytes(chance, most):
    return [chance.choice([0, 1, chance.randrange(256)]) for _ in range(chance.randrange(1, most + 1))]


def wrong_request(chance):
    """Eight bytes that a server takes for a request with a wrong CRC, or for a request to another device."""
    request = poll(chance)
    return chance.choice([request[:-1] + [request[-1] ^ 1]] * 3 + [framed([chance.randrange(2, 200)], request[1:6])])


def in_halves(chance):
    frame = some_write(chance)
    place = chance.randrange(1, len(frame))
    return frame[:place] + [None] * chance.choice([1, 2, 4, 17, 18, 19, 30, 100, 200]) + frame[place:]


def deep_inside(chance):
    front = [byte for _ in range(chance.randrange(2, 30)) for byte in wrong_request(chance)]
    return front + some_write(chance) + some_bytes(chance, 40)


def with_a_byte(packet, size, chance):
    """The packet with one byte directly after its frame, in place of a silent tick."""
    return packet[:size] + some_bytes(chance, 1) + packet[size + 1:]


def changed(chance, packet):
    return with_a_byte(write(0, chance.randrange(1, 65536)) + packet[8:], 8, chance)


# The attacks: from the ticks of a packet that has passed, and whose frame writes a register, each makes the ticks that are added
# to the link.
KINDS = {
    "a frame alone": lambda chance, packet: some_write(chance),
    "one byte after a frame": lambda chance, packet: some_write(chance) + chance.choice([[0], some_bytes(chance, 1)]),
    "bytes after a frame": lambda chance, packet: some_write(chance) + some_bytes(chance, 40),
    "bytes before a frame": lambda chance, packet: chance.choice([some_bytes(chance, 12), wrong_request(chance)]) + some_write(chance),
    "bytes before and after": lambda chance, packet: wrong_request(chance) + some_write(chance) + some_bytes(chance, 12),
    "two frames": lambda chance, packet: some_write(chance) + some_write(chance),
    "a frame in two parts": lambda chance, packet: in_halves(chance),
    "a frame deep in a burst": lambda chance, packet: deep_inside(chance),
    "a packet changed": changed,
    "a packet repeated": lambda chance, packet: with_a_byte(packet, 8, chance),
}


def lacking():
    """Why the server can't be compiled, or None if it can."""
    with tempfile.TemporaryDirectory(prefix="guard.") as folder:
        try:
            return None if compiled(folder) else "`cc -lmodbus` compiles no server: libmodbus isn't installed (on Debian libmodbus-dev)"
        except FileNotFoundError:
            return "cc isn't on the path"


def compiled(folder):
    """Compiles the server, and returns its path, or None if libmodbus isn't installed."""
    source, server = os.path.join(folder, "server.c"), os.path.join(folder, "server")
    with open(source, "w") as file:
        file.write(SERVER)
    return server if subprocess.run(["cc", "-o", server, source, "-lmodbus"], capture_output=True).returncode == 0 else None


class Trials:
    def __init__(self, program, folder, chance):
        self.program, self.folder, self.chance = program, folder, chance
        self.key, self.server = os.path.join(folder, "key"), compiled(folder)
        with open(self.key, "w") as file:
            file.write("%032x" % chance.getrandbits(128))

    def run(self, words, text=""):
        """What the program writes to standard output and standard error."""
        ran = subprocess.run([self.program] + words, input=text, capture_output=True, text=True)
        if ran.returncode != 0:
            raise RuntimeError("`%s` ended with status %d: %s" % (" ".join(words), ran.returncode, ran.stderr.strip()))
        return ran.stdout, ran.stderr

    def run_box(self, command, word, text):
        """What a box with a new journal writes to standard output and standard error."""
        journal = os.path.join(tempfile.mkdtemp(dir=self.folder), "journal")
        self.run(["init", word, "ab", journal])
        return self.run([command, word, "ab", self.key, journal], text)

    def session(self, kind):
        """A sealed line of four requests with an attack on its link, and the lines that the receiver and the spacer make of it."""
        chance, word, profile = self.chance, *self.chance.choice([("rtu", Y18), ("rtu24", Y24)])
        requests = [poll(chance), write(0, chance.randrange(1, 65536)), write(0, chance.randrange(1, 65536)), poll(chance)]
        line = [tick for request in requests for tick in request + [None] * 40]
        sealed = model.ticks_of(self.run_box("seal", word, model.canonical(line))[0])
        packets = [sealed[place:place + 8 + profile.delay - 1] for place in range(0, 4 * 48, 48)]
        parts = packets[:3] + [KINDS[kind](chance, packets[1])] + packets[3:]
        link = [tick for part in parts for tick in part + [None] * chance.randrange(profile.delay + 4, 60)]
        received, notes = self.run_box("check", word, model.canonical(link))
        passed = [requests[int(number) - 1] for number in re.findall(r"^passed (\d+) ", notes, re.M)]
        spaced, lost = self.run(["space", word], received)
        if lost:
            raise RuntimeError("a spacer with room for 64 frames loses one of four: %s" % lost.strip())
        return Session(kind, word, link, requests, passed), model.ticks_of(received), model.ticks_of(spaced)


def held_after(requests):
    """What a server holds after it has carried out these requests. Those that write do so by function 6."""
    coils, registers = [0] * 16, [0] * 16
    for request in requests:
        if request[1] == 6:
            registers[request[3]] = request[4] << 8 | request[5]
    return [value for pair in zip(coils, registers) for value in pair]


def served(server, line, wanted):
    """Sends a line to a new server, one byte in each tick. Returns its name, the requests that it carried out, and what it then holds."""
    near, far = pty.openpty()
    tty.setraw(far)
    with tempfile.NamedTemporaryFile("r") as said:
        run = subprocess.Popen([server, os.ttyname(far)], stdin=subprocess.DEVNULL, stdout=said.fileno(), stderr=subprocess.DEVNULL)
        lines = lambda: whole_lines(said.name)
        wait_for(lambda: lines() or run.poll() is not None)
        began = time.monotonic()
        for place, byte in enumerate(line):
            if byte is not None:
                time.sleep(max(0, began + place * TICK - time.monotonic()))
                os.write(near, bytes([byte]))
        if wanted is not None:
            wait_for(lambda: len(lines()) > wanted)
        time.sleep(SETTLE)
        run.kill()
        run.wait()
        name, *carried = lines() or ["no server"]
    os.close(near)
    os.close(far)
    requests = [list(bytes.fromhex(text.split()[0])) for text in carried]
    return name, requests, [int(word) for word in carried[-1].split()[1:]] if carried else [0] * 32


def whole_lines(path):
    with open(path) as file:
        return file.read().split("\n")[:-1]


def wait_for(holds):
    until = time.monotonic() + PATIENCE
    while not holds() and time.monotonic() < until:
        time.sleep(0.01)


def tried(server, session, received, spaced):
    """The server's name, whether the attack changed what the server behind the receiver holds, and what is wrong behind the spacer."""
    name, _, held = served(server, received, None)
    _, requests, guarded = served(server, spaced, len(session.passed))
    wanted, wrong = held_after(session.passed), None
    if guarded != wanted or requests != session.passed:
        wrong = "WRONG behind the spacer: %s (%s): carried out were %s, and passed %s, of the link\n%s" % (
            session.kind, session.word, [bytes(each).hex() for each in requests], [bytes(each).hex() for each in session.passed],
            model.canonical(session.link))
    return session.kind, name, held != wanted, guarded != wanted, wrong


def main():
    program = built.program(sys.argv, 1)
    attacks = int(sys.argv[2]) if len(sys.argv) > 2 else 300
    seed = int(sys.argv[3]) if len(sys.argv) > 3 else 1
    why = lacking()
    if why:
        print("guard: not run: %s" % why)
        return 2
    with tempfile.TemporaryDirectory(prefix="guard.") as folder:
        trials = Trials(program, folder, random.Random(seed))
        sessions = [trials.session(list(KINDS)[number % len(KINDS)]) for number in range(attacks)]
        with concurrent.futures.ThreadPoolExecutor(SIDE_BY_SIDE) as side:
            results = list(side.map(lambda each: tried(trials.server, *each), sessions))
    print("%s, %d attacks, seed %d" % (results[0][1], attacks, seed))
    print("%-27s %7s  %s" % ("", "attacks", "changed what the server holds: behind the receiver, behind a spacer too"))
    for kind in KINDS:
        of_kind = [result for result in results if result[0] == kind]
        print("%-27s %7d  %3d %3d" % (kind, len(of_kind), sum(result[2] for result in of_kind), sum(result[3] for result in of_kind)))
    wrong, real = [result[4] for result in results if result[4]], sum(result[2] for result in results)
    print("\n".join(wrong + ["behind the receiver alone %d attacks changed what the server holds; "
                             "behind a spacer %d didn't end as the frames that passed say" % (real, len(wrong))]))
    return 0 if real and not wrong else 1


if __name__ == "__main__":
    try:
        sys.exit(main())
    except RuntimeError as why:
        sys.exit("guard: %s" % why)
