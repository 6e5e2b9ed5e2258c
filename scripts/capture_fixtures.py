#!/usr/bin/env python3
"""Makes the captures of examples/captures/ anew, with the tools of Wireshark and sigrok.

    python3 scripts/capture_fixtures.py OUT

OUT is the folder into which they are written. They are made from the files of examples/captures/
that were written by hand (*.records) and recorded (gateway.socat). text2pcap and editcap write the
pcap and pcapng files, tshark writes the text, and sigrok-cli's UART decoder writes its export of a
VCD file that is made here. No tool makes files in the other byte order (swap_capture.py does), or
the table of Logic 2, which is written here as Saleae describes it. If a file's tool isn't
installed, the file is skipped, and a line says so. The exit status is 0 if all files were made.
"""
import os, re, shutil, subprocess, sys, tempfile

from capture_model import RTAC_SERIAL, SECOND, Record, bits_of, character_of, give_vcd
from capture_model import given_records
from capture_model import lines_of, nearest, rtac_packet
from swap_capture import swapped_file

ROOT = os.path.dirname(os.path.dirname(os.path.abspath(__file__)))
CAPTURES = os.path.join(ROOT, "examples", "captures")

# A line of a .records file without its blanks, by which text2pcap reads it.
PACKET = r"^(?<time>\d+\.\d+) (?<data>[0-9a-f]+)$"

# The beginning of a VCD file of two wires that are quiet, before their changes.
VCD_HEAD = ("$timescale 1 ns $end\n$scope module line $end\n$var wire 1 ! a $end\n"
            "$var wire 1 \" b $end\n$upscope $end\n$enddefinitions $end\n#0\n1!\n1\"\n")

# What sigrok-cli must show of the wire of each way: bytes, and what is wrong with them.
BOTH_WIRES = "uart:rx=a:tx=b:baudrate=%d:parity=%s"
ALL_CLASSES = "uart=rx-data:tx-data:rx-parity-err:tx-parity-err:rx-warnings:tx-warnings"


class Missing(Exception):
    """A tool isn't installed."""


def tool(words, stdin=None):
    """What a tool writes to standard output."""
    if shutil.which(words[0]) is None:
        raise Missing(words[0])
    ran = subprocess.run(words, input=stdin, capture_output=True, timeout=120)
    if ran.returncode != 0:
        said = ran.stderr.decode(errors="replace").strip()
        raise RuntimeError("%s: %s" % (" ".join(words), said))
    return ran.stdout


def records_text(name):
    """The packets of a .records file, each with its time and its bytes in hex, without blanks."""
    with open(os.path.join(CAPTURES, name + ".records")) as file:
        lines = [line.split() for line in file if not line.startswith("#")]
    return "".join("%s %s\n" % (line[0], "".join(line[1:])) for line in lines)


def packets_to(kind, text, path, link=RTAC_SERIAL):
    """Writes a capture of these packets, by text2pcap."""
    with tempfile.NamedTemporaryFile("w", suffix=".txt") as file:
        file.write(text)
        file.flush()
        tool(["text2pcap", "-q", "-l", str(link), "-F", kind, "-t", "%s.%f", "-r", PACKET,
              file.name, path])


def packets_text(records):
    """The packets of these records, each with its time and its bytes in hex."""
    return "".join("%d.%09d %s\n" % (*divmod(record.start, SECOND), rtac_packet(record).hex())
                   for record in records)


def sigrok(vcd, decoders, shown, how="jsontrace"):
    """What sigrok-cli's decoders show of a VCD file, sampled every tenth of a microsecond."""
    stacked = [word for decoder in decoders for word in ("-P", decoder)]
    return tool(["sigrok-cli", "-i", vcd, "-I", "vcd:downsample=100"] + stacked +
                ["-A", shown, "--protocol-decoder-" + how])


def socat_records(path):
    """The records of `socat -x`, which writes three zeros before the microseconds."""
    with open(path) as file:
        lines = file.read().splitlines()
    for head, data in zip(lines[::2], lines[1::2]):
        way, _, clock = head.split()[:3]
        found = re.fullmatch(r"(\d+):(\d+):(\d+)\.000(\d{6})", clock)
        hours, minutes, seconds, micro = map(int, found.groups())
        start = (hours * 3600 + minutes * 60 + seconds) * SECOND + micro * 1000
        yield Record("a" if way == ">" else "b", start, bytes.fromhex(data))


def logic2_table(records, character):
    """A table of two Async Serial analyzers, as Logic 2 exports it."""
    rows = ["name,type,start_time,duration,data,error"]
    for record in records:
        for count, byte in enumerate(record.data):
            start = divmod(record.start + nearest(count * character), SECOND)
            name, took = {"a": "Master", "b": "Device"}[record.way], float(character) / SECOND
            rows.append('"%s","data",%d.%09d,%.9f,0x%02X,' % (name, *start, took, byte))
    return "\n".join(rows) + "\n"


def wire_changes(mark, bit, start, levels):
    """The changes of a wire in a VCD file: these levels for one bit each, the first at this bit."""
    return [(nearest((start + place) * bit), "%d%s" % (level, mark))
            for place, level in enumerate(levels + [1])]


def vcd_of(changes, end):
    """A VCD file of these changes of two wires."""
    rows = sorted(changes, key=lambda change: change[0])
    return (VCD_HEAD + "".join("#%d\n%s\n" % row for row in rows) + "#%d\n" % end).encode()


def broken_wires(character):
    """A wire with the bytes 01 and 03, the second without a stop bit, and a wire with the byte 5A,
    which comes between this second byte and its error."""
    bit, broken = character / 11, bits_of(3, 11)[:-1] + [0]
    changes = wire_changes("!", bit, 11, bits_of(1, 11)) + wire_changes("!", bit, 22, broken)
    return vcd_of(changes + wire_changes('"', bit, 23, bits_of(0x5A, 11)), nearest(60 * bit))


def spurious_wires(character):
    """A wire with the bytes 01 and 03, and a pulse long after them, too short for a start bit."""
    bit = character / 11
    changes = wire_changes("!", bit, 11, bits_of(1, 11)) + wire_changes("!", bit, 22, bits_of(3, 11))
    pulse = [(nearest(100 * bit), "0!"), (nearest(100 * bit + bit / 4), "1!")]
    return vcd_of(changes + pulse, nearest(140 * bit))


class Maker:
    def __init__(self, out):
        self.out, self.skipped = out, 0

    def path(self, name):
        return os.path.join(self.out, name)

    def write(self, name, content):
        with open(self.path(name), "wb") as file:
            file.write(content)

    def make(self, names, how):
        """Makes files, or prints why they are skipped."""
        try:
            how()
        except Missing as why:
            self.skipped += 1
            print("skipped %s: %s isn't installed" % (names, why))
        except FileNotFoundError as why:
            self.skipped += 1
            print("skipped %s: %s is missing" % (names, os.path.basename(why.filename)))

    def pcaps(self):
        for name in ("modbus", "dnp3", "events", "errors"):
            packets_to("pcap", records_text(name), self.path(name + ".pcap"))
        packets_to("nsecpcap", records_text("modbus"), self.path("modbus_nanoseconds.pcap"))
        packets_to("pcap", records_text("modbus"), self.path("ethernet.pcap"), link=1)

    def pcapngs(self):
        for name in ("modbus", "modbus_nanoseconds", "dnp3"):
            packed = self.path(name)
            tool(["editcap", "-F", "pcapng", packed + ".pcap", packed + ".pcapng"])

    def swapped(self):
        for name in ("modbus", "modbus_nanoseconds"):
            for ending in (".pcap", ".pcapng"):
                with open(self.path(name + ending), "rb") as file:
                    content = swapped_file(file.read())
                self.write("swapped_" + name + ending, content)

    def texts(self):
        rows = tool(["tshark", "-r", self.path("modbus_nanoseconds.pcap"), "-Y",
                     "rtacser.eventtype == 1", "-T", "fields", "-e", "frame.time_epoch",
                     "-e", "data.data"])
        self.write("modbus_requests.text", rows)

    def exports(self):
        with open(os.path.join(CAPTURES, "modbus.ticks")) as file:
            lines = lines_of(file.read())
        self.write("modbus.vcd", give_vcd(lines, "9600x11"))
        character = character_of("9600x11")
        table = logic2_table(given_records(lines, character), character)
        self.write("modbus.logic2.csv", table.encode())

    def sigrok(self):
        vcd = self.path("modbus.vcd")
        self.write("modbus.sigrok.json", sigrok(vcd, [BOTH_WIRES % (9600, "even")], ALL_CLASSES))
        wrong = "uart:rx=a:baudrate=9600:parity=odd"
        self.write("errors.sigrok.json", sigrok(vcd, [wrong], ALL_CLASSES))
        for name, wires in (("framing", broken_wires), ("spurious", spurious_wires)):
            with tempfile.NamedTemporaryFile(suffix=".vcd") as file:
                file.write(wires(character_of("9600x11")))
                file.flush()
                trace = sigrok(file.name, [BOTH_WIRES % (9600, "even")], ALL_CLASSES)
            self.write(name + ".sigrok.json", trace)
        one_each = ["uart:rx=%s:baudrate=9600:parity=even" % wire for wire in "ab"]
        self.write("modbus.sigrok.txt", sigrok(vcd, one_each, "uart=rx-data", "samplenum"))

    def gateway(self):
        records = list(socat_records(os.path.join(CAPTURES, "gateway.socat")))
        for way, name in (("a", "gateway_requests.text"), ("b", "gateway_replies.text")):
            rows = ["%d.%09d %s\n" % (*divmod(record.start, SECOND), record.data.hex())
                    for record in records if record.way == way]
            self.write(name, "".join(rows).encode())
        packets_to("pcap", packets_text(records), self.path("gateway.pcap"))

    def all(self):
        self.make("*.pcap", self.pcaps)
        self.make("*.pcapng", self.pcapngs)
        self.make("swapped_*", self.swapped)
        self.make("modbus_requests.text", self.texts)
        self.exports()
        self.make("*.sigrok.*", self.sigrok)
        self.make("gateway*", self.gateway)


def main(words):
    if len(words) != 1:
        sys.exit(__doc__.strip())
    os.makedirs(words[0], exist_ok=True)
    maker = Maker(words[0])
    maker.all()
    return 1 if maker.skipped else 0


if __name__ == "__main__":
    sys.exit(main(sys.argv[1:]))
