#!/usr/bin/env python3
"""Writes a pcap or pcapng file in the other byte order, as a machine of that order would have.

    python3 scripts/swap_capture.py IN OUT

None of Wireshark's tools does this: editcap writes the order of the machine that it runs on. The
content of packets isn't changed. It takes the blocks that editcap writes, and refuses all others.
"""
import struct, sys

PCAP_MAGICS = (0xA1B2C3D4, 0xA1B23C4D)
SECTION, INTERFACE, PACKET = 0x0A0D0D0A, 1, 6

# The fields before the options of a section block and of an interface block.
FIELDS = {SECTION: "IHHq", INTERFACE: "HHI"}


def swapped(fields, data, order):
    """The same numbers in the other byte order."""
    other = ">" if order == "<" else "<"
    return struct.pack(other + fields, *struct.unpack(order + fields, data))


def swapped_pcap(data, order):
    out, at = swapped("IHHiIII", data[:24], order), 24
    while at < len(data):
        kept = struct.unpack(order + "I", data[at + 8:at + 12])[0]
        out += swapped("IIII", data[at:at + 16], order) + data[at + 16:at + 16 + kept]
        at += 16 + kept
    return out


def swapped_options(data, order):
    """The options in the other byte order. Their values must be texts or single bytes: editcap writes no others."""
    out, at = b"", 0
    while at < len(data):
        _, length = struct.unpack(order + "HH", data[at:at + 4])
        end = at + 4 + (length + 3) // 4 * 4
        out += swapped("HH", data[at:at + 4], order) + data[at + 4:end]
        at = end
    return out


def swapped_body(kind, body, order):
    if kind == PACKET:
        kept = struct.unpack(order + "I", body[12:16])[0]
        end = 20 + (kept + 3) // 4 * 4
        fields = swapped("IIIII", body[:20], order)
        return fields + body[20:end] + swapped_options(body[end:], order)
    size = struct.calcsize("=" + FIELDS[kind])
    return swapped(FIELDS[kind], body[:size], order) + swapped_options(body[size:], order)


def swapped_pcapng(data, order):
    out, at = b"", 0
    while at < len(data):
        kind, length = struct.unpack(order + "II", data[at:at + 8])
        body = swapped_body(kind, data[at + 8:at + length - 4], order)
        end = swapped("I", data[at + length - 4:at + length], order)
        out += swapped("II", data[at:at + 8], order) + body + end
        at += length
    return out


def swapped_file(data):
    """The file in the other byte order."""
    for order in "<>":
        if struct.unpack(order + "I", data[:4])[0] in PCAP_MAGICS:
            return swapped_pcap(data, order)
        if data[:4] == b"\n\r\r\n" and struct.unpack(order + "I", data[8:12])[0] == 0x1A2B3C4D:
            return swapped_pcapng(data, order)
    raise ValueError("no pcap or pcapng file")


if __name__ == "__main__":
    if len(sys.argv) != 3:
        sys.exit(__doc__.strip())
    with open(sys.argv[1], "rb") as file:
        content = swapped_file(file.read())
    with open(sys.argv[2], "wb") as file:
        file.write(content)
