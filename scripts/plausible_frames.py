"""Frames like those of real lines, for tools that look into frames.

tshark and sigrok's decoders read a Modbus RTU frame by its function code, so they call a frame of
random bytes broken even if its CRC is right. These frames have right function codes, counts and
objects.
"""
import struct

from model import Dnp3, Rtu


def ended(proto, data):
    """The bytes, followed by their CRC."""
    return bytes(data) + bytes(proto.end(list(data)))


def modbus_exchange(chance):
    """A request to a device, and its reply: registers, or an exception."""
    device, count = chance.randrange(1, 248), chance.choice([1, 2, 10, 60, 125])
    first = chance.randrange(0, 60000)
    request = ended(Rtu, struct.pack(">BBHH", device, 3, first, count))
    if chance.random() < 0.1:
        return request, ended(Rtu, bytes([device, 0x83, chance.randrange(1, 5)]))
    registers = bytes(chance.randrange(256) for _ in range(2 * count))
    return request, ended(Rtu, bytes([device, 3, 2 * count]) + registers)


def dnp3_frame(control, to, of, user):
    header = ended(Dnp3, struct.pack("<BBBBHH", 0x05, 0x64, 5 + len(user), control, to, of))
    blocks = [user[place:place + 16] for place in range(0, len(user), 16)]
    return header + b"".join(ended(Dnp3, block) for block in blocks)


def dnp3_exchange(chance):
    """A request of a control centre and the reply of an outstation, both with user data or both
    without."""
    centre, outstation = 1024, chance.randrange(1, 100)
    if chance.random() < 0.2:
        reply = dnp3_frame(0x00, centre, outstation, b"")
        return dnp3_frame(0xC0, outstation, centre, b""), reply
    sequence, count = chance.randrange(16), chance.choice([1, 5, 20, 40])
    both = bytes([0xC0 | sequence, 0xC0 | sequence])
    values = b"".join(struct.pack("<Bh", 1, chance.randrange(-32768, 32768)) for _ in range(count))
    request = both + bytes([1, 30, 2, 0, 0, count - 1])
    reply = both + bytes([0x81, 0, 0, 30, 2, 0, 0, count - 1]) + values
    reply = dnp3_frame(0x44, centre, outstation, reply)
    return dnp3_frame(0xC4, outstation, centre, request), reply


EXCHANGES = {Rtu: modbus_exchange, Dnp3: dnp3_exchange}
