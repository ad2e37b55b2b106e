"""Frames that may stand in an Initial (RFC 9000 section 19): written, with the fields that tshark shows of them, and read."""

import capture

PADDING, PING, ACK, CRYPTO = 0x00, 0x01, 0x02, 0x06
CLIENT_HELLO, SERVER_HELLO = 1, 2


def integer(value):
    """RFC 9000 section 16, in the smallest form."""
    for form, length in enumerate((1, 2, 4, 8)):
        if value < 1 << 8 * length - 2:
            return (form << 8 * length - 2 | value).to_bytes(length, "big")
    raise ValueError(value)


def padding(count):
    return bytes(count), {"quic.frame_type": [str(PADDING)], "quic.padding_length": [str(count)]}


def ping():
    return bytes([PING]), {"quic.frame_type": [str(PING)]}


def acknowledgement(largest):
    """An ACK of one number, without delay."""
    fields = {"quic.frame_type": [str(ACK)], "quic.ack.largest_acknowledged": [str(largest)]}
    return bytes([ACK]) + integer(largest) + bytes(3), fields


def crypto(data):
    """A CRYPTO frame from offset 0 on."""
    fields = {
        "quic.frame_type": [str(CRYPTO)],
        "quic.crypto.offset": ["0"],
        "quic.crypto.length": [str(len(data))],
    }
    return bytes([CRYPTO, 0]) + integer(len(data)) + data, fields


class Reader:
    """Reads a payload from its start on."""

    def __init__(self, payload):
        self.rest = payload

    def take(self, count):
        part, self.rest = self.rest[:count], self.rest[count:]
        if len(part) != count:
            raise capture.Broken("a frame is not whole")
        return part

    def number(self):
        first = self.take(1)[0]
        length = 1 << (first >> 6)
        return int.from_bytes(bytes([first & 0x3F]) + self.take(length - 1), "big")


def crypto_data(payload):
    """The data of the first CRYPTO frame, with padding, pings and plain ACKs before it."""
    reader = Reader(payload)
    while reader.rest:
        kind = reader.number()
        if kind == ACK:
            _, _, ranges, _ = (reader.number() for _ in range(4))
            for _ in range(2 * ranges):
                reader.number()
        elif kind == CRYPTO:
            reader.number()
            return reader.take(reader.number())
        elif kind not in (PADDING, PING):
            break
    raise capture.Broken("no CRYPTO frame")


def hellos(record):
    """The ClientHello and the ServerHello of a handshake in the record, by their senders."""
    found = {}
    for line in (line for lines in record.values() for line in lines):
        if line.packets[0].kind == "Initial" and line.sender not in found:
            found[line.sender] = crypto_data(bytes.fromhex(line.packets[0].payload))
    types = {sender: data[0] for sender, data in found.items()}
    if types != {"client": CLIENT_HELLO, "server": SERVER_HELLO}:
        raise capture.Broken(f"no ClientHello and ServerHello were recorded: {types}")
    return found
