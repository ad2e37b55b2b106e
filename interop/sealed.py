"""Packets for the library to seal, and what tshark must find in them."""

import dataclasses
import subprocess
import typing

import capture
import frames

VERSION_1 = 0x00000001
VERSION_2_DRAFT = 0x709A50C4
NAMES = {VERSION_1: "version 1", VERSION_2_DRAFT: "version 2 draft"}
# RFC 9000 section 17.2 and section 3.2 of the draft
TYPES = {
    VERSION_1: {"Initial": 0, "0-RTT": 1, "Handshake": 2, "Retry": 3},
    VERSION_2_DRAFT: {"Initial": 1, "0-RTT": 2, "Handshake": 3, "Retry": 0},
}
TAG = 16
# any bytes will do, by the names that a key log has for them
SECRETS = {
    "CLIENT_EARLY_TRAFFIC_SECRET": bytes(range(0x20, 0x40)),
    "CLIENT_HANDSHAKE_TRAFFIC_SECRET": bytes(range(0x60, 0x80)),
    "SERVER_HANDSHAKE_TRAFFIC_SECRET": bytes(range(0xC0, 0xE0)),
}
# a client's datagram with an Initial must not be smaller (RFC 9000 section 14.1)
DATAGRAM = 1200
# the name that the client of exchange.c asks for
SERVER_NAME = "driftwicket.example"


def pattern(first, length):
    """Bytes that count on from `first`."""
    return bytes((first + place) % 256 for place in range(length))


def hexed(*parts):
    return " ".join(part.hex() or "-" for part in parts)


def type_field(version):
    return "quic.long.packet_type" if version == VERSION_1 else "quic.long.packet_type_v2"


def differences(expected, found):
    return [f"{name} is {found(name)}, not {value}" for name, value in expected.items() if found(name) != value]


def flipped(packet, place):
    """A copy with the lowest bit of one byte turned over."""
    copy = bytearray(packet)
    copy[place] ^= 1
    return bytes(copy)


@dataclasses.dataclass
class Packet:
    """An Initial, 0-RTT or Handshake packet; a frame is its bytes and the fields that tshark shows of it."""

    version: int
    level: str
    keys_from: bytes
    sender: str
    number: int
    acknowledged: typing.Optional[int]
    length: int
    destination: bytes
    source: bytes
    token: bytes
    frames: list

    def but(self, **changes):
        return dataclasses.replace(self, **changes)

    def version_name(self):
        return NAMES[self.version]

    def words(self):
        token = f", token of {len(self.token)}" if self.token else ""
        return f"{self.sender} {self.level}, number {self.number} in {self.length} bytes{token}"

    def payload(self):
        return b"".join(data for data, _ in self.frames)

    def number_at(self):
        token = frames.integer(len(self.token)) + self.token if self.level == "Initial" else b""
        return 7 + len(self.destination) + len(self.source) + len(token) + 2

    def size(self):
        return self.number_at() + self.length + len(self.payload()) + TAG

    def padded(self):
        """With PADDING behind the frames, as a client's Initial is."""
        return self.but(frames=[*self.frames, frames.padding(DATAGRAM - self.size())])

    def following(self):
        """A later Initial of the same client, before it has heard of the server."""
        return self.but(number=1, frames=[frames.ping()]).padded()

    def after(self, retry):
        """The Initial that answers a Retry: the same frames, under its ID and with its token."""
        made = self.but(keys_from=retry.source, destination=retry.source, token=retry.token, number=1)
        return made.but(frames=self.frames[:-1]).padded()

    def with_other_keys(self):
        if self.level != "Initial":
            return {"sealed with another secret": self.but(keys_from=pattern(0x77, len(self.keys_from)))}
        return {
            "sealed with the server's keys": self.but(sender="server"),
            "sealed with keys from another ID": self.but(keys_from=pattern(0x77, 8)),
        }

    def keys(self):
        """How library.c and quicgo.go are told them."""
        return f"{self.version} {self.level} {hexed(self.keys_from)} {self.sender}"

    def request(self):
        acknowledged = "none" if self.acknowledged is None else self.acknowledged
        parts = hexed(self.destination, self.source, self.token, self.payload())
        return f"seal {self.keys()} {self.number} {acknowledged} {self.length} {parts}"

    def opening(self, packet):
        """The request by which a packet is opened as this one."""
        return f"open {self.keys()} {hexed(packet)}"

    def opened(self):
        """The answer where it opens."""
        parts = hexed(self.destination, self.source, self.token)
        return f"opened {self.level} {parts} {self.number} {self.length} {hexed(self.payload())}"

    def fields(self):
        """tshark's fields of the header, the number and the frames."""
        fields = {
            "quic.version": [f"0x{self.version:08x}"],
            type_field(self.version): [str(TYPES[self.version][self.level])],
            "quic.dcil": [str(len(self.destination))],
            "quic.scil": [str(len(self.source))],
            "quic.token_length": [str(len(self.token))] if self.level == "Initial" else [],
            "quic.length": [str(self.size() - self.number_at())],
            "quic.packet_length": [str(self.size())],
            "quic.long.reserved": ["0"],
            "quic.packet_number_length": [str(self.length - 1)],
            "quic.packet_number": [str(self.number)],
        }
        for _, frame in self.frames:
            for name, values in frame.items():
                fields[name] = fields.get(name, []) + values
        return fields

    def faults(self, found):
        parts = {"quic.dcid": self.destination, "quic.scid": self.source, "quic.token": self.token}
        faults = differences(self.fields(), found.shown) + differences(parts, found.bytes_of)
        if found.decrypted != [self.payload()]:
            faults.append("the decrypted payload is another")
        return faults


@dataclasses.dataclass
class Retry:
    """A Retry to the client that wrote `destination` as its ID, after its first Initial to `original`."""

    version: int
    original: bytes
    destination: bytes
    low_bits: int
    source: bytes = pattern(0xE0, 18)
    token: bytes = pattern(0x40, 33)

    def request(self):
        parts = hexed(self.original, self.destination, self.source, self.token)
        return f"retry {self.version} {parts} {self.low_bits}"

    def faults(self, found):
        parts = {"quic.dcid": self.destination, "quic.scid": self.source, "quic.retry_token": self.token}
        return verified_faults(self.version, found) + differences(parts, found.bytes_of)


@dataclasses.dataclass
class Relayed:
    """A packet of exchange.c's record, and what the library opened in it, which is nothing in a Retry."""

    kind: str
    number: str = ""
    length: str = ""
    payload: str = ""

    def faults(self, version, found, place):
        """`found` is the packet at this place of its datagram, by tshark."""
        if self.kind == "Retry":
            return verified_faults(version, found)
        expected = {
            type_field(version): [str(TYPES[version][self.kind])],
            "quic.packet_number": [self.number],
            "quic.packet_number_length": [str(int(self.length) - 1)],
        }
        faults = differences(expected, found.shown)
        if found.decrypted[place : place + 1] != [bytes.fromhex(self.payload)]:
            faults.append("the decrypted payload is another")
        return faults


@dataclasses.dataclass
class Line:
    """A line of exchange.c's record: a datagram and its packets with long headers."""

    sender: str
    datagram: bytes
    packets: list

    def words(self, place):
        return f"{self.sender}'s {self.packets[place].kind} {self.packets[place].number}".strip()


def read_record(path):
    """The record's lines by their flows."""
    flows = {}
    for line in path.read_text().splitlines():
        flow, sender, datagram, *packets = line.split()
        packets = [Relayed(*packet.split(":")) for packet in packets]
        flows.setdefault(flow, []).append(Line(sender, bytes.fromhex(datagram), packets))
    return flows


def verified_faults(version, found):
    expected = {
        "quic.version": [f"0x{version:08x}"],
        type_field(version): [str(TYPES[version]["Retry"])],
        "quic.bad_retry": [],
    }
    faults = differences(expected, found.shown)
    words = found.words("quic.retry_integrity_tag")
    return faults + [f"the tag is not verified: {words}"] * (len(words) != 1 or not words[0].endswith("[verified]"))


def unverified_faults(found):
    """tshark must object to the Retry's tag."""
    verified = any("[verified]" in words for words in found.words("quic.retry_integrity_tag"))
    return ["its tag is verified"] * verified + ["tshark does not object"] * (not found.words("quic.bad_retry"))


def undecrypted_faults(found, others=()):
    """tshark must say that it failed to decrypt, show no frame, and decrypt no more than the others in the datagram."""
    decrypted = found.decrypted != [*others] or bool(found.shown("quic.frame_type"))
    return ["it is decrypted"] * decrypted + ["tshark does not object"] * (not found.words("quic.decryption_failed"))


def damaged_copies(initial, packet):
    at = initial.number_at()
    return {
        "with a bit of its source ID turned over": flipped(packet, 6 + len(initial.destination) + 1),
        "with a bit of its token turned over": flipped(packet, at - 3),
        "with a bit of its number turned over": flipped(packet, at + initial.length - 1),
        "with a bit of its payload turned over": flipped(packet, at + DATAGRAM // 2),
        "with a bit of its tag turned over": flipped(packet, -1),
    }


def beginning(version, length, token, hellos):
    """A client's Initial with its ClientHello and a server's with its ServerHello, both number 0 in `length` bytes."""
    original = pattern(0x10 * length, 8 + 4 * (length - 1))
    client, server = pattern(0xA0, 5 * length), pattern(0xB0, 20 - 5 * (length - 1))
    first = Packet(version, "Initial", original, "client", 0, None, length, original, client, token, [])
    answer = first.but(sender="server", destination=client, source=server, token=b"")
    hello = [frames.ping(), frames.crypto(hellos["client"])]
    return [
        first.but(frames=hello).padded(),
        answer.but(frames=[frames.acknowledgement(0), frames.crypto(hellos["server"])]),
    ]


def farthest(length):
    """The farthest number from 0 that so many bytes can tell."""
    return 2 ** (8 * length - 1) - 1


def conversation(version, length, token, hellos):
    """Two Initials of each side: number 0 in `length` bytes, and then the farthest."""
    first, answer = beginning(version, length, token, hellos)
    far = farthest(length)
    again = first.but(number=far, acknowledged=0, destination=answer.source, frames=[frames.acknowledgement(0)])
    last = [frames.acknowledgement(far), frames.ping(), frames.padding(4)]
    return [first, answer, again.padded(), answer.but(number=far, acknowledged=0, frames=last)]


def later(version, length, hellos):
    """What the two send at the other levels: number 0 in `length` bytes, and then the farthest, under SECRETS."""
    first, answer = beginning(version, length, b"", hellos)
    early = first.but(level="0-RTT", keys_from=SECRETS["CLIENT_EARLY_TRAFFIC_SECRET"])
    server = answer.but(level="Handshake", keys_from=SECRETS["SERVER_HANDSHAKE_TRAFFIC_SECRET"])
    client = first.but(level="Handshake", keys_from=SECRETS["CLIENT_HANDSHAKE_TRAFFIC_SECRET"])
    made = []
    for number, acknowledged in ((0, None), (farthest(length), 0)):
        numbers = {"number": number, "acknowledged": acknowledged}
        acknowledging = [frames.acknowledgement(number), frames.ping(), frames.padding(70)]
        made.append(early.but(**numbers, frames=[frames.ping(), frames.padding(9)]))
        made.append(server.but(**numbers, frames=acknowledging))
        made.append(client.but(**numbers, frames=acknowledging, destination=answer.source))
    return made


def key_log(hellos):
    """SECRETS for the connection of this ClientHello, as tshark reads them; its random bytes stand behind six others."""
    random = hellos["client"][6:38].hex()
    return "".join(f"{label} {random} {secret.hex()}\n" for label, secret in SECRETS.items())


def answers(program, requests):
    """A line for each request, from library.c or quicgo.go."""
    lines = "".join(f"{request}\n" for request in requests)
    run = subprocess.run([program], input=lines, stdout=subprocess.PIPE, text=True, check=False)
    found = run.stdout.splitlines()
    if run.returncode != 0 or len(found) != len(requests):
        counts = f"{len(found)} answers to {len(requests)} requests"
        raise capture.Broken(f"{program.name} ended with {run.returncode} and {counts}")
    return found


def packets(program, wanted):
    """The library's packets for these."""
    found = answers(program, [one.request() for one in wanted])
    refused = [answer for answer in found if answer.startswith("refused")]
    if refused:
        raise capture.Broken(f"the library does not seal what it is asked for: {refused}")
    return [bytes.fromhex(answer) for answer in found]
