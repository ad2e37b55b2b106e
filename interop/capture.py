"""Capture files written, and read back by tshark.

Each flow has a file of its own: tshark takes flows with equal connection IDs for one connection."""

import dataclasses
import os
import re
import struct
import subprocess
import xml.etree.ElementTree

SERVER_PORT = 443
CLIENT_PORT = 50000
CLIENT_ADDRESS = bytes([192, 0, 2, 1])
SERVER_ADDRESS = bytes([192, 0, 2, 2])
UDP = 17
# the link type whose packets start with their IP header
RAW_IP = 101

HEX_LINE = re.compile(r"^[0-9a-f]{4,8}  ((?:[0-9a-f]{2} ){1,16})")
SOURCE_LINE = re.compile(r"^(.+) \((\d+) bytes\):$")


class Broken(Exception):
    """The run cannot go on; its words say why."""


@dataclasses.dataclass
class Dissected:
    """What tshark says of a QUIC packet, and the decrypted bytes of its whole datagram, part for part."""

    fields: dict
    decrypted: list

    def shown(self, name):
        """How tshark shows each field of this name."""
        return [show for show, _, _ in self.fields.get(name, [])]

    def bytes_of(self, name):
        """The bytes of the only field of this name; none where there is no such field."""
        values = [value for _, value, _ in self.fields.get(name, [])]
        return bytes.fromhex(values[0]) if len(values) == 1 else b""

    def words(self, name):
        """The line that tshark writes for each field of this name."""
        return [words for _, _, words in self.fields.get(name, [])]


def checksum(header):
    total = sum(struct.unpack(f"!{len(header) // 2}H", header))
    while total >> 16:
        total = (total & 0xFFFF) + (total >> 16)
    return total ^ 0xFFFF


def ip_packet(sender, datagram):
    """An IPv4 packet with a UDP datagram without checksum, from the client or from the server."""
    source, destination = CLIENT_ADDRESS, SERVER_ADDRESS
    ports = CLIENT_PORT, SERVER_PORT
    if sender == "server":
        source, destination = destination, source
        ports = ports[::-1]
    udp = struct.pack("!HHHH", *ports, 8 + len(datagram), 0) + datagram
    fields = [0x45, 0, 20 + len(udp), 0, 0, 64, UDP, 0, source, destination]
    fields[7] = checksum(struct.pack("!BBHHHBBH4s4s", *fields))
    return struct.pack("!BBHHHBBH4s4s", *fields) + udp


def write(path, datagrams):
    """A capture of one flow: (sender, datagram) in their order, a second apart."""
    with open(path, "wb") as file:
        file.write(struct.pack("<IHHiIII", 0xA1B2C3D4, 2, 4, 0, 0, 65535, RAW_IP))
        for second, (sender, datagram) in enumerate(datagrams):
            packet = ip_packet(sender, datagram)
            file.write(struct.pack("<IIII", second, 0, len(packet), len(packet)) + packet)


def tshark(path, *arguments):
    # a user's own settings must not change what is read
    environment = dict(os.environ, LC_ALL="C.UTF-8", WIRESHARK_CONFIG_DIR=f"{path}.settings")
    command = ["tshark", "-n", "-r", str(path), "-d", f"udp.port=={SERVER_PORT},quic", *arguments]
    run = subprocess.run(command, env=environment, capture_output=True, text=True, check=False)
    if run.returncode != 0:
        raise Broken(f"tshark ended with {run.returncode}: {run.stderr.strip()}")
    return run.stdout


def fields_of(quic):
    """The fields of a QUIC packet: name to (show, value, words)."""
    fields = {}
    for field in quic.iter("field"):
        entry = field.get("show", ""), field.get("value", ""), field.get("showname", "")
        fields.setdefault(field.get("name"), []).append(entry)
    return fields


def decrypted_of(dump):
    """From tshark's hex dump of all datagrams: the decrypted parts of each, in their order."""
    datagrams = []
    for line in dump.splitlines():
        data, source = HEX_LINE.match(line), SOURCE_LINE.match(line)
        if data:
            datagrams[-1][-1][1].extend(bytes.fromhex(data.group(1)))
        elif source:
            datagrams[-1].append((source.group(1), bytearray()))
        elif line:
            # a datagram's summary; where it has one source alone, no line names it
            datagrams.append([("Frame", bytearray())])
    return [[bytes(data) for name, data in sources if name == "Decrypted QUIC"] for sources in datagrams]


def dissect_all(path, datagrams, *arguments):
    """Writes the capture, lets tshark read it and answers for each datagram a Dissected of each QUIC packet in it."""
    write(path, datagrams)
    shown = xml.etree.ElementTree.fromstring(tshark(path, "-T", "pdml", *arguments).encode()).findall("packet")
    decrypted = decrypted_of(tshark(path, "-P", "-x", *arguments))
    if not len(shown) == len(decrypted) == len(datagrams):
        raise Broken(f"tshark shows {len(shown)} and {len(decrypted)} of {len(datagrams)} datagrams")
    packets = [[fields_of(quic) for quic in one.findall("proto[@name='quic']")] for one in shown]
    return [[Dissected(fields, parts) for fields in many] for many, parts in zip(packets, decrypted)]


def dissect(path, datagrams, *arguments):
    """The first QUIC packet of each datagram, without fields where tshark sees none."""
    return [[*packets, Dissected({}, [])][0] for packets in dissect_all(path, datagrams, *arguments)]


def with_secrets(path):
    """The argument by which tshark is given a key log."""
    return "-o", f"tls.keylog_file:{path}"
