"""The files of a journal, read: records behind their length and their checksum.

    frame = length (4 bytes) checksum (4 bytes) payload

The checksum is the upper half of FNV-1a with 64 bits, over words of eight bytes and then over the bytes that are left.

A payload begins with the letter of its kind: h header, b book, e event handled, l line answered, c clocks. Behind a frame that is cut off or
whose checksum is another nothing is read.
"""
import os
import struct

LONGEST = 1 << 30


def checksum(payload):
    """The upper half of FNV-1a with 64 bits, over words of eight bytes and then over the bytes that are left."""
    value = 0xCBF29CE484222325
    whole = len(payload) // 8
    for word in (*struct.unpack_from(f">{whole}Q", payload), *payload[whole * 8:]):
        value = (value ^ word) * 0x100000001B3 & 0xFFFFFFFFFFFFFFFF
    return value >> 32


def payloads(octets):
    """The payloads of the whole frames, and how many bytes these have."""
    found, place = [], 0
    while len(octets) - place >= 8:
        length, wanted = struct.unpack_from(">II", octets, place)
        payload = octets[place + 8:place + 8 + length]
        if length > LONGEST or len(payload) < length or checksum(payload) != wanted:
            break
        found.append(payload)
        place += 8 + length
    return found, place


def frame(payload):
    """A payload as it stands in a file."""
    return struct.pack(">II", len(payload), checksum(payload)) + payload


def ends(octets):
    """Where each whole frame ends."""
    places, place = [], 0
    for payload in payloads(octets)[0]:
        place += 8 + len(payload)
        places.append(place)
    return places


def files(folder):
    """The numbers of the files of this folder, from the oldest."""
    return sorted(int(name[8:]) for name in os.listdir(folder) if name.startswith("journal.") and name[8:].isdigit())


def read(folder, number):
    """The payloads of one of them, and how many bytes these have, and the file."""
    with open(f"{folder}/journal.{number}", "rb") as file:
        octets = file.read()
    found, whole = payloads(octets)
    return found, whole, len(octets)


def worker(payload):
    """The worker of a book, an event or a line."""
    return int(payload[1:].split(b" ", 1)[0])


def kinds(found):
    """How many of each kind there are."""
    counts = {}
    for payload in found:
        kind = payload[:1].decode()
        counts[kind] = counts.get(kind, 0) + 1
    return counts
