"""The local tags that a notifier draws, worked out apart from it: `w<worker>-<serial>-<16 digits>`, where the digits are eight bytes
for each serial of ChaCha20 (RFC 8439) over the seed, with the worker's number as its stream."""

import struct

COLUMNS = ((0, 4, 8, 12), (1, 5, 9, 13), (2, 6, 10, 14), (3, 7, 11, 15))
DIAGONALS = ((0, 5, 10, 15), (1, 6, 11, 12), (2, 7, 8, 13), (3, 4, 9, 14))


def _turned(word, bits):
    return (word << bits | word >> (32 - bits)) & 0xFFFFFFFF


def _quarter(words, a, b, c, d):
    """A quarter round (RFC 8439 section 2.1)."""
    for first, second, third, bits in ((a, b, d, 16), (c, d, b, 12), (a, b, d, 8), (c, d, b, 7)):
        words[first] = (words[first] + words[second]) & 0xFFFFFFFF
        words[third] = _turned(words[third] ^ words[first], bits)


def chacha_block(seed, number, stream):
    """The block of 64 bytes of this number, of 64 bits as the stream's."""
    start = [*struct.unpack("<4L", b"expand 32-byte k"), *struct.unpack("<8L", seed)]
    start += [*struct.unpack("<4L", struct.pack("<2Q", number, stream))]
    words = list(start)
    for _ in range(10):
        for places in COLUMNS + DIAGONALS:
            _quarter(words, *places)
    return struct.pack("<16L", *((word + old) & 0xFFFFFFFF for word, old in zip(words, start)))


def local_tag(seed, worker, serial):
    """The tag of the subscription of this serial, from 1, at this worker, where the seed is so many hex digits."""
    block, place = divmod(8 * (serial - 1), 64)
    digits = chacha_block(bytes.fromhex(seed), block, worker)[place : place + 8].hex()
    return f"w{worker}-{serial}-{digits}"


def home_of(name, workers):
    """The worker that has a mailbox, or whatever else is looked for by a hash of its name."""
    number = 0
    for octet in name.encode():
        number = (31 * number + octet) % 2**32
    return number % workers
