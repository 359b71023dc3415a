#!/usr/bin/env python3
"""compare/generate.py CASES SEED: lines of the replay language on standard output.

First the fixed cases, the same for every seed: every input of no byte and of one byte, the short inputs of each layout, a whole message of
each kind cut at every length, with every byte changed, and both at once, the limits of the tables, and lines that are not of the language.
Then CASES generated ones: messages of every kind, most of them sound, the others cut, changed, lengthened or made of random bytes.
"""

import itertools
import random
import sys

PLAIN = ["-"]
AS_AND_TYPE = [f"asn={bits},type={kind}" for bits in (16, 32) for kind in range(4)]
FAMILY_TOO = [f"afi={family},{rest}" for family in (4, 6) for rest in AS_AND_TYPE]
ARGUMENTS = {
    "common": PLAIN, "perpeer": PLAIN, "stats": PLAIN, "initiation": PLAIN, "termination": PLAIN, "peerdown": PLAIN, "openbmp": PLAIN,
    "mirroring": AS_AND_TYPE, "monitoring": AS_AND_TYPE, "peerup": FAMILY_TOO,
}
READERS = list(ARGUMENTS)
GENERATED = READERS * 3 + ["split", "equal"]
LONGEST = 65536


def be(width, number):
    return number.to_bytes(width, "big")


def tlv(kind, value, length=None):
    return be(2, kind) + be(2, len(value) if length is None else length) + value


def line(verb, arguments, data):
    return f"{verb} {arguments} {data.hex() or '-'}".encode()


# Whole messages from which the fixed cases are made.

KEEPALIVE = b"\xff" * 16 + be(2, 19) + b"\x04"
OPEN = b"\xff" * 16 + be(2, 29) + b"\x01" + bytes.fromhex("04fde800b40a09090900")
HEADER = bytes([0, 0]) + bytes(8) + bytes(range(1, 17)) + be(4, 0x00010002) + be(4, 0x0A090909) + be(4, 1700000000) + be(4, 123456)
OPENBMP = (
    b"OBMP\x01\x07" + be(2, 82) + be(4, 6) + b"\x80\x0c" + be(4, 1700000000) + be(4, 123456) + bytes(range(16))
    + be(2, 3) + b"abc" + bytes(range(16, 32)) + bytes(range(32, 48)) + be(2, 2) + b"de" + be(4, 1)
)
ADDRESS_AND_PORTS = bytes(range(64, 80)) + be(2, 179) + be(2, 40000)
TWO_OPENS = ADDRESS_AND_PORTS + OPEN + KEEPALIVE
WHOLE = {
    "common": b"\x03" + be(4, 6) + b"\x04",
    "perpeer": HEADER,
    "stats": be(4, 4) + tlv(7, be(8, 256)) + tlv(0, be(4, 3)) + tlv(9, be(2, 1) + b"\x01" + be(8, 5)) + tlv(65531, b"\x01\x02\x03"),
    "initiation": tlv(2, b"name") + tlv(1, b"x") + tlv(77, b"\x80\xff"),
    "termination": tlv(0, b"bye") + tlv(1, be(2, 3)),
    "peerdown": b"\x01" + KEEPALIVE,
    "openbmp": OPENBMP,
    "mirroring": tlv(1, be(2, 0)) + tlv(0, KEEPALIVE + b"\x00"),
    "monitoring": OPEN,
    "peerup": TWO_OPENS + tlv(0, b"up") + tlv(3, b"red"),
}


# The fixed cases: pairs of a reader and its input.

def cut_and_changed():
    for reader, data in WHOLE.items():
        for end in range(len(data) + 1):
            yield reader, data[:end]
        for place in range(len(data)):
            for byte in (0, 1, 2, 3, 4, 12, 19, 0x20, 0x40, 0x7F, 0x80, 0xA0, 0xC0, 0xFF):
                yield reader, data[:place] + bytes([byte]) + data[place + 1:]
        for tail in range(1, 7):
            yield reader, data + bytes(tail)
            yield reader, data + b"\xff" * tail


def changed_and_cut():
    """Two faults at once, so that it shows which of them is met first."""
    for reader, data in WHOLE.items():
        for place, end in itertools.combinations(range(len(data) + 1), 2):
            yield reader, data[:place] + bytes([data[place] ^ 0xFF]) + data[place + 1:end]


def short_headers():
    for version, length, kind in itertools.product((0, 2, 3, 4, 255), (0, 5, 6, 11, 0xFFFFFFFF), range(256)):
        yield "common", bytes([version]) + be(4, length) + bytes([kind])
    for kind, flags in itertools.product(range(5), range(256)):
        yield "perpeer", bytes([kind, flags]) + HEADER[2:]
    for kind, flags, address, identifier, distinguisher in itertools.product(range(5), (0, 0x20, 0x80, 0xA0), (0, 1), (0, 1), (0, 1)):
        for place in (1, 12, 13, 16):
            sixteen = bytes(place - 1) + bytes([address]) + bytes(16 - place)
            header = bytes([kind, flags]) + be(8, distinguisher) + sixteen + be(4, 0x00010002) + be(4, identifier) + bytes(8)
            yield "perpeer", header
            for end in (25, 26, 29, 30, 41):
                yield "perpeer", header[:end]


def short_walks():
    for kind, length, rest in itertools.product((0, 1, 2, 3, 4, 5, 255, 256, 65535), range(8), range(8)):
        for reader in ("initiation", "termination", "mirroring"):
            yield reader, be(2, kind) + be(2, length) + bytes(rest)
            yield reader, be(2, kind) + be(2, length) + b"\x00\x01" * 4 + bytes(rest)
        yield "peerup", TWO_OPENS + be(2, kind) + be(2, length) + b"\x00" * rest
    for length, reason in itertools.product(range(6), range(7)):
        yield "termination", tlv(1, be(2, reason), length)
        yield "termination", tlv(1, be(2, reason), length) + bytes(6)
        yield "mirroring", tlv(1, be(2, reason), length)
        yield "mirroring", tlv(1, be(2, reason), length) + tlv(1, be(2, 1))
    for count, length, rest in itertools.product(range(4), range(14), range(14)):
        yield "stats", be(4, count) + (be(2, 7) + be(2, length) + bytes(range(rest))) * min(count, 2)
    for kind in range(50):
        yield "stats", be(4, 1) + tlv(kind, be(4, 9))
    for reason, rest in itertools.product(range(9), range(4)):
        yield "peerdown", bytes([reason]) + bytes(range(rest))


def short_embedded():
    for own, given in itertools.product((0, 1, 17, 18, 19, 20, 21, 29, 65535), range(17, 23)):
        message = (b"\xff" * 16 + be(2, own) + b"\x02" + bytes(40))[:given]
        yield "monitoring", message
        yield "mirroring", tlv(0, message)
        yield "mirroring", tlv(0, message) + tlv(1, be(2, 1))
        yield "peerup", ADDRESS_AND_PORTS + message + KEEPALIVE
        yield "peerup", ADDRESS_AND_PORTS + KEEPALIVE + message
        yield "peerup", ADDRESS_AND_PORTS + message + KEEPALIVE + tlv(3, b"red")
    for declared in range(24):
        for rest in (0, 1, 17, 18, 19, 20):
            yield "mirroring", be(2, 0) + be(2, declared) + (KEEPALIVE + bytes(4))[:rest]


def names_of_tables():
    for length, byte in itertools.product((0, 1, 127, 128, 129, 254, 255, 256, 300), (0x41, 0x7F, 0x80, 0xFF)):
        yield "peerup", TWO_OPENS + tlv(3, bytes([byte]) * length)
        yield "peerup", TWO_OPENS + tlv(4, bytes([byte]) * length)
        yield "peerup", TWO_OPENS + tlv(3, b"red") + tlv(3, bytes([byte]) * length)


def limits():
    for count in (31, 32, 33, 34, 200):
        for reader, item in (("initiation", tlv(0, b"")), ("initiation", tlv(2, b"A")), ("termination", tlv(1, be(2, 0))),
                             ("termination", tlv(0, b"A")), ("mirroring", tlv(1, be(2, 0))), ("mirroring", tlv(0, KEEPALIVE))):
            for end in (b"", b"\x00", bytes(4), bytes(5), be(2, 9) + be(2, 1) + bytes(4), tlv(1, be(2, 9)), be(2, 2) + be(2, 9) + bytes(2)):
                yield reader, item * count + end
        for end in (b"", bytes(3), bytes(4), be(2, 3) + be(2, 1)):
            yield "peerup", TWO_OPENS + tlv(3, b"A") * count + end
    for count in (63, 64, 65, 66, 200):
        for item in (tlv(7, be(8, 1)), tlv(7, b""), tlv(7, be(4, 1))):
            yield "stats", be(4, count) + item * count
            yield "stats", be(4, count) + item * (count - 1)
            yield "stats", be(4, count + 1) + item * count + b"\x00"
            yield "stats", be(4, 0xFFFFFFFF) + item * count


def long_inputs():
    yield "initiation", tlv(1, b"A" * (LONGEST - 4 - 1)) + b"\x00"
    yield "initiation", tlv(1, b"A" * (LONGEST - 4 - 1))
    yield "initiation", be(2, 1) + be(2, 65535) + bytes(LONGEST - 4)
    yield "termination", tlv(0, b"A" * 65530)
    yield "stats", be(4, 1) + tlv(99, b"A" * 65528)
    yield "peerdown", b"\x03" + b"\xaa" * 65535
    yield "monitoring", (b"\xff" * 16 + be(2, 65535) + b"\x02" + bytes(LONGEST))[:LONGEST]
    yield "mirroring", tlv(0, (b"\xff" * 16 + be(2, 65532) + b"\x02" + bytes(LONGEST))[:65532])
    yield "openbmp", OPENBMP[:40] + bytes(65496)
    yield "common", WHOLE["common"] + bytes(LONGEST - 6)


def pairs_of_headers():
    other_times = (bytes(8), be(4, 1700000000) + be(4, 123457), be(4, 1699999999) + be(4, 1123456), be(4, 1700000001) + bytes(4))
    for kind, flags in itertools.product(range(5), (0, 0x20, 0x80, 0xA0)):
        first = bytes([kind, flags]) + HEADER[2:]
        yield first + first
        for time in other_times:
            yield first + first[:34] + time
        for place in range(42):
            second = bytearray(first)
            second[place] ^= 1
            yield first + bytes(second)
            yield bytes(second) + first


def bad_lines():
    good = b"mirroring asn=32,type=0 000100020001"
    yield from (good + end for end in (b" ", b"\r", b"0", b"00g0", b"0A", b"\t", b"\x00", b"\xff", b" -"))
    yield from (b" " + good, good.replace(b" ", b"  ", 1), good.replace(b" ", b"\t", 1), good.upper(), b"-", b" ", b"common", b"common -",
                b"common - ", b"common  -", b"common - --", b"common - 0x", b"common asn=32,type=0 03", b"Common - 03", b"commo - 03",
                b"equal - -", b"equal - 00", b"equal - " + b"00" * 83, b"equal - " + b"00" * 85, b"rewrite- - 00", b"rewrite-split - 00",
                b"rewrite-equal - " + b"00" * 84, b"rewrite-common -", b"split x 00", b"peerup - 00", b"peerdown asn=16,type=0 00")
    for arguments in ("", "asn=32", "type=0", "asn=32,type=4", "asn=8,type=0", "type=0,asn=32", "asn=32,type=0,", "asn=32,type=00",
                      "afi=4,asn=32,type=0", "asn=032,type=0", "asn=32;type=0", "asn=32, type=0", "ASN=32,type=0"):
        yield f"mirroring {arguments} 000100020001".encode()
        yield f"peerup afi=5,{arguments} 00".encode()
    yield b"initiation - " + b"00" * LONGEST
    yield b"initiation - " + b"00" * (LONGEST + 1)
    yield b"x" * 300000


def fixed():
    bytes_of_one = [b""] + [bytes([byte]) for byte in range(256)]
    for reader in READERS:
        for arguments, data in itertools.product(ARGUMENTS[reader], bytes_of_one):
            yield line(reader, arguments, data)
        for data in bytes_of_one:
            yield line("rewrite-" + reader, ARGUMENTS[reader][0], data)
    for data in bytes_of_one:
        yield line("split", "-", data)
    for number, (reader, data) in enumerate(itertools.chain(
            cut_and_changed(), changed_and_cut(), short_headers(), short_walks(), short_embedded(), names_of_tables(), limits(), long_inputs())):
        choices = ARGUMENTS[reader]
        # Type 3 brings warnings and the others do not, so it is always among the arguments that are tried.
        for arguments in dict.fromkeys((choices[number % len(choices)], choices[-1], choices[3 % len(choices)])):
            yield line(reader, arguments, data)
        if number % 3 == 0:
            yield line("rewrite-" + reader, choices[number % len(choices)], data)
        if reader == "common":
            yield line("split", "-", data)
    for data in pairs_of_headers():
        yield line("equal", "-", data)
    yield from bad_lines()


class Maker:
    """Messages made by chance; every choice comes from one source, so that a seed gives one list."""

    def __init__(self, seed):
        self.chance = random.Random(seed)
        self.bits = self.chance.getrandbits
        self.pick = self.chance.choice

    def below(self, bound):
        return int(self.chance.random() * bound)

    def once_in(self, times):
        return self.chance.random() * times < 1

    def number(self, width):
        kind = self.below(10)
        if kind < 4:
            return self.below(6)
        if kind < 6:
            return self.pick((0, 1, (1 << 8 * width) - 1, 1 << 8 * width - 1, (1 << 8 * width - 1) - 1))
        return self.bits(8 * width)

    def bytes(self, length):
        kind = self.below(4)
        if kind == 0:
            return bytes(length)
        if kind == 1:
            return bytes([self.pick((0x20, 0x41, 0x7E, 0x80, 0xC3, 0xFF))]) * length
        return self.chance.randbytes(length)

    def size(self):
        """How long a value is: mostly short."""
        kind = self.below(40)
        if kind == 0:
            return self.pick((100, 127, 128, 129, 254, 255, 256, 257))
        return self.below(4) if kind < 30 else self.below(24)

    def count(self, most):
        """How many items a table gets: mostly few, at times about as many as it holds."""
        if self.once_in(60):
            return most + self.pick((-1, 0, 1, 2))
        return self.below(5)

    def length(self, true):
        """A length field: mostly true."""
        if self.once_in(25):
            return self.pick((0, 1, 2, true + 1, max(true - 1, 0), 65535, self.bits(16))) & 0xFFFF
        return true

    def bgp(self, honest):
        rest = 0 if self.once_in(3) else self.below(30)
        own = 19 + rest
        if not honest and self.once_in(4) or self.once_in(40):
            own = self.pick((0, 18, 19, 20, own + 1, own + 5, 65535))
        marker = b"\xff" * 16 if self.below(4) else self.bytes(16)
        kind = 1 + self.below(5) if self.below(8) else self.bits(8)
        return marker + be(2, own) + bytes([kind]) + self.bytes(rest)

    def information(self, most):
        kind = lambda: self.below(6) if self.below(5) else self.pick((3, 3, 65535, self.bits(16)))
        return b"".join(tlv(kind(), value, self.length(len(value))) for value in (self.bytes(self.size()) for _ in range(self.count(most))))

    def common(self):
        rest = self.below(30)
        length = 6 + rest if self.below(3) else self.pick((0, 5, 6, 1048576, 1048577, 7 + rest, self.number(4)))
        version = 3 if self.below(12) else self.bits(8)
        return bytes([version]) + be(4, length) + bytes([self.below(8) if self.below(6) else self.bits(8)]) + self.bytes(rest)

    def perpeer(self):
        kind = self.below(4) if self.below(25) else self.bits(8)
        flags = self.pick((0, 0x20, 0x40, 0x80, 0xA0, 0x10, self.bits(8), self.bits(8)))
        address = self.bytes(16) if self.below(3) else bytes(12) + self.bytes(4)
        time = be(4, self.number(4)) + be(4, self.pick((0, 999999, 1000000, self.below(1000000), self.number(4))))
        return bytes([kind, flags]) + be(8, self.number(8)) + address + be(4, self.number(4)) + be(4, self.number(4)) + time

    def stats(self):
        count = self.count(64)
        records = []
        for _ in range(count):
            length = self.pick((4, 4, 8, 8, 11, 11, 0, 3, 5, 7, 9, 10, 12, self.size()))
            kind = self.below(46) if self.below(6) else self.pick((65531, 65535, self.bits(16)))
            records.append(tlv(kind, self.bytes(length), self.length(length)))
        told = count if self.below(12) else self.pick((0, count + 1, max(count - 1, 0), self.number(4)))
        return be(4, told) + b"".join(records)

    def initiation(self):
        return self.information(32)

    def termination(self):
        parts = []
        for _ in range(self.count(32)):
            kind = self.below(2) if self.below(20) else self.pick((2, 256, self.bits(16)))
            if kind == 1:
                parts.append(tlv(1, be(2, self.below(5) if self.below(12) else self.number(2)), self.length(self.pick((2, 2, 2, 0, 1, 3)))))
            else:
                value = self.bytes(self.size())
                parts.append(tlv(kind, value, self.length(len(value))))
        return b"".join(parts)

    def mirroring(self):
        parts = []
        for _ in range(self.count(32)):
            kind = self.below(2) if self.below(25) else self.pick((2, 256, self.bits(16)))
            if kind == 1:
                parts.append(tlv(1, be(2, self.below(2) if self.below(15) else self.number(2)), self.number(2) if self.once_in(3) else 2))
            else:
                value = self.bgp(False)
                parts.append(tlv(kind, value, self.length(len(value))))
        return b"".join(parts)

    def monitoring(self):
        return self.bgp(False)

    def peerdown(self):
        return bytes([self.below(8) if self.below(8) else self.bits(8)]) + self.bytes(self.size())

    def peerup(self):
        local = self.bytes(16) if self.below(2) else bytes(12) + self.bytes(4)
        return local + be(2, self.number(2)) + be(2, self.number(2)) + self.bgp(True) + self.bgp(True) + self.information(32)

    def openbmp(self):
        magic = b"OBMP" if self.below(15) else self.pick((b"OBMQ", b"obmp", self.bytes(4)))
        versions = b"\x01\x07" if self.below(15) else self.pick((b"\x01\x06", b"\x02\x07", self.bytes(2)))
        flags = 0x80 | self.bits(7) if self.below(12) else self.bits(8)
        kind = 12 if self.below(12) else self.bits(8)
        admin, group = self.bytes(self.size()), self.bytes(self.size())
        rows = 1 if self.below(10) else self.number(4)
        return (magic + versions + be(2, self.number(2)) + be(4, self.number(4)) + bytes([flags, kind]) + be(4, self.number(4))
                + be(4, self.number(4)) + self.bytes(16) + be(2, self.length(len(admin))) + admin + self.bytes(16) + self.bytes(16)
                + be(2, self.length(len(group))) + group + be(4, rows))

    def equal(self):
        first = self.perpeer()
        second = bytearray(first if self.below(8) else self.perpeer())
        if self.below(3) == 0:
            second[34:] = be(4, self.number(4)) + be(4, self.number(4))
        for _ in range(self.below(3)):
            second[self.below(42)] = self.pick((0, 1, 0x20, 0x80, self.bits(8)))
        return first + bytes(second)

    def disturbed(self, data):
        kind = self.below(20)
        if kind < 10:
            return data
        if kind < 13:
            return data[:self.below(len(data) + 1)]
        if kind < 15:
            return data + self.bytes(1 + self.below(6))
        if kind == 15 and data:
            place = self.below(len(data))
            return data[:place] + data[place + 1:]
        if kind == 16:
            place = self.below(len(data) + 1)
            return data[:place] + self.bytes(1) + data[place:]
        if kind == 17:
            return self.bytes(self.below(64))
        changed = bytearray(data)
        for _ in range(1 + self.below(3) if data else 0):
            changed[self.below(len(data))] = self.pick((0, 1, 2, 3, 4, 0x13, 0x80, 0xFF, self.bits(8)))
        return bytes(changed)

    def spoilt(self, good):
        """A line with something wrong in it, at times nothing at all."""
        place = self.below(len(good) + 1)
        kind = self.below(5)
        if kind == 0:
            return good[:place]
        if kind == 1:
            return good[:place] + self.pick((b" ", b"-", b"A", b"g", b",", b"\r", b"\xc3", b"0")) + good[place:]
        if kind == 2:
            return good[:place] + good[place + 1:]
        return good.upper() if kind == 3 else good.replace(b" ", b"", 1)

    def lines(self):
        """The lines of one message: mostly one, at times one for each length that it can be cut at."""
        verb = self.pick(GENERATED)
        if verb in ("split", "equal"):
            data = self.disturbed(self.common()) if verb == "split" else self.equal()
            yield line(verb, "-", data)
            return
        data = self.disturbed(getattr(self, verb)())
        arguments = self.pick(ARGUMENTS[verb])
        if self.once_in(500):
            yield from (line(verb, arguments, data[:end]) for end in range(len(data)))
        if self.once_in(6):
            verb = "rewrite-" + verb
        made = line(verb, arguments, data)
        if self.once_in(100):
            made = self.spoilt(made).replace(b"\n", b"")
        yield made


def generated(cases, seed):
    maker = Maker(seed)
    return itertools.islice(itertools.chain.from_iterable(maker.lines() for _ in itertools.count()), cases)


def main():
    if len(sys.argv) != 3 or not all(word.isascii() and word.isdecimal() for word in sys.argv[1:]):
        sys.exit("usage: compare/generate.py CASES SEED, two numbers")
    cases, seed = map(int, sys.argv[1:])
    for made in itertools.chain(fixed(), generated(cases, seed)):
        sys.stdout.buffer.write(made + b"\n")


if __name__ == "__main__":
    main()
