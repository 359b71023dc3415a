"""The fixed list of cases for replay, on standard output; with the argument `records` that for records.

The same lists at every run. The last line of the first has no LF.
"""

import sys

TYPES = range(4)
MONITORING_ARGS = [f"asn={asn},type={peer}" for asn in (16, 32) for peer in TYPES]
PEER_UP_ARGS = [f"afi={afi},asn={asn},type={peer}" for afi in (4, 6) for asn in (16, 32) for peer in TYPES]
LARGEST = 0xFFFFFFFF
LIMIT = 1_048_576


def u8(number):
    return number.to_bytes(1, "big")


def u16(number):
    return number.to_bytes(2, "big")


def u32(number):
    return number.to_bytes(4, "big")


def u64(number):
    return number.to_bytes(8, "big")


def tlv(kind, value, length=None):
    return u16(kind) + u16(len(value) if length is None else length) + value


def counting(length):
    """As many bytes, of which no two neighbours are alike."""
    return bytes(1 + place % 250 for place in range(length))


def cuts(message):
    """The message cut at each length, the whole one, and the whole one with a tail."""
    return [message[:length] for length in range(len(message) + 1)] + [message + b"\x03", message + b"\x00\x02\x00\x00\x00"]


class Damage:
    """Numbers that look random and are the same at every run."""

    INTERESTING = [0, 1, 2, 3, 4, 5, 6, 7, 8, 11, 12, 18, 19, 20, 0x20, 0x40, 0x7F, 0x80, 0xA0, 0xFE, 0xFF]

    def __init__(self, seed):
        self.state = seed

    def below(self, limit):
        self.state = (self.state * 6364136223846793005 + 1442695040888963407) % 2**64
        return (self.state >> 33) % limit

    def of(self, message):
        """One to three bytes replaced; at times a byte left out or put in."""
        message = bytearray(message)
        for _ in range(1 + self.below(3)):
            message[self.below(len(message))] = self.INTERESTING[self.below(len(self.INTERESTING))]
        kind = self.below(6)
        place = self.below(len(message))
        if kind == 0:
            del message[place]
        if kind == 1:
            message.insert(place, self.INTERESTING[self.below(len(self.INTERESTING))])
        return bytes(message)


def damaged(messages, each, seed):
    damage = Damage(seed)
    return [damage.of(message) for message in messages for _ in range(each)]


# Common header and splitter.


def common(version=3, length=6, kind=4):
    return u8(version) + u32(length) + u8(kind)


def common_cases():
    yield from cuts(common())
    yield from [common(version=version) for version in (0, 1, 2, 4, 255)]
    yield from [u8(version) for version in (0, 2, 4, 255)]
    yield from [common(kind=kind) for kind in (0, 1, 2, 3, 5, 6, 7, 8, 128, 255)]
    yield from [common(length=length) for length in (0, 1, 5, 7, 1_048_576, 1_048_577, LARGEST)]
    yield common(version=2, kind=7)
    yield common(length=5, kind=7)


def split_cases():
    yield from common_cases()
    message = common(length=11) + tlv(2, b"A")
    yield from cuts(message)
    yield message + message
    yield from [common(length=length, kind=kind) for length in (0, 5, 6, 7) for kind in (0, 6)]
    yield from [common(length=length) + bytes(4) for length in (0, 5, 6, 7, 9, 10, 11)]
    yield from [common(length=1_048_577) + bytes(20), common(length=1_048_576) + bytes(20)]
    yield common(length=0x06000000) + bytes(20)
    yield from damaged([message], 30, 1)
    yield from skipped_cases(message)


def skipped_cases(message):
    """Messages of types that are not known: small ones short of a byte, whole, and with another behind them; else the header alone."""
    for kind in (7, 8, 9, 128, 254, 255):
        for length in (6, 7, 9):
            small = common(length=length, kind=kind) + counting(length - 6)
            yield from [small[:-1], small, small + common()]
        yield from [common(length=length, kind=kind) for length in (0, 5, 9, 1_048_576, 1_048_577, LARGEST)]
    yield from [common(version=4, length=length, kind=9) for length in (5, 6)]
    unknown = common(length=11, kind=9) + tlv(2, b"A")
    yield from cuts(unknown)
    yield from [unknown + message, message + unknown, unknown + unknown]
    yield from [common(length=12, kind=9) + body for body in broken_headers()]
    yield from damaged([unknown], 10, 10)


def broken_headers():
    """Each would be refused by its version, by its length, or for want of bytes. As a body it has no say."""
    return [common(version=2), common(length=0), common(length=5, kind=9), common(length=7), common(length=LARGEST), b"\xff" * 6]


# Per-peer header.


def peer(kind=0, flags=0, distinguisher=0, address=None, asn=65_000, bgp_id=0x0A0A0A0A, seconds=1, microseconds=500_000):
    address = bytes(12) + bytes([10, 0, 0, 1]) if address is None else address
    return u8(kind) + u8(flags) + u64(distinguisher) + address + u32(asn) + u32(bgp_id) + u32(seconds) + u32(microseconds)


FULL_ADDRESS = bytes.fromhex("20010db8ffff00010203040506070809")
FULL = {"distinguisher": 0x0001020304050607, "address": FULL_ADDRESS, "asn": 0xFFFE_FDFC}
TIMES = [
    (0, 0), (0, 1), (1, 0), (0, 3), (0, 500_000), (0, 999_999), (0, 1_000_000), (0, 1_000_001), (0, 1_003_691), (1, 1_000_000),
    (2, 0), (0, 2_000_000), (1_794_707_493, 679_472), (1_794_707_493, 679_473), (1_700_000_000, 123_456), (2_147_483_648, 999_999),
    (4_194_304, 1), (LARGEST, 0), (0, LARGEST), (LARGEST, LARGEST), (LARGEST, 999_999), (1, 1), (33_554_433, 333_333),
]  # fmt: skip


def perpeer_cases():
    yield from cuts(peer(flags=0, **FULL))
    yield from [peer(3, 0xA0, **FULL)[:length] for length in (0, 1, 2, 9, 10, 25, 26, 27, 29, 30, 33, 34, 37, 38, 41, 42)]
    yield from [peer(2, 0xA0, **FULL)[:length] for length in (10, 11, 21, 22, 25, 26, 27, 28, 29, 41, 42)]
    yield from [u8(kind) for kind in (3, 4, 5, 128, 255)]
    yield from [peer(kind) for kind in (4, 5, 255)]
    flags = [nibble << 4 for nibble in range(16)] + [1, 2, 4, 8, 0x0F, 0x7F, 0x5F, 0xDF, 0xFF]
    yield from [peer(kind, flag, **FULL) for kind in TYPES for flag in flags]
    yield from [peer(0, 0x20, asn=asn) for asn in (0, 1, 65_535, 65_536, 65_537, LARGEST)]
    yield from [peer(0, 0x00, asn=asn) for asn in (0, 65_535, 65_536, LARGEST)]
    yield from perpeer_warnings()
    yield from [peer(seconds=seconds, microseconds=microseconds) for seconds, microseconds in TIMES]
    yield from [peer(3, seconds=seconds, microseconds=microseconds) for seconds, microseconds in TIMES[:3]]
    yield from [peer(distinguisher=2**64 - 1, bgp_id=LARGEST), peer(distinguisher=1, bgp_id=1), peer(bgp_id=0x00000100)]
    yield from damaged([peer(), peer(1, 0xA0, **FULL), peer(3, **FULL)], 15, 2)


def perpeer_warnings():
    addresses = [bytes(16), b"\1" + bytes(15), bytes(15) + b"\1", bytes(7) + b"\x80" + bytes(8)]
    for kind in TYPES:
        for address in addresses if kind == 3 else addresses[:2]:
            for distinguisher in (0, 1, 1 << 63):
                for bgp_id in (0, 1) if kind == 3 else (0,):
                    yield peer(kind, 0, distinguisher, address, bgp_id=bgp_id)


def equal_cases():
    one = {"kind": 0, "flags": 0, "distinguisher": 7}
    changes = [
        {}, {"kind": 1}, {"kind": 2}, {"kind": 3}, {"flags": 0x01}, {"flags": 0x80}, {"flags": 0x20}, {"flags": 0x40}, {"distinguisher": 8},
        {"distinguisher": 7 + 2**63}, {"address": FULL_ADDRESS}, {"address": b"\xff" * 12 + bytes([10, 0, 0, 1])}, {"asn": 65_001},
        {"asn": 65_000 + 2**16}, {"bgp_id": 1}, {"seconds": 2}, {"microseconds": 500_001}, {"seconds": 0, "microseconds": 1_500_000},
        {"seconds": 0, "microseconds": 0}, {"asn": 65_001, "seconds": 2}, {"kind": 4}, {"kind": 255},
    ]  # fmt: skip
    for change in changes:
        yield peer(**one) + peer(**{**one, **change})
        yield peer(**{**one, **change}) + peer(**one)
    yield from [peer(kind=4) + peer(kind=5), peer(kind=5) + peer(kind=4)]
    yield from equal_times()
    for kind, flags in ((0, 0x20), (0, 0xA0), (1, 0x80), (3, 0x00), (3, 0xFF)):
        full = peer(kind, flags, **FULL)
        yield full + full
        yield full + peer(kind, flags, **{**FULL, "asn": 0x0001_FDFC})
        yield full + peer(kind, flags, **{**FULL, "address": b"\x21" + FULL_ADDRESS[1:]})
        yield full + peer(kind, flags, **{**FULL, "address": FULL_ADDRESS[:15] + b"\x0a"})
    yield from [(peer() * 3)[:length] for length in (0, 1, 42, 83, 85, 126)]


def equal_times():
    pairs = [
        ((0, 1_000_000), (1, 0)), ((1, 0), (0, 1_000_000)), ((0, 0), (0, 0)), ((0, 1), (0, 0)), ((5, 0), (4, 1_000_000)),
        ((4, 1_000_001), (5, 1)), ((LARGEST, 0), (LARGEST - 1, 1_000_000)), ((LARGEST, 0), (LARGEST - 1, 999_999)),
        ((1_794_707_493, 679_472), (1_794_707_492, 1_679_472)), ((0, 1_003_691), (1, 3_691)),
    ]  # fmt: skip
    for first, second in pairs:
        yield peer(seconds=first[0], microseconds=first[1]) + peer(seconds=second[0], microseconds=second[1])


# Statistics.


def stats(records, count=None):
    return u32(len(records) if count is None else count) + b"".join(records)


def stats_cases():
    gauge = u16(1) + u8(128) + u64(2**63)
    mixed = [tlv(0, u32(LARGEST)), tlv(7, u64(2**64 - 1)), tlv(9, gauge), tlv(65_531, u32(1)), tlv(24, b""), tlv(44, b"abc")]
    yield from cuts(stats(mixed))
    yield from [stats(mixed, count) for count in (0, 1, 5, 7, 64, 65, LARGEST)]
    yield from [stats([], count) for count in (1, 64, 65, LARGEST)]
    for length in (*range(14), 16, 255, 256):
        value = bytes(range(256))[1 : length + 1].ljust(length, b"\xaa")
        yield stats([tlv(7, value)])
        if length:
            yield stats([tlv(7, value[:-1], length)])
    yield from [stats([tlv(kind, u32(1))]) for kind in (*range(0, 24), 24, 25, *range(26, 44), 44, 45, 255, 256, 65_535)]
    yield from [stats([tlv(kind, u64(1))]) for kind in (0, 7, 65_535)]
    yield from [stats([tlv(0, b"\x01", length)]) for length in (4, 8, 11, 65_535)]
    yield from full_stats()
    yield from damaged([stats(mixed), stats(mixed[2:5])], 20, 3)


def full_stats():
    """The 64th, 65th and 66th counter, and faults of the 65th and the 66th."""
    empty = [tlv(24, b"")] * 64
    yield from [stats([tlv(0, u32(number)) for number in range(count)]) for count in (63, 64, 65)]
    yield from [stats(empty[:63]), stats(empty), stats(empty + [tlv(0, u32(1))]), stats(empty + [tlv(9, bytes(11))] * 2)]
    yield stats(empty, 63)
    yield from [stats(empty + [tlv(0, u32(1))[:length]], 65) for length in range(9)]
    yield from [stats(empty + [tlv(9, bytes(11))[:length]], 66) for length in (0, 3, 4, 14, 15)]
    yield from [stats(empty + [tlv(0, u32(1)), tlv(0, u32(1))[:length]], 66) for length in (0, 2, 4, 7)]
    yield stats(empty + [tlv(0, u32(1))], 64)


# Initiation and Termination.


def initiation_cases():
    yield from cuts(tlv(1, b"FRRouting 10.3") + tlv(2, b"") + tlv(65_535, b"\x00\xff") + tlv(0, b"hello"))
    yield from [tlv(kind, b"A") for kind in (0, 1, 2, 3, 4, 5, 6, 255, 256, 65_534, 65_535)]
    yield from [tlv(2, b"A", length) for length in (0, 1, 2, 5, 255, 65_535)]
    yield from [tlv(1, b"A") + tlv(2, b"B", length) for length in (0, 1, 2, 256, 65_535)]
    yield from empty_tlvs(0)
    yield from full_tlvs(tlv(0, b"A"), [tlv(65_535, b"BC")])
    yield tlv(0, b"x" * 300)
    yield from damaged([tlv(1, b"ab") + tlv(2, b"c") + tlv(9, b"def")], 35, 4)


def empty_tlvs(kind):
    """Empty TLVs first, last, and with one to five bytes behind them."""
    empty = tlv(kind, b"")
    yield from [empty + bytes(rest) for rest in range(6)]
    yield from [tlv(0, b"A") + empty + bytes(rest) for rest in range(6)]
    yield from [empty + tlv(0, b"A"), empty + empty, empty + empty + b"\x00"]


def full_tlvs(good, thirty_third):
    """32 and 33 TLVs, what may stand behind the 32nd, and a 33rd cut at each length."""
    yield from [good * count for count in (31, 32, 33, 34)]
    yield from [good * 32 + bytes(rest) for rest in (1, 2, 3, 4, 5)]
    for last in (good, *thirty_third):
        yield from [good * 32 + last[:length] for length in range(1, len(last) + 1)]
        yield good * 31 + last
    yield good * 33 + b"\xff\xff\xff\xff\xff"


def reason(number, length=2):
    return tlv(1, u16(number), length)


def termination_cases():
    yield from cuts(tlv(0, b"bye") + reason(0) + tlv(0, b"") + reason(4) + tlv(0, b"so long"))
    yield from [reason(number) for number in (0, 1, 2, 3, 4, 5, 255, 256, 65_535)]
    yield from [reason(3, length) for length in (0, 1, 2, 3, 7, 65_535)]
    yield from [reason(3, length) + b"\x00" * rest for length in (0, 1, 3, 4, 7) for rest in (1, 4, 5, 6)]
    yield from [reason(9, length) for length in (0, 2, 3)]
    yield from [tlv(1, b"\x03", length) for length in (0, 1, 2)]
    yield from [reason(1) + tlv(1, b"\x03", length) for length in (0, 1, 2)]
    yield from [reason(3, 4) + tlv(0, b"A"), reason(3, 0) + reason(2), reason(1) + reason(2, 7) + bytes(8)]
    yield from [tlv(kind, b"A") for kind in (0, 2, 3, 256, 65_535)]
    yield from [tlv(kind, b"A", length) for kind in (0, 1, 2) for length in (5, 65_535)]
    yield from [tlv(0, b"A") + tlv(2, b"", length) + bytes(rest) for length in (0, 9) for rest in (0, 1)]
    yield from empty_tlvs(0)
    yield from full_tlvs(tlv(0, b"A"), [reason(4), reason(5), reason(1, 0), reason(5, 0), tlv(2, b"A"), tlv(0, b"AB"), tlv(1, b"\x01")])
    yield from [reason(2) * count for count in (32, 33)]
    yield tlv(0, b"A") * 33 + tlv(2, b"A")
    yield from damaged([tlv(0, b"ab") + reason(1) + tlv(0, b"c")], 35, 5)


# Route Mirroring and Route Monitoring.


def bgp(length=19, own=None, kind=4):
    return b"\xff" * 16 + u16(length if own is None else own) + u8(kind) + counting(length - 19)


def mirroring_cases():
    information = tlv(1, u16(1))
    yield from cuts(tlv(1, u16(0)) + tlv(0, bgp(23)) + tlv(1, u16(1), 7))
    yield from [tlv(1, u16(number)) for number in (0, 1, 2, 256, 65_535)]
    yield from [tlv(1, u16(number), length) for number in (1, 2) for length in (0, 1, 3, 19, 65_535)]
    yield from [tlv(kind, u16(1)) for kind in (2, 3, 255, 256, 65_535)]
    yield from [tlv(2, b"", length) + bytes(rest) for length in (0, 2, 65_535) for rest in (0, 1)]
    yield from [tlv(0, bgp()[:length]) for length in (0, 1, 2, 17, 18, 19)]
    yield from [tlv(0, bgp(), length) for length in (0, 18, 19, 20, 65_535)]
    yield from [tlv(0, bgp(own=own)) for own in (0, 18, 20)] + [tlv(0, bgp(40)), tlv(0, bytes(19))]
    yield from [tlv(0, b"", length) + b"\x00" for length in (0, 1, 18, 19)]
    yield from [information + tlv(0, bgp()) + bytes(rest) for rest in range(6)]
    yield from [tlv(0, bgp()) + tlv(2, b"A"), information + tlv(0, bgp()[:18]), information + tlv(1, u16(2))]
    yield from full_tlvs(information, [tlv(0, bgp()), tlv(1, u16(2)), tlv(2, b"A"), tlv(0, bgp()[:18]), tlv(1, u16(0), 9)])
    yield from [tlv(0, bgp()) * count for count in (32, 33)]
    yield information * 33 + tlv(2, b"A")
    yield from damaged([tlv(1, u16(1)) + tlv(0, bgp(20)), tlv(0, bgp()) + tlv(1, u16(0))], 20, 6)


def monitoring_cases():
    yield from [bytes(range(length)) for length in range(25)]
    yield from [bgp(30), bgp(19, own=18), bgp(19, own=65_535), bgp(23, own=19), bgp(60, kind=2)]


# Peer Down.


def peerdown_cases():
    yield b""
    for number in (*range(9), 128, 255):
        yield from [u8(number) + data for data in (b"", b"\xaa", b"\x00\x05", bgp(21, kind=3), tlv(3, b"blue"))]
    yield from [u8(number) + b"\x00" for number in (0, 4, 5)]


# Peer Up.


def peer_up(*tlvs, address=bytes(12) + bytes([10, 0, 0, 2]), local=179, remote=49_153, sent=bgp(29, kind=1), received=bgp(21, kind=1)):
    return address + u16(local) + u16(remote) + sent + received + b"".join(tlvs)


def peerup_cases():
    """The cases of a peer that is not a Loc-RIB's, each with one argument list."""
    yield from cuts(peer_up(tlv(0, b"hi"), tlv(4, b""), tlv(65_535, b"\x00")))
    for own in (0, 1, 18, 19, 20, 21, 22, 29, 30, 256, 65_535):
        yield peer_up(sent=bgp(21, own))
        yield peer_up(received=bgp(21, own))
    yield from [peer_up(sent=bgp(19, own)[:length], received=b"") for own in (18, 19, 20) for length in (17, 18, 19)]
    yield from [peer_up(received=bgp(19, own)[:length]) for own in (18, 19, 20) for length in (0, 17, 18, 19)]
    yield peer_up(sent=bgp(19), received=bgp(19))
    yield peer_up(sent=bytes(16) + u16(19) + b"\x05", received=bgp(40, kind=0))
    yield from [peer_up(tlv(kind, b"A")) for kind in (*range(6), 255, 256, 65_535)]
    yield from [peer_up(tlv(0, b"AB", length)) for length in (0, 1, 2, 3, 65_535)]
    yield from [peer_up(tlv(0, b""), bytes(rest)) for rest in range(5)]
    yield from [peer_up(bytes(rest)) for rest in range(6)]
    yield from [peer_up(local=local, remote=remote) for local, remote in ((0, 0), (65_535, 1), (1, 65_535), (256, 255))]
    yield from [peer_up(body) for body in full_tlvs(tlv(0, b""), [tlv(3, b"AB")])]
    yield from damaged([peer_up(tlv(3, b"ab"), sent=bgp(19), received=bgp(20))], 40, 7)


def table_name_cases():
    """Those that bear on warnings, and addresses of both families; each with several argument lists."""
    name = tlv(3, b"global")
    yield from [peer_up(), peer_up(name), peer_up(tlv(3, b"")), peer_up(tlv(3, b"A")), peer_up(tlv(0, b"A"), name)]
    yield from [peer_up(tlv(3, b"\x80" * length)) for length in (128, 255, 256)]
    yield from [peer_up(name, tlv(3, b"")), peer_up(tlv(3, b""), name), peer_up(tlv(3, b""), tlv(3, b"")), peer_up(tlv(0, b""), tlv(4, b""))]
    yield from [peer_up(tlv(3, b""), tlv(3, b"A", 2)), peer_up(tlv(0, b"") * 33), peer_up(tlv(0, b"") * 32, name)]
    yield peer_up(name, address=FULL_ADDRESS)


# OpenBMP.


def open_bmp(magic=b"OBMP", versions=b"\x01\x07", header=81, message=6, flags=0x80, kind=12, time=(1, 500_000), **rest):
    start = magic + versions + u16(header) + u32(message) + u8(flags) + u8(kind) + u32(time[0]) + u32(time[1])
    return start + open_bmp_rest(**rest)


def open_bmp_rest(admin=b"ab", admin_length=None, address=FULL_ADDRESS, group=b"c", group_length=None, rows=1):
    admin_length = len(admin) if admin_length is None else admin_length
    group_length = len(group) if group_length is None else group_length
    router = b"\x22" * 16 + address
    return b"\x11" * 16 + u16(admin_length) + admin + router + u16(group_length) + group + u32(rows)


def openbmp_cases():
    yield from cuts(open_bmp())
    yield from [open_bmp(magic=magic) for magic in (b"OBMQ", b"PBMP", b"OCMP", b"OBNP", b"obmp", bytes(4), b"\xcf\xc2\xcd\xd0")]
    yield from [b"X", b"OBM", b"XYZ", b"OBMX", b"OBMX\x01\x07", b"OBMP\x02", b"OBMP\x02\x07", b"OBMP\x01\x06", b"OBMP\x01"]
    yield from [open_bmp(versions=bytes(pair)) for pair in ((0, 7), (1, 6), (1, 8), (2, 7), (7, 1), (1, 0), (255, 7), (1, 255), (0, 0))]
    yield from [open_bmp(flags=flags) for flags in (0, 0x01, 0x40, 0x7F, 0x80, 0x81, 0xBF, 0xC0, 0xC1, 0xE0, 0xFF)]
    yield from [open_bmp(kind=kind) for kind in (0, 1, 11, 13, 140, 255)]
    yield from [open_bmp(flags=0, kind=11), open_bmp(versions=b"\x01\x08", flags=0), open_bmp(kind=11, rows=0)]
    yield from [open_bmp(flags=0)[:13], open_bmp(flags=0x40, kind=11)[:14], open_bmp(kind=11)[:14], open_bmp()[:14]]
    yield from [open_bmp(header=header, message=message) for header, message in ((0, 0), (65_535, LARGEST), (1, 256))]
    yield from [open_bmp(time=time) for time in TIMES]
    yield from [open_bmp(admin=b"x" * length) for length in (0, 1, 255, 256, 300)]
    yield from [open_bmp(group=b"y" * length) for length in (0, 1, 255, 256)]
    yield from [open_bmp(admin=b"", group=b"", flags=flags) for flags in (0x80, 0xC0)]
    yield from [open_bmp(admin=b"\x00\x1f\x7f\x80\xff", group=b"\xe4\x00")]
    yield from [open_bmp(admin_length=length) for length in (0, 1, 3, 40, 41, 42, 43, 65_535)]
    yield from [open_bmp(group_length=length) for length in (0, 1, 2, 5, 6, 65_535)]
    yield from [open_bmp(rows=rows) for rows in (0, 1, 2, 256, 0x01000000, LARGEST)]
    yield from [open_bmp(rows=2)[:-1], open_bmp() + common(), open_bmp(rows=2) + b"\x00"]
    yield from [open_bmp(address=address, flags=flags) for address in (bytes(16), b"\x0a\x00\x00\x01" + bytes(12)) for flags in (0x80, 0xC0)]
    yield from damaged([open_bmp(), open_bmp(flags=0xC0, admin=b"", group=b"")], 25, 8)


# What a Cut lacks: each field of each reader and of the splitter.


def messages_by_fields():
    """Verb, arguments, a message, and how many bytes each of its fields needs, one behind the other and none left out.

    An OPEN needs its header first and then its own length, so it stands here as its header and the rest. Of a TLV only the value can
    be Cut, and in Initiation not even that; its type and its length are here to show that they are not.
    """
    yield "common", "-", common(), {"version": 1, "length": 4, "type": 1}
    yield "perpeer", "-", peer(flags=0x80, **FULL), {
        "type": 1, "flags": 1, "distinguisher": 8, "address": 16, "AS": 4, "BGP ID": 4, "seconds": 4, "microseconds": 4,
    }  # fmt: skip
    for kind, length in ((4, 6), (4, 7), (4, 9), (4, 300), (9, 6), (9, 9), (255, 300)):
        yield "split", "-", common(length=length, kind=kind) + counting(length - 6), {
            "version": 1, "length": 4, "type": 1, "rest": length - 6,
        }  # fmt: skip
    for one, two in ((1, 4), (4, 8), (8, 11), (11, 300), (300, 0), (0, 1)):
        yield "stats", "-", stats([tlv(7, counting(one)), tlv(9, counting(two))]), {
            "count": 4, "type": 2, "length": 2, "value": one, "second type": 2, "second length": 2, "second value": two,
        }  # fmt: skip
    yield "initiation", "-", tlv(1, counting(3)) + tlv(2, counting(300)), {
        "type": 2, "length": 2, "value": 3, "second type": 2, "second length": 2, "second value": 300,
    }  # fmt: skip
    for length in (0, 1, 2):
        yield "termination", "-", reason(3, length), {"type": 2, "length": 2, "reason": 2}
        yield "termination", "-", tlv(0, b"bye") + reason(3, length), {"first TLV": 7, "type": 2, "length": 2, "reason": 2}
    for value in (19, 20, 300):
        whole = tlv(0, bgp(value))
        yield "mirroring", "asn=32,type=0", whole, {"type": 2, "length": 2, "BGP message": value}
        yield "mirroring", "asn=32,type=0", tlv(1, u16(1)) + whole, {"first TLV": 6, "type": 2, "length": 2, "BGP message": value}
    for length in (0, 1, 2, 300):
        whole = tlv(1, u16(1), length)
        yield "mirroring", "asn=32,type=0", whole, {"type": 2, "length": 2, "information": 2}
        yield "mirroring", "asn=32,type=0", tlv(0, bgp()) + whole, {"first TLV": 23, "type": 2, "length": 2, "information": 2}
    yield "monitoring", "asn=32,type=0", bgp(300), {"header of the BGP message": 19, "rest of the BGP message": 281}
    yield "peerdown", "-", u8(4), {"reason": 1}
    for sent, received, one, two in ((19, 29, 1, 6), (29, 300, 6, 300), (300, 19, 300, 1)):
        opens = {"sent": bgp(sent, kind=1), "received": bgp(received, kind=1)}
        yield "peerup", "afi=4,asn=32,type=0", peer_up(tlv(0, counting(one)), tlv(3, counting(two)), **opens), {
            "local address": 16, "local port": 2, "remote port": 2,
            "header of the sent OPEN": 19, "rest of the sent OPEN": sent - 19,
            "header of the received OPEN": 19, "rest of the received OPEN": received - 19,
            "type": 2, "length": 2, "value": one, "second type": 2, "second length": 2, "second value": two,
        }  # fmt: skip
    for admin, group in ((3, 5), (0, 300), (300, 0)):
        yield "openbmp", "-", open_bmp(admin=counting(admin), group=counting(group)), {
            "magic number": 4, "major version": 1, "minor version": 1, "header length": 2, "message length": 4, "flags": 1,
            "object type": 1, "seconds": 4, "microseconds": 4, "collector hash": 16, "admin's length": 2, "admin": admin,
            "router hash": 16, "router's address": 16, "group's length": 2, "group": group, "row count": 4,
        }  # fmt: skip


def cut_fields():
    """Each field with no byte of it there, with one, and with all but one."""
    for verb, args, message, fields in messages_by_fields():
        start = 0
        for need in fields.values():
            yield from [(verb, args, message[: start + there]) for there in (0, 1, need - 1) if 0 <= there < need]
            start += need


def waits():
    """Verb, arguments, bytes that are Cut, and as many more as they lack. An OPEN of which only the header came is then Cut once more."""
    ports, sent, received = peer_up(sent=b"", received=b""), bgp(29, kind=1), bgp(21, kind=1)
    mirroring = monitoring = "asn=32,type=0"
    up, more = "afi=4,asn=32,type=0", b"\xff" * 300
    return [
        ("common", "-", common()[:2], more[:3]), ("common", "-", common()[:5], more[:1]),
        ("split", "-", common()[:2], more[:3]), ("split", "-", common(length=9), more[:3]), ("split", "-", common(length=300), more[:294]),
        ("split", "-", common(length=9, kind=7), more[:3]), ("split", "-", common(length=300, kind=255), more[:294]),
        ("perpeer", "-", peer()[:5], more[:5]), ("perpeer", "-", peer()[:12], more[:14]), ("perpeer", "-", peer()[:41], more[:1]),
        ("stats", "-", u8(0), more[:3]), ("stats", "-", stats([tlv(9, u16(1), 11)]), more[:9]),
        ("stats", "-", stats([tlv(24, b""), tlv(44, b"", 300)]), more[:300]),
        ("termination", "-", tlv(1, u8(0), 0), more[:1]), ("termination", "-", reason(1) + tlv(1, u8(0)), u8(4)),
        ("mirroring", mirroring, tlv(0, u8(0), 19), more[:18]), ("mirroring", mirroring, tlv(0, bytes(7), 300), more[:293]),
        ("mirroring", mirroring, tlv(1, u8(0)), more[:1]), ("mirroring", mirroring, tlv(1, u8(0), 300), u8(1)),
        ("monitoring", monitoring, bytes(5), more[:14]), ("peerdown", "-", b"", more[:1]), ("peerdown", "-", b"", u8(4)),
        ("peerup", up, ports[:3], more[:13]), ("peerup", up, ports[:17], more[:1]),
        ("peerup", up, ports + sent[:3], sent[3:19]), ("peerup", up, ports + sent[:19], sent[19:]),
        ("peerup", up, ports + sent, received[:19]), ("peerup", up, ports + sent + received[:19], received[19:]),
        ("peerup", up, ports + sent + received[:1], more[:18]), ("peerup", up, peer_up(tlv(0, b"A", 300)), more[:299]),
        ("openbmp", "-", open_bmp()[:2], b"MP"), ("openbmp", "-", open_bmp()[:23], more[:15]), ("openbmp", "-", open_bmp()[:39], more[:1]),
        ("openbmp", "-", open_bmp(admin_length=300)[:50], more[:290]), ("openbmp", "-", open_bmp()[:-1], u8(1)),
    ]  # fmt: skip


def waiting():
    """What is Cut alone, with fewer bytes behind it than it lacks, and with just as many."""
    for verb, args, there, more in waits():
        yield from [(verb, args, there + more[:length]) for length in (0, 1, len(more) - 1, len(more))]


# Lines.


def line(verb, args, data):
    return f"{verb} {args} {data.hex() or '-'}".encode()


def both(verb, args, data):
    return [line(verb, args, data), line("rewrite-" + verb, args, data)]


def reader_lines():
    readers = [
        ("common", "-", common_cases), ("perpeer", "-", perpeer_cases), ("stats", "-", stats_cases),
        ("initiation", "-", initiation_cases), ("termination", "-", termination_cases), ("peerdown", "-", peerdown_cases),
        ("openbmp", "-", openbmp_cases), ("mirroring", "asn=32,type=0", mirroring_cases),
        ("monitoring", "asn=32,type=0", monitoring_cases), ("peerup", "afi=4,asn=32,type=0", peerup_cases),
    ]  # fmt: skip
    for verb, args, cases in readers:
        for data in cases():
            yield from both(verb, args, data)


def argument_lines():
    """Every argument list of the verbs that have arguments."""
    for args in MONITORING_ARGS:
        yield from both("mirroring", args, tlv(1, u16(1)) + tlv(0, bgp()))
        for data in (bgp()[:18], bgp(), bgp(23)):
            yield from both("monitoring", args, data)
    for args in PEER_UP_ARGS:
        yield from both("peerup", args, peer_up(tlv(0, b"A"), address=FULL_ADDRESS))
    for args in ("afi=4,asn=32,type=3", "afi=6,asn=16,type=3", "afi=6,asn=32,type=1"):
        for data in table_name_cases():
            yield from both("peerup", args, data)


def missing_lines(known):
    """What a Cut lacks, in lines that are not known yet; the last three have as many bytes as a slice may have, or one less."""
    lines = [line(*case) for case in (*cut_fields(), *waiting())]
    yield from [new for new in dict.fromkeys(lines) if new not in known]
    yield from [text_line("split", "-", common(length=LIMIT, kind=kind), (LIMIT - 7, b"\x00")) for kind in (4, 9)]
    yield text_line("stats", "-", *whole_table(u32(17)))


def text_line(verb, args, *parts):
    """A line whose bytes are parts with a plus between them: bytes, or a number and the bytes that stand so many times."""
    return f"{verb} {args} {'+'.join(part_text(part) for part in parts)}".encode()


def part_text(part):
    return part.hex() if isinstance(part, bytes) else f"{part[0]}*{part[1].hex()}"


def limit_lines():
    """Both sides of every limit, with bytes that repeat."""
    yield b"initiation - 33*00000000+0000000141"
    message = tlv(0, bgp())
    for verb, args in [("initiation", "-"), ("termination", "-"), ("mirroring", "asn=32,type=0")]:
        for count in (32, 33):
            yield text_line(verb, args, (count, message))
            yield text_line("rewrite-" + verb, args, (count, message))
    for count in (32, 33):
        yield text_line("peerup", "afi=6,asn=32,type=0", peer_up(), (count, tlv(9, b"")))
    for count in (64, 65):
        yield text_line("stats", "-", u32(count), (count, u16(7) + u16(4) + u32(count)))
    for length in (LIMIT, LIMIT + 1):
        yield from slice_lines(length)
    for kind in (4, 9):
        for length in (LIMIT, LIMIT + 1):
            yield text_line("split", "-", common(length=length, kind=kind), (LIMIT - 6, b"\x00"))


def slice_lines(length):
    """A slice of this length for each reader and the splitter. Those that would show all of it are not asked for more than a refusal."""
    slices = [
        ("common", "-", common()), ("split", "-", common()), ("split", "-", common(kind=9)),
        ("perpeer", "-", peer()), ("openbmp", "-", open_bmp()),
        ("stats", "-", u32(0)), ("initiation", "-", b"\x00"), ("termination", "-", b"\x00"),
        ("mirroring", "asn=32,type=0", b"\x00"), ("peerup", "afi=6,asn=32,type=0", peer_up()), ("peerdown", "-", u8(4)),
    ]  # fmt: skip
    if length > LIMIT:
        slices.append(("monitoring", "asn=32,type=0", b"\x00"))
    for verb, args, front in slices:
        yield text_line(verb, args, front, (length - len(front), b"\x00"))


PATTERN = bytes(range(12))


def filled(length):
    """As many bytes of a pattern without two neighbours that are alike."""
    whole, rest = divmod(length, len(PATTERN))
    return [(whole, PATTERN)] + ([PATTERN[:rest]] if rest else [])


def whole_table(*front):
    """Sixteen entries of type 0 that fill the longest slice; the first is shorter than the others by what stands before it."""
    before = sum(len(part) for part in front)
    parts = list(front)
    for length in [65_532 - before] + 15 * [65_532]:
        parts += [u16(0) + u16(length)] + filled(length)
    return parts


def record_lines():
    """For each writer the longest record that it writes, and small ones. Bytes that the reader skips are zero, as they are written."""
    opens = bgp(19, kind=1) + bgp(19, kind=1)
    openbmp = open_bmp(flags=0xC0)[:22] + bytes(16)
    strings = [u16(65_535), *filled(65_535)]
    yield text_line("rewrite-common", "-", common())
    yield text_line("rewrite-perpeer", "-", peer(flags=0x80, address=bytes(range(16))))
    yield text_line("rewrite-openbmp", "-", openbmp, *strings, bytes(16) + bytes(range(16)), *strings, u32(1))
    yield text_line("rewrite-stats", "-", *whole_table(u32(16)))
    yield text_line("rewrite-initiation", "-", *whole_table())
    yield text_line("rewrite-termination", "-", *whole_table())
    yield text_line("rewrite-mirroring", "asn=32,type=0", *whole_table())
    yield text_line("rewrite-peerup", "afi=6,asn=32,type=0", *whole_table(bytes(range(20)) + opens))
    yield text_line("rewrite-peerdown", "-", u8(1), *filled(LIMIT - 1))
    yield text_line("rewrite-monitoring", "asn=32,type=0", *filled(LIMIT))
    yield text_line("rewrite-initiation", "-", tlv(2, b"A"))
    yield from small_header_lines()
    yield from small_table_lines()
    yield b"rewrite-peerdown - 01aa"
    yield b"rewrite-peerdown - 00aa"
    yield b"rewrite-peerdown - 04"
    yield text_line("rewrite-monitoring", "asn=32,type=0", bgp())
    yield b"rewrite-termination - 0001000109"
    yield b"rewrite-initiation - -"
    yield b"initiation - 0002000141"
    yield b"rewrite-split - 030000000604"
    yield b""


def small_header_lines():
    """Addresses of both families, the second with twelve zero octets in front; a Loc-RIB without a time."""
    yield text_line("rewrite-perpeer", "-", peer())
    yield text_line("rewrite-perpeer", "-", peer(flags=0x80))
    yield text_line("rewrite-perpeer", "-", peer(kind=3, address=bytes(16), seconds=0, microseconds=0))
    for flags, address, string in [(0x80, bytes([10, 0, 0, 1]) + bytes(12), tlv(0, b"A")[2:]), (0xC0, FULL_ADDRESS, u16(0))]:
        start = open_bmp(flags=flags)[:22] + bytes(16)
        yield text_line("rewrite-openbmp", "-", start + string + bytes(16) + address + string + u32(1))


def small_table_lines():
    """For each body with a table one entry of each form, and as many as the table holds."""
    values = [u32(3), u64(3), u16(1) + u8(1) + u64(3), b"A"]
    yield from [text_line("rewrite-stats", "-", stats([tlv(7, value)])) for value in values]
    yield text_line("rewrite-stats", "-", u32(64), (64, tlv(7, u32(3))))
    yield text_line("rewrite-initiation", "-", (32, tlv(2, b"A")))
    yield text_line("rewrite-termination", "-", tlv(0, b"A"))
    yield text_line("rewrite-termination", "-", reason(0))
    yield text_line("rewrite-termination", "-", (32, reason(0)))
    yield text_line("rewrite-mirroring", "asn=32,type=0", tlv(0, bgp()))
    yield text_line("rewrite-mirroring", "asn=32,type=0", tlv(1, u16(1)))
    yield text_line("rewrite-mirroring", "asn=32,type=0", (32, tlv(1, u16(1))))
    yield text_line("rewrite-peerup", "afi=4,asn=32,type=0", peer_up(tlv(0, b"A")))
    yield text_line("rewrite-peerup", "afi=6,asn=32,type=0", peer_up())
    yield text_line("rewrite-peerup", "afi=4,asn=32,type=0", peer_up(), (32, tlv(0, b"A")))


def longest_lines():
    """131,072 digits and two more; as many characters with digits that repeat, and two more."""
    longest = bytes(range(256)) * 256
    digits = "0" * 131_066
    return [
        line("monitoring", "asn=32,type=0", longest), line("rewrite-monitoring", "asn=16,type=3", longest + b"\x00"),
        f"peerdown - 04+10*{digits}".encode(), f"peerdown - 0400+10*{digits}".encode(),
    ]  # fmt: skip


BAD_LINES = r"""
common
common -
common -\x20
common 030000000604
common - 030000000604\x20
\x20common - 030000000604
common  - 030000000604
common -  030000000604
common - 0300 00000604
common - 030000000604 -
common - - -
Common - 030000000604
COMMON - 030000000604
commo - 030000000604
commons - 030000000604
common - 03000000060
common - 0
common - 03000000060A
common - 03000000060g
common - 0x0300
common - +1
common - -1
common - 00-0
common - --
common - 030000000604\x0d
common - -\x0d
common -- 030000000604
common 0 030000000604
common asn=32,type=0 030000000604
common type=0 030000000604
common -,- 030000000604
common\x09-\x09030000000604
common - 030000000604\x09
common - 0300\x00000604
common - 03000000060\xff
common - \xef\xbc\x90\xef\xbc\x93
common - 0300\x0b
\x00
\xef\xbb\xbfcommon - 030000000604
\x0d
\x20
\x20\x20
\x20\x20\x20
-
- - -
#
unknown - 00
read-common - 030000000604
rewrite - 030000000604
rewrite- - 030000000604
rewrite-Common - 030000000604
Rewrite-common - 030000000604
rewrite_common - 030000000604
rewrite-split - 030000000604
rewrite-rewrite-common - 030000000604
rewrite-common asn=32,type=0 030000000604
rewrite-mirroring - 000100020001
rewrite-peerup asn=32,type=0 00
rewrite-monitoring asn=32,type=0 0
Split - 030000000604
split asn=32,type=0 030000000604
split - 03000000060
perpeer afi=4 00
stats  - 00000000
initiation asn=32,type=0 0002000141
termination type=0 0000000141
peerdown - 1
openbmp afi=4,asn=32,type=0 00
mirroring - 000100020001
mirroring asn=32 000100020001
mirroring type=0 000100020001
mirroring type=0,asn=32 000100020001
mirroring asn=32,type=4 000100020001
mirroring asn=32,type=00 000100020001
mirroring asn=32,type= 000100020001
mirroring asn=032,type=0 000100020001
mirroring asn=8,type=0 000100020001
mirroring asn=64,type=0 000100020001
mirroring asn=32,type=0, 000100020001
mirroring ,asn=32,type=0 000100020001
mirroring asn=32;type=0 000100020001
mirroring asn=32,,type=0 000100020001
mirroring asn=32, type=0 000100020001
mirroring Asn=32,type=0 000100020001
mirroring asn=32,Type=0 000100020001
mirroring asn=32,type=0,afi=4 000100020001
mirroring afi=4,asn=32,type=0 000100020001
mirroring asn=32,asn=32,type=0 000100020001
mirroring asn=32,type=0
mirroring asn=32,type=0\x20
mirroring asn=32,type=-1 000100020001
monitoring - 00
monitoring asn=32 00
monitoring type=3,asn=16 00
monitoring asn=16,type=4 00000000000000000000000000000000000000
monitoring afi=4,asn=32,type=0 00
peerup - 00
peerup asn=32,type=0 00
peerup afi=4,type=0,asn=32 00
peerup asn=32,afi=4,type=0 00
peerup afi=4,asn=32 00
peerup afi=5,asn=32,type=0 00
peerup afi=46,asn=32,type=0 00
peerup afi=4,asn=24,type=0 00
peerup afi=6,asn=16,type=4 00
peerup afi=6,asn=16,type=3,x=1 00
equal - -
equal - 00
equal asn=32,type=0 00
Equal - 00
rewrite-equal - 00
initiation - +
initiation - 00+
initiation - +00
initiation - 00++00
initiation - -+00
initiation - 00+-
initiation - *
initiation - *00
initiation - 2*
initiation - 2*-
initiation - 2*0
initiation - 2*000
initiation - 2*0g
initiation - 2*3*00
initiation - 2*00*00
initiation - 2**00
initiation - 0*00
initiation - 02*00
initiation - a*00
initiation - -1*00
initiation - 2 *00
initiation - 2*00+0
initiation - 2*00+3
initiation - 1048578*00
initiation - 1048577*00+00
initiation - 1048577*0000
initiation - 10485770*00
initiation - 18446744073709551617*00
initiation - 524289*0000
equal - 83*00
equal - 85*00
"""


def bad_lines():
    for text in BAD_LINES.strip("\n").split("\n"):
        yield text.encode("ascii").decode("unicode_escape").encode("latin-1")
    one = peer().hex()
    yield f"equal  {one}{one}".encode()
    yield f"equal - {one}{one} ".encode()
    yield f"equal - {one} {one}".encode()
    yield f"rewrite-equal - {one}{one}".encode()
    yield f"equal afi=4,asn=32,type=0 {one}{one}".encode()


def lines():
    known = [*reader_lines(), *argument_lines(), *(line("split", "-", data) for data in dict.fromkeys(split_cases()))]
    yield from known
    yield from [line("equal", "-", data) for data in equal_cases()]
    yield from missing_lines(set(known))
    yield from longest_lines()
    yield from limit_lines()
    yield from [b"equal - 84*00", b"equal - 2*" + peer().hex().encode()]
    yield from [b"", b"common - -", b"", b"", b"split - -"]
    yield from bad_lines()
    yield b"common - 030000000604"


if __name__ == "__main__":
    sys.stdout.buffer.write(b"\n".join(record_lines() if sys.argv[1:] == ["records"] else lines()))
