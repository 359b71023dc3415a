"""Tests of this folder's programs. Every expected answer comes from outside them: from docs/RULES.md and docs/REPLAY.md, from
exact arithmetic, and from what another program saw in recordings of real routers.

    python3 independent/test.py [FOLDER]

FOLDER holds recordings NAME.bmp, each with its NAME.summary.txt; without it the recordings are left out.
"""

import ast
import glob
import ipaddress
import os
import random
import re
import subprocess
import sys
import tempfile
import unittest
from fractions import Fraction

import bmp
import board_cases
import boards
import cases
import counters
import damaged
import listing
import receive
import receive_cases
import records
import replay

FOLDER = sys.argv[1] if len(sys.argv) > 1 else None

HEADER = "00 00 0000000000000000 000000000000000000000000 0a000001 0000fde8 0a0a0a0a 00000001 0007a120"
LOC_RIB_HEADER = "03 00 0000000000000000 00000000000000000000000000000000 0000fde8 0a0a0a0a 00000000 00000000"


def digits(text):
    return text.replace(" ", "").lower()


def ask(verb, text, args="-"):
    return replay.answer(f"{verb} {args} {digits(text) or '-'}".encode())


def report_of(number, header=HEADER):
    """A Statistics Report whose one counter, of type 7, has this number."""
    return damaged.of_type(1, bytes.fromhex(digits(header + f"00000001 0007 0008 {number:016x}")))


def open_message(length=29, own=None):
    return bytes([0xFF] * 16) + (length if own is None else own).to_bytes(2, "big") + bytes([1]) + bytes(length - 19)


def peer_up(tlvs="", sent=None, received=None):
    return digits(
        "000000000000000000000000 0a000002 00b3 c001"
        + (open_message() if sent is None else sent).hex()
        + (open_message(19) if received is None else received).hex()
        + tlvs
    )


def open_bmp(magic="4f424d50", versions="0107", flags="80", kind="0c", admin="0002 6162", group="0001 63", rows="00000001"):
    return digits(
        magic + versions + "0050 00000006" + flags + kind + "00000001 000f4240" + "11" * 16 + admin + "22" * 16
        + "0a000001" + "33" * 12 + group + rows
    )


class Examples(unittest.TestCase):
    """Examples that stand in the rules, word for word."""

    LINES = """
        common - 030000000604                        | good stop=6 tail=6 warn=0 version=3 length=6 type=4
        common - 030000000607                        | refused 4 at 5
        split - 030000000506                         | refused 10 at 1
        initiation - 0002000541                      | good stop=4 tail=0 warn=0 tlvs=[]
        initiation - 00020001410001000142            | good stop=10 tail=10 warn=0 tlvs=[2:1:N:41,1:1:N:42]
        termination - 0001000103                     | refused 2 at 4 missing 1
        mirroring asn=32,type=0 000100070001         | good stop=6 tail=6 warn=0 tlvs=[1:7:info1]
        rewrite-mirroring asn=32,type=0 000100070001 | refused 12 at 0
        stats - 00000001000700080000000000000100     | good stop=16 tail=16 warn=0 count=1 counters=[7:8:N:G256]
        peerdown - 01                                | good stop=1 tail=1 warn=0 reason=1 data=some:
        rewrite-peerdown - 04aa                      | written 1 04a5a5
        common - 0300                                | refused 2 at 1 missing 3
        split - 030000000906                         | refused 2 at 6 missing 3
        split - 030000000607                         | skipped stop=6 tail=6 warn=0 length=6 type=7
        split - 030000000507                         | refused 10 at 1
        split - 030000000907                         | refused 2 at 6 missing 3
        split - 030000000907ffffff                   | skipped stop=9 tail=9 warn=0 length=9 type=7
        Common - 0300                                | bad line
        rewrite-initiation - -                       | written 0 a5a5
        common - -                                   | refused 2 at 0 missing 1
        common - 02                                  | refused 3 at 0
        common - 030000000004                        | good stop=6 tail=6 warn=0 version=3 length=0 type=4
        stats - 00000001000700040000000 3            | bad line
        stats - 000000010007000400000003             | good stop=12 tail=12 warn=0 count=1 counters=[7:4:N:C3]
        stats - 000000010009000b0001                 | refused 2 at 8 missing 9
        initiation - 0002000141                      | good stop=5 tail=5 warn=0 tlvs=[2:1:N:41]
        termination - 0002000541                     | refused 4 at 0
        termination - 0000000541                     | good stop=4 tail=0 warn=0 tlvs=[]
        mirroring asn=16,type=3 0002000000           | refused 5 at 0
        mirroring asn=16,type=3 0000001200           | refused 6 at 2
        mirroring asn=16,type=3 0000001300           | refused 2 at 4 missing 18
        mirroring asn=16,type=3 0001000200           | refused 2 at 4 missing 1
        mirroring asn=16,type=3 000100020002         | refused 4 at 4
        peerdown - 04aa                              | good stop=1 tail=1 warn=0 reason=4 data=none
    """

    def test_lines(self):
        for line in self.LINES.strip().splitlines():
            question, expected = (side.strip() for side in line.split("|"))
            self.assertEqual(replay.answer(question.encode()), expected, question)

    def test_lister(self):
        stream = bytes.fromhex("030000000b040002000141" + "030000000607")
        self.assertEqual(listing.listing(stream), ["place type length answer", "0 4 11 0", "11 7 6 skip", "end 17"])


class Rules(unittest.TestCase):
    """What the rules say without an example; expected answers are worked out by hand from them."""

    def test_numbers_in_order_of_the_bytes(self):
        self.assertEqual(ask("split", "03 00100001 04"), "refused 1 at 1")
        self.assertEqual(ask("split", "03 00100000 04"), "refused 2 at 6 missing 1048570")
        self.assertEqual(ask("split", "03 00000007 04"), "refused 2 at 6 missing 1")
        self.assertEqual(ask("split", "03 00000006 04 ff"), "good stop=6 tail=6 warn=0 length=6 type=4")

    def test_per_peer_header_cut(self):
        self.assertEqual(ask("perpeer", digits(HEADER)[:50]), "refused 2 at 10 missing 1")
        self.assertEqual(ask("perpeer", digits(HEADER)[:58]), "refused 2 at 26 missing 1")
        self.assertTrue(ask("perpeer", HEADER).startswith("good stop=42 tail=42 warn=0 "))
        self.assertEqual(ask("perpeer", "04"), "refused 4 at 0")

    def test_per_peer_header_fields(self):
        self.assertEqual(
            ask("perpeer", HEADER),
            "good stop=42 tail=42 warn=0 type=0 flags=00 dist=0000000000000000 fam=4"
            " addr=0000000000000000000000000a000001 as=65000 asbits=32 id=0a0a0a0a sec=1 usec=500000"
            " ts=3ff8000000000000 time=some",
        )
        skipped = "01 20 0000000000000007 ffffffffffffffffffffffff 0a000001 fffffde8 0a0a0a0a 00000000 00000000"
        self.assertEqual(
            ask("perpeer", skipped),
            "good stop=42 tail=42 warn=0 type=1 flags=20 dist=0000000000000007 fam=4"
            " addr=0000000000000000000000000a000001 as=65000 asbits=16 id=0a0a0a0a sec=0 usec=0"
            " ts=0000000000000000 time=none",
        )
        self.assertEqual(
            ask("rewrite-perpeer", skipped),
            "written 42 " + digits("01 20 0000000000000007 000000000000000000000000 0a000001 0000fde8 0a0a0a0a")
            + "00" * 8 + "a5a5",
        )

    def test_loc_rib_header(self):
        full = "03 ff 0000000000000001 20010db8000000000000000000000001 fffffde8 00000000 00000000 00000000"
        self.assertEqual(
            ask("perpeer", full),
            "good stop=42 tail=42 warn=3 type=3 flags=ff dist=0000000000000001 fam=4 addr=" + "00" * 16
            + " as=4294966760 asbits=32 id=00000000 sec=0 usec=0 ts=0000000000000000 time=none",
        )
        self.assertIn(" warn=0 ", ask("perpeer", LOC_RIB_HEADER))

    def test_equal(self):
        second = digits(HEADER).removesuffix("000000010007a120")
        self.assertEqual(ask("equal", second + "00000000000f4240" + second + "0000000100000000"), "yes yes")
        self.assertEqual(ask("equal", HEADER + second + "0000000100000000"), "no yes")
        self.assertEqual(ask("equal", HEADER + LOC_RIB_HEADER), "no no")
        self.assertEqual(ask("equal", HEADER + "04" + digits(HEADER)[2:]), "refused 4 at 42")
        self.assertEqual(ask("equal", "04" + digits(HEADER)[2:] + "05" + digits(HEADER)[2:]), "refused 4 at 0")
        self.assertEqual(ask("equal", HEADER), "bad line")

    def test_tables(self):
        tlv = "0000 0001 41"
        for verb, args in (("initiation", "-"), ("termination", "-")):
            self.assertTrue(ask(verb, tlv * 32, args).startswith("good stop=160 "))
            self.assertEqual(ask(verb, tlv * 33, args), "refused 7 at 160")
        self.assertTrue(ask("initiation", tlv * 32 + "0000 0002 41").startswith("good stop=164 tail=160 "))
        self.assertEqual(ask("termination", tlv * 32 + "0001 0002 0005"), "refused 4 at 164")
        information = "0001 0002 0001"
        self.assertTrue(ask("mirroring", information * 32, "asn=32,type=0").startswith("good stop=192 "))
        self.assertEqual(ask("mirroring", information * 33, "asn=32,type=0"), "refused 7 at 192")
        self.assertEqual(ask("mirroring", information * 32 + "0001 0002 0002", "asn=32,type=0"), "refused 4 at 196")
        self.assertTrue(ask("peerup", peer_up("00000000" * 32), "afi=4,asn=32,type=0").startswith("good stop=196 "))
        self.assertEqual(ask("peerup", peer_up("00000000" * 33), "afi=4,asn=32,type=0"), "refused 7 at 196")
        self.assertEqual(ask("peerup", peer_up("00000000" * 32 + "00000001"), "afi=4,asn=32,type=0"), "refused 2 at 200 missing 1")
        self.assertTrue(ask("stats", "00000040" + "00000000" * 64).startswith("good stop=260 "))
        self.assertEqual(ask("stats", "00000041" + "00000000" * 65), "refused 7 at 260")
        self.assertEqual(ask("stats", "00000041" + "00000000" * 64 + "00000001"), "refused 2 at 264 missing 1")

    def test_termination(self):
        self.assertEqual(ask("termination", "0001 0000 0003 00"), "good stop=6 tail=6 warn=0 tlvs=[1:0:reason3]")
        self.assertEqual(ask("rewrite-termination", "0001 0000 0003"), "refused 12 at 0")
        self.assertEqual(ask("rewrite-termination", "0001 0002 0003"), "written 6 000100020003a5a5")
        self.assertEqual(ask("termination", "0001 0003 0003"), "good stop=4 tail=0 warn=0 tlvs=[]")

    def test_last_empty_tlv(self):
        self.assertEqual(ask("initiation", "0002 0000"), "good stop=0 tail=0 warn=0 tlvs=[]")
        self.assertEqual(ask("initiation", "0002 0000 00"), "good stop=4 tail=4 warn=0 tlvs=[2:0:N:]")
        self.assertEqual(ask("rewrite-initiation", "0002 0000 00"), "refused 12 at 0")
        self.assertEqual(ask("rewrite-termination", "0000 0000 00"), "refused 12 at 0")

    def test_route_monitoring(self):
        self.assertEqual(ask("monitoring", "00" * 18, "asn=32,type=0"), "refused 2 at 0 missing 1")
        self.assertEqual(ask("monitoring", "00" * 19, "asn=32,type=3"), "good stop=19 tail=19 warn=0 bgp=" + "00" * 19)
        self.assertEqual(ask("monitoring", "00" * 20, "asn=16,type=3"), "good stop=20 tail=20 warn=4 bgp=" + "00" * 20)

    def test_peer_up(self):
        args = "afi=4,asn=32,type=0"
        short = open_message(19, own=18)
        self.assertEqual(ask("peerup", peer_up(sent=short), args), "refused 6 at 36")
        self.assertEqual(ask("peerup", peer_up(received=short), args), "refused 6 at 65")
        self.assertEqual(ask("peerup", peer_up(received=open_message(19, own=20)), args), "refused 2 at 49 missing 1")
        self.assertEqual(ask("peerup", peer_up()[:-2], args), "refused 2 at 49 missing 1")
        self.assertEqual(ask("peerup", peer_up("00030001"), args), "refused 2 at 72 missing 1")
        self.assertEqual(
            ask("peerup", peer_up("00030000 0005000141 000000"), "afi=4,asn=32,type=3"),
            "good stop=77 tail=77 warn=8 fam=4 local=0000000000000000000000000a000002 lport=179 rport=49153 sent="
            + open_message().hex() + " received=" + open_message(19).hex() + " tlvs=[3:0:N:,5:1:U:41]",
        )
        self.assertIn(" warn=16 ", ask("peerup", peer_up(), "afi=4,asn=32,type=3"))
        self.assertIn(" warn=0 ", ask("peerup", peer_up("000300ff" + "41" * 255), "afi=6,asn=32,type=3"))
        self.assertIn(" warn=8 ", ask("peerup", peer_up("00030100" + "41" * 256), "afi=6,asn=32,type=3"))

    def test_open_bmp(self):
        self.assertEqual(
            ask("openbmp", open_bmp() + "03"),
            "good stop=81 tail=81 warn=0 hlen=80 mlen=6 sec=1 usec=1000000 ts=4000000000000000 admin=6162"
            " fam=4 router=0a000001000000000000000000000000 group=63",
        )
        self.assertEqual(
            ask("rewrite-openbmp", open_bmp(flags="bf")),
            "written 81 " + digits("4f424d50 01 07 0050 00000006 80 0c 00000001 000f4240" + "00" * 16 + "0002 6162" + "00" * 16)
            + digits("0a000001" + "00" * 12 + "0001 63 00000001 a5a5"),
        )
        self.assertIn("admin= fam=6 router=0a000001" + "33" * 12 + " group=", ask("openbmp", open_bmp(flags="c0", admin="0000", group="0000")))
        for expected, header in (
            ("refused 8 at 0", open_bmp(magic="4f424d51")),
            ("refused 8 at 4", open_bmp(versions="0108")),
            ("refused 8 at 4", open_bmp(versions="0207")),
            ("refused 9 at 12", open_bmp(flags="7f", kind="0b")),
            ("refused 9 at 13", open_bmp(kind="0d")),
            ("refused 8 at 77", open_bmp(rows="00000002")),
            ("refused 2 at 40 missing 65496", open_bmp(admin="ffff")),
        ):
            self.assertEqual(ask("openbmp", header), expected)

    def test_names(self):
        named = [*range(24), *range(26, 44)]
        for stat_type in [*range(50), 65535]:
            mark = "N" if stat_type in named else "O"
            self.assertIn(f"[{stat_type}:0:{mark}:R]", ask("stats", f"00000001 {stat_type:04x} 0000"))

    def test_slice_limit(self):
        body = bytes(bmp.MAX_BYTES + 1)
        readers = [entry[1] for entry in replay.READERS.values()] + [bmp.split]
        for reader in readers:
            arguments = {"read_route_monitoring": (32, 0), "read_peer_up_notification": (4, 0)}.get(reader.__name__, ())
            with self.assertRaises(bmp.Refused) as refusal:
                reader(body, *arguments)
            self.assertEqual((refusal.exception.number, refusal.exception.place, refusal.exception.missing), (1, 0, 0))
        self.assertEqual(bmp.read_route_monitoring(body[1:], 32, 0).stop, 1_048_576)

    def test_bad_lines(self):
        lines = ["common", "common -", "common - ", " common - 03", "common  - 03", "common -  03", "common - 03 ", "common - 3",
                 "common - 0A", "common - 03\r", "\r", " ", "common asn=32,type=0 03", "mirroring - 03", "mirroring asn=32 03",
                 "mirroring type=0,asn=32 03", "mirroring asn=32,type=4 03", "mirroring asn=8,type=0 03", "equal - 03", "rewrite-split - 03",
                 "rewrite-equal - 03", "peerup asn=32,type=0 03", "common - --",
                 "monitoring asn=32,type=4 03", "peerup afi=4,asn=32,type=4 03", "common\t-\t03", "common - 03\x00", "rewrite- - 03"]
        for line in lines:
            self.assertEqual(replay.answer(line.encode()), "bad line", line)
        self.assertEqual(replay.answer(b"split - " + b"03" * 65_536), "refused 1 at 1")
        self.assertEqual(replay.answer(b"split - " + b"03" * 65_537), "bad line")

    def test_timestamps(self):
        for seconds in (0, 1, 1_794_707_493, 2**32 - 1):
            for microseconds in (0, 1, 3, 500_000, 679_472, 999_999, 1_000_000, 1_003_691, 2**32 - 1):
                quotient = float(Fraction(microseconds, 1_000_000))
                exact = float(Fraction(seconds) + Fraction(quotient))
                self.assertEqual(bmp.timestamp_of(seconds, microseconds).hex(), exact.hex())

    def test_lister(self):
        message = bytes.fromhex("030000000604")
        full = message * 10_922 + bytes.fromhex("03000000")
        self.assertEqual(len(full), 65_536)
        self.assertEqual(listing.listing(full)[-3:], ["65526 4 6 0", "65532 - - 2", "end 65532"])
        self.assertEqual(listing.listing(full + b"\0"), ["place type length answer", "0 - - 1", "end 0"])
        self.assertEqual(listing.listing(b""), ["place type length answer", "end 0"])
        peer = bytes.fromhex(digits(HEADER))
        down = bytes.fromhex("0300000031 02") + peer + b"\7"
        short = bytes.fromhex("030000002f 02") + peer[:41]
        self.assertEqual(
            listing.listing(down + short),
            ["place type length answer", "0 2 49 4", "49 2 47 2", "end 96"],
        )

    def test_lister_bodies(self):
        """For each message type a body that is good, and one whose number is that body's own."""
        peer = bytes.fromhex(digits(HEADER))
        bodies = [
            (0, peer + bytes(19), peer + bytes(18), 2),
            (1, peer + bytes(4), peer + bytes([0, 0, 0, 65]) + bytes(260), 7),
            (2, peer + b"\4", peer + b"\7", 4),
            (3, peer + bytes.fromhex(peer_up()), peer + bytes.fromhex(peer_up(sent=open_message(19, own=18))), 6),
            (4, bytes.fromhex("0002000541"), bytes.fromhex("0002000141") * 33, 7),
            (5, bytes.fromhex("000100020004"), bytes.fromhex("000100020005"), 4),
            (6, peer + bytes.fromhex("000100070001"), peer + bytes.fromhex("0002000000"), 5),
        ]
        for kind, good, bad, number in bodies:
            for body, expected in ((good, 0), (bad, number)):
                length = 6 + len(body)
                self.assertEqual(listing.listing(damaged.of_type(kind, body))[1:], [f"0 {kind} {length} {expected}", f"end {length}"])

    def test_strip_timestamp(self):
        header = bmp.read_per_peer_header(bytes.fromhex(digits(HEADER))).record
        stripped = bmp.strip_timestamp(header)
        self.assertEqual((stripped.timestamp, stripped.seconds, stripped.microseconds), (0.0, 0, 0))
        self.assertEqual(stripped[:6], header[:6])


class Skipping(unittest.TestCase):
    """Messages of types that are not known: what the splitter, the lister and the counters make of them, by hand from the rules."""

    GOOD = bytes.fromhex("030000000b 04 0002000141")

    def listed(self, stream):
        heading, *lines = listing.listing(stream)
        self.assertEqual(heading, "place type length answer")
        return lines

    def test_types(self):
        """Each of the 256 is split off, and the common header's reader takes seven of them."""
        for kind in range(256):
            known, header = kind <= 6, f"03 00000006 {kind:02x}"
            self.assertEqual(ask("split", header), f"{'good' if known else 'skipped'} stop=6 tail=6 warn=0 length=6 type={kind}")
            expected = f"good stop=6 tail=6 warn=0 version=3 length=6 type={kind}" if known else "refused 4 at 5"
            self.assertEqual(ask("common", header), expected)

    def test_refusals_come_first(self):
        for expected, stream in (
            ("refused 3 at 0", "04 00000006 09"),
            ("refused 3 at 0", "04 00000005 09"),
            ("refused 2 at 5 missing 1", "03 00000005"),
            ("refused 10 at 1", "03 00000000 09"),
            ("refused 10 at 1", "03 00000005 ff 0000"),
            ("refused 1 at 1", "03 00100001 80 0000"),
            ("refused 1 at 1", "03 ffffffff fe"),
            ("refused 2 at 6 missing 1048570", "03 00100000 08"),
            ("refused 2 at 6 missing 1", "03 00000009 ff 0000"),
        ):
            self.assertEqual(ask("split", stream), expected, stream)
        self.assertEqual(replay.answer(b"split - 030000000609+1048570*00"), "skipped stop=6 tail=6 warn=0 length=6 type=9")
        self.assertEqual(replay.answer(b"split - 030000000609+1048571*00"), "refused 1 at 0")

    def bodies(self):
        """Twelve bytes: those of headers that would be refused, those of messages that would be good, and any."""
        known = ["020000000504 020000000504", "030000000004 03ffffffff07", "030000000604 030000000607", "030000000c04 000000010000"]
        yield from [bytes.fromhex(text) for text in known]
        yield from [bytes(12), b"\xff" * 12]
        yield from [random.Random(seed).randbytes(12) for seed in range(50)]

    def test_contents(self):
        """Whatever the body is, the answers are the same, and so are those of what stands before and behind the message."""
        for body in self.bodies():
            for kind in (7, 9, 255):
                unknown = damaged.of_type(kind, body)
                for rest in (b"", self.GOOD, body):
                    self.assertEqual(ask("split", (unknown + rest).hex()), f"skipped stop=18 tail=18 warn=0 length=18 type={kind}")
                self.assertEqual(ask("split", unknown[:-1].hex()), "refused 2 at 6 missing 1")
                lines = ["0 4 11 0", f"11 {kind} 18 skip", "29 4 11 0", "end 40"]
                self.assertEqual(self.listed(self.GOOD + unknown + self.GOOD), lines)

    def test_listing(self):
        """First, last, two in a row; in front of a length that does not fit, of a message that is cut, and of a wrong version."""
        good, unknown = self.GOOD, damaged.of_type(255, b"\0\0")
        for stream, expected in (
            (unknown, ["0 255 8 skip", "end 8"]),
            (unknown + good, ["0 255 8 skip", "8 4 11 0", "end 19"]),
            (good + unknown + unknown + good, ["0 4 11 0", "11 255 8 skip", "19 255 8 skip", "27 4 11 0", "end 38"]),
            (good + unknown + bytes.fromhex("030000000507") + good, ["0 4 11 0", "11 255 8 skip", "19 - - 10", "end 19"]),
            (unknown + bytes.fromhex("030000000907ffff"), ["0 255 8 skip", "8 - - 2", "end 8"]),
            (unknown + bytes.fromhex("040000000607"), ["0 255 8 skip", "8 - - 3", "end 8"]),
        ):
            self.assertEqual(self.listed(stream), expected)

    def test_longest_listing(self):
        """The lister takes 65,536 bytes. The places of 10,922 messages have 52,757 digits, and 12 bytes follow each; then 25, 12 and 10 of the other lines."""
        full = damaged.of_type(255, b"") * 10_922 + bytes.fromhex("03000000")
        self.assertEqual(self.listed(full)[-3:], ["65526 255 6 skip", "65532 - - 2", "end 65532"])
        self.assertEqual(sum(len(line) + 1 for line in listing.listing(full)), 52_757 + 12 * 10_922 + 25 + 12 + 10)
        self.assertEqual(self.listed(damaged.of_type(255, bytes(65_530))), ["0 255 65536 skip", "end 65536"])
        self.assertEqual(self.listed(damaged.of_type(255, bytes(65_531))), ["0 - - 1", "end 0"])

    def test_damaged_copies(self):
        """The recording begins with an Initiation of 25 bytes and two Peer Ups, of 188 and 168."""
        copies = damaged.damaged_copies(board_cases.sample("gobgp-3.10-ups-and-downs"))
        between = ["0 4 25 0", "25 7 6 skip", "31 3 188 0", "219 9 12 skip", "231 255 31 skip", "262 3 168 0", "end 430"]
        for name, expected in (
            ("unknown-types-between", between),
            ("unknown-type-length-5", ["0 4 25 0", "25 - - 10", "end 25"]),
            ("unknown-type-cut", ["0 4 25 0", "25 3 188 0", "213 3 168 0", "381 - - 2", "end 381"]),
            ("first-type-7", ["0 7 25 skip", "25 3 188 0", "213 3 168 0", "end 381"]),
            ("second-type-255", ["0 4 25 0", "25 255 188 skip", "213 3 168 0", "end 381"]),
        ):
            self.assertEqual(self.listed(copies[name]), expected, name)

    def test_counters(self):
        """The counters of what stands behind a skipped message are there, and a report that is the body of one is not counted."""
        for unknown in (damaged.of_type(7, b""), damaged.of_type(9, b"\xff\xff\xff"), damaged.of_type(255, report_of(3)), damaged.of_type(8, report_of(3)[6:])):
            stream = unknown + report_of(1) + unknown + unknown + report_of(2) + unknown
            self.assertEqual([whole for whole, _peer, _report in counters.reports(stream)], [report_of(1), report_of(2)])
        stream = report_of(1) + bytes.fromhex("030000000509") + report_of(2)
        self.assertEqual([whole for whole, _peer, _report in counters.reports(stream)], [report_of(1)])

    def test_list(self):
        """In the list each of six types is skipped, and is refused with every number that a length can get; no known type is skipped."""
        words = {}
        for line in cases.lines():
            data = replay.bytes_of(line.removeprefix(b"split - ")) if line.startswith(b"split - ") else None
            if data and len(data) > 5:
                words.setdefault(data[5], set()).add(re.match(r"good|skipped|refused \d+", replay.answer(line))[0])
        for kind in (7, 8, 9, 128, 254, 255):
            self.assertTrue(words[kind] >= {"skipped", "refused 1", "refused 2", "refused 10"}, kind)
        for kind, said in words.items():
            self.assertFalse(said & ({"skipped", "refused 4"} if kind <= 6 else {"good", "refused 4"}), kind)


def in_row(*places):
    """Fields one behind the other: each is Cut at its start, from there up to its end."""
    return list(zip(places, places[1:], places))


class Missing(unittest.TestCase):
    """What a Cut lacks, and that one who has waited for it is not told to wait there again."""

    # Verb, arguments, a message; and from which length, up to which length that would do, it is Cut at which place.
    CUTS = [
        ("common", "-", "03 00000006 04", in_row(0, 1, 5, 6)),
        ("perpeer", "-", HEADER, in_row(0, 1, 2, 10, 26, 30, 34, 38, 42)),
        ("perpeer", "-", LOC_RIB_HEADER, in_row(0, 1, 2, 10, 26, 30, 34, 38, 42)),
        ("split", "-", "03 00000006 04", in_row(0, 1, 5, 6)),
        ("split", "-", "03 00000009 04 aabbcc dd", in_row(0, 1, 5, 6, 9)),
        ("split", "-", "03 00000006 07", in_row(0, 1, 5, 6)),
        ("split", "-", "03 00000009 ff aabbcc dd", in_row(0, 1, 5, 6, 9)),
        ("stats", "-", "00000002 0009 000b 0001 01 0000000000000005 0007 0003 414243", in_row(0, 4, 6, 8, 19, 21, 23, 26)),
        ("initiation", "-", "0001 0003 616263 0000 0002 6162", []),
        ("termination", "-", "0000 0003 627965 0001 0000 0003", [(12, 13, 11)]),
        ("termination", "-", "0000 0003 627965 0001 0001 0003", [(12, 13, 11)]),
        ("termination", "-", "0000 0003 627965 0001 0002 0003", []),
        ("mirroring", "asn=32,type=0", "0001 0007 0001 0000 0014" + "ff" * 20, [(5, 6, 4), (11, 30, 10)]),
        ("monitoring", "asn=32,type=0", "ff" * 25, [(0, 19, 0)]),
        ("peerdown", "-", "04 aa", [(0, 1, 0)]),
        (
            "peerup", "afi=4,asn=32,type=0", peer_up("0003 0002 4142 0000 0001 43"),
            in_row(0, 16, 18, 20) + [(20, 39, 20), (39, 49, 20), (49, 68, 49), (72, 74, 72), (78, 79, 78)],
        ),
        ("openbmp", "-", open_bmp(), in_row(0, 4, 5, 6, 8, 12, 13, 14, 18, 22, 38, 40, 42, 58, 74, 76, 77, 81)),
        ("openbmp", "-", open_bmp(admin="0000", group="0000"), in_row(0, 4, 5, 6, 8, 12, 13, 14, 18, 22, 38, 40, 56, 72, 74, 78)),
    ]

    READERS = {**replay.READERS, b"split": (replay.NO_ARGUMENTS, bmp.split)}

    def test_each_field_at_every_length(self):
        for verb, args, message, cuts in self.CUTS:
            for length in range(len(digits(message)) // 2 + 1):
                expected = [f"refused 2 at {place} missing {end - length}" for first, end, place in cuts if first <= length < end]
                for asked in (verb,) if verb == "split" else (verb, "rewrite-" + verb):
                    answer = ask(asked, digits(message)[: 2 * length], args)
                    self.assertEqual([answer] if answer.startswith("refused 2 ") else [], expected, (asked, length))

    def test_largest_needs(self):
        self.assertEqual(replay.answer(b"split - 030010000004+1048569*00"), "refused 2 at 6 missing 1")
        self.assertEqual(replay.answer(b"split - 030010000004+1048570*00"), "good stop=1048576 tail=1048576 warn=0 length=1048576 type=4")
        self.assertEqual(replay.answer(b"split - 030010000009+1048569*00"), "refused 2 at 6 missing 1")
        self.assertEqual(replay.answer(b"split - 030010000009+1048570*00"), "skipped stop=1048576 tail=1048576 warn=0 length=1048576 type=9")
        self.assertEqual(ask("stats", "00000001 0007 ffff"), "refused 2 at 8 missing 65535")
        self.assertEqual(ask("stats", "ffffffff 0007 0000"), "refused 2 at 8 missing 2")
        self.assertEqual(ask("mirroring", "0000 ffff 00", "asn=32,type=0"), "refused 2 at 4 missing 65534")
        self.assertEqual(ask("mirroring", "0001 ffff 00", "asn=32,type=0"), "refused 2 at 4 missing 1")
        args, longest = "afi=4,asn=32,type=0", open_message(19, own=65_535)
        self.assertEqual(ask("peerup", peer_up(sent=longest, received=b""), args), "refused 2 at 20 missing 65516")
        self.assertEqual(ask("peerup", peer_up(received=longest), args), "refused 2 at 49 missing 65516")
        self.assertEqual(ask("peerup", peer_up("0000 ffff"), args), "refused 2 at 72 missing 65535")

    def refusal(self, verb, args, data):
        """Number, place and what is missing; of a good answer three zeros."""
        arguments, reader = self.READERS[verb.encode()][:2]
        try:
            reader(data, **arguments[args.encode()])
        except bmp.Refused as refusal:
            self.assertEqual(refusal.missing > 0, refusal.number == 2)
            return refusal.number, refusal.place, refusal.missing
        return 0, 0, 0

    def lacks_header(self, verb, data, place):
        """An OPEN of which fewer than 19 bytes are there: the sent one starts at 20, and the received one behind it."""
        starts = (20, 20 + int.from_bytes(data[36:38], "big"))
        return verb == "peerup" and place in starts and len(data) < place + 19

    def check_wait(self, verb, args, data):
        """Fewer bytes than are missing are not enough, and as many are, whatever the bytes are."""
        number, place, missing = self.refusal(verb, args, data)
        if number != 2:
            return
        for length in {1, 2, missing // 2, missing - 1, missing, missing + 1, missing + 9}:
            for more in (bytes(length), self.random.randbytes(length)):
                again = self.refusal(verb, args, data + more)
                if length < missing:
                    self.assertEqual(again, (2, place, missing - length), (verb, data, more))
                elif again[:2] == (2, place):
                    self.assertTrue(self.lacks_header(verb, data, place), (verb, data, more))
                    self.assertFalse(self.lacks_header(verb, data + more, place), (verb, data, more))
                    self.check_wait(verb, args, data + more)

    def test_waiting(self):
        """The messages of the list and damaged copies of them, each cut at every length."""
        self.random = random.Random(1)
        for verb, args, message, _fields in cases.messages_by_fields():
            for copy in [message, *cases.damaged([message], 4, 9)]:
                for length in range(len(copy) + 1):
                    self.check_wait(verb, args, copy[:length])

    def test_an_open_twice(self):
        """Its header first, and then its own length; the place is the same."""
        for length, place, missing in ((20, 20, 19), (38, 20, 1), (39, 20, 10), (48, 20, 1), (49, 49, 19)):
            expected = f"refused 2 at {place} missing {missing}"
            self.assertEqual(ask("peerup", peer_up()[: 2 * length], "afi=4,asn=32,type=0"), expected)

    def test_list(self):
        """The list's messages have no bytes but their fields', and its waits are over with the bytes that they name."""
        for verb, _args, message, fields in cases.messages_by_fields():
            self.assertEqual(len(message), sum(fields.values()), verb)
        for verb, args, there, more in cases.waits():
            self.assertEqual(self.refusal(verb, args, there)[::2], (2, len(more)), (verb, there))
        verbs = {verb for verb, _args, _message, _fields in cases.messages_by_fields()}
        self.assertEqual(verbs, {verb.decode() for verb in self.READERS})

    def test_words(self):
        """The words stand behind each 2 of the list, and behind no other number."""
        words = re.compile(r"refused 2 at \d+ missing [1-9]\d*|refused ([13-9]|1[0-2]) at \d+")
        answers = [replay.answer(line) for line in cases.lines() if line]
        for answer in answers:
            self.assertEqual(answer.startswith("refused"), words.fullmatch(answer) is not None, answer)

    def test_records(self):
        expected = "refused 2 at 0 missing 1 outside=same"
        self.assertEqual(
            list(records.answers(b"rewrite-peerdown - -")),
            [f"write peerdown 0 into {room}: {expected}" for room in (1, 0, 0, 0)]
            + [f"change peerdown {change}: {expected}" for change in (2, 3, 4, 5)],
        )
        self.assertEqual(list(records.answers(b"rewrite-common - 030000000607"))[0], "write common 6 into 7: refused 4 at 5 outside=same")


class PlainBoard:
    """A board once more, as plain as can be: pairs of a key and what `show` says of it, without places."""

    def __init__(self):
        self.pairs = []

    def answer(self, verb, key, text):
        present = [pair for pair in self.pairs if pair[0] == key]
        if verb == "show":
            return present[0][1] if present else "refused 14 at 0"
        if verb == "up" and not present and len(self.pairs) == 64:
            return "refused 13 at 0"
        if verb != "up" and not present:
            return "refused 14 at 0"
        others = [pair for pair in self.pairs if pair[0] != key]
        self.pairs = others if verb == "down" else others + [(key, "none yet" if verb == "up" else text)]
        return "ok"


class RandomCalls:
    """Calls that look random and are the same at every run. A key is as `list` shows it; what is no part of it is any number."""

    def __init__(self, seed):
        self.random = random.Random(seed)

    def below(self, limit):
        return self.random.randrange(limit)

    def key(self):
        """Few values for each part, so that many keys differ in one part alone."""
        kind, six = self.below(4), self.below(2)
        address = "0" * 32 if kind == 3 else self.random.choice(["0" * 24 + "0a000001", "0" * 24 + "0a000002"])
        return f"{kind}/{6 if six and kind != 3 else 4}/{self.below(3):016x}/{address}/{self.below(3):08x}"

    def keys(self, count):
        found = {}
        while len(found) < count:
            found[self.key()] = None
        return list(found)

    def header(self, key):
        kind, family, distinguisher, address, bgp_id = key.split("/")
        flags = self.below(128) + (128 if family == "6" else self.below(2) * 128 if kind == "3" else 0)
        skipped = {"3": 32}.get(kind, 24 if family == "4" else 0)
        address = self.random.randbytes(16).hex()[:skipped] + address[skipped:]
        return f"0{kind}{flags:02x}{distinguisher}{address}{self.random.randbytes(4).hex()}{bgp_id}{self.random.randbytes(8).hex()}"

    def report(self):
        """The bytes of a report, and what `show` says of it."""
        records, shown = "", []
        for _ in range(self.below(4)):
            kind, value = self.random.choice([0, 7, 23, 24, 25, 26, 43, 44, 65_531]), self.below(2**32)
            length, form = self.random.choice([(4, f"C{value}"), (8, f"G{value}"), (11, f"A0/0/{value}"), (0, "R"), (5, "R"), (12, "R")])
            records += f"{kind:04x}{length:04x}" + (f"{value:0{2 * length}x}" if length else "")
            shown.append(f"{kind}:{length}:{'O' if kind in (24, 25, 44, 65_531) else 'N'}:{form}")
        return f"{len(shown):08x}{records}", f"report count={len(shown)} counters=[{','.join(shown)}]"

    def call(self, verb, key):
        """The line, and what a report of it shows."""
        body, shown = {"up": (peer_up(), ""), "down": ("04", ""), "show": ("", "")}.get(verb) or self.report()
        return f"{verb} {self.header(key)}{body}".encode(), shown

    def verb(self, weights=(5, 1, 5, 5)):
        return self.random.choices(["up", "down", "report", "show"], weights)[0]


class Boards(unittest.TestCase):
    """The board and its lines: the rules by hand, a plainer board beside it, and what holds of all calls."""

    KEY = "0/4/0000000000000000/0000000000000000000000000a000001/0a0a0a0a"
    ABSENT = HEADER.replace("0a000001", "0a000002")

    def setUp(self):
        self.board = boards.Board()

    def ask(self, line):
        return boards.answer(self.board, line if isinstance(line, bytes) else line.encode())

    def call(self, verb, *texts):
        return self.ask(f"{verb} {digits(''.join(texts)) or '-'}")

    def check(self, *asked):
        for expected, *call in asked:
            self.assertEqual(self.call(*call) if len(call) > 1 else self.ask(call[0]), expected, call)

    def test_ups_reports_and_downs(self):
        seven = "00000001 0007 0008 0000000000000007"
        self.check(
            ("count=0 peers=[]", "list"),
            ("refused 14 at 0", "show", HEADER),
            ("refused 14 at 0", "report", HEADER, seven),
            ("refused 14 at 0", "down", HEADER, "04"),
            ("ok", "up", HEADER, peer_up()),
            ("none yet", "show", HEADER),
            (f"count=1 peers=[{self.KEY}]", "list"),
            ("ok", "report", HEADER, seven),
            ("report count=1 counters=[7:8:N:G7]", "show", HEADER),
            ("ok", "report", HEADER, "00000000"),
            ("report count=0 counters=[]", "show", HEADER),
            ("ok", "up", HEADER, peer_up()),
            ("none yet", "show", HEADER),
            ("ok", "report", HEADER, seven),
            ("ok", "clear"),
            ("refused 14 at 0", "show", HEADER),
            ("ok", "up", HEADER, peer_up()),
            ("none yet", "show", HEADER),
            ("ok", "down", HEADER, "04"),
            ("refused 14 at 0", "down", HEADER, "04"),
            ("count=0 peers=[]", "list"),
        )

    def test_reports(self):
        """Of a raw value no bytes are kept."""
        forms = "0000 0004 00000001 0007 0008 0000000000000002 0009 000b 0001 80 0000000000000003 0018 0000 0018 0003 aabbcc 0000 0004 00000004"
        shown = "0:4:N:C1,7:8:N:G2,9:11:N:A1/128/3,24:0:O:R,24:3:O:R,0:4:N:C4"
        self.check(
            ("ok", "up", HEADER, peer_up()),
            ("ok", "report", HEADER, "00000006", forms, "ff"),
            (f"report count=6 counters=[{shown}]", "show", HEADER),
            ("ok", "report", HEADER, "00000040", "0000 0004 00000005" * 64),
            ("report count=64 counters=[" + ",".join(64 * ["0:4:N:C5"]) + "]", "show", HEADER),
            ("refused 7 at 302", "report", HEADER, "00000041", "0000 0000" * 65),
            ("ok", "report", HEADER, "00000001 fffb 0004 00000006"),
            ("report count=1 counters=[65531:4:O:C6]", "show", HEADER),
        )
        with self.assertRaises(bmp.Refused) as refusal:
            self.board.report(None, bmp.StatsReport(65, 65 * [records.NO_COUNTER]))
        self.assertEqual((refusal.exception.number, refusal.exception.place), (12, 0))

    def test_one_key(self):
        """The AS, the time, the flags but for the family, and skipped bytes tell no peers apart."""
        others = [
            HEADER.replace("0000fde8", "fffffde9"),
            HEADER.replace("00000001 0007a120", "00000000 00000000"),
            HEADER.replace("00 00 ", "00 7f "),
            HEADER.replace("000000000000000000000000 ", "ffffffffffffffffffffffff "),
        ]
        self.assertEqual(len({*others, HEADER}), 5)
        self.check(("ok", "up", HEADER, peer_up()))
        for number, other in enumerate(others):
            self.check(
                ("none yet", "show", other),
                ("ok", "report", other, f"00000001 0007 0004 0000000{number}"),
                (f"report count=1 counters=[7:4:N:C{number}]", "show", HEADER),
                ("ok", "up", other, peer_up()),
                (f"count=1 peers=[{self.KEY}]", "list"),
            )
        full = "03 ff 0000000000000000 20010db8000000000000000000000001 fffffde8 0a0a0a0a 00000000 00000000"
        self.check(
            ("ok", "up", LOC_RIB_HEADER, peer_up()),
            ("none yet", "show", full),
            ("ok", "down", full, "04"),
            ("refused 14 at 0", "show", LOC_RIB_HEADER),
        )

    def test_other_keys(self):
        """Each of the five parts tells two peers apart, also where all other bytes are alike."""
        others = [
            HEADER.replace("00 00 ", "01 00 "),
            HEADER.replace("00 00 ", "02 00 "),
            HEADER.replace("00 00 ", "03 00 "),
            HEADER.replace("00 00 ", "00 80 "),
            HEADER.replace("00 0000000000000000 ", "00 8000000000000000 "),
            HEADER.replace("0a000001", "0a000002"),
            HEADER.replace("0a0a0a0a", "0a0a0a0b"),
        ]
        self.assertEqual(len({*others, HEADER}), 8)
        self.check(("ok", "up", HEADER, peer_up()), ("ok", "report", HEADER, "00000000"))
        for other in others:
            self.check(
                ("refused 14 at 0", "show", other),
                ("refused 14 at 0", "report", other, "00000000"),
                ("refused 14 at 0", "down", other, "04"),
            )
        self.check(*[("ok", "up", other, peer_up()) for other in others], ("report count=0 counters=[]", "show", HEADER))
        self.check(*[("none yet", "show", other) for other in others])
        self.assertEqual(
            self.ask("list"),
            f"count=8 peers=[{self.KEY},1{self.KEY[1:]},2{self.KEY[1:]},3/4/0000000000000000/{'0' * 32}/0a0a0a0a,"
            f"0/6{self.KEY[3:]},0/4/8000000000000000{self.KEY[20:]},{self.KEY.replace('0a000001', '0a000002')},"
            f"{self.KEY.replace('0a0a0a0a', '0a0a0a0b')}]",
        )

    def listed(self):
        """The BGP IDs of `list`, as numbers."""
        count, peers = re.fullmatch(r"count=(\d+) peers=\[(.*)\]", self.ask("list")).groups()
        found = [int(key[-8:], 16) for key in peers.split(",")] if peers else []
        self.assertEqual(len(found), int(count))
        return found

    def numbered(self, verb, number):
        return self.call(verb, HEADER.replace("0a0a0a0a", f"{number:08x}"), {"up": peer_up(), "down": "04", "report": "00000000", "show": ""}[verb])

    def test_places(self):
        for number in range(64):
            self.assertEqual(self.numbered("up", number), "ok")
        self.assertEqual(self.listed(), list(range(64)))
        for verb, number, expected in (
            ("up", 64, "refused 13 at 0"), ("show", 64, "refused 14 at 0"), ("up", 63, "ok"), ("up", 0, "ok"), ("down", 9, "ok"),
            ("up", 30, "ok"), ("up", 64, "ok"), ("up", 65, "refused 13 at 0"), ("down", 40, "ok"), ("report", 5, "ok"), ("down", 5, "ok"), ("up", 66, "ok"),
            ("show", 66, "none yet"), ("up", 67, "ok"), ("up", 68, "refused 13 at 0"), ("up", 67, "ok"), ("up", 9, "refused 13 at 0"),
        ):  # fmt: skip
            self.assertEqual(self.numbered(verb, number), expected, (verb, number))
        self.assertEqual(self.listed(), [*range(5), 66, 6, 7, 8, 64, *range(10, 40), 67, *range(41, 64)])
        for number in self.listed():
            self.assertEqual(self.numbered("down", number), "ok")
        self.assertEqual(self.listed(), [])

    def test_refusals(self):
        """First the header's, then the body's behind its 42 bytes, then the board's; and none changes the board."""
        short = open_message(19, own=18)
        self.check(("ok", "up", HEADER, peer_up()), ("ok", "report", HEADER, "00000000"))
        for header in (HEADER, self.ABSENT):
            self.check(
                ("refused 2 at 42 missing 16", "up", header),
                ("refused 2 at 42 missing 1", "down", header),
                ("refused 2 at 42 missing 4", "report", header),
                ("refused 2 at 62 missing 19", "up", header, peer_up()[:40]),
                ("refused 6 at 78", "up", header, peer_up(sent=short)),
                ("refused 6 at 107", "up", header, peer_up(received=short)),
                ("refused 7 at 238", "up", header, peer_up("00000000" * 33)),
                ("refused 4 at 42", "down", header, "07"),
                ("refused 2 at 50 missing 9", "report", header, "00000001 0009 000b 0001"),
                ("refused 7 at 302", "report", header, "00000041", "0000 0000" * 65),
            )
        for verb in ("up", "down", "report", "show"):
            self.check(
                ("refused 2 at 0 missing 1", verb, ""),
                ("refused 4 at 0", verb, "04"),
                ("refused 2 at 38 missing 1", verb, digits(HEADER)[:82]),
                ("refused 4 at 0", verb, "04", digits(HEADER)[2:], "ff"),
            )
            self.assertEqual(self.ask(f"{verb} {digits(HEADER)}+1048535*00"), "refused 1 at 0")
        self.check(
            ("report count=0 counters=[]", "show", HEADER, "ff"),
            ("refused 14 at 0", "show", self.ABSENT, "00000000"),
            (f"count=1 peers=[{self.KEY}]", "list"),
        )

    def test_bad_lines(self):
        """After each of them the board shows what it showed before."""
        self.check(("ok", "up", HEADER, peer_up()), ("ok", "report", HEADER, "00000000"))
        one, two = digits(HEADER), digits(self.ABSENT)
        lines = ["clear ", " clear", "Clear", "clear -", "clear 00", "clear\r", "list ", "list -", "LIST", "up", "up ", f"up  {two}{peer_up()}",
                 f"up {two}{peer_up()} ", f"up - {two}{peer_up()}", f"Up {two}{peer_up()}", f"up {two}{peer_up()}0", f"up\t{two}{peer_up()}",
                 f"down {one}04 ", f"down {one.upper()}04", f"down {one}4", f"down {one}04\r", f"down{one}04", f"report {one}00000000 -",
                 f"report {one}00000001000000040000000A", f"report {one}+0*00+00000000", "down", "report", "show", f"show {one} ", "show", "-"]
        for line in [*lines, "up " + two + peer_up() + "00" * 65_536]:
            self.assertEqual(self.ask(line), "bad line", line)
            self.check(("report count=0 counters=[]", "show", HEADER), (f"count=1 peers=[{self.KEY}]", "list"))

    def test_against_a_plainer_board(self):
        """There are more keys than places, so that all refusals come; `list` has the peers of the plain board in some order."""
        for seed in range(8):
            calls, plain = RandomCalls(seed), PlainBoard()
            keys, seen = calls.keys(30 + 10 * seed), set()
            self.ask("clear")
            for _ in range(1500):
                verb, key = calls.verb(), calls.random.choice(keys)
                line, shown = calls.call(verb, key)
                expected = plain.answer(verb, key, shown)
                seen.add((verb, expected.split(" at ")[0] if verb != "show" else expected.split()[0]))
                self.assertEqual(self.ask(line), expected, line)
            peers = self.ask("list").split("peers=")[1].strip("[]").split(",")
            self.assertEqual(sorted(peers), sorted(key for key, _shown in plain.pairs))
            self.assertTrue(seen >= {("down", "refused 14"), ("report", "refused 14"), ("show", "refused"), ("show", "none"), ("show", "report")})
            self.assertEqual(("up", "refused 13") in seen, seed > 3, seed)

    def test_each_peer_for_itself(self):
        """What is answered of one key goes by the calls for it alone: the others, of which there is always room for one more, have no say."""
        for seed in range(20):
            calls = RandomCalls(seed)
            key, *others = calls.keys(64)
            own = [calls.call(calls.verb((2, 1, 3, 4)), key)[0] for _ in range(60)]
            answers = []
            for between in (0, 1, 15):
                self.ask("clear")
                answers.append([])
                for line in own:
                    for _ in range(between):
                        self.assertNotEqual(self.ask(calls.call(calls.verb(), calls.random.choice(others))[0]), "refused 13 at 0")
                    answers[-1].append(self.ask(line))
            self.assertEqual(answers[0], answers[1])
            self.assertEqual(answers[0], answers[2])

    def test_room_after_a_down(self):
        """Whoever went down left a place for one that is new."""
        for seed in range(6):
            calls, downs, full = RandomCalls(seed), 0, 0
            keys = calls.keys(90)
            self.ask("clear")
            for _ in range(1500):
                verb = calls.verb((8, 1, 1, 0))
                answer = self.ask(calls.call(verb, calls.random.choice(keys))[0])
                full += answer == "refused 13 at 0"
                if (verb, answer) != ("down", "ok"):
                    continue
                downs += 1
                new = next(key for key in keys if self.ask(calls.call("show", key)[0]) == "refused 14 at 0")
                self.assertEqual(self.ask(calls.call("up", new)[0]), "ok")
            self.assertTrue(downs > 50 and full > 50, (downs, full))

    def test_list(self):
        """Each bad line of the list is one, each refusal has its words, and every number that a line can get is there."""
        words = re.compile(r"refused 2 at \d+ missing [1-9]\d*|refused (1|4|6|7) at \d+|refused 1[34] at 0")
        answers = [self.ask(line) for line in board_cases.lines() if line]
        for answer in answers:
            self.assertEqual(answer.startswith("refused"), words.fullmatch(answer) is not None, answer)
        numbers = {answer.split()[1] for answer in answers if answer.startswith("refused")}
        self.assertEqual(numbers, {"1", "2", "4", "6", "7", "13", "14"})
        self.assertEqual({self.ask(line) for line in board_cases.bad_lines()}, {"bad line"})
        self.assertEqual(answers.count("bad line"), len(list(board_cases.bad_lines())) + 1)

    def test_three_vrfs(self):
        """One address, one AS and one BGP ID in three tables: each has its own number of routes while all three are up."""
        looks, shown = [], {}
        for line in board_cases.stream_group(board_cases.sample("frr-10.3-three-vrfs")):
            answer = self.ask(line)
            if line.startswith(b"show"):
                header = bmp.read_per_peer_header(replay.bytes_of(line.split()[1])).record
                routes = re.search(r"\b7:8:N:G(\d+)", answer)
                if routes and header.peer_ip.octets[12:] == bytes([10, 9, 0, 2]):
                    shown[f"{header.peer_distinguisher:016x}"] = int(routes[1])
            if line == b"list":
                looks.append(shown)
                shown = {}
        self.assertIn({"0000000000000000": 60, "0000fde800000001": 70, "0002fa56ea000002": 80}, looks)
        self.assertEqual(looks[-1], {"0000000000000000": 60, "0000fde800000001": 70, "0000fde80000000b": 70})


def splitter_says(stream):
    """The messages of a stream and what stands behind them, a refusal or None: the splitter, asked at each boundary about at most 65,536 bytes.

    It does not know of 15, which goes by the header at a boundary.
    """
    messages, place = [], 0
    while True:
        window = stream[place : place + 65_536]
        if len(window) >= 6 and window[0] == 3 and 65_537 <= int.from_bytes(window[1:5], "big") <= 1_048_576:
            return messages, (15, 1)
        try:
            found = bmp.split(window)
        except bmp.Refused as refusal:
            return messages, None if refusal.number == bmp.CUT else (refusal.number, refusal.place)
        messages.append((type(found.record), window[: found.stop]))
        place += found.stop


class PlainReceiver:
    """A receiver once more, as plain as can be: the bytes held are a value of their own, and what `split` answers of them is read as a text."""

    def __init__(self):
        self.held, self.standing, self.lent = b"", "", 65_536

    def came(self, data):
        """What stands behind `held`; nothing where the bytes are cut."""
        word, *rest = ask("split", data.hex()).split()
        if word != "refused":
            return f" {'message' if word == 'good' else word} {data.hex()}"
        if rest[0] != "2":
            return f" refused {' '.join(rest)}"
        return " refused 15 at 1" if rest[2] == "6" and len(data) + int(rest[4]) > 65_536 else ""

    def call(self, piece):
        """How many bytes are taken, and what stands behind `held`."""
        if self.lent != 65_536:
            return 0, " refused 11 at 0"
        if len(piece) > 4_096:
            return 0, " refused 1 at 0"
        if self.standing:
            return 0, self.standing
        if self.came(self.held):
            return 0, " refused 12 at 0"
        took = next((took for took in range(1, len(piece) + 1) if self.came(self.held + piece[:took])), len(piece))
        self.held += piece[:took]
        came = self.came(self.held)
        if came.startswith(" refused"):
            self.standing = came
        elif came:
            self.held = b""
        return took, came

    def answer(self, line):
        """Of sizes it knows those that the random lines have."""
        verb, _space, text = line.partition(b" ")
        data = replay.bytes_of(text)
        if verb == b"piece" and data is not None:
            took, came = self.call(data)
            return f"took {took} held {len(self.held)}{came}"
        if line == b"reset":
            self.held, self.standing = b"", ""
        elif verb == b"forge" and data is not None:
            self.held = data
        elif verb == b"size" and text in (b"0", b"65535", b"65536", b"65537"):
            self.lent = int(text)
        else:
            return "bad line"
        return "ok"


class RandomSessions:
    """Streams and cuts that look random and are the same at every run."""

    def __init__(self, seed):
        self.random = random.Random(seed)

    def message(self, body=None):
        body = self.random.choice([0, 0, 1, 2, 5, 20, 60, 300]) if body is None else body
        return damaged.of_type(self.random.choice([*range(8), 9, 128, 255]), self.random.randbytes(body))

    def long_message(self):
        """Of a length about the longest; those that are longer are refused."""
        length = self.random.choice([65_534, 65_535, 65_536, 65_536, 65_537, 65_538])
        return damaged.of_type(self.random.choice([0, 6, 7]), self.random.randbytes(length - 6))

    def fault(self):
        """A message that is refused by its version, or by its length."""
        if self.random.randrange(3) == 0:
            return bytes([self.random.choice([0, 1, 2, 4, 131, 255])]) + self.message()[1:]
        length = self.random.choice([0, 1, 4, 5, 65_537, 65_792, 1_048_576, 1_048_577, 0x06000000, 2**32 - 1])
        return damaged.of_type(self.random.choice([0, 4, 7, 255]), b"\x03" * self.random.randrange(9), length)

    def stream(self):
        """Good messages, one of them longer than any piece; or one of them refused, bytes of them damaged, or the last one cut."""
        messages = [self.message() for _ in range(self.random.randrange(12))]
        kind = self.random.randrange(4)
        if kind in (0, 3):
            messages.insert(self.random.randrange(len(messages) + 1), self.fault() if kind == 0 else self.message(5_000))
        stream = bytearray(b"".join(messages))
        if kind == 1 and stream:
            for _ in range(3):
                stream[self.random.randrange(len(stream))] = self.random.choice([0, 1, 3, 4, 6, 255])
        if kind == 2:
            del stream[self.random.randrange(len(stream) + 1) :]
        return bytes(stream)

    def pieces(self, stream, largest=None):
        """The stream in pieces, of which some have no bytes: of one, of few, of any number, or as long as may be."""
        largest = largest or self.random.choice([1, 3, 8, 100, 4_096])
        start = 0
        while start < len(stream):
            size = 0 if self.random.randrange(10) == 0 else self.random.randint(1, largest)
            yield stream[start : start + size]
            start += size
        yield b""


class Caller:
    """Puts a session to a receiver, each piece again until it is used up, and checks of each call what holds of all."""

    def __init__(self, test, stream, buffer=None):
        self.test, self.stream = test, stream
        self.receiver, self.buffer = receive.Receiver(), memoryview(bytearray(65_536) if buffer is None else buffer)
        self.messages, self.boundary, self.taken = [], 0, 0

    def call(self, piece):
        """After each call the messages joined and the bytes held are the bytes taken; each message was compared when it came."""
        took, came = self.receiver.receive(self.buffer, piece)
        self.taken += took
        if isinstance(came, (bmp.Message, bmp.Skipped)):
            whole = bytes(self.buffer[: came.header.msg_len])
            self.messages.append((type(came), whole))
            self.test.assertEqual(whole, self.stream[self.boundary : self.taken])
            self.boundary = self.taken
        if isinstance(came, receive.Waiting):
            self.test.assertEqual(took, len(piece))
            self.test.assertGreater(came.missing, 0)
        self.test.assertEqual(bytes(self.buffer[: self.receiver.held]), self.stream[self.boundary : self.taken])
        return took, came

    def put(self, pieces):
        """A refusal ends a piece, since nothing is taken any more; the other pieces are put all the same."""
        for piece in pieces:
            took, came = self.call(piece)
            while took < len(piece) and not isinstance(came, bmp.Refused):
                piece = piece[took:]
                took, came = self.call(piece)
        return self.messages, self.standing()

    def standing(self):
        refusal = self.receiver.standing
        return None if refusal is None else (refusal.number, refusal.place)


class Receiving(unittest.TestCase):
    """The receiver and its lines, by hand from the rules."""

    MESSAGE = "03 0000000b 04 0002000141"

    CALLS = """
        03 00000009; 06 ff     | took 5, held 5, waiting for 1; took 2, held 7, waiting for 2
        03 00000006 04 03; 03  | took 6, a message, held 0; took 1, held 1, waiting for 4
        02 03; 03; -; 03       | took 1, held 1, 3 at 0; took 0, held 1, 3 at 0; took 0, held 1, 3 at 0; took 0, held 1, 3 at 0
        03 00010001 04         | took 6, held 6, 15 at 1
        03 00100001 04         | took 6, held 6, 1 at 1
        03 00000005; 07        | took 5, held 5, waiting for 1; took 1, held 6, 10 at 1
    """

    LINES = """
        piece 0300                 | took 2 held 2
        piece 00000604030000000607 | took 4 held 0 message 030000000604
        piece 030000000607         | took 6 held 0 skipped 030000000607
        piece 0203                 | took 1 held 1 refused 3 at 0
        piece 03                   | took 0 held 1 refused 3 at 0
        size 65537                 | ok
        piece -                    | took 0 held 1 refused 11 at 0
    """

    def setUp(self):
        self.session = receive.Session()

    def ask(self, line):
        return receive.answer(self.session, line if isinstance(line, bytes) else line.encode())

    def check(self, *asked):
        for line, expected in asked:
            self.assertEqual(self.ask(line), expected, line[:99])

    def call(self, text):
        """A call in the words of the rules' table."""
        took, came = self.session.receiver.receive(memoryview(self.session.array)[:65_536], bytes.fromhex(text.strip().strip("-")))
        held = self.session.receiver.held
        if isinstance(came, receive.Waiting):
            return f"took {took}, held {held}, waiting for {came.missing}"
        if isinstance(came, bmp.Refused):
            return f"took {took}, held {held}, {came.number} at {came.place}"
        return f"took {took}, a {type(came).__name__.lower()}, held {held}"

    def test_calls(self):
        for line in self.CALLS.strip().splitlines():
            calls, answers = line.split("|")
            self.ask("reset")
            self.assertEqual("; ".join(self.call(text) for text in calls.split(";")), answers.strip())

    def test_lines(self):
        self.check(*[[side.strip() for side in line.split("|")] for line in self.LINES.strip().splitlines()])

    def test_missing(self):
        """What the field lacks: the version 1, the length 4, the type 1, and then the rest of the message."""
        whole = bytes.fromhex(self.MESSAGE)
        for held, missing in enumerate([1, 4, 3, 2, 1, 1, 5, 4, 3, 2, 1]):
            self.assertEqual(self.call("-"), f"took 0, held {held}, waiting for {missing}")
            if held:
                self.ask("reset")
                self.assertEqual(self.call(whole[:held].hex()), f"took {held}, held {held}, waiting for {missing}")
            self.call(whole[held : held + 1].hex())
        self.assertEqual(self.call("-"), "took 0, held 0, waiting for 1")
        for header, missing in (("03 00010000 00", 65_530), ("03 00010000 ff", 65_530), ("03 0000ffff 05", 65_529), ("03 00000007 80", 1)):
            self.ask("reset")
            self.assertEqual(self.call(header), f"took 6, held 6, waiting for {missing}")

    def test_one_message_a_call(self):
        one, two, three = digits(self.MESSAGE), "030000000607", "0300000007c8ff"
        self.check(
            (f"piece {one}{two}{three}03", f"took 11 held 0 message {one}"),
            (f"piece {two}{three}03", f"took 6 held 0 skipped {two}"),
            (f"piece {three}03", f"took 7 held 0 skipped {three}"),
            ("piece 03", "took 1 held 1"),
            (f"piece {one[2:]}{one}", f"took 10 held 0 message {one}"),
            (f"piece {one[:20]}", "took 10 held 10"),
            (f"piece {one[20:]}", f"took 1 held 0 message {one}"),
            ("piece -", "took 0 held 0"),
        )

    def test_types(self):
        """Each of the 256, and whatever the body is."""
        for kind in range(256):
            word = "message" if kind <= 6 else "skipped"
            for text in (f"0300000006{kind:02x}", f"030000000c{kind:02x}020000000504"):
                self.check((f"piece {text}02", f"took {len(text) // 2} held 0 {word} {text}"))

    def test_long_messages(self):
        """65,535 and 65,536 bytes are handed out, whole; one more is refused with the sixth byte."""
        for length, kind, word in ((65_535, 0, "message"), (65_536, 6, "message"), (65_536, 7, "skipped")):
            header = f"03{length:08x}{kind:02x}"
            self.check((f"piece {header}", "took 6 held 6"))
            self.check(*[(f"piece 4096*{number:02x}", f"took 4096 held {6 + 4096 * (number + 1)}") for number in range(15)])
            body = "".join(4096 * f"{number:02x}" for number in range(15)) + (length - 61_446) * "aa"
            self.check((f"piece {length - 61_446}*aa+03", f"took {length - 61_446} held 0 {word} {header}{body}"))
        self.check(("piece 030001000106", "took 6 held 6 refused 15 at 1"))

    def test_versions(self):
        """The first byte is refused alone, with what stands behind it, and behind a message."""
        for version in {*range(256)} - {3}:
            self.check(
                (f"piece {version:02x}", "took 1 held 1 refused 3 at 0"),
                ("reset", "ok"),
                (f"piece {version:02x}0000000504", "took 1 held 1 refused 3 at 0"),
                ("piece 030000000604", "took 0 held 1 refused 3 at 0"),
                ("reset", "ok"),
                (f"piece 030000000604{version:02x}", "took 6 held 0 message 030000000604"),
                (f"piece {version:02x}", "took 1 held 1 refused 3 at 0"),
                ("reset", "ok"),
            )

    def test_lengths(self):
        """Judged with the sixth byte and no earlier, whatever the type; what stands behind that byte is not taken."""
        for length, refusal in (
            (0, "10 at 1"), (1, "10 at 1"), (2, "10 at 1"), (3, "10 at 1"), (4, "10 at 1"), (5, "10 at 1"),
            (65_537, "15 at 1"), (65_538, "15 at 1"), (131_072, "15 at 1"), (1_048_575, "15 at 1"), (1_048_576, "15 at 1"),
            (1_048_577, "1 at 1"), (2_097_152, "1 at 1"), (0x06000000, "1 at 1"), (0xFFFFFFFF, "1 at 1"),
        ):  # fmt: skip
            for kind in (*range(8), 9, 200, 255):
                self.check(
                    (f"piece 03{length:08x}", "took 5 held 5"),
                    (f"piece {kind:02x}03", f"took 1 held 6 refused {refusal}"),
                    (f"piece 03{length:08x}", f"took 0 held 6 refused {refusal}"),
                    ("reset", "ok"),
                    (f"piece 03{length:08x}{kind:02x}030000000604", f"took 6 held 6 refused {refusal}"),
                    ("piece -", f"took 0 held 6 refused {refusal}"),
                    ("reset", "ok"),
                )

    def test_order(self):
        """A wrong size, a piece that is too long, what stands, what is held wrongly; each is said of a call that has all that follow it too."""
        self.check(
            ("piece 02", "took 1 held 1 refused 3 at 0"),
            ("forge 030000000604", "ok"),
            ("size 65535", "ok"),
            ("piece 4097*02", "took 0 held 6 refused 11 at 0"),
            ("size 65536", "ok"),
            ("piece 4097*02", "took 0 held 6 refused 1 at 0"),
            ("piece 4096*02", "took 0 held 6 refused 3 at 0"),
            ("reset", "ok"),
            ("forge 030000000604", "ok"),
            ("piece 4097*02", "took 0 held 6 refused 1 at 0"),
            ("piece 4096*02", "took 0 held 6 refused 12 at 0"),
            ("size 0", "ok"),
            ("piece -", "took 0 held 6 refused 11 at 0"),
            ("size 65536", "ok"),
            ("forge -", "ok"),
            ("piece 4096*02", "took 1 held 1 refused 3 at 0"),
        )

    def test_what_does_not_stand(self):
        """11, 1 at 0 and 12 take nothing, and the next call that is right goes on as if they had not been."""
        whole = digits(self.MESSAGE)
        for held in range(11):
            start, rest = whole[: 2 * held] or "-", whole[2 * held :]
            self.check(
                (f"piece {start}", f"took {held} held {held}"),
                (f"piece {rest}+4097*00", f"took 0 held {held} refused 1 at 0"),
                ("size 65537", "ok"),
                (f"piece {rest}", f"took 0 held {held} refused 11 at 0"),
                ("size 65536", "ok"),
                ("forge 0300000006ff00", "ok"),
                (f"piece {rest}", "took 0 held 7 refused 12 at 0"),
                ("piece -", "took 0 held 7 refused 12 at 0"),
                (f"forge {start}", "ok"),
                (f"piece {rest}", f"took {11 - held} held 0 message {whole}"),
            )

    def test_what_stands(self):
        """It is given again as it was, until the reset."""
        for brings, held, refusal in (("ff", 1, "3 at 0"), ("030000000004", 6, "10 at 1"), ("03ffffffff04", 6, "1 at 1"), ("030010000004", 6, "15 at 1")):
            again = f"took 0 held {held} refused {refusal}"
            self.check(
                (f"piece {brings}", f"took {held} held {held} refused {refusal}"),
                ("piece -", again),
                ("piece 030000000604", again),
                ("piece 4096*03", again),
                ("piece 4097*03", f"took 0 held {held} refused 1 at 0"),
                ("size 1", "ok"),
                ("piece 03", f"took 0 held {held} refused 11 at 0"),
                ("size 65536", "ok"),
                ("piece 03", again),
                ("forge 03000000", "ok"),
                ("piece 06", f"took 0 held 4 refused {refusal}"),
                ("forge 65537*03", "ok"),
                ("piece -", f"took 0 held 65537 refused {refusal}"),
                ("reset", "ok"),
                ("piece -", "took 0 held 0"),
                ("piece 030000000604", "took 6 held 0 message 030000000604"),
            )

    def test_forged(self):
        """What is held may be any start of an unfinished message, and nothing else."""
        for text, held in (
            ("030000000604", 6), ("030000000607", 6), ("03000000060403", 7), ("030000000b040002000141", 11), ("02", 1), ("0400000006", 5),
            ("030000000504", 6), ("0300000000ff00", 7), ("030001000104", 6), ("030010000004", 6), ("030010000104", 6), ("03ffffffff04", 6),
            ("030001000004+65530*03", 65_536), ("030001000104+65530*03", 65_536), ("030001000104+65531*03", 65_537), ("65537*03", 65_537),
        ):  # fmt: skip
            self.check((f"forge {text}", "ok"), ("piece -", f"took 0 held {held} refused 12 at 0"), ("piece 03", f"took 0 held {held} refused 12 at 0"))
            self.check(("forge 0300", "ok"), ("piece 0000060403", "took 4 held 0 message 030000000604"))
        for text, held, missing in (
            ("-", 0, 1), ("03", 1, 4), ("030000", 3, 2), ("0300000005", 5, 1), ("0300010001", 5, 1), ("03ffffffff", 5, 1), ("030000000704", 6, 1),
            ("0300000008ff00", 7, 1), ("030001000004+65529*03", 65_535, 1), ("030001000004", 6, 65_530),
        ):  # fmt: skip
            self.check((f"forge {text}", "ok"), ("piece -", f"took 0 held {held}"))
            self.assertEqual(self.call("-"), f"took 0, held {held}, waiting for {missing}")

    def test_changed_bytes(self):
        """It is the buffer that is asked, at each call."""
        start = digits(self.MESSAGE)[:18]
        for forged, answer in (
            ("030000000b04eeeeee", "took 2 held 0 message 030000000b04eeeeee0141"),
            ("030000000b09000200", "took 2 held 0 skipped 030000000b090002000141"),
            ("030000000a04000200", "took 1 held 0 message 030000000a0400020001"),
            ("030000000c04000200", "took 2 held 11"),
            ("030000000b04", "took 2 held 8"),
            ("030000000904000200", "took 0 held 9 refused 12 at 0"),
            ("040000000b04000200", "took 0 held 9 refused 12 at 0"),
        ):
            self.check(("reset", "ok"), (f"piece {start}", "took 9 held 9"), (f"forge {forged}", "ok"), ("piece 0141", answer))

    def test_sizes(self):
        """Only 65,536 bytes are enough, and no more than they; a reset leaves what is lent."""
        for size in (0, 1, 6, 4_096, 65_535, 65_537):
            self.check(
                ("piece 03", "took 1 held 1"),
                (f"size {size}", "ok"),
                ("piece 00", "took 0 held 1 refused 11 at 0"),
                ("reset", "ok"),
                ("piece 03", "took 0 held 0 refused 11 at 0"),
                ("forge 0300", "ok"),
                ("piece -", "took 0 held 2 refused 11 at 0"),
                ("size 65536", "ok"),
                ("piece 00", "took 1 held 3"),
                ("reset", "ok"),
            )

    def test_array(self):
        """Of the array a call changes the bytes behind those held, as many as it takes; a forgery those it brings; a reset and a bad line none."""
        array = self.session.array
        array[:] = expected = bytearray(random.Random(1).randbytes(65_537))
        for line, held, taken in (
            ("piece 0300", 0, "0300"), ("piece -", 2, ""), ("piece 00000b04aabbcc", 2, "00000b04aabbcc"), ("piece 4097*03", 9, ""), ("reset ", 9, ""),
            ("piece ddee02ffff", 9, "ddee"), ("piece 02ffff", 0, "02"), ("piece 03", 1, ""), ("reset", 1, ""), ("piece 03000000050707", 0, "030000000507"),
            ("forge 0300000006041122", 0, "0300000006041122"), ("piece ff", 8, ""), ("reset", 8, ""), ("forge 0300000006041122", 0, "0300000006041122"),
            ("piece ff", 8, ""), ("size 9", 8, ""), ("piece ff", 8, ""), ("forge -", 8, ""), ("piece ff", 0, ""), ("size 65536", 0, ""),
            ("forge 65538*00", 0, ""), ("piece 0300010000ff", 0, "0300010000ff"),
        ):  # fmt: skip
            self.ask(line)
            expected[held : held + len(taken) // 2] = bytes.fromhex(taken)
            self.assertEqual(array, expected, line)

    def test_bad_lines(self):
        """After each of them as many bytes are held, as large a part is lent, and nothing stands."""
        self.check(("piece 030000", "took 3 held 3"))
        lines = ["reset ", " reset", "Reset", "reset -", "reset 00", "reset\r", "piece", "piece ", "piece  00", "piece 00 ", "piece 0", "piece 0A",
                 "piece 00\r", "Piece 00", "piece00", "piece - -", "piece 00 00", "piece 0*00", "piece 1048578*00", "size", "size ", "size 65538",
                 "size 065536", "size 00", "size -1", "size +1", "size 1 ", "size  1", "size ff", "size 0x1", "size 99999999999999999999", "size 1\r",
                 "Size 1", "size1", "forge", "forge ", "forge  03", "forge 0", "forge 03 ", "forge AA", "forge 65538*03", "forge 65537*03+03",
                 "forge 1048577*03", "Forge 03", "forge03", "forge -\r", "took", "-", " "]
        for line in [*lines, "piece " + "00" * 65_536 + "0", "piece 10*" + "00" * 65_535, "forge " + "1*00+" * 26_214 + "1*00"]:
            self.check((line, "bad line"), ("piece -", "took 0 held 3"))
        self.check(("piece 000604", "took 3 held 0 message 030000000604"))

    def test_longest_lines(self):
        self.check(("piece " + "00" * 65_536, "took 0 held 0 refused 1 at 0"), ("piece 1048577*00", "took 0 held 0 refused 1 at 0"))
        self.check(("forge 1*030001000004" + "00" * 65_529, "ok"), ("piece -", "took 0 held 65535"))

    def test_list(self):
        """Each answer of the list has its form, each refusal and place is there, and each bad line is one."""
        counts = r"took (0|[1-9]\d*) held (0|[1-9]\d*)"
        words = re.compile(rf"bad line|ok|{counts}(?: (message|skipped) ([0-9a-f]+)| refused ((?:3|11|12|1) at 0|(?:10|1|15) at 1))?")
        refusals, longest, bad = set(), [], 0
        for line in receive_cases.lines():
            found = words.fullmatch(self.ask(line)) if line else None
            self.assertEqual(found is None, not line, line[:99])
            if found:
                bad += found[0] == "bad line"
                refusals |= {found[5]}
                longest += [len(found[4]) // 2] if found[4] and len(found[4]) > 100_000 else []
        self.assertEqual(refusals - {None}, {"3 at 0", "11 at 0", "12 at 0", "1 at 0", "10 at 1", "1 at 1", "15 at 1"})
        self.assertEqual(sorted(longest), [65_535, 65_536, 65_536])
        self.assertGreater(bad, len(list(receive_cases.bad_lines())))
        self.assertEqual({self.ask(line) for line in receive_cases.bad_lines()}, {"bad line"})


class Sessions(unittest.TestCase):
    """What holds of all sessions, however they are cut: by random ones, and the splitter asked beside."""

    def check_end(self, caller):
        """All is taken; or the last byte taken is the one that brings the refusal, so that without it nothing would stand."""
        if caller.standing() is None:
            self.assertEqual(caller.taken, len(caller.stream))
            return
        self.assertEqual(splitter_says(caller.stream[: caller.taken])[1], caller.standing())
        self.assertIsNone(splitter_says(caller.stream[: caller.taken - 1])[1])

    def test_cuts(self):
        """Four cuts of each stream; what is handed out and what stands are the splitter's, so they are the same for all four."""
        seen = set()
        for seed in range(160):
            sessions = RandomSessions(seed)
            stream = sessions.stream()
            expected = splitter_says(stream)
            seen |= {expected[1]} | {kind for kind, _whole in expected[0]}
            for _ in range(4):
                caller = Caller(self, stream)
                self.assertEqual(caller.put(sessions.pieces(stream)), expected)
                self.check_end(caller)
        self.assertEqual(seen, {None, (3, 0), (10, 1), (1, 1), (15, 1), bmp.Message, bmp.Skipped})

    def test_every_cut_in_two(self):
        """A stream that has each kind of message, and then each refusal: cut at every place, and with a piece of no bytes there."""
        good = bytes.fromhex("030000000b 04 0002000141 030000000607 0300000009c8ffffff 030000000604")
        for fault in ("02", "030000000507", "030001000104", "0300100001ff", "030001000004"):
            stream = good + bytes.fromhex(fault) + good
            expected = splitter_says(stream)
            for cut in range(len(stream) + 1):
                caller = Caller(self, stream)
                self.assertEqual(caller.put([stream[:cut], b"", stream[cut:]]), expected)
                self.check_end(caller)

    def test_long_messages(self):
        """Lengths about the longest, with other messages before and behind."""
        seen = set()
        for seed in range(10):
            sessions = RandomSessions(seed)
            stream = sessions.message() + sessions.long_message() + sessions.message() + sessions.long_message()
            expected = splitter_says(stream)
            seen |= {expected[1]} | {len(whole) for _kind, whole in expected[0] if len(whole) > 65_000}
            caller = Caller(self, stream)
            self.assertEqual(caller.put(sessions.pieces(stream, 4_096)), expected)
            self.check_end(caller)
        self.assertEqual(seen, {None, (15, 1), 65_534, 65_535, 65_536})

    def test_missing(self):
        """What is missing is what the splitter says of the bytes since the boundary."""
        for seed in range(100):
            sessions = RandomSessions(seed)
            stream = sessions.stream()
            caller = Caller(self, stream)
            for byte in stream:
                _took, came = caller.call(bytes([byte]))
                if isinstance(came, receive.Waiting):
                    with self.assertRaises(bmp.Refused) as refusal:
                        bmp.split(stream[caller.boundary : caller.taken])
                    self.assertEqual((refusal.exception.number, refusal.exception.missing), (bmp.CUT, came.missing))

    def test_buffer(self):
        """What stands in the buffer at first has no say, and of it the bytes taken are changed, behind those held, and no others."""
        for seed in range(40):
            sessions = RandomSessions(seed)
            stream = sessions.stream()
            buffer = bytearray(sessions.random.randbytes(65_536))
            caller = Caller(self, stream, buffer)
            for piece in sessions.pieces(stream, 50):
                expected, held = bytearray(buffer), caller.receiver.held
                took, _came = caller.call(piece)
                expected[held : held + took] = piece[:took]
                self.assertEqual(buffer, expected)
                if took < len(piece):
                    break

    def test_against_a_plainer_receiver(self):
        """All lines in any order, with forgeries, other sizes and bad lines between."""
        seen = set()
        for seed in range(1000, 1600):
            session, plain = receive.Session(), PlainReceiver()
            for line in receive_cases.any_calls(seed):
                answer = receive.answer(session, line)
                self.assertEqual(answer, plain.answer(line), line)
                seen.add(re.sub(r"took \d+ held \d+|(?<=message|skipped) .*", "", answer))
        refusals = {f" refused {text}" for text in ("3 at 0", "11 at 0", "12 at 0", "1 at 0", "10 at 1", "1 at 1", "15 at 1")}
        self.assertEqual(seen, {"", "ok", "bad line", " message", " skipped", *refusals})



class Programs(unittest.TestCase):
    """The programs as they are run."""

    STREAM = bytes.fromhex("030000000b040002000141" + "030000000607")
    LISTING = b"place type length answer\n0 4 11 0\n11 7 6 skip\nend 17\n"

    def run_program(self, name, *arguments, given=b""):
        program = os.path.join(os.path.dirname(os.path.abspath(__file__)), name)
        return subprocess.run([sys.executable, "-B", program, *arguments], input=given, capture_output=True, check=True).stdout

    def test_replay(self):
        given = b"common - 0300\n\nCommon - 0300\ncommon - 0300\r\n\n\npeerdown - 01"
        expected = b"refused 2 at 1 missing 3\nbad line\nbad line\ngood stop=1 tail=1 warn=0 reason=1 data=some:\n"
        self.assertEqual(self.run_program("replay.py", given=given), expected)
        self.assertEqual(self.run_program("replay.py"), b"")

    def test_boards(self):
        up = f"up {digits(HEADER)}{peer_up()}\n".encode()
        given = b"list\n\n" + up + b"clear\r\n\x0bclear\nlist\n\nclear\n\nlist\n" + up + b"show " + digits(HEADER).encode()
        expected = f"count=0 peers=[]\nok\nbad line\nbad line\ncount=1 peers=[{Boards.KEY}]\nok\ncount=0 peers=[]\nok\nnone yet\n"
        self.assertEqual(self.run_program("boards.py", given=given), expected.encode())
        self.assertEqual(self.run_program("boards.py"), b"")

    def test_receive(self):
        given = b"piece 0300\n\npiece 00\r\nreset \nsize 1\n\n\npiece -\nsize 65536\n\x0breset\npiece 0000060403\npiece 03\nreset\npiece 02"
        expected = ["took 2 held 2", "bad line", "bad line", "ok", "took 0 held 2 refused 11 at 0", "ok", "bad line", "took 4 held 0 message 030000000604"]
        expected += ["took 1 held 1", "ok", "took 1 held 1 refused 3 at 0"]
        self.assertEqual(self.run_program("receive.py", given=given), "".join(line + "\n" for line in expected).encode())
        self.assertEqual(self.run_program("receive.py"), b"")

    def test_listing(self):
        self.assertEqual(self.run_program("listing.py", given=self.STREAM), self.LISTING)
        with tempfile.TemporaryDirectory() as folder:
            names = [os.path.join(folder, name) for name in ("one.bmp", "none.bmp")]
            for name, stream in zip(names, (self.STREAM, b"")):
                with open(name, "wb") as file:
                    file.write(stream)
            expected = names[0].encode() + b"\n" + self.LISTING + names[1].encode() + b"\nplace type length answer\nend 0\n"
            self.assertEqual(self.run_program("listing.py", *names), expected)

    def test_counters(self):
        """The last report of each peer, in the order in which the peers came; between two of them the message that is to be skipped."""
        other = HEADER.replace("0a000001", "0a000002")
        given = damaged.of_type(7, b"") + report_of(1) + report_of(2, other) + damaged.of_type(9, b"\xff") + report_of(3)
        lines = ["10.0.0.1 168430090 7 1", "10.0.0.2 168430090 7 2", "10.0.0.1 168430090 7 3"]
        self.assertEqual(self.run_program("counters.py", given=given), "".join(f"0 0 {line}\n" for line in lines).encode())
        last = report_of(3) + bytes.fromhex("03 00000009 09 ffffff") + report_of(2, other)
        self.assertEqual(self.run_program("counters.py", "last", given=given), last)
        lines = [lines[2], lines[1]]
        self.assertEqual(self.run_program("counters.py", given=last), "".join(f"0 0 {line}\n" for line in lines).encode())


class NotWritable(unittest.TestCase):
    """The rules' list of what is not writable, and the order 12, 1, 11."""

    BUFFER = bytes(range(20))

    def number(self, writer, record, room=100, buffer=BUFFER):
        output = bytearray(b"\xa5" * room)
        try:
            writer(record, buffer, output)
        except bmp.Refused as refusal:
            self.assertEqual((refusal.place, refusal.missing, bytes(output)), (0, 0, b"\xa5" * room))
            return refusal.number
        return 0

    def test_headers(self):
        common = bmp.CommonHeader(3, 6, 4)
        self.assertEqual(self.number(bmp.write_common_header, common), 0)
        self.assertEqual(self.number(bmp.write_common_header, common, room=5), 11)
        self.assertEqual(self.number(bmp.write_common_header, common._replace(version=4), room=5), 12)
        self.assertEqual(self.number(bmp.write_common_header, common._replace(msg_type=7)), 12)
        peer = bmp.read_per_peer_header(bytes.fromhex(digits(HEADER))).record
        address = peer.peer_ip
        self.assertEqual(self.number(bmp.write_per_peer_header, peer, room=42), 0)
        for change in (
            {"timestamp": 1.25},
            {"timestamp": -0.0, "seconds": 0, "microseconds": 0},
            {"peer_ip": address._replace(afi=6)},
            {"peer_flags": 0x80},
            {"peer_flags": 0x20, "peer_asn": 65_536},
            {"peer_type": 3},
            {"peer_type": 4},
            {"peer_ip": bmp.IpAddr(b"\1" + bytes(15), 4)},
            {"peer_ip": bmp.IpAddr(bytes(11) + b"\1" + bytes(4), 4)},
        ):
            self.assertEqual(self.number(bmp.write_per_peer_header, peer._replace(**change)), 12, change)
        self.assertEqual(self.number(bmp.write_per_peer_header, peer._replace(peer_flags=0x20, peer_asn=65_535)), 0)

    def test_statistics(self):
        good, bad = [], []
        for data, length in ((bmp.Counter(1), 4), (bmp.Gauge(1), 8), (bmp.AfiSafiGauge(1, 1, 1), 11), (bmp.Raw(bmp.View(0, 2)), 2)):
            good.append(bmp.StatCounter(0, length, data))
            bad.append(bmp.StatCounter(0, length + 1, data))
        bad += [bmp.StatCounter(0, n, bmp.Raw(bmp.View(0, n))) for n in (4, 8, 11, 21)]
        bad.append(bmp.StatCounter(0, 0, bmp.Raw(bmp.View(21, 0))))
        bad += [bmp.StatCounter(0, 4, bmp.Counter(2**32)), bmp.StatCounter(0, 11, bmp.AfiSafiGauge(1, 256, 1))]
        bad += [counter._replace(unused_afi=1) for counter in good] + [counter._replace(unused_safi=1) for counter in good]
        for expected, tried in ((0, good), (12, bad)):
            for counter in tried:
                self.assertEqual(self.number(bmp.write_stats_report, bmp.StatsReport(1, [counter])), expected, counter)
        self.assertEqual(self.number(bmp.write_stats_report, bmp.StatsReport(2, good[:1])), 12)
        for count, expected in ((64, 0), (65, 12)):
            self.assertEqual(self.number(bmp.write_stats_report, bmp.StatsReport(count, good[:1] * count), room=600), expected)

    def test_too_long(self):
        buffer = bytes(65_535)
        raw = bmp.StatCounter(0, 65_535, bmp.Raw(bmp.View(0, 65_535)))
        for count, expected in ((15, 11), (16, 1)):
            report = bmp.StatsReport(count, [raw] * count)
            self.assertEqual(self.number(bmp.write_stats_report, report, room=0, buffer=buffer), expected)
        self.assertEqual(self.number(bmp.write_stats_report, bmp.StatsReport(17, [raw] * 16), room=0, buffer=buffer), 12)
        for length, expected in ((1_048_576, 0), (1_048_577, 1)):
            record = bmp.RouteMonitoring(bmp.View(0, length))
            self.assertEqual(self.number(bmp.write_route_monitoring, record, room=length, buffer=bytes(length)), expected)

    def test_tlvs(self):
        def initiation(*views):
            return bmp.InitiationMessage([bmp.InformationTlv(0, length, view) for length, view in views])

        self.assertEqual(self.number(bmp.write_initiation_message, initiation((0, bmp.View(0, 0)), (1, bmp.View(19, 1)))), 0)
        for views in ([(1, bmp.View(20, 1))], [(2, bmp.View(0, 1))], [(0, bmp.View(0, 0))], [(0, bmp.View(21, 0)), (1, bmp.View(0, 1))]):
            self.assertEqual(self.number(bmp.write_initiation_message, initiation(*views)), 12)
        one = (1, bmp.View(0, 1))
        self.assertEqual(self.number(bmp.write_initiation_message, initiation(*[one] * 32), room=160), 0)
        self.assertEqual(self.number(bmp.write_initiation_message, initiation(*[one] * 33), room=999), 12)

        def termination(length, value):
            return self.number(bmp.write_termination_message, bmp.TerminationMessage([bmp.TerminationTlv(length, value)]))

        self.assertEqual(termination(2, bmp.Reason(4)), 0)
        self.assertEqual(termination(2, bmp.Reason(5)), 12)
        self.assertEqual(termination(2, bmp.UnknownType(2)), 12)
        self.assertEqual(termination(1, bmp.Reason(4)), 12)
        self.assertEqual(termination(0, bmp.String(bmp.View(0, 0))), 12)
        self.assertEqual(termination(2, bmp.String(bmp.View(0, 1))), 12)
        self.assertEqual(termination(2, bmp.String(bmp.View(19, 2))), 12)

        def mirroring(length, value):
            return self.number(bmp.write_route_mirroring, bmp.RouteMirroring([bmp.RouteMirroringTlv(length, value)]))

        self.assertEqual(mirroring(19, bmp.BgpMessage(bmp.View(0, 19))), 0)
        self.assertEqual(mirroring(18, bmp.BgpMessage(bmp.View(0, 18))), 12)
        self.assertEqual(mirroring(20, bmp.BgpMessage(bmp.View(0, 19))), 12)
        self.assertEqual(mirroring(20, bmp.BgpMessage(bmp.View(1, 20))), 12)
        self.assertEqual(mirroring(2, bmp.Information(1)), 0)
        self.assertEqual(mirroring(2, bmp.Information(2)), 12)
        self.assertEqual(mirroring(2, bmp.UnknownType(2)), 12)
        self.assertEqual(mirroring(7, bmp.Information(1)), 12)
        for count, expected in ((32, 0), (33, 12)):
            record = bmp.TerminationMessage([bmp.TerminationTlv(2, bmp.Reason(0))] * count)
            self.assertEqual(self.number(bmp.write_termination_message, record, room=200), expected)
            record = bmp.RouteMirroring([bmp.RouteMirroringTlv(2, bmp.Information(0))] * count)
            self.assertEqual(self.number(bmp.write_route_mirroring, record, room=200), expected)

    def test_other_bodies(self):
        for length, expected in ((18, 12), (19, 0), (20, 0), (21, 12)):
            record = bmp.RouteMonitoring(bmp.View(0, length))
            self.assertEqual(self.number(bmp.write_route_monitoring, record), expected)
        some, none = bmp.View(3, 4), bmp.View(0, 0)
        writable = [(0, None), (0, some), (4, None), (5, None)] + [(r, v) for r in (1, 2, 3, 6) for v in (some, none)]
        for reason in range(8):
            for data in (None, some, none, bmp.View(0, 21)):
                expected = 0 if (reason, data) in writable else 12
                record = bmp.PeerDownNotification(reason, data)
                self.assertEqual(self.number(bmp.write_peer_down_notification, record), expected, record)

    def test_peer_up(self):
        buffer = bytes.fromhex(peer_up("0000000141"))
        record = bmp.read_peer_up_notification(buffer, 4, 0).record

        def number(**change):
            return self.number(bmp.write_peer_up_notification, record._replace(**change), buffer=buffer)

        self.assertEqual(number(), 0)
        self.assertEqual(number(local_addr=bmp.IpAddr(b"\1" * 16, 6)), 0)
        self.assertEqual(number(local_addr=bmp.IpAddr(b"\1" * 16, 4)), 12)
        self.assertEqual(number(sent_open=bmp.View(20, 28)), 12)
        self.assertEqual(number(received_open=bmp.View(49, 18)), 12)
        self.assertEqual(number(received_open=bmp.View(len(buffer), 19)), 12)
        short = open_message(19, own=18)
        for length in (18, 19):
            view = record._replace(sent_open=bmp.View(0, length), received_open=bmp.View(0, length), tlvs=[])
            self.assertEqual(self.number(bmp.write_peer_up_notification, view, buffer=short), 12)
        self.assertEqual(number(tlvs=[bmp.InformationTlv(0, 0, bmp.View(0, 0))]), 0)
        self.assertEqual(number(tlvs=[bmp.InformationTlv(0, 1, bmp.View(0, 0))]), 12)

    def test_open_bmp(self):
        buffer = bytes.fromhex(open_bmp())
        record = bmp.read_openbmp_header(buffer).record

        def number(**change):
            return self.number(bmp.write_openbmp_header, record._replace(**change), buffer=buffer)

        self.assertEqual(number(), 0)
        self.assertEqual(number(header_len=0, msg_len=0), 0)
        for change in (
            {"major_version": 2},
            {"minor_version": 6},
            {"object_type": 13},
            {"timestamp": 1.0},
            {"admin_id": bmp.View(80, 2)},
            {"router_group": bmp.View(82, 0)},
            {"router_ip": bmp.IpAddr(bytes(12) + b"\1\1\1\1", 4)},
        ):
            self.assertEqual(number(**change), 12, change)
        self.assertEqual(number(router_ip=bmp.IpAddr(bytes(4) + b"\1" + bytes(11), 4)), 12)
        for length, expected in ((65_535, 0), (65_536, 12)):
            long = record._replace(admin_id=bmp.View(0, length), router_group=bmp.View(0, 0))
            self.assertEqual(self.number(bmp.write_openbmp_header, long, 70_000, bytes(65_536)), expected)


MESSAGE_NAMES = ["RouteMonitoring", "StatsReport", "PeerDown", "PeerUp", "Initiation", "Termination", "RouteMirroring"]
PEER_NAMES = ["Global", "RD", "Local", "LocRIB"]
BGP_NAMES = ["", "OPEN", "UPDATE", "NOTIFICATION", "KEEPALIVE"]


def shown_address(address):
    if address.afi == 6:
        return str(ipaddress.IPv6Address(address.octets))
    return str(ipaddress.IPv4Address(address.octets[12:]))


class Message:
    """One message of a recording, read whole."""

    def __init__(self, place, header, message):
        self.place, self.kind, self.length = place, header.msg_type, header.msg_len
        self.name = MESSAGE_NAMES[self.kind]
        self.peer = None
        self.data = message[6:]
        if self.kind not in listing.WITHOUT_PEER:
            self.peer = bmp.read_per_peer_header(self.data).record
            self.data = self.data[42:]
        self.body = listing.read_body(self.kind, self.data, self.peer).record

    def shown(self, view):
        return bmp.part(self.data, view)

    def bgp_id(self):
        return ipaddress.IPv4Address(self.peer.peer_bgp_id)

    def peer_line(self):
        peer = self.peer
        return (
            f"type {peer.peer_type} ({PEER_NAMES[peer.peer_type]}) rd {peer.peer_distinguisher:016x}"
            f" addr {shown_address(peer.peer_ip)} AS {peer.peer_asn} id {self.bgp_id()}"
        )

    def peer_label(self):
        peer = self.peer
        name = PEER_NAMES[peer.peer_type]
        return f"{name} rd={peer.peer_distinguisher:016x} {shown_address(peer.peer_ip)} AS{peer.peer_asn}"


def read_all(stream):
    messages, place = [], 0
    while place < len(stream):
        header = bmp.split(stream[place:]).record.header
        messages.append(Message(place, header, stream[place : place + header.msg_len]))
        place += header.msg_len
    return messages


def count(names):
    counts = {}
    for name in names:
        counts[name] = counts.get(name, 0) + 1
    return counts


def tlv_text(tlv, message):
    return f"type {tlv.info_type} len {tlv.info_len} '{message.shown(tlv.info).decode()}'"


def open_text(text):
    """my_as, hold time and BGP ID of an OPEN, as a summary gives them."""
    own = re.match(r"OPEN\(my_as=(\d+), as4=\w+, hold=(\d+), id=([\d.]+),", text)
    return int(own[1]), int(own[2]), own[3]


def open_fields(message):
    return (
        int.from_bytes(message[20:22], "big"),
        int.from_bytes(message[22:24], "big"),
        str(ipaddress.IPv4Address(message[24:28])),
    )


def up_text(message):
    up, peer = message.body, message.peer
    tlvs = ", ".join(tlv_text(tlv, message) for tlv in up.tlvs)
    return (
        f"[{message.place}] {message.peer_label()} id={message.bgp_id()} flags=0x{peer.peer_flags:02x}"
        f" local={shown_address(up.local_addr)} ports={up.local_port}/{up.remote_port}",
        f"tlvs=[{tlvs}] ts={peer.seconds}.{peer.microseconds:06d}",
    )


def down_text(message):
    reason, view = message.body
    data = b"" if view is None else message.shown(view)
    text = f"{message.peer_label()} flags=0x{message.peer.peer_flags:02x} reason={reason} "
    if reason in (1, 3):
        return f"{text}NOTIFICATION {data[19]}/{data[20]} data {data[21:].hex()}"
    if reason == 2:
        return f"{text}fsm-event {int.from_bytes(data, 'big')} (len {len(data)})"
    if reason == 6:
        return f"{text}TLVs {int.from_bytes(data[:2], 'big')}='{data[4:].decode()}'"
    return text


def last_reports(messages, stream):
    """What a board shows last of each peer. An up or a down takes a report away, so all peers are shown before it, and at the end."""
    board, headers, shown = boards.Board(), {}, {}

    def look():
        for label, header in headers.items():
            answer = boards.answer(board, b"show " + header.hex().encode())
            if answer.startswith("report "):
                shown[label] = {int(kind): int(value) for kind, value in re.findall(r"(\d+):\d+:[NO]:[CG](\d+)", answer)}

    for message in messages:
        verb = board_cases.VERB_OF_TYPE.get(message.kind)
        if verb in ("up", "down"):
            look()
        if verb:
            data = stream[message.place + 6 : message.place + message.length]
            headers[f"{message.peer_label()} {message.bgp_id()}"] = data[:42]
            boards.answer(board, f"{verb} {data.hex()}".encode())
    look()
    return {label.rsplit(" ", 1)[0]: numbers for label, numbers in shown.items()}


class Recordings(unittest.TestCase):
    """What another program saw in each recording."""

    @classmethod
    def setUpClass(cls):
        cls.recordings = []
        for path in sorted(glob.glob(os.path.join(FOLDER, "*.bmp"))):
            with open(path, "rb") as file:
                stream = file.read()
            with open(path.removesuffix(".bmp") + ".summary.txt", encoding="utf-8") as file:
                lines = [line.strip() for line in file]
            cls.recordings.append((os.path.basename(path), stream, read_all(stream), lines))
        assert cls.recordings, "no recordings in the folder"

    def each(self, check):
        for name, *recording in self.recordings:
            with self.subTest(name):
                check(*recording)

    def said(self, lines, word):
        return [line.removeprefix(word).strip() for line in lines if line.startswith(word)]

    def test_counts(self):
        def check(stream, messages, lines):
            size, number = re.search(r": (\d+) bytes, (\d+) messages,", lines[0]).groups()
            self.assertEqual((len(stream), len(messages)), (int(size), int(number)))
            types, order, longest = self.said(lines, "types:")[0].split(" | ")
            self.assertEqual(count(m.name for m in messages), {k: int(v) for k, v in (t.split() for t in types.split(", "))})
            kinds = [m.kind for m in messages]
            self.assertEqual(order, f"first {kinds[:6]} last {kinds[-1]}")
            self.assertEqual(longest, f"longest {max(m.length for m in messages)}")

        self.each(check)

    def test_listing(self):
        def check(stream, messages, lines):
            expected = int(re.search(r" (\d+) messages,", lines[0])[1])
            got = listing.listing(stream)
            if len(stream) > 65_536:
                self.assertEqual(got, ["place type length answer", "0 - - 1", "end 0"])
                return
            self.assertEqual(len(got), expected + 2)
            self.assertTrue(all(line.endswith(" 0") for line in got[1:-1]))
            self.assertEqual(got[-1], f"end {len(stream)}")

        self.each(check)

    def test_receiving(self):
        """Cut at random they come out as they are, in each of three cuts as many as the summary counts."""

        def check(stream, messages, lines):
            wholes = [stream[message.place : message.place + message.length] for message in messages]
            self.assertEqual(len(wholes), int(re.search(r" (\d+) messages,", lines[0])[1]))
            for largest in (30, 700, 4_096):
                caller = Caller(self, stream)
                received = caller.put(RandomSessions(largest).pieces(stream, largest))
                self.assertEqual(received, ([(bmp.Message, whole) for whole in wholes], None))
                self.assertEqual((caller.taken, caller.receiver.held), (len(stream), 0))

        self.each(check)

    def test_initiations(self):
        def check(stream, messages, lines):
            tlvs = [tlv_text(t, m) for m in messages if m.name == "Initiation" for t in m.body.tlvs]
            self.assertEqual(tlvs, self.said(lines, "init:"))

        self.each(check)

    def test_peers(self):
        def check(stream, messages, lines):
            peers = {}
            for message in messages:
                if message.peer:
                    peers.setdefault(message.peer_line(), []).append(message)
            got = {
                (line, str(count(m.name for m in of)), str(count(f"{m.name}:0x{m.peer.peer_flags:02x}" for m in of)))
                for line, of in peers.items()
            }
            expected = [line.split(" | ") for line in self.said(lines, "peer:")]
            self.assertEqual(got, {(line, kinds, flags.removeprefix("flags ")) for line, kinds, flags in expected})

        self.each(check)

    def test_ups(self):
        def check(stream, messages, lines):
            ups = [m for m in messages if m.name == "PeerUp"]
            expected = self.said(lines, "up:")
            self.assertEqual(len(ups), len(expected))
            for message, line in zip(ups, expected):
                start, sent, received, end = re.fullmatch(r"(.*) sent=(.*) rcvd=(.*) (tlvs=.*)", line).groups()
                self.assertEqual(up_text(message), (start, end))
                self.assertEqual(open_fields(message.shown(message.body.sent_open)), open_text(sent))
                self.assertEqual(open_fields(message.shown(message.body.received_open)), open_text(received))

        self.each(check)

    def test_downs(self):
        def check(stream, messages, lines):
            places = {}
            for message in messages:
                if message.name == "PeerDown":
                    places.setdefault(down_text(message), []).append(str(message.place))
            got = [f"{text} x{len(at)} at {','.join(at)}" for text, at in places.items()]
            self.assertEqual(sorted(got), sorted(self.said(lines, "down:")))

        self.each(check)

    def test_statistics(self):
        def check(stream, messages, lines):
            by_type, by_peer = {}, {}
            for message in messages:
                if message.name != "StatsReport":
                    continue
                for counter in message.body.counters:
                    value = counter.stat_data.value
                    by_type.setdefault((counter.stat_type, counter.stat_len), []).append(value)
                    by_peer.setdefault(message.peer_label(), {}).setdefault(counter.stat_type, []).append(value)
            got = [f"type {t} len {n} x{len(v)} first {v[0]} last {v[-1]}" for (t, n), v in sorted(by_type.items())]
            self.assertEqual(got, self.said(lines, "stat:"))
            got = [
                f"{peer}: " + ", ".join(f"{t}: {v[0]}..{v[-1]} (max {max(v)}, n {len(v)})" for t, v in sorted(types.items()))
                for peer, types in by_peer.items()
            ]
            self.assertEqual(sorted(got), sorted(self.said(lines, "stats of")))

        self.each(check)

    def test_last_reports(self):
        def check(stream, messages, lines):
            shown = last_reports(messages, stream)
            expected = {}
            for line in self.said(lines, "stats of"):
                label, numbers = line.split(": ", 1)
                expected[label] = {int(kind): int(last) for kind, last in re.findall(r"(\d+): \d+\.\.(\d+) ", numbers)}
            self.assertEqual(shown, expected)

        self.each(check)

    def test_mirrored(self):
        def check(stream, messages, lines):
            bgp = [
                "BGP " + BGP_NAMES[m.shown(tlv.value.view)[18]]
                for m in messages
                if m.name == "RouteMirroring"
                for tlv in m.body.tlvs
            ]
            expected = [ast.literal_eval(text) for text in self.said(lines, "mirror:")]
            self.assertEqual([count(bgp)] if bgp else [], expected)

        self.each(check)

    def test_bytes_that_repeat(self):
        self.assertEqual(replay.bytes_of(b"2*0001+ff+1*00"), bytes.fromhex("00010001ff00"))
        self.assertEqual(replay.bytes_of(b"1048577*00"), bytes(1_048_577))
        for text in (b"1048578*00", b"1048577*00+00", b"0*00", b"01*00", b"*00", b"2*", b"2*0", b"2*-", b"00+", b"+00", b"2*2*00", b""):
            self.assertIsNone(replay.bytes_of(text))

    def test_rewriting(self):
        """The recordings have zeros where readers skip bytes, and no tails: what is written is what was read."""
        writers = {
            bmp.ROUTE_MONITORING: bmp.write_route_monitoring,
            bmp.STATISTICS_REPORT: bmp.write_stats_report,
            bmp.PEER_DOWN_NOTIFICATION: bmp.write_peer_down_notification,
            bmp.PEER_UP_NOTIFICATION: bmp.write_peer_up_notification,
            bmp.INITIATION_MESSAGE: bmp.write_initiation_message,
            bmp.ROUTE_MIRRORING: bmp.write_route_mirroring,
        }

        def check(stream, messages, lines):
            for message in messages:
                output = bytearray(len(message.data))
                length = writers[message.kind](message.body, message.data, output)
                self.assertEqual((length, bytes(output)), (len(message.data), message.data))

        self.each(check)


if FOLDER is None:
    Recordings = unittest.skip("no folder of recordings given")(Recordings)

if __name__ == "__main__":
    unittest.main(argv=sys.argv[:1])
