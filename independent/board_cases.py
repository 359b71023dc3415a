"""The fixed list of lines for boards, on standard output: groups of calls, each on a board of its own.

The same list at every run. Its last line has no LF.
"""

import itertools
import os
import sys

from cases import FULL_ADDRESS, LARGEST, LIMIT, bgp, counting, cuts, filled, part_text, peer, peer_up, stats, tlv, whole_table
from cases import u8, u16, u32, u64

MAX_PEERS = 64
MAX_CHARACTERS = 131_072
VERBS = ("up", "down", "report", "show")


# Lines.


def call(verb, *parts):
    """A line whose bytes are parts with a plus between them: bytes, or a number and the bytes that stand so many times."""
    shorter = [piece for part in parts for piece in (packed(part) if isinstance(part, bytes) else [part])]
    return f"{verb} {'+'.join(part_text(piece) for piece in shorter) or '-'}".encode()


def packed(data):
    """The bytes in pieces: six and more neighbours that are alike are a number and one byte, so that the list is shorter."""
    pieces, plain = [], b""
    for _byte, run in itertools.groupby(data):
        run = bytes(run)
        if len(run) < 6:
            plain += run
            continue
        pieces += [plain, (len(run), run[:1])] if plain else [(len(run), run[:1])]
        plain = b""
    return pieces + [plain] if plain else pieces


def plain_call(verb, data):
    return f"{verb} {data.hex()}".encode()


SHORT_OPEN = ((16, b"\xff"), u16(19) + u8(1))
SHORT_UP = ((20, b"\x00"), *SHORT_OPEN, *SHORT_OPEN)
SHORT_DOWN = u8(4)


def up(header):
    return call("up", header, *SHORT_UP)


def down(header):
    return call("down", header + SHORT_DOWN)


def report(header, *records):
    return call("report", header + stats(records))


def routes(header, number):
    """A report by whose one counter it is known again."""
    return report(header, tlv(7, u64(number)))


def show(header):
    return call("show", header)


def look(headers):
    return [show(header) for header in headers] + [b"list"]


# Recorded streams.

# All their messages of type 3, 2 and 1 are here; Initiation, Route Monitoring and Route Mirroring are left out, since a board is not told of
# them. Without them frr-10.3-mirroring is frr-10.3-statistics once more, but for the time of one Peer Up, so it is left out whole.
#
# frr-10.3-three-vrfs is the accident: a default table and two VRFs have a peer of one address, 10.9.0.2, one AS and one BGP ID. Their
# counters of type 7 (routes in the Adj-RIB-In; those of type 8 say the same) are shown before the Peer Down of the second VRF's peer: 60 beside
# the distinguisher 0000000000000000, 70 beside 0000fde800000001 and 80 beside 0002fa56ea000002. The stream goes on, and at its end the third
# is not on the board. The first VRF's distinguisher is 0000fde80000000b by then, with 70; no Peer Down came for the old one, so that stays too.
STREAMS = ["frr-10.3-three-vrfs", "frr-10.3-one-vrf", "frr-10.3-statistics", "frr-8.4-statistics", "gobgp-3.10-ups-and-downs"]
VERB_OF_TYPE = {1: "report", 2: "down", 3: "up"}
SAMPLES = os.path.join(os.path.dirname(os.path.dirname(os.path.abspath(__file__))), "samples")


def sample(name):
    with open(os.path.join(SAMPLES, name + ".bmp"), "rb") as file:
        return file.read()


def calls_of(stream):
    """The verb and the bytes of each message that a board is told of."""
    place = 0
    while place < len(stream):
        length, kind = int.from_bytes(stream[place + 1 : place + 5], "big"), stream[place + 5]
        if kind in VERB_OF_TYPE:
            yield VERB_OF_TYPE[kind], stream[place + 6 : place + length]
        place += length


def without_time(data):
    return data[:34] + bytes(8)


def stream_group(stream):
    """An up or a down takes a report away, so before it all peers that were named are looked up, and at the end too."""
    named = {}
    for verb, data in calls_of(stream):
        header = without_time(data)
        if verb != "report" and header in named:
            yield from look(named)
        named[header] = None
        yield plain_call(verb, data)
    yield from look(named)


# Boards of several sizes, and places.


def someone(number):
    """A peer of which no part of the key is its own: each has its distinguisher and its BGP ID with seven others."""
    return peer(1, distinguisher=number // 8, asn=0, bgp_id=number % 8, seconds=0, microseconds=0)


def scrambled(count):
    return sorted(range(count), key=lambda number: (number * 29 % 67, number))


def size_group(count):
    """So many peers come up; some of them, the last ones too, and one that did not are put to every call."""
    peers, absent = [someone(number) for number in range(count)], someone(99)
    some = [peers[number] for number in sorted({0, 1, count // 2, count - 2, count - 1} & set(range(count)))] + [absent]
    yield b"list"
    yield from [up(header) for header in peers]
    yield from look(some)
    yield from [routes(header, number) for number, header in enumerate(some)]
    yield from look(some)
    for header in some[:-1]:
        yield from [up(header), show(header), routes(header, 7), down(header), show(header), down(header), b"list"]
    yield from [down(absent), up(absent), b"list"]


def places_group():
    """A full board: who is removed leaves a place, and the lowest such place is taken first."""
    peers = [someone(number) for number in range(MAX_PEERS)]
    new = [someone(number) for number in range(64, 80)]
    yield from [up(header) for header in peers] + [routes(peers[number], number) for number in scrambled(MAX_PEERS)]
    yield from look(peers)
    yield from [up(new[0]), show(new[0]), routes(new[0], 1), down(new[0]), up(peers[0]), up(peers[20]), up(peers[63]), b"list"]
    yield from [down(peers[20]), up(new[1]), b"list", up(new[2]), up(peers[20]), *look([new[1], new[2], peers[20]])]
    yield from [down(peers[41]), down(peers[7]), b"list", up(new[3]), b"list", up(new[4]), b"list", up(new[5]), up(new[4])]
    yield from look([new[3], new[4], peers[7], peers[41]])
    yield from [down(peers[63]), down(peers[0]), b"list", up(peers[63]), b"list", up(peers[0]), b"list", up(new[5])]
    yield from [routes(new[1], 1001), routes(new[4], 1004), *look([new[1], new[3], new[4], peers[0], peers[1], peers[63]])]
    yield from [down(new[1]), up(new[5]), show(new[5]), down(new[5]), up(new[1]), show(new[1]), up(new[5]), b"list"]


def emptied_group():
    """A full board that loses its peers one by one, and is filled again from its lowest place."""
    peers = [someone(number) for number in range(MAX_PEERS)]
    yield from [up(header) for header in peers]
    for number in scrambled(MAX_PEERS):
        yield from [down(peers[number]), show(peers[number])] + ([b"list"] if number % 8 == 0 else [])
    yield b"list"
    yield from [up(header) for header in peers[:1:-20]] + [b"list"]


def few_places_group():
    one, two, three, four = (someone(number) for number in range(4))
    yield from [up(one), up(two), up(three), b"list", up(two), b"list", down(one), up(two), b"list", up(four), up(one), b"list"]
    yield from [down(two), down(three), down(one), down(four), b"list", up(three), b"list", up(one), b"list"]


# The key.


def changed(data, place):
    return data[:place] + u8(data[place] ^ 1) + data[place + 1 :]


def other_peers():
    """Two headers each, whose keys differ in one part alone, and in one byte of it: the first, the last, or one between."""
    zero = bytes(16)
    yield from [(peer(one, address=zero), peer(other, address=zero)) for one in range(4) for other in range(one)]
    yield peer(flags=0x80), peer(flags=0)
    yield from [(peer(), changed(peer(), place)) for place in (2, 5, 9, 22, 25, 30, 33)]
    six = peer(flags=0x80, address=FULL_ADDRESS)
    yield from [(six, changed(six, place)) for place in (10, 11, 21, 22, 25)]
    yield from [(peer(3, bgp_id=1), peer(3, bgp_id=2)), (peer(3, distinguisher=1), peer(3, distinguisher=2))]


def other_group(one, other):
    """What is told of the one is not told of the other, whether that is on the board or not."""
    yield from [up(one), routes(one, 1), show(other), routes(other, 2), down(other), show(one)]
    yield from [up(other), show(other), show(one), routes(other, 2), *look([one, other])]
    yield from [down(one), show(other), down(one), show(one), up(one), b"list", down(other), *look([one, other])]


def pairs_group():
    """A peer and five others, each with another part of the key than it: told of the one, and shown of the other, in all pairs."""
    base = {"kind": 1, "distinguisher": 7, "address": bytes(12) + bytes([10, 9, 0, 2]), "bgp_id": 0x0A090909}
    changes = [{"kind": 2}, {"flags": 0x80}, {"distinguisher": 8}, {"address": bytes(12) + bytes([10, 9, 0, 3])}, {"bgp_id": 0x0A09090A}]
    peers = [peer(**base)] + [peer(**{**base, **change}) for change in changes]
    yield from [up(header) for header in peers]
    for number, one in enumerate(peers):
        for other in peers:
            if other != one:
                yield from [routes(one, number), show(other)]
        yield up(one)
    yield b"list"


def crowd_group():
    """One peer of each type and of each family, and each byte of the key changed once, all on one board."""
    four, six = peer(), peer(flags=0x80, address=FULL_ADDRESS)
    peers = [peer(kind) for kind in range(4)] + [peer(flags=0x80), six]
    peers += [changed(four, place) for place in (*range(2, 10), *range(22, 26), *range(30, 34))]
    peers += [changed(six, place) for place in range(10, 26)]
    yield from [up(header) for header in peers] + [routes(header, number) for number, header in enumerate(peers)]
    yield from look(peers)


def one_key():
    """Lists of headers that differ in what is no part of the key: the AS, the flags but for the family, the time, and what is skipped."""
    four, six, loc_rib = {}, {"flags": 0x80, "address": FULL_ADDRESS}, {"kind": 3, "address": bytes(16)}
    for base in (four, six, loc_rib):
        changes = [{"asn": asn} for asn in (0, 65_001, 65_000 + 2**16, LARGEST)]
        changes += [{"flags": base.get("flags", 0) | flag} for flag in (0x40, 0x20, 0x10, 8, 4, 2, 1, 0x7F)]
        changes += [{"seconds": 0, "microseconds": 0}, {"seconds": 1_794_707_493}, {"microseconds": LARGEST}]
        yield [peer(**base)] + [peer(**{**base, **change}) for change in changes]
    yield [peer()] + [changed(peer(), place) for place in range(10, 22)] + [peer(address=b"\xff" * 12 + bytes([10, 0, 0, 1]))]
    yield [peer(3, address=bytes(16)), peer(3), peer(3, 0x80), peer(3, 0x80, address=bytes(16)), peer(3, 0xFF, address=FULL_ADDRESS)]
    yield [peer(2, 0x60, 5, b"\xaa" * 12 + bytes([10, 0, 0, 1]), 1, 9, 0, 0), peer(2, 0x1F, 5, None, LARGEST, 9, 7, LARGEST)]


def one_key_group(headers):
    """What is told of the first is told of every other, and the other way round."""
    first = headers[0]
    yield up(first)
    for number, other in enumerate(headers[1:]):
        yield from [routes(other, number), show(first), routes(first, 100 + number), show(other), up(other), show(first), b"list"]
    for other in headers[1:]:
        yield from [down(other), show(first), up(first)]
    yield b"list"


# Reports.


def ups_and_reports_group():
    """The last report stands until the peer comes up again."""
    one, two = someone(1), someone(2)
    yield from [up(one), show(one), routes(one, 1), show(one), routes(one, 2), show(one), up(one), show(one), up(one), show(one)]
    yield from [report(one), show(one), routes(one, 3), show(one), report(one), show(one), up(one), show(one)]
    yield from [up(two), routes(two, 4), up(one), show(two), routes(one, 5), up(two), *look([one, two])]
    yield from [down(one), show(one), up(one), show(one), down(one), down(one), routes(one, 6), show(one), *look([two])]


GAUGE = u16(1) + u8(128) + u64(2**63)
MIXED = [tlv(0, u32(LARGEST)), tlv(7, u64(2**64 - 1)), tlv(9, GAUGE), tlv(65_531, u32(1)), tlv(24, b""), tlv(44, b"abc")]


def values_group():
    """Each form of a value, by its length alone; types with a name and others, one that comes twice, and a tail."""
    one = someone(1)
    lengths = (*range(14), 16, 255, 256, 300)
    bodies = [stats([tlv(7, counting(length))]) for length in lengths] + [stats([tlv(44, bytes(length))]) for length in (0, 4, 8, 11, 12)]
    bodies += [stats([tlv(kind, u32(kind))]) for kind in (0, 23, 24, 25, 26, 43, 44, 256, 65_531, 65_535)]
    bodies += [stats(records) for records in (MIXED, MIXED[::-1], [tlv(7, u64(1)), tlv(7, u64(2))], [tlv(7, u32(3)), tlv(7, u64(3)), tlv(7, b"3")])]
    bodies += [stats(MIXED) + b"\x03", stats([]) + bytes(9), stats(MIXED, 2), stats([tlv(0, u32(2**31))]), stats([tlv(9, bytes(11))])]
    yield up(one)
    for body in bodies:
        yield from [call("report", one + body), show(one)]


def full_reports_group():
    """63 and 64 counters, none of which is left in a shorter report that comes after; and the longest messages."""
    one, two = someone(1), someone(2)
    numbered = [tlv(number, u64(number)) for number in range(64)]
    yield from [up(one), up(two), report(one, *numbered[:63]), show(one), report(one, *numbered), show(one), show(two)]
    yield from [routes(one, 1), show(one), call("report", one + u32(64), (64, tlv(24, b""))), show(one), report(one), show(one)]
    yield from [call("report", two + u32(64), (64, tlv(9, GAUGE)), b"\x03"), show(two), down(two), up(two), show(two), routes(two, 2), show(two)]
    yield from [call("report", *whole_table(one + u32(16))), show(one), call("report", two + u32(16), (16, u16(7) + u16(9) + bytes(9))), show(two)]


# Refusals.


def known_peer():
    """A peer on the board, with a report by which it is seen that no refusal changed anything."""
    return peer(flags=0x80, address=FULL_ADDRESS)


def refused_group(calls):
    one = known_peer()
    yield from [up(one), report(one, *MIXED), *calls, *look([one])]


def header_calls():
    """Headers cut at every length, and types that are none, alone and with all that follows."""
    whole = known_peer()
    bodies = {"up": peer_up(), "down": SHORT_DOWN, "report": stats(MIXED), "show": b""}
    for verb in VERBS:
        yield from [call(verb, whole[:length]) for length in range(42)]
        for kind in (4, 5, 128, 255):
            yield from [call(verb, u8(kind)), call(verb, u8(kind) + whole[1:20]), call(verb, u8(kind) + whole[1:] + bodies[verb])]
        yield call(verb, u8(4) + whole[1:] + b"\xff")


def body_calls(header):
    """For each body one fault of every kind, at every place; those that are good leave no peer with another report than before."""
    yield from [call("down", header), *(call("down", header + u8(reason)) for reason in (7, 8, 128, 255)), call("down", header + u8(7) + bytes(9))]
    yield from [call("report", header + body) for body in cuts(stats(MIXED))[:-3]]
    yield from [call("report", header + stats(MIXED, count)) for count in (7, 64, 65, LARGEST)]
    yield from [call("report", header + u32(count), (there, tlv(24, b""))) for count, there in ((65, 65), (65, 66), (66, 65), (65, 64), (64, 63))]
    yield from [call("report", header + u32(65), (64, tlv(24, b"")), tlv(0, u32(1))[:length]) for length in range(1, 8)]
    yield from [call("report", header + u32(65), (65, tlv(7, u64(65)))), call("report", header + u32(LARGEST), (70, tlv(9, GAUGE)))]
    yield from [call("up", header + body) for body in cuts(peer_up(tlv(0, b"hi")))[:-3] if body != peer_up()]
    for own in (0, 1, 18, 22, 256, 65_535):
        yield from [call("up", header + peer_up(sent=bgp(21, own), received=b"")), call("up", header + peer_up(received=bgp(21, own)))]
    yield from [call("up", header + peer_up(), (33, tlv(9, b""))), call("up", header + peer_up(), (32, tlv(0, b"A")), tlv(3, b"AB", 3))]


def good_bodies(header):
    """What no reader minds: a tail, no data, data of any kind; a Loc-RIB of which there are only warnings."""
    bodies = [SHORT_DOWN, SHORT_DOWN + b"\xaa", u8(0), u8(0) + b"\xaa", u8(1), u8(1) + bgp(21, kind=3), u8(2) + u16(0), u8(3), u8(5), u8(6)]
    for body in bodies:
        yield from [up(header), call("down", header + body), show(header)]
    yield from [call("up", header + peer_up(*rest)) for rest in ([], [b"\x00"], [bytes(3)], [tlv(0, b"")], [tlv(3, b""), tlv(3, b"red")])]
    yield from [call("up", header + peer_up(), (32, tlv(9, b""))), call("up", header + peer_up(address=FULL_ADDRESS)), b"list"]


def good_bodies_group():
    for header in (peer(), peer(flags=0x80), peer(3, distinguisher=1, bgp_id=0)):
        yield from good_bodies(header)


def absent_calls():
    """14 comes after the header and the body: a peer that is not there is not missed while there is a fault in them."""
    absent = someone(3)
    yield from [down(absent), routes(absent, 1), report(absent), show(absent), call("down", absent + u8(6) + b"\xaa")]
    yield from body_calls(absent)
    yield from [call("report", absent + stats(MIXED) + b"\x03"), call("show", absent + b"\xff")]


def full_board_group():
    """13 comes after the header and the body too."""
    yield from [up(someone(number)) for number in range(MAX_PEERS)]
    new = someone(64)
    yield from [up(new), call("up", new), call("up", new + peer_up()[:30]), call("up", new + peer_up(sent=bgp(21, 18))), call("up", new[:41])]
    yield from [call("up", new + peer_up(), (33, tlv(9, b""))), call("up", new + peer_up() + bytes(3)), call("up", u8(4) + new[1:])]
    yield from [down(new), routes(new, 1), show(new), up(someone(5)), b"list"]


def show_calls():
    """A lookup takes the header, and what follows it has no say."""
    one, absent = known_peer(), someone(3)
    for header in (one, absent):
        yield from [call("show", header + rest) for rest in (b"\x00", b"\xff", u8(7), u32(65), stats([tlv(7, u64(1))]), peer_up(), absent, one)]
        yield from [call("show", header, (LIMIT - 42, b"\x00")), call("show", header, (LIMIT - 41, b"\x00"))]


def long_calls():
    """As many bytes as a slice may have, and one more: then the header is refused already."""
    one, absent = known_peer(), someone(3)
    opens = peer_up(sent=bgp(19, kind=1), received=bgp(19, kind=1))
    for header in (one, absent):
        table, name = whole_table(header + u32(16)), whole_table(header + opens)
        yield from [call("report", *table), call("report", *table, b"\x00"), *look([header])]
        yield from [call("up", *name), call("up", *name, b"\x00"), *look([header])]
        yield from [call("down", header + u8(1), *filled(LIMIT - 42)), show(header), call("down", header + u8(1), *filled(LIMIT - 43)), show(header)]
    yield from [call(verb, (LIMIT, b"\x00")) for verb in VERBS]
    yield from [call(verb, (LIMIT + 1, data)) for verb in VERBS for data in (b"\x00", b"\x04")]
    yield from [up(one), report(one, *MIXED)]


# Lines that are none.

# `one` is on the board and `two` is not, so that each of these lines would be seen if it were taken for the line that it is like.
BAD_LINES = r"""
Clear
CLEAR
clear\x20
\x20clear
clear -
clear 00
clear\x20\x20
clear clear
clear list
clear\x0d
clear\x09
clear\x00
clear\x0b
clear\x0c
clear,
clea
cleara
clear {one}
\xef\xbb\xbfclear
c
List
LIST
list\x20
\x20list
list -
list 00
list list
list\x0d
list\x09
lis
lists
list {one}
up
up\x20
up\x20\x20
Up {two}{up}
UP {two}{up}
up{two}{up}
up  {two}{up}
\x20up {two}{up}
up {two}{up}\x20
up {two}{up}\x0d
up {two}{up}\x09
up\x09{two}{up}
up {two} {up}
up - {two}{up}
up {two}{up} -
up -{two}{up}
up {two}{up}-
up --
up - -
up {two}{up}0
up 0{two}{up}
up {two}{up}0g
up {two}{up}0A
up 0x{two}{up}
up {two}{up}+
up +{two}{up}
up {two}++{up}
up -+{two}{up}
up 1*{two}+{up}+-
up 1*{two}+0*00+{up}
up 1*{two}+01*{up}
up 01*{two}{up}
up *{two}{up}
up 1*1*{two}{up}
up 1**{two}{up}
up a*{two}{up}
up {two}*{up}
up {two}+{up}+1048577*00
up {two}+{up}+1048578*00
up {two}+{up}+18446744073709551617*00
up {two}\x00{up}
up {two}{up}\xff
up \xef\xbc\x90\xef\xbc\x90
ups {two}{up}
u {two}{up}
peerup {two}{up}
peerup afi=4,asn=32,type=0 {up}
up afi=4,asn=32,type=0 {two}{up}
down
down\x20
Down {one}{down}
DOWN {one}{down}
down{one}{down}
down  {one}{down}
\x20down {one}{down}
down {one}{down}\x20
down {one}{down}\x0d
down {one} {down}
down - {one}{down}
down {one}{down} -
down {one}{down}0
down {ONE}{down}
dow {one}{down}
downs {one}{down}
peerdown - {one}{down}
down 2{one}{down}
down 1048578*00
report
report\x20
Report {one}{report}
REPORT {one}{report}
report{one}{report}
report  {one}{report}
\x20report {one}{report}
report {one}{report}\x20
report {one}{report}\x0d
report {one} {report}
report - {one}{report}
report {one}{report} -
report {one}{report}0
report {ONE}{report}
report {one}+1048536*00
report {one}+{report}+524289*0000
reports {one}{report}
repor {one}{report}
stats {one}{report}
stats - {report}
show
show\x20
Show {one}
SHOW {one}
show{one}
show  {one}
\x20show {one}
show {one}\x20
show {one}\x0d
show - {one}
show {one} -
show {one} {one}
show {one}0
show {ONE}
show {one}+
show {one}+1048536*00
shows {one}
sho {one}
show list
show clear
list show
perpeer - {one}
{one}
-
- -
\x20
\x20\x20
\x0d
\x00
\xff
#
ok
0
"""


def bad_lines():
    known, new = someone(1).hex(), someone(2).hex()
    names = {"one": known, "ONE": known.upper(), "two": new, "up": peer_up().hex(), "down": SHORT_DOWN.hex(), "report": stats([]).hex()}
    for text in BAD_LINES.strip("\n").split("\n"):
        yield text.format(**names).encode("ascii").decode("unicode_escape").encode("latin-1")


def bad_lines_group():
    """After each of them the board is as it was. Empty lines, which answer nothing, follow."""
    one = someone(1)
    yield from [up(one), routes(one, 1)]
    for line in bad_lines():
        yield from [line, *look([one])]
    yield from [b"", *look([one]), b"", b"", down(one), b"", b"list", b""]


def longest_lines_group():
    """The longest line that is one, of 131,072 characters behind the verb, and with digits that repeat one that has one more."""
    one = someone(1)
    value = MAX_CHARACTERS // 2 - len(one) - 8
    repeated = one.hex().ljust(MAX_CHARACTERS - 2, "0")
    yield from [up(one), plain_call("report", one + stats([tlv(7, bytes(value))])), show(one), f"show 10*{repeated}".encode(), *look([one])]


# The list.


def groups():
    yield from [stream_group(sample(name)) for name in STREAMS]
    yield from [size_group(count) for count in (0, 1, 63, 64, 65)] + [places_group(), emptied_group(), few_places_group()]
    yield from [other_group(one, other) for one, other in other_peers()] + [pairs_group(), crowd_group()]
    yield from [one_key_group(headers) for headers in one_key()]
    yield from [ups_and_reports_group(), values_group(), full_reports_group(), good_bodies_group(), full_board_group()]
    yield from [refused_group(calls) for calls in (header_calls(), body_calls(known_peer()), absent_calls(), show_calls(), long_calls())]
    yield from [bad_lines_group(), longest_lines_group()]


def lines():
    """No group knows of the one before it; the board that the program begins with is empty without a word."""
    one = someone(1)
    yield from [b"list", show(one), down(one), routes(one, 1), up(one), show(one)]
    for group in groups():
        yield b"clear"
        yield from group
    yield from [b"clear", b"list", up(one), b"clear", show(one), b"clear", b"list", up(one), b"list"]


if __name__ == "__main__":
    sys.stdout.buffer.write(b"\n".join(lines()))
