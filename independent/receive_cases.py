"""The fixed list of lines for receive, on standard output: groups of calls, each with nothing held before it.

The same list at every run. Its last line has no LF.
"""

import itertools
import sys

from board_cases import call, sample
from cases import LARGEST, LIMIT, Damage, common, counting, filled, tlv, u8
from damaged import of_type

BUFFER_BYTES = 65_536
ARRAY_BYTES = 65_537
MAX_PIECE = 4_096
MAX_CHARACTERS = 131_072

EMPTY = b"piece -"
RESET = b"reset"
RIGHT_SIZE = b"size 65536"
TOO_LONG = b"piece 4097*03"


# Lines.


def piece(*parts):
    return call("piece", *parts)


def pieces(*parts):
    """A line for each."""
    return [piece(part) for part in parts]


def forge(*parts):
    return call("forge", *parts)


def ends_of(stream):
    """Where each message ends whose header the stream has."""
    ends, place = [], 0
    while place + 6 <= len(stream):
        place += int.from_bytes(stream[place + 1 : place + 5], "big")
        ends.append(place)
    return ends


def put(stream, sizes):
    """The stream in pieces of these sizes. What stands in a piece behind a message's end was not taken, so it is put again."""
    ends, start = ends_of(stream), 0
    for size in sizes:
        stop = min(start + size, len(stream))
        yield piece(stream[start:stop])
        yield from [piece(stream[end:stop]) for end in ends if start < end < stop]
        start = stop


def random_sizes(total, largest, seed):
    """Sizes from 0 up to the largest, which together are at least as many."""
    random, left = Damage(seed), total
    while left > 0:
        size = random.below(largest + 1)
        left -= size
        yield size


GOOD = of_type(4, tlv(2, b"A"))
SKIPPED = of_type(200, b"\xff\xfe\xfd")
SHORT = common()
SHORT_SKIPPED = common(kind=7)


# Recorded streams.

# A piece is put again for each message that ends in it, so of the long recordings only the beginning is here, and pieces of 4,096 bytes
# only where the messages are long: frr-10.3-mirroring has five of 1,921 bytes in a row, and one of 12,103.
LONG_STREAMS = ["frr-10.3-mirroring", "frr-10.3-one-vrf", "frr-10.3-statistics", "frr-10.3-three-vrfs", "frr-8.4-statistics"]
FIVE_MESSAGES = slice(910, 10_616)
LONG_MESSAGE = slice(15_376, 28_000)


def recorded_groups():
    short = sample("gobgp-3.10-ups-and-downs")
    yield put(short, itertools.repeat(1, len(short)))
    yield from [put(short, random_sizes(len(short), largest, largest)) for largest in (9, 60, 200, 500)]
    for seed, name in enumerate(LONG_STREAMS):
        yield put(sample(name)[:2_000], random_sizes(2_000, 250, seed))
    five, long = (sample("frr-10.3-mirroring")[part] for part in (FIVE_MESSAGES, LONG_MESSAGE))
    yield from [put(stream, itertools.repeat(MAX_PIECE, 4)) for stream in (five, long)]
    yield put(long, random_sizes(len(long), MAX_PIECE, 11))


def edge_groups():
    """Four recorded Peer Downs, each of them cut at a place of its header, one byte before its end, and one behind."""
    stream = sample("gobgp-3.10-ups-and-downs")[1_099:1_358]
    for place in range(-1, 8):
        cuts = [0, *(start + place for start in [0, *ends_of(stream)] if 0 < start + place < len(stream)), len(stream)]
        yield put(stream, [stop - start for start, stop in zip(cuts, cuts[1:])])


# Pieces of no bytes, of as many as a call takes, and of more.


def empty_group():
    """At every place of two messages, with a body and without; at the boundaries, and under a refusal that stands."""
    for byte in GOOD + SHORT_SKIPPED + b"\x02":
        yield from [EMPTY, piece(u8(byte)), EMPTY, EMPTY]
    yield from [piece(b"\x03"), EMPTY, RESET, EMPTY, piece(b"\x03"), EMPTY]


def longest_pieces_group():
    """A message that fills a piece, one that is a byte longer, and a piece whose first message leaves nearly all of it."""
    whole, longer = (common(length=length, kind=kind) for length, kind in ((MAX_PIECE, 0), (MAX_PIECE + 1, 255)))
    yield from [piece(whole, *filled(MAX_PIECE - 6)), piece(longer, *filled(MAX_PIECE - 6)), piece(b"\xaa" + GOOD), piece(GOOD)]
    yield from [piece((682, SHORT), GOOD[:4]), piece((681, SHORT), GOOD[:4]), piece((4_090, b"\x03"), SHORT), piece((4_096, b"\x02"))]


def too_long_pieces():
    """More than a call takes, whatever the bytes would have come to."""
    yield TOO_LONG
    yield from [piece((count, byte)) for count in (MAX_PIECE + 1, BUFFER_BYTES, LIMIT, LIMIT + 1) for byte in (b"\x03", b"\x00")]
    yield from [piece((1_366, b"\x03\x00\x00")), piece(GOOD, (4_086, b"\x03")), piece((682, SHORT), GOOD[:5])]
    yield from [piece(b"\x02", (4_096, b"\x03")), piece(common(length=5), (4_091, b"\x00"))]


def too_long_group():
    """At the boundary, in a header and in a body nothing is taken of them, and the message goes on as if they had not been."""
    for held in (0, 1, 5, 6, 7, 10):
        yield piece(GOOD[:held])
        for line in too_long_pieces():
            yield from [line, EMPTY]
        yield from pieces(GOOD[held:] + SHORT, SHORT)


# The refusals that a byte brings.

LENGTHS = (*range(8), 65_535, 65_536, 65_537, 65_538, LIMIT, LIMIT + 1, 0x01000006, LARGEST)
KINDS = (*range(8), 9, 255)


def version_groups():
    """With the first byte, whatever stands behind it: first in a session, and behind a message; then it stands."""
    for version in (0, 1, 2, 4, 5, 6, 51, 127, 128, 131, 254, 255):
        wrong = u8(version) + GOOD[1:]
        yield pieces(wrong, wrong[1:], b"", GOOD, b"\x03")
        yield [*pieces(GOOD + wrong, wrong, wrong[1:], wrong[1:], SHORT), RESET, *pieces(SHORT)]
        yield pieces(u8(version), GOOD[1:], GOOD)
        yield pieces(u8(version) + common(length=5, kind=9)[1:], common(length=LIMIT + 1)[1:])


def header_ways(header, behind):
    """Bytes behind a header are put with it, and again: where it is refused they are not taken."""
    yield pieces(header[:5], header[5:], b"", behind)
    yield pieces(header, behind, b"")
    yield [piece(u8(byte)) for byte in header + behind]
    yield pieces(header + behind, behind)
    yield pieces(header[:3], header[3:] + behind, behind, GOOD)


def header_groups():
    for length in LENGTHS:
        for kind in KINDS:
            yield from header_ways(common(length=length, kind=kind), b"\xaa\x03")


def damaged_header_group():
    """Both faults in one header: it is the version that is refused. And a length that is judged no earlier than with the sixth byte."""
    for length in (0, 5, 65_537, LIMIT + 1, LARGEST):
        header = common(version=4, length=length, kind=9)
        yield from [piece(header), piece(header[1:]), RESET, *pieces(header[:1], header[1:]), RESET]
        header = common(length=length, kind=9)
        yield from [*pieces(header[:5], b"", header[5:] + GOOD, GOOD, b""), RESET, EMPTY]


def behind_messages_groups():
    """A refusal behind messages of a piece: the messages come first, each with a call of its own."""
    for length in (5, 65_537, LIMIT + 1):
        stream = GOOD + SKIPPED + SHORT + common(length=length) + GOOD
        rests = [stream[place:] for place in (0, 11, 20, 26, 32)]
        yield pieces(*rests, b"")
        yield [piece(u8(byte)) for byte in stream[:34]]


def standing_groups():
    """What stands is given again, but behind a wrong size and a piece that is too long; and the reset alone ends it."""
    headers = [common(length=length, kind=kind) for length, kind in ((5, 4), (65_537, 4), (LIMIT, 255), (LIMIT + 1, 9), (LARGEST, 0))]
    for brings in (b"\x02", *headers):
        again = [*pieces(b"", GOOD, b"\x03", brings), piece((MAX_PIECE, b"\x03")), TOO_LONG, EMPTY]
        sizes = [line for size in (0, 65_535, 65_537) for line in (b"size %d" % size, EMPTY, piece(GOOD), TOO_LONG)]
        yield [piece(brings), *again, *sizes, RIGHT_SIZE, EMPTY, piece(GOOD), RESET, EMPTY, *pieces(GOOD[:7], GOOD[7:], brings)]
        yield [*pieces(GOOD + brings, brings), b"size 9", RESET, EMPTY, RIGHT_SIZE, EMPTY, *pieces(SKIPPED + brings, brings), EMPTY]


# Messages of unknown types, and long ones.


def skipped_groups():
    """With a body and without, between good ones. What stands in the body would be refused, or be a message."""
    for kind in (7, 200, 255):
        bare, any_bytes, refused, good = (of_type(kind, body) for body in (b"", b"\xff\xff\xff", common(version=2), GOOD))
        stream = GOOD + bare + SHORT + any_bytes + refused + GOOD + good + SHORT
        yield put(stream, [len(stream)])
        yield put(stream, itertools.repeat(1, len(stream)))
        yield from [put(stream, random_sizes(len(stream), largest, kind + largest)) for largest in (4, 12, 30)]
    yield [piece(common(kind=kind)) for kind in (*range(16), 127, 128, 254, 255)]


def long_body(sizes):
    """The body of a long message, in parts of these sizes that all differ in their first byte."""
    return [[u8(0xA0 + number), *filled(size - 1)] for number, size in enumerate(sizes)]


def longest_message_group():
    """The longest that is handed out, in pieces of which most are full; the last has another message behind its end."""
    parts = long_body([4_090, *14 * [4_096], 4_094])
    header = common(length=BUFFER_BYTES, kind=0)
    yield from [*pieces(header[:4], header[4:]), *(piece(*part) for part in parts), EMPTY, *pieces(b"\xee\xdd" + GOOD, GOOD[:1], GOOD[1:])]


def longest_skipped_group():
    """One byte shorter, of an unknown type, with pieces that are refused between."""
    header = common(length=BUFFER_BYTES - 1, kind=200)
    for part in [[header], *long_body([*14 * [4_096], 4_000, 4_000]), [184 * b"\x11"]]:
        yield from [piece(*part), TOO_LONG]
    yield from pieces(b"\x22" + SHORT, SHORT)


def largest_hex_group():
    """The longest line that is one, of 131,072 characters behind the verb: all but a byte of the longest message. One more, and it is none, though all but the last would be good."""
    held = (common(length=BUFFER_BYTES, kind=6) + counting(BUFFER_BYTES))[: BUFFER_BYTES - 1]
    yield from [b"forge 1*" + held.hex().encode(), EMPTY, piece(b"\x03\x03"), EMPTY, piece(b"\x03")]
    yield b"piece " + (MAX_CHARACTERS + 1) * b"0"
    yield from [EMPTY, piece(SHORT[1:])]


# Forged states.


def good_forged_group():
    """The start of a message, at each of its parts; the message goes on from there, and another follows."""
    for length in (0, 1, 3, 5, 6, 7, 10):
        start, rest = GOOD[:length], GOOD[length:]
        yield from [forge(start), EMPTY, piece(rest[:1]), piece(rest[1:] + SHORT), piece(SHORT)]
        yield from [forge(start), piece(rest + SKIPPED), piece(SKIPPED), forge(start), RESET, EMPTY, piece(GOOD)]


def forged_header_group():
    """A header that is not whole is not refused for what it may become; the byte that ends it brings the refusal."""
    for length in (0, 5, 65_537, LIMIT, LIMIT + 1, LARGEST):
        header = common(length=length, kind=7)
        yield from [forge(header[:5]), EMPTY, piece(header[5:] + GOOD), EMPTY, RESET]
        yield from [forge(header[:2]), *pieces(header[2:5], header[5:]), RESET]


def long_forged_group():
    """As many bytes as the buffer can have of an unfinished message, and fewer."""
    header = common(length=BUFFER_BYTES, kind=3)
    for body in (0, 1, 4_090, 65_528, 65_529):
        yield from [forge(header, (body, b"\x07")) if body else forge(header), EMPTY]
    yield from [TOO_LONG, b"size 65537", EMPTY, RIGHT_SIZE, EMPTY, RESET, EMPTY]
    yield from [forge(common(length=4_200, kind=8), (100, b"\x07")), piece((4_093, b"\x08")), piece(b"\x09" + SHORT), piece(SHORT)]


def bad_forgeries():
    """Bytes that no calls leave held: whole messages and more, what a byte would have been refused for, and more than the buffer has."""
    yield from [forge(data) for data in (GOOD, GOOD + b"\x03", GOOD + GOOD, SKIPPED, SKIPPED + b"\x03", SHORT, SHORT_SKIPPED, SHORT + b"\x02")]
    yield from [forge(data) for data in (b"\x02", b"\x00", b"\xff\x00", u8(4) + GOOD[1:8], common(version=2), common(version=2, length=5))]
    for length in (0, 5, 65_537, LIMIT, LIMIT + 1, LARGEST):
        header = common(length=length)
        yield from [forge(header), forge(header + b"\x00"), forge(header, (60_000, b"\x03")), forge(common(length=length, kind=9))]
    for length in (65_535, 65_536, 65_537, 65_538, LIMIT):
        bodies = [there - 6 for there in (65_535, 65_536, 65_537) if not there < length <= BUFFER_BYTES]
        yield from [forge(common(length=length), (body, b"\x07")) for body in bodies]
    yield from [forge((there, byte)) for there in (65_536, 65_537) for byte in (b"\x00", b"\x03")]


def bad_forged_groups():
    """Refused behind a wrong size and a piece that is too long, and it does not stand: with the right bytes the message goes on."""
    for line in bad_forgeries():
        asked = [EMPTY, piece(b"\x03"), TOO_LONG, b"size 7", EMPTY, TOO_LONG, RIGHT_SIZE, piece(GOOD)]
        yield [piece(GOOD[:3]), line, *asked, forge(GOOD[:4]), EMPTY, *pieces(GOOD[4:], SHORT)]
        yield [line, piece(b"\x00"), RESET, EMPTY, piece(GOOD[:9]), line, EMPTY, forge(GOOD[:9]), piece(GOOD[9:])]


def standing_forged_groups():
    """A refusal that stands goes on standing, whatever the bytes held are then said to be; after the reset none is held."""
    forged = [forge(data) for data in (b"", b"\x03", GOOD[:8], GOOD, common(version=4), common(length=LARGEST))] + [forge((ARRAY_BYTES, b"\x03"))]
    asked = [[line, EMPTY, piece(GOOD[8:]), TOO_LONG, b"size 65537", EMPTY, RIGHT_SIZE] for line in forged]
    for brings in (b"\x02", common(length=5), common(length=65_537), common(length=LIMIT + 1)):
        yield [piece(brings), *itertools.chain(*asked), RESET, EMPTY, *pieces(GOOD[:8], GOOD[8:])]
        yield [piece(brings), forge(GOOD[:8]), EMPTY, RESET, forge(GOOD[:8]), piece(GOOD[8:])]
        yield [forge(brings[:-1]), piece(brings[-1:]), forge(b""), piece(SHORT), RESET, piece(SHORT)]


def changed_forged_groups():
    """Bytes that are changed between two calls: it is the changed ones that are judged and handed out."""
    held = GOOD[:9]
    bytes_at = [(0, 4), (1, 1), (2, 1), (2, 16), *((4, length) for length in (5, 8, 9, 10, 12, 14)), (5, 0), (5, 9), (6, 0xEE), (8, 0x99)]
    changes = [held[:place] + u8(byte) + held[place + 1 :] for place, byte in bytes_at]
    for new in [*changes, held[:8], held[:5], held[:1], b"", held + b"\x77"]:
        yield [piece(held), EMPTY, forge(new), EMPTY, *pieces(b"\x0a", b"\x0b", b"\x0c"), EMPTY, forge(held), piece(GOOD[9:])]


# Sizes.


def sizes_group():
    """With another size nothing is taken, whatever the piece; with the right one the message goes on. The reset leaves the size."""
    for size in (0, 1, 6, 9, 4_096, 32_768, 65_535, 65_536, 65_537):
        lend = b"size %d" % size
        for held in (0, 5, 8):
            yield from [piece(GOOD[:held]), lend, EMPTY, piece(GOOD[held:]), RIGHT_SIZE, EMPTY, piece(GOOD[held:]), RESET]
        yield from [lend, TOO_LONG, piece(b"\x02"), RIGHT_SIZE, piece(SHORT), lend, RESET, piece(SHORT), lend, EMPTY, RIGHT_SIZE, RESET]
    yield from [b"size 1", b"size 2", RIGHT_SIZE, RIGHT_SIZE, piece(SHORT), b"size 65535", piece(SHORT), b"size 65537", piece(SHORT), RIGHT_SIZE]


def forged_sizes_group():
    """Bytes are put into the array, however much of it is lent."""
    for size in (0, 3, 65_535, 65_537):
        yield from [b"size %d" % size, forge(GOOD[:8]), EMPTY, piece(GOOD[8:]), RIGHT_SIZE, EMPTY, piece(GOOD[8:])]
        yield from [b"size %d" % size, forge(GOOD), EMPTY, forge((ARRAY_BYTES, b"\x03")), EMPTY, RIGHT_SIZE, EMPTY, RESET]


# Any calls.

FRAGMENTS = [
    b"", b"\x00", b"\x02", b"\x03", b"\x06", b"\x09", b"\xff", b"\x03\x00", bytes(2), bytes(3), b"\x00\x00\x07", b"\x00\x06\x04", b"\x00\x08\xc8",
    GOOD[:4], GOOD[:5], GOOD[:6], GOOD[:7], GOOD[4:], GOOD[6:], GOOD[9:], GOOD, SHORT, SHORT_SKIPPED, SKIPPED, SKIPPED[:7], SKIPPED[7:],
    SHORT + SHORT, GOOD + SKIPPED, SHORT + b"\x02", *(common(length=length) for length in (5, 7, 65_536, 65_537)), common(length=LIMIT + 1, kind=9),
]  # fmt: skip
SIZES = [RIGHT_SIZE, RIGHT_SIZE, RIGHT_SIZE, b"size 65535", b"size 65537", b"size 0"]
OTHER_LINES = [RESET, RESET, *SIZES, TOO_LONG, b"reset ", b"size 65538", b"piece 0", b"forge"]


def any_calls(seed):
    """Most calls are pieces; the reset comes often enough that not all of them are refused."""
    random = Damage(seed)
    for _ in range(60):
        kind = random.below(10)
        if kind < 7:
            yield piece(*[FRAGMENTS[random.below(len(FRAGMENTS))] for _ in range(1 + random.below(2))])
        elif kind == 7:
            yield forge(FRAGMENTS[random.below(len(FRAGMENTS))])
        else:
            yield OTHER_LINES[random.below(len(OTHER_LINES))]
    yield RIGHT_SIZE


# Lines that are none.

# Five bytes of a message are held, so that each of these lines would be seen if it were taken for the line that it is like.
BAD_LINES = r"""
Reset
RESET
reset\x20
\x20reset
reset\x20\x20
reset -
reset 00
reset 0
reset reset
reset\x0d
reset\x09
reset\x00
reset\x0b
reset,
rese
resets
r
clear
\xef\xbb\xbfreset
piece
piece\x20
piece\x20\x20
Piece 00
PIECE 00
piece00
piece  00
\x20piece 00
piece 00\x20
piece 00\x0d
piece -\x0d
piece 00\x09
piece\x0900
piece\x00 00
piece 00 00
piece - 00
piece 00 -
piece -00
piece 00-
piece --
piece - -
piece 0
piece 000
piece 0x00
piece 0g
piece 0A
piece AA
piece aA
piece 00+
piece +00
piece 00++00
piece -+00
piece 00+-
piece 0*00
piece 01*00
piece *00
piece 2*
piece 2*0
piece 2*-
piece 1*1*00
piece 1**00
piece a*00
piece -1*00
piece +1*00
piece 1048578*00
piece 1048577*00+00
piece 524289*0000
piece 18446744073709551617*00
piece 00,00
piece 00\x0000
piece 00\xff
piece \xef\xbc\x90\xef\xbc\x90
piece piece 00
piece\x20reset
pieces 00
piec 00
p 00
piece - -
split - 00
size
size\x20
size\x20\x20
Size 1
SIZE 1
size1
size  1
\x20size 1
size 1\x20
size 1\x0d
size 1\x09
size\x091
size 65538
size 65539
size 65540
size 65600
size 66000
size 70000
size 99999
size 100000
size 131072
size 131073
size 4294967296
size 4294967297
size 4295032832
size 18446744073709551616
size 18446744073709617152
size 99999999999999999999
size 065535
size 01
size 00
size 000000000000000001
size -1
size -0
size +1
size 1.0
size 1e3
size 1,000
size 65,535
size 65_535
size 0x10
size ff
size 1f
size a
size -
size *
size 1*1
size 1 1
size 1 -
size 1+1
size 1\x00
size \x001
size \xb2
size \xef\xbc\x91
size N
sizes 1
siz 1
s 1
forge
forge\x20
forge\x20\x20
Forge 0300
FORGE 0300
forge0300
forge  0300
\x20forge 0300
forge 0300\x20
forge 0300\x0d
forge 0300\x09
forge\x090300
forge 03 00
forge - 0300
forge 0300 -
forge --
forge 030
forge 0
forge 03AA
forge 0300+
forge +0300
forge 0*0300
forge 01*0300
forge 65538*03
forge 65537*03+00
forge 32769*0300
forge 65538*00
forge 131072*03
forge 1048576*03
forge 1048577*03
forge 1048578*03
forges 0300
forg 0300
f 0300
reforge 0300
030000000b
-
- -
\x20
\x20\x20
\x0d
\x00
\xff
#
ok
0
took 0 held 5
"""


def bad_lines():
    for text in BAD_LINES.strip("\n").split("\n"):
        yield text.encode("ascii").decode("unicode_escape").encode("latin-1")


def bad_lines_group():
    """After each of them the five bytes are held, and at the end their message is handed out. Empty lines answer nothing."""
    yield piece(GOOD[:5])
    for line in bad_lines():
        yield from [line, EMPTY]
    yield from [b"", EMPTY, b"", b"", piece(GOOD[5:8]), b"", piece(GOOD[8:]), b""]


RIGHT_LINES = (b"reset", b"size 65536", b"forge -", b"piece 03")


def bad_lines_at_other_sizes_group():
    """Nor do they end a refusal that stands, or lend another size."""
    yield from [piece(GOOD + b"\x02"), piece(b"\x02"), b"size 65537"]
    for line in RIGHT_LINES:
        for bad in (line + b" ", b" " + line, line.upper(), line + b"\r", line + b"\x00"):
            yield from [bad, EMPTY]
    yield RIGHT_SIZE
    for line in RIGHT_LINES:
        yield from [line + b" ", EMPTY]
    yield from [RESET, EMPTY, piece(SHORT)]


# The list.


def groups():
    yield from [*recorded_groups(), *edge_groups(), empty_group(), longest_pieces_group(), too_long_group()]
    yield from [*version_groups(), *header_groups(), damaged_header_group(), *behind_messages_groups(), *standing_groups()]
    yield from [*skipped_groups(), longest_message_group(), longest_skipped_group(), largest_hex_group()]
    yield from [good_forged_group(), forged_header_group(), long_forged_group()]
    yield from [*bad_forged_groups(), *standing_forged_groups(), *changed_forged_groups(), sizes_group(), forged_sizes_group()]
    yield from [*(any_calls(seed) for seed in range(40)), bad_lines_group(), bad_lines_at_other_sizes_group()]


def lines():
    """No group knows of the one before it: whichever lent another size has put it back. At first nothing is held without a word."""
    yield from [EMPTY, *pieces(SHORT[:2], SHORT[2:] + SHORT_SKIPPED, SHORT_SKIPPED, b"\x02\x03", b"\x03"), b"size 65537", EMPTY, RIGHT_SIZE]
    for group in groups():
        yield RESET
        yield from group
    yield from [RESET, RESET, EMPTY, *pieces(GOOD[:10], GOOD[10:] + SHORT, SHORT)]


if __name__ == "__main__":
    sys.stdout.buffer.write(b"\n".join(lines()))
