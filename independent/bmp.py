"""BMP and OpenBMP: the readers, the splitter and the writers, written from docs/RULES.md.

A reader takes bytes and returns a Good answer or raises Refused. A writer takes a record, the buffer that the record's
views point into, and a bytearray for the output; it returns the written length or raises Refused.
"""

import struct
from typing import NamedTuple, Optional

# The numbers of the rules.

TOO_LONG = 1
CUT = 2
BAD_VERSION = 3
UNKNOWN_KIND = 4
BAD_TLV_TYPE = 5
BGP_LENGTH = 6
TOO_MANY = 7
BAD_OPEN_BMP = 8
UNSUPPORTED = 9
BAD_MESSAGE_LENGTH = 10
NO_ROOM = 11
BAD_FIELD = 12
BOARD_FULL = 13
NO_PEER = 14
STREAM_TOO_BIG = 15

MAX_BYTES = 1_048_576
MAX_TLVS = 32
MAX_COUNTERS = 64
LEAST_BGP = 19

# Message types of the common header.

ROUTE_MONITORING = 0
STATISTICS_REPORT = 1
PEER_DOWN_NOTIFICATION = 2
PEER_UP_NOTIFICATION = 3
INITIATION_MESSAGE = 4
TERMINATION_MESSAGE = 5
ROUTE_MIRRORING = 6

LOC_RIB = 3
IPV4 = 4
IPV6 = 6

# Warnings, as bits of one word.

ADDRESS_NOT_ZERO = 1
BGP_ID_ZERO = 2
LOC_RIB_16_BIT_AS = 4
TABLE_NAME_LENGTH = 8
NO_TABLE_NAME = 16


class Refused(Exception):
    """A refusal: its number, its place, and how many bytes are missing, which are some in a Cut and none in any other."""

    def __init__(self, number, place, missing=0):
        super().__init__(number, place, missing)
        self.number = number
        self.place = place
        self.missing = missing


def require(length, place, need):
    """Of an input of this length, the field that starts at a place needs so many bytes. Every Cut is raised here."""
    there = length - place
    if there < need:
        raise Refused(CUT, place, need - there)


class Good(NamedTuple):
    record: object
    stop: int
    tail: int
    warnings: int


def good(record, stop, warnings=0):
    """A good answer whose tail starts at the stop."""
    return Good(record, stop, stop, warnings)


class View(NamedTuple):
    place: int
    length: int


def is_inside(buffer, view):
    return view.place + view.length <= len(buffer)


def part(buffer, view):
    """The bytes that a view shows; none where it lies outside."""
    if not is_inside(buffer, view):
        return b""
    return buffer[view.place : view.place + view.length]


class Cursor:
    """A place in a slice of at most 1,048,576 bytes. What lacks bytes is Cut at the place where it starts."""

    def __init__(self, data):
        if len(data) > MAX_BYTES:
            raise Refused(TOO_LONG, 0)
        self.data = data
        self.place = 0

    def left(self):
        return len(self.data) - self.place

    def view(self, length):
        place = self.place
        require(len(self.data), place, length)
        self.place = place + length
        return View(place, length)

    def field(self, length):
        place = self.place
        require(len(self.data), place, length)
        self.place = place + length
        return self.data[place : place + length]

    def u8(self):
        return self.field(1)[0]

    def u16(self):
        return int.from_bytes(self.field(2), "big")

    def u32(self):
        return int.from_bytes(self.field(4), "big")

    def u64(self):
        return int.from_bytes(self.field(8), "big")


class IpAddr(NamedTuple):
    """Sixteen octets, those that are not part of the address zero, and a family."""

    octets: bytes
    afi: int


def in_last_four(octets, afi):
    return IpAddr(octets if afi == IPV6 else bytes(12) + octets[12:], afi)


def in_first_four(octets, afi):
    return IpAddr(octets if afi == IPV6 else octets[:4] + bytes(12), afi)


def timestamp_of(seconds, microseconds):
    """Two rounded operations: the quotient, then the sum."""
    return float(seconds) + float(microseconds) / 1_000_000.0


def bits_of(timestamp):
    return struct.pack(">d", timestamp)


def write(writable, pieces, output):
    """Put the pieces at the output's start. The order of refusals is 12, 1, 11; `pieces` is only called for what is writable."""
    if not writable:
        raise Refused(BAD_FIELD, 0)
    joined = b"".join(pieces())
    if len(joined) > MAX_BYTES:
        raise Refused(TOO_LONG, 0)
    if len(joined) > len(output):
        raise Refused(NO_ROOM, 0)
    output[: len(joined)] = joined
    return len(joined)


def be(number, width):
    return number.to_bytes(width, "big")


# Common header.


class CommonHeader(NamedTuple):
    version: int
    msg_len: int
    msg_type: int


def has_known_type(header):
    return header.msg_type <= ROUTE_MIRRORING


def read_common_fields(data):
    """The three fields. The type may be any number: whoever asks for them judges it, or does not."""
    cursor = Cursor(data)
    version = cursor.u8()
    if version != 3:
        raise Refused(BAD_VERSION, 0)
    msg_len = cursor.u32()
    msg_type = cursor.u8()
    return good(CommonHeader(version, msg_len, msg_type), cursor.place)


def read_common_header(data):
    answer = read_common_fields(data)
    if not has_known_type(answer.record):
        raise Refused(UNKNOWN_KIND, 5)
    return answer


def write_common_header(record, _buffer, output):
    return write(
        record.version == 3 and has_known_type(record),
        lambda: [be(record.version, 1), be(record.msg_len, 4), be(record.msg_type, 1)],
        output,
    )


# Splitter.


class Message(NamedTuple):
    header: CommonHeader


class Skipped(NamedTuple):
    """A message of a type that is not known: its header says how long it is, and what it holds is not read."""

    header: CommonHeader


def split(data):
    """One message off the front, of whatever type: the record is a Message or Skipped.

    The header is all there where it is Cut at 6, so what is missing is its length less all bytes.
    """
    header = read_common_fields(data).record
    if header.msg_len < 6:
        raise Refused(BAD_MESSAGE_LENGTH, 1)
    if header.msg_len > MAX_BYTES:
        raise Refused(TOO_LONG, 1)
    require(len(data), 6, header.msg_len - 6)
    return good(Message(header) if has_known_type(header) else Skipped(header), header.msg_len)


# Per-peer header.


class PerPeerHeader(NamedTuple):
    peer_type: int
    peer_flags: int
    peer_distinguisher: int
    peer_ip: IpAddr
    peer_asn: int
    peer_bgp_id: int
    timestamp: float
    seconds: int
    microseconds: int


def peer_family(peer_type, flags):
    return IPV6 if peer_type != LOC_RIB and flags & 0x80 else IPV4


def asn_bits(peer_type, flags):
    return 16 if peer_type != LOC_RIB and flags & 0x20 else 32


def read_per_peer_header(data):
    cursor = Cursor(data)
    peer_type = cursor.u8()
    if peer_type > 3:
        raise Refused(UNKNOWN_KIND, 0)
    flags = cursor.u8()
    distinguisher = cursor.u64()
    address = cursor.field(16)
    asn_field = cursor.u32()
    bgp_id = cursor.u32()
    seconds = cursor.u32()
    microseconds = cursor.u32()
    record = PerPeerHeader(
        peer_type,
        flags,
        distinguisher,
        IpAddr(bytes(16), IPV4) if peer_type == LOC_RIB else in_last_four(address, peer_family(peer_type, flags)),
        asn_field & 0xFFFF if asn_bits(peer_type, flags) == 16 else asn_field,
        bgp_id,
        timestamp_of(seconds, microseconds),
        seconds,
        microseconds,
    )
    return good(record, cursor.place, per_peer_warnings(record, address))


def per_peer_warnings(record, address):
    if record.peer_type != LOC_RIB:
        return 0
    warnings = 0
    if any(address):
        warnings |= ADDRESS_NOT_ZERO
    if record.peer_bgp_id == 0 and record.peer_distinguisher != 0:
        warnings |= BGP_ID_ZERO
    return warnings


def has_time(header):
    """Zero in both words means that the time is unavailable."""
    return header.seconds != 0 or header.microseconds != 0


def equal_headers(one, other):
    """The Rust's seven fields; the two words are not compared."""
    return one[:7] == other[:7]


def strip_timestamp(header):
    return header._replace(timestamp=0.0, seconds=0, microseconds=0)


def is_timestamp(record):
    return bits_of(record.timestamp) == bits_of(timestamp_of(record.seconds, record.microseconds))


def fits_last_four(address):
    return address.afi == IPV6 or not any(address.octets[:12])


def fits_first_four(address):
    return address.afi == IPV6 or not any(address.octets[4:])


def fits_peer(record):
    if record.peer_ip.afi != peer_family(record.peer_type, record.peer_flags):
        return False
    if record.peer_type == LOC_RIB:
        return not any(record.peer_ip.octets)
    return fits_last_four(record.peer_ip)


def write_per_peer_header(record, _buffer, output):
    asn_limit = 0xFFFF if asn_bits(record.peer_type, record.peer_flags) == 16 else 0xFFFFFFFF
    return write(
        record.peer_type <= 3 and fits_peer(record) and record.peer_asn <= asn_limit and is_timestamp(record),
        lambda: [
            be(record.peer_type, 1),
            be(record.peer_flags, 1),
            be(record.peer_distinguisher, 8),
            record.peer_ip.octets,
            be(record.peer_asn, 4),
            be(record.peer_bgp_id, 4),
            be(record.seconds, 4),
            be(record.microseconds, 4),
        ],
        output,
    )


# Statistics.


class Counter(NamedTuple):
    value: int


class Gauge(NamedTuple):
    value: int


class AfiSafiGauge(NamedTuple):
    afi: int
    safi: int
    value: int


class Raw(NamedTuple):
    view: View


class StatCounter(NamedTuple):
    """Only an AfiSafiGauge uses an AFI and a SAFI, and has them in itself; every other form has two parts that it does not use."""

    stat_type: int
    stat_len: int
    stat_data: object
    unused_afi: int = 0
    unused_safi: int = 0


class StatsReport(NamedTuple):
    stats_count: int
    counters: list


def stat_type_has_name(stat_type):
    return stat_type <= 23 or 26 <= stat_type <= 43


def read_stats_report(data):
    cursor = Cursor(data)
    stats_count = cursor.u32()
    counters = []
    for _ in range(stats_count):
        place = cursor.place
        counter = read_stat_counter(cursor)
        if len(counters) == MAX_COUNTERS:
            raise Refused(TOO_MANY, place)
        counters.append(counter)
    return good(StatsReport(stats_count, counters), cursor.place)


def read_stat_counter(cursor):
    stat_type = cursor.u16()
    stat_len = cursor.u16()
    view = cursor.view(stat_len)
    return StatCounter(stat_type, stat_len, stats_data(cursor.data, view))


def stats_data(data, view):
    """The length alone says what the value is."""
    value = part(data, view)
    if view.length == 4:
        return Counter(*struct.unpack(">I", value))
    if view.length == 8:
        return Gauge(*struct.unpack(">Q", value))
    if view.length == 11:
        return AfiSafiGauge(*struct.unpack(">HBQ", value))
    return Raw(view)


def is_counter_writable(counter, buffer):
    stat_len, value = counter.stat_len, counter.stat_data
    if counter.unused_afi != 0 or counter.unused_safi != 0:
        return False
    if isinstance(value, Counter):
        return stat_len == 4 and value.value <= 0xFFFFFFFF
    if isinstance(value, Gauge):
        return stat_len == 8
    if isinstance(value, AfiSafiGauge):
        return stat_len == 11 and value.safi <= 255
    return stat_len not in (4, 8, 11) and is_inside(buffer, value.view) and value.view.length == stat_len


def stats_data_bytes(value, buffer):
    if isinstance(value, Counter):
        return struct.pack(">I", value.value)
    if isinstance(value, Gauge):
        return struct.pack(">Q", value.value)
    if isinstance(value, AfiSafiGauge):
        return struct.pack(">HBQ", *value)
    return part(buffer, value.view)


def write_stats_report(record, buffer, output):
    counters = record.counters
    return write(
        len(counters) <= MAX_COUNTERS
        and record.stats_count == len(counters)
        and all(is_counter_writable(counter, buffer) for counter in counters),
        lambda: [be(record.stats_count, 4)]
        + [be(c.stat_type, 2) + be(c.stat_len, 2) + stats_data_bytes(c.stat_data, buffer) for c in counters],
        output,
    )


# Information TLVs of Initiation and Peer Up.


class InformationTlv(NamedTuple):
    info_type: int
    info_len: int
    info: View


class InitiationMessage(NamedTuple):
    tlvs: list


def tlv_type_has_name(info_type):
    return info_type <= 4


def keep_tlv(tlvs, tlv, place):
    if len(tlvs) == MAX_TLVS:
        raise Refused(TOO_MANY, place)
    tlvs.append(tlv)


def read_initiation_message(data):
    cursor = Cursor(data)
    tlvs = []
    tail = 0
    while cursor.left() > 4:
        info_type = cursor.u16()
        info_len = cursor.u16()
        if info_len > cursor.left():
            break
        keep_tlv(tlvs, InformationTlv(info_type, info_len, cursor.view(info_len)), tail)
        tail = cursor.place
    return Good(InitiationMessage(tlvs), cursor.place, tail, 0)


def are_information_tlvs_writable(tlvs, buffer):
    return len(tlvs) <= MAX_TLVS and all(
        is_inside(buffer, tlv.info) and tlv.info.length == tlv.info_len for tlv in tlvs
    )


def information_tlv_bytes(tlvs, buffer):
    return [be(tlv.info_type, 2) + be(tlv.info_len, 2) + part(buffer, tlv.info) for tlv in tlvs]


def write_initiation_message(record, buffer, output):
    tlvs = record.tlvs
    ends_empty = bool(tlvs) and tlvs[-1].info_len == 0
    return write(
        are_information_tlvs_writable(tlvs, buffer) and not ends_empty,
        lambda: information_tlv_bytes(tlvs, buffer),
        output,
    )


class UnknownType(NamedTuple):
    """The value of a TLV whose type is above 1, in Termination or Route Mirroring: no reader shows it, and no writer writes it."""

    info_type: int


# Termination.


class String(NamedTuple):
    view: View


class Reason(NamedTuple):
    reason: int


class TerminationTlv(NamedTuple):
    info_len: int
    info_value: object


class TerminationMessage(NamedTuple):
    tlvs: list


def read_termination_message(data):
    cursor = Cursor(data)
    tlvs = []
    tail = 0
    while cursor.left() > 4:
        info_type = cursor.u16()
        if info_type > 1:
            raise Refused(UNKNOWN_KIND, tail)
        info_len = cursor.u16()
        if info_len > cursor.left():
            break
        value = String(cursor.view(info_len)) if info_type == 0 else read_termination_reason(cursor)
        keep_tlv(tlvs, TerminationTlv(info_len, value), tail)
        tail = cursor.place
    return Good(TerminationMessage(tlvs), cursor.place, tail, 0)


def read_termination_reason(cursor):
    """Two bytes, whatever the length field holds."""
    place = cursor.place
    reason = cursor.u16()
    if reason > 4:
        raise Refused(UNKNOWN_KIND, place)
    return Reason(reason)


def is_termination_tlv_writable(tlv, buffer):
    value = tlv.info_value
    if isinstance(value, UnknownType):
        return False
    if isinstance(value, Reason):
        return value.reason <= 4 and tlv.info_len == 2
    return is_inside(buffer, value.view) and value.view.length == tlv.info_len


def termination_tlv_bytes(tlv, buffer):
    value = tlv.info_value
    if isinstance(value, Reason):
        return be(1, 2) + be(tlv.info_len, 2) + be(value.reason, 2)
    return be(0, 2) + be(tlv.info_len, 2) + part(buffer, value.view)


def write_termination_message(record, buffer, output):
    tlvs = record.tlvs
    ends_empty = bool(tlvs) and tlvs[-1].info_len == 0
    return write(
        len(tlvs) <= MAX_TLVS and all(is_termination_tlv_writable(tlv, buffer) for tlv in tlvs) and not ends_empty,
        lambda: [termination_tlv_bytes(tlv, buffer) for tlv in tlvs],
        output,
    )


# Route Mirroring.


class BgpMessage(NamedTuple):
    view: View


class Information(NamedTuple):
    information: int


class RouteMirroringTlv(NamedTuple):
    info_len: int
    value: object


class RouteMirroring(NamedTuple):
    tlvs: list


def read_route_mirroring(data):
    cursor = Cursor(data)
    tlvs = []
    while cursor.left() > 4:
        place = cursor.place
        info_type = cursor.u16()
        if info_type > 1:
            raise Refused(BAD_TLV_TYPE, place)
        info_len = cursor.u16()
        value = read_mirrored_message(cursor, info_len) if info_type == 0 else read_mirroring_information(cursor)
        keep_tlv(tlvs, RouteMirroringTlv(info_len, value), place)
    return good(RouteMirroring(tlvs), cursor.place)


def read_mirrored_message(cursor, info_len):
    if info_len < LEAST_BGP:
        raise Refused(BGP_LENGTH, cursor.place - 2)
    return BgpMessage(cursor.view(info_len))


def read_mirroring_information(cursor):
    place = cursor.place
    information = cursor.u16()
    if information > 1:
        raise Refused(UNKNOWN_KIND, place)
    return Information(information)


def is_mirroring_tlv_writable(tlv, buffer):
    value = tlv.value
    if isinstance(value, UnknownType):
        return False
    if isinstance(value, Information):
        return value.information <= 1 and tlv.info_len == 2
    return is_bgp_view(value.view, buffer) and value.view.length == tlv.info_len


def is_bgp_view(view, buffer):
    return view.length >= LEAST_BGP and is_inside(buffer, view)


def mirroring_tlv_bytes(tlv, buffer):
    value = tlv.value
    if isinstance(value, Information):
        return be(1, 2) + be(tlv.info_len, 2) + be(value.information, 2)
    return be(0, 2) + be(tlv.info_len, 2) + part(buffer, value.view)


def write_route_mirroring(record, buffer, output):
    tlvs = record.tlvs
    return write(
        len(tlvs) <= MAX_TLVS and all(is_mirroring_tlv_writable(tlv, buffer) for tlv in tlvs),
        lambda: [mirroring_tlv_bytes(tlv, buffer) for tlv in tlvs],
        output,
    )


# Route Monitoring.


class RouteMonitoring(NamedTuple):
    bgp_message: View


def read_route_monitoring(data, asn_length, peer_type):
    """The whole body is the message, and its own length is not looked at: a BGP header is all that it needs."""
    cursor = Cursor(data)
    require(len(data), 0, LEAST_BGP)
    warnings = LOC_RIB_16_BIT_AS if peer_type == LOC_RIB and asn_length == 16 else 0
    return good(RouteMonitoring(cursor.view(len(data))), cursor.place, warnings)


def write_route_monitoring(record, buffer, output):
    view = record.bgp_message
    return write(is_bgp_view(view, buffer), lambda: [part(buffer, view)], output)


# Peer Down.


class PeerDownNotification(NamedTuple):
    reason: int
    data: Optional[View]


def has_peer_down_data(reason, rest):
    if reason == 0:
        return rest > 0
    return reason in (1, 2, 3, 6)


def read_peer_down_notification(data):
    cursor = Cursor(data)
    reason = cursor.u8()
    if reason > 6:
        raise Refused(UNKNOWN_KIND, 0)
    rest = cursor.left()
    view = cursor.view(rest) if has_peer_down_data(reason, rest) else None
    return good(PeerDownNotification(reason, view), cursor.place)


def is_peer_down_writable(record, buffer):
    reason, view = record
    if view is None:
        return reason in (0, 4, 5)
    return has_peer_down_data(reason, view.length) and is_inside(buffer, view)


def write_peer_down_notification(record, buffer, output):
    return write(
        is_peer_down_writable(record, buffer),
        lambda: [be(record.reason, 1), b"" if record.data is None else part(buffer, record.data)],
        output,
    )


# Peer Up.


class PeerUpNotification(NamedTuple):
    local_addr: IpAddr
    local_port: int
    remote_port: int
    sent_open: View
    received_open: View
    tlvs: list


def read_peer_up_notification(data, afi, peer_type):
    cursor = Cursor(data)
    local_addr = in_last_four(cursor.field(16), afi)
    local_port = cursor.u16()
    remote_port = cursor.u16()
    sent_open = read_open(cursor)
    received_open = read_open(cursor)
    tlvs = read_peer_up_tlvs(cursor)
    record = PeerUpNotification(local_addr, local_port, remote_port, sent_open, received_open, tlvs)
    return good(record, cursor.place, peer_up_warnings(tlvs, peer_type))


def own_length(message):
    return int.from_bytes(message[16:18], "big")


def read_open(cursor):
    """19 bytes first, then as many as the message's own length says; what lacks bytes is the message, by the one or the other."""
    start = cursor.place
    length = own_length(cursor.field(LEAST_BGP))
    if length < LEAST_BGP:
        raise Refused(BGP_LENGTH, start + 16)
    cursor.place = start
    return cursor.view(length)


def read_peer_up_tlvs(cursor):
    tlvs = []
    while cursor.left() >= 4:
        place = cursor.place
        info_type = cursor.u16()
        info_len = cursor.u16()
        keep_tlv(tlvs, InformationTlv(info_type, info_len, cursor.view(info_len)), place)
    return tlvs


def peer_up_warnings(tlvs, peer_type):
    if peer_type != LOC_RIB:
        return 0
    names = [tlv for tlv in tlvs if tlv.info_type == 3]
    if not names:
        return NO_TABLE_NAME
    return TABLE_NAME_LENGTH if any(tlv.info_len == 0 or tlv.info_len > 255 for tlv in names) else 0


def is_open_view(view, buffer):
    return is_bgp_view(view, buffer) and own_length(part(buffer, view)) == view.length


def write_peer_up_notification(record, buffer, output):
    return write(
        fits_last_four(record.local_addr)
        and is_open_view(record.sent_open, buffer)
        and is_open_view(record.received_open, buffer)
        and are_information_tlvs_writable(record.tlvs, buffer),
        lambda: [
            record.local_addr.octets,
            be(record.local_port, 2),
            be(record.remote_port, 2),
            part(buffer, record.sent_open),
            part(buffer, record.received_open),
        ]
        + information_tlv_bytes(record.tlvs, buffer),
        output,
    )


# OpenBMP.


class OpenBmpHeader(NamedTuple):
    major_version: int
    minor_version: int
    header_len: int
    msg_len: int
    object_type: int
    timestamp: float
    seconds: int
    microseconds: int
    admin_id: View
    router_ip: IpAddr
    router_group: View


def read_openbmp_header(data):
    cursor = Cursor(data)
    if cursor.field(4) != b"OBMP":
        raise Refused(BAD_OPEN_BMP, 0)
    versions = cursor.u8(), cursor.u8()
    if versions != (1, 7):
        raise Refused(BAD_OPEN_BMP, 4)
    header_len = cursor.u16()
    msg_len = cursor.u32()
    afi = read_openbmp_flags(cursor)
    object_type = read_openbmp_object_type(cursor)
    seconds = cursor.u32()
    microseconds = cursor.u32()
    cursor.field(16)
    admin_id = cursor.view(cursor.u16())
    cursor.field(16)
    router_ip = in_first_four(cursor.field(16), afi)
    router_group = cursor.view(cursor.u16())
    read_openbmp_row_count(cursor)
    time = (timestamp_of(seconds, microseconds), seconds, microseconds)
    record = OpenBmpHeader(*versions, header_len, msg_len, object_type, *time, admin_id, router_ip, router_group)
    return good(record, cursor.place)


def read_openbmp_flags(cursor):
    place = cursor.place
    flags = cursor.u8()
    if not flags & 0x80:
        raise Refused(UNSUPPORTED, place)
    return IPV6 if flags & 0x40 else IPV4


def read_openbmp_object_type(cursor):
    place = cursor.place
    object_type = cursor.u8()
    if object_type != 12:
        raise Refused(UNSUPPORTED, place)
    return object_type


def read_openbmp_row_count(cursor):
    place = cursor.place
    if cursor.u32() != 1:
        raise Refused(BAD_OPEN_BMP, place)


def is_string_view(view, buffer):
    return is_inside(buffer, view) and view.length <= 0xFFFF


def write_openbmp_header(record, buffer, output):
    return write(
        (record.major_version, record.minor_version, record.object_type) == (1, 7, 12)
        and is_timestamp(record)
        and is_string_view(record.admin_id, buffer)
        and is_string_view(record.router_group, buffer)
        and fits_first_four(record.router_ip),
        lambda: [
            b"OBMP",
            be(record.major_version, 1),
            be(record.minor_version, 1),
            be(record.header_len, 2),
            be(record.msg_len, 4),
            be(0xC0 if record.router_ip.afi == IPV6 else 0x80, 1),
            be(record.object_type, 1),
            be(record.seconds, 4),
            be(record.microseconds, 4),
            bytes(16),
            be(record.admin_id.length, 2),
            part(buffer, record.admin_id),
            bytes(16),
            record.router_ip.octets,
            be(record.router_group.length, 2),
            part(buffer, record.router_group),
            be(1, 4),
        ],
        output,
    )
