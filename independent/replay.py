"""One line in, one line out: the readers, the splitter and the writers, put to a list of cases.

Lines are VERB ARGS HEX, as docs/REPLAY.md has them.
"""

import re
import sys

import bmp

MAX_CHARACTERS = 131_072
MAX_BYTES = 1_048_577
BAD_LINE = "bad line"
NO_ARGUMENTS = {b"-": {}}
PART = re.compile(rb"(?:([1-9][0-9]{0,6})\*)?((?:[0-9a-f]{2})+)")


def mirroring_arguments():
    return {b"asn=%d,type=%d" % (asn, peer): {} for asn in (16, 32) for peer in range(4)}


def monitoring_arguments():
    return {
        b"asn=%d,type=%d" % (asn, peer): {"asn_length": asn, "peer_type": peer} for asn in (16, 32) for peer in range(4)
    }


def peer_up_arguments():
    return {
        b"afi=%d,asn=%d,type=%d" % (afi, asn, peer): {"afi": afi, "peer_type": peer}
        for afi in (4, 6)
        for asn in (16, 32)
        for peer in range(4)
    }


# The fields of each reader. All take the record and the bytes that its views show.


def show_common(record, _data):
    return f"version={record.version} length={record.msg_len} type={record.msg_type}"


def show_split(record, _data):
    return f"length={record.header.msg_len} type={record.header.msg_type}"


def show_perpeer(record, _data):
    return (
        f"type={record.peer_type} flags={record.peer_flags:02x} dist={record.peer_distinguisher:016x}"
        f" fam={record.peer_ip.afi} addr={record.peer_ip.octets.hex()} as={record.peer_asn}"
        f" asbits={bmp.asn_bits(record.peer_type, record.peer_flags)} id={record.peer_bgp_id:08x}"
        f" {show_time(record)} time={'some' if bmp.has_time(record) else 'none'}"
    )


def show_time(record):
    return f"sec={record.seconds} usec={record.microseconds} ts={bmp.bits_of(record.timestamp).hex()}"


def show_stats(record, data):
    counters = ",".join(show_counter(counter, data) for counter in record.counters)
    return f"count={record.stats_count} counters=[{counters}]"


def show_counter(counter, data):
    name = "N" if bmp.stat_type_has_name(counter.stat_type) else "O"
    return f"{counter.stat_type}:{counter.stat_len}:{name}:{show_stats_data(counter.stat_data, data)}"


def show_stats_data(value, data):
    if isinstance(value, bmp.Counter):
        return f"C{value.value}"
    if isinstance(value, bmp.Gauge):
        return f"G{value.value}"
    if isinstance(value, bmp.AfiSafiGauge):
        return f"A{value.afi}/{value.safi}/{value.value}"
    return "R" + bmp.part(data, value.view).hex()


def show_information_tlvs(tlvs, data):
    return "tlvs=[" + ",".join(show_information_tlv(tlv, data) for tlv in tlvs) + "]"


def show_information_tlv(tlv, data):
    name = "N" if bmp.tlv_type_has_name(tlv.info_type) else "U"
    return f"{tlv.info_type}:{tlv.info_len}:{name}:{bmp.part(data, tlv.info).hex()}"


def show_initiation(record, data):
    return show_information_tlvs(record.tlvs, data)


def show_termination(record, data):
    return "tlvs=[" + ",".join(show_termination_tlv(tlv, data) for tlv in record.tlvs) + "]"


def show_termination_tlv(tlv, data):
    value = tlv.info_value
    if isinstance(value, bmp.Reason):
        return f"1:{tlv.info_len}:reason{value.reason}"
    return f"0:{tlv.info_len}:{bmp.part(data, value.view).hex()}"


def show_mirroring(record, data):
    return "tlvs=[" + ",".join(show_mirroring_tlv(tlv, data) for tlv in record.tlvs) + "]"


def show_mirroring_tlv(tlv, data):
    value = tlv.value
    if isinstance(value, bmp.Information):
        return f"1:{tlv.info_len}:info{value.information}"
    return f"0:{tlv.info_len}:bgp{bmp.part(data, value.view).hex()}"


def show_monitoring(record, data):
    return f"bgp={bmp.part(data, record.bgp_message).hex()}"


def show_peerdown(record, data):
    shown = "none" if record.data is None else "some:" + bmp.part(data, record.data).hex()
    return f"reason={record.reason} data={shown}"


def show_peerup(record, data):
    return (
        f"fam={record.local_addr.afi} local={record.local_addr.octets.hex()}"
        f" lport={record.local_port} rport={record.remote_port}"
        f" sent={bmp.part(data, record.sent_open).hex()} received={bmp.part(data, record.received_open).hex()}"
        f" {show_information_tlvs(record.tlvs, data)}"
    )


def show_openbmp(record, data):
    return (
        f"hlen={record.header_len} mlen={record.msg_len} {show_time(record)}"
        f" admin={bmp.part(data, record.admin_id).hex()}"
        f" fam={record.router_ip.afi} router={record.router_ip.octets.hex()}"
        f" group={bmp.part(data, record.router_group).hex()}"
    )


# What is done for each verb. All take the bytes and the arguments.


def reading(reader, show):
    """A message that the splitter skips has a word of its own; no other reader skips anything."""

    def run(data, arguments):
        answer = reader(data, **arguments)
        word = "skipped" if isinstance(answer.record, bmp.Skipped) else "good"
        return f"{word} stop={answer.stop} tail={answer.tail} warn={answer.warnings} {show(answer.record, data)}"

    return run


def rewriting(reader, writer):
    def run(data, arguments):
        answer = reader(data, **arguments)
        output = bytearray(b"\xa5" * (answer.tail + 2))
        length = writer(answer.record, data, output)
        return f"written {length} {output.hex()}"

    return run


def read_behind(start, data, reader):
    """What a reader answers of the bytes from a place on. A refusal's place is that in all the bytes, and what is missing stays."""
    try:
        return reader(data[start:])
    except bmp.Refused as refusal:
        raise bmp.Refused(refusal.number, refusal.place + start, refusal.missing) from None


def run_equal(data, _arguments):
    if len(data) != 84:
        return BAD_LINE
    one = bmp.read_per_peer_header(data[:42]).record
    other = read_behind(42, data, bmp.read_per_peer_header).record
    stripped = bmp.equal_headers(bmp.strip_timestamp(one), bmp.strip_timestamp(other))
    return f"{yes_or_no(bmp.equal_headers(one, other))} {yes_or_no(stripped)}"


def yes_or_no(answer):
    return "yes" if answer else "no"


READERS = {
    b"common": (NO_ARGUMENTS, bmp.read_common_header, show_common, bmp.write_common_header),
    b"perpeer": (NO_ARGUMENTS, bmp.read_per_peer_header, show_perpeer, bmp.write_per_peer_header),
    b"stats": (NO_ARGUMENTS, bmp.read_stats_report, show_stats, bmp.write_stats_report),
    b"initiation": (NO_ARGUMENTS, bmp.read_initiation_message, show_initiation, bmp.write_initiation_message),
    b"termination": (NO_ARGUMENTS, bmp.read_termination_message, show_termination, bmp.write_termination_message),
    b"peerdown": (NO_ARGUMENTS, bmp.read_peer_down_notification, show_peerdown, bmp.write_peer_down_notification),
    b"openbmp": (NO_ARGUMENTS, bmp.read_openbmp_header, show_openbmp, bmp.write_openbmp_header),
    b"mirroring": (mirroring_arguments(), bmp.read_route_mirroring, show_mirroring, bmp.write_route_mirroring),
    b"monitoring": (monitoring_arguments(), bmp.read_route_monitoring, show_monitoring, bmp.write_route_monitoring),
    b"peerup": (peer_up_arguments(), bmp.read_peer_up_notification, show_peerup, bmp.write_peer_up_notification),
}


def verbs():
    """For each verb the arguments that it takes, and what it does."""
    table = {
        b"split": (NO_ARGUMENTS, reading(bmp.split, show_split)),
        b"equal": (NO_ARGUMENTS, run_equal),
    }
    for verb, (arguments, reader, show, writer) in READERS.items():
        table[verb] = (arguments, reading(reader, show))
        table[b"rewrite-" + verb] = (arguments, rewriting(reader, writer))
    return table


VERBS = verbs()


def bytes_of(text):
    """The bytes of a HEX field, or None where it is not one."""
    if text == b"-":
        return b""
    if len(text) > MAX_CHARACTERS:
        return None
    data = bytearray()
    for part in text.split(b"+"):
        found = PART.fullmatch(part)
        if not found:
            return None
        times, digits = int(found.group(1) or 1), found.group(2)
        if len(data) + times * (len(digits) // 2) > MAX_BYTES:
            return None
        data += bytes.fromhex(digits.decode("ascii")) * times
    return bytes(data)


def show_refusal(refusal):
    """What is missing is said of a Cut alone: of every other refusal it is nothing."""
    missing = f" missing {refusal.missing}" if refusal.number == bmp.CUT else ""
    return f"refused {refusal.number} at {refusal.place}{missing}"


def answer(line):
    """The answer to a line that is not empty, given without its LF."""
    fields = line.split(b" ")
    if len(fields) != 3 or fields[0] not in VERBS:
        return BAD_LINE
    arguments, run = VERBS[fields[0]]
    data = bytes_of(fields[2])
    if fields[1] not in arguments or data is None:
        return BAD_LINE
    try:
        return run(data, arguments[fields[1]])
    except bmp.Refused as refusal:
        return show_refusal(refusal)


def answer_lines(answer_line):
    """Lines end at an LF and nowhere else, and the last one may lack it. An empty one answers nothing."""
    write = sys.stdout.buffer.write
    for line in sys.stdin.buffer:
        line = line[:-1] if line.endswith(b"\n") else line
        if line:
            write(answer_line(line).encode("ascii") + b"\n")


if __name__ == "__main__":
    answer_lines(answer)
