"""The counters of a BMP stream on standard input, as the program `counters` prints them.

With the word `last` it writes instead the last Statistics Report of each peer, whole, to standard output. Between any two of them it puts
a message of a type that is not known, so that `counters` is tried on messages that are skipped.
"""

import sys

import bmp

# Type 9. No message begins as its body does, so one who passes over its header alone is refused right behind it.
BETWEEN = bytes.fromhex("03 00000009 09 ffffff")


def reports(stream):
    """Each Statistics Report whose header and body are good: its bytes, its peer, and its record. A skipped message is none."""
    place = 0
    while place < len(stream):
        try:
            header = bmp.split(stream[place:]).record.header
        except bmp.Refused:
            return
        message = stream[place : place + header.msg_len]
        place += header.msg_len
        if header.msg_type != bmp.STATISTICS_REPORT:
            continue
        try:
            yield message, bmp.read_per_peer_header(message[6:]).record, bmp.read_stats_report(message[48:]).record
        except bmp.Refused:
            continue


def name_of(peer):
    octets = peer.peer_ip.octets[12:] if peer.peer_ip.afi == bmp.IPV4 else peer.peer_ip.octets
    address = ".".join(str(octet) for octet in octets)
    return f"{peer.peer_type} {peer.peer_distinguisher} {address} {peer.peer_bgp_id}"


def value_of(data):
    return "-" if isinstance(data, bmp.Raw) else data.value


def print_counters(stream):
    for _, peer, report in reports(stream):
        for counter in report.counters:
            print(name_of(peer), counter.stat_type, value_of(counter.stat_data))


def write_last(stream):
    last = {name_of(peer): message for message, peer, _ in reports(stream)}
    sys.stdout.buffer.write(BETWEEN.join(last.values()))


if __name__ == "__main__":
    (write_last if sys.argv[1:] == ["last"] else print_counters)(sys.stdin.buffer.read())
