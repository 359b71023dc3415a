"""The lister: one line for each BMP message of a stream.

Without arguments it lists standard input. With arguments it lists each file named, and its name stands on a line before.
"""

import os
import sys

import bmp

MAX_INPUT = 65_536
HEADING = "place type length answer"
WITHOUT_PEER = (bmp.INITIATION_MESSAGE, bmp.TERMINATION_MESSAGE)


def listing(stream):
    if len(stream) > MAX_INPUT:
        return [HEADING, f"0 - - {bmp.TOO_LONG}", "end 0"]
    lines = [HEADING]
    place = 0
    while place < len(stream):
        try:
            found = bmp.split(stream[place:]).record
        except bmp.Refused as refusal:
            lines.append(f"{place} - - {refusal.number}")
            break
        header = found.header
        message = stream[place : place + header.msg_len]
        lines.append(f"{place} {header.msg_type} {header.msg_len} {answer_of(found, message)}")
        place += header.msg_len
    return lines + [f"end {place}"]


def answer_of(found, message):
    """The last field of a message's line. The bytes of a skipped one are not looked at."""
    return "skip" if isinstance(found, bmp.Skipped) else number_of(found.header.msg_type, message)


def number_of(msg_type, message):
    """The first non-zero number of per-peer header and body, or 0."""
    try:
        if msg_type in WITHOUT_PEER:
            read_body(msg_type, message[6:], None)
        else:
            peer = bmp.read_per_peer_header(message[6:]).record
            read_body(msg_type, message[48:], peer)
    except bmp.Refused as refusal:
        return refusal.number
    return 0


def read_body(msg_type, body, peer):
    """The body's good answer; its arguments come from the per-peer header."""
    if msg_type == bmp.ROUTE_MONITORING:
        return bmp.read_route_monitoring(body, bmp.asn_bits(peer.peer_type, peer.peer_flags), peer.peer_type)
    if msg_type == bmp.STATISTICS_REPORT:
        return bmp.read_stats_report(body)
    if msg_type == bmp.PEER_DOWN_NOTIFICATION:
        return bmp.read_peer_down_notification(body)
    if msg_type == bmp.PEER_UP_NOTIFICATION:
        return bmp.read_peer_up_notification(body, peer.peer_ip.afi, peer.peer_type)
    if msg_type == bmp.INITIATION_MESSAGE:
        return bmp.read_initiation_message(body)
    if msg_type == bmp.TERMINATION_MESSAGE:
        return bmp.read_termination_message(body)
    return bmp.read_route_mirroring(body)


def put_lines(lines):
    for line in lines:
        sys.stdout.buffer.write(line.encode("ascii") + b"\n")


def list_file(name):
    """The name on a line, and the listing; one line that says so where there is no such file."""
    if not os.path.exists(name):
        sys.stdout.buffer.write(os.fsencode(name) + b": cannot be opened; check the name, and that you may read the file\n")
        return
    sys.stdout.buffer.write(os.fsencode(name) + b"\n")
    with open(name, "rb") as file:
        put_lines(listing(file.read()))


def main():
    names = sys.argv[1:]
    if not names:
        put_lines(listing(sys.stdin.buffer.read()))
    for name in names:
        list_file(name)


if __name__ == "__main__":
    main()
