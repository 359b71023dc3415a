"""One line in, one line out: calls on one board of peers, which is empty at first.

Lines are `clear`, `list`, or VERB HEX, as docs/REPLAY.md has them under "Boards"; what the calls do is in docs/RULES.md under "Board".
"""

from typing import NamedTuple

import bmp
import listing
import replay

MAX_PEERS = 64
NO_BYTES = b""


class Key(NamedTuple):
    """What tells two peers apart. Neither the AS nor the time is here, and of the flags only the family."""

    peer_type: int
    afi: int
    distinguisher: int
    octets: bytes
    bgp_id: int


def key_of(header):
    address = header.peer_ip
    return Key(header.peer_type, address.afi, header.peer_distinguisher, address.octets, header.peer_bgp_id)


class Board:
    """For each key the last report, or None before the first. The places stand beside it, since nothing but `list` shows them."""

    def __init__(self):
        self.clear()

    def clear(self):
        self.reports = {}
        self.places = MAX_PEERS * [None]

    def require(self, key):
        """Every NoPeer is raised here. A board's refusal has no place of its own, so it is 0."""
        if key not in self.reports:
            raise bmp.Refused(bmp.NO_PEER, 0)

    def up(self, key):
        """A peer that is there keeps its place and loses its report; a new one takes the lowest free place."""
        if key not in self.reports:
            if len(self.reports) == MAX_PEERS:
                raise bmp.Refused(bmp.BOARD_FULL, 0)
            self.places[self.places.index(None)] = key
        self.reports[key] = None

    def down(self, key):
        self.require(key)
        del self.reports[key]
        self.places[self.places.index(key)] = None

    def report(self, key, report):
        """No reader shows a report that is too large to be kept; it is refused all the same, and first."""
        if len(report.counters) > bmp.MAX_COUNTERS:
            raise bmp.Refused(bmp.BAD_FIELD, 0)
        self.require(key)
        self.reports[key] = report

    def last_report(self, key):
        self.require(key)
        return self.reports[key]

    def peers(self):
        return [key for key in self.places if key is not None]


# What is done for each verb. All take the board and the bytes.


def read_message(msg_type, data):
    """The key and the body of a message that has lost its common header."""
    header = bmp.read_per_peer_header(data)
    body = replay.read_behind(header.stop, data, lambda rest: listing.read_body(msg_type, rest, header.record))
    return key_of(header.record), body.record


def run_up(board, data):
    key, _body = read_message(bmp.PEER_UP_NOTIFICATION, data)
    board.up(key)
    return "ok"


def run_down(board, data):
    key, _body = read_message(bmp.PEER_DOWN_NOTIFICATION, data)
    board.down(key)
    return "ok"


def run_report(board, data):
    key, report = read_message(bmp.STATISTICS_REPORT, data)
    board.report(key, report)
    return "ok"


def run_show(board, data):
    """Raw values are shown without their bytes, since those are gone with the message."""
    report = board.last_report(key_of(bmp.read_per_peer_header(data).record))
    return "none yet" if report is None else "report " + replay.show_stats(report, NO_BYTES)


VERBS = {b"up": run_up, b"down": run_down, b"report": run_report, b"show": run_show}


def show_key(key):
    return f"{key.peer_type}/{key.afi}/{key.distinguisher:016x}/{key.octets.hex()}/{key.bgp_id:08x}"


def show_list(board):
    peers = board.peers()
    return f"count={len(peers)} peers=[{','.join(show_key(key) for key in peers)}]"


def answer(board, line):
    """The answer to a line that is not empty, given without its LF. What is refused, or is no line, leaves the board alone."""
    if line == b"clear":
        board.clear()
        return "ok"
    if line == b"list":
        return show_list(board)
    verb, _space, text = line.partition(b" ")
    data = replay.bytes_of(text)
    if verb not in VERBS or data is None:
        return replay.BAD_LINE
    try:
        return VERBS[verb](board, data)
    except bmp.Refused as refusal:
        return replay.show_refusal(refusal)


def main():
    board = Board()
    replay.answer_lines(lambda line: answer(board, line))


if __name__ == "__main__":
    main()
