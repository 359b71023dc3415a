"""One line in, one line out: the pieces of a session, put to one receiver.

Lines are `reset`, or VERB and one field, as docs/REPLAY.md has them under "Receive"; what a call does is in docs/RULES.md under "Receiver".
"""

import re
from typing import NamedTuple

import bmp
import replay

BUFFER_BYTES = 65_536
ARRAY_BYTES = BUFFER_BYTES + 1
MAX_PIECE = 4_096
SIZE = re.compile(rb"0|[1-9][0-9]{0,4}")


class Waiting(NamedTuple):
    missing: int


def judge(data):
    """What the bytes since a boundary come to: Waiting, the splitter's Message or Skipped, or the refusal that they bring.

    The header is whole where they are Cut at 6, so the message is as long as what is there and what is missing together.
    """
    try:
        return bmp.split(data).record
    except bmp.Refused as refusal:
        if refusal.number != bmp.CUT:
            return refusal
        if refusal.place == 6 and len(data) + refusal.missing > BUFFER_BYTES:
            return bmp.Refused(bmp.STREAM_TOO_BIG, 1)
        return Waiting(refusal.missing)


class Receiver:
    """What a caller keeps: how many bytes are held, and the refusal that stands or None. The bytes themselves are in the buffer."""

    def __init__(self):
        self.reset()

    def reset(self):
        self.held = 0
        self.standing = None

    def refusal_at_once(self, buffer, piece):
        """The first refusal for which nothing is taken, in the order of the rules, or None."""
        if len(buffer) != BUFFER_BYTES:
            return bmp.Refused(bmp.NO_ROOM, 0)
        if len(piece) > MAX_PIECE:
            return bmp.Refused(bmp.TOO_LONG, 0)
        if self.standing is not None:
            return self.standing
        if self.held > BUFFER_BYTES or not isinstance(judge(buffer[: self.held]), Waiting):
            return bmp.Refused(bmp.BAD_FIELD, 0)
        return None

    def receive(self, buffer, piece):
        """One call: how many bytes of the piece it took, and what came of it. All since the boundary is judged with each byte taken."""
        refusal = self.refusal_at_once(buffer, piece)
        if refusal is not None:
            return 0, refusal
        for place, byte in enumerate(piece):
            buffer[self.held] = byte
            self.held += 1
            came = judge(buffer[: self.held])
            if not isinstance(came, Waiting):
                self.end(came)
                return place + 1, came
        return len(piece), judge(buffer[: self.held])

    def end(self, came):
        """A message leaves nothing held; a refusal that a byte brought stands, and what is held stays."""
        if isinstance(came, bmp.Refused):
            self.standing = came
        else:
            self.held = 0


class Session:
    """A receiver, the array, and how many of the array's bytes are lent with each call."""

    def __init__(self):
        self.receiver = Receiver()
        self.array = bytearray(ARRAY_BYTES)
        self.lent = BUFFER_BYTES


def show(came, buffer):
    """What stands behind the counts: of a receiver that waits nothing."""
    if isinstance(came, Waiting):
        return ""
    if isinstance(came, bmp.Refused):
        return " " + replay.show_refusal(came)
    word = "skipped" if isinstance(came, bmp.Skipped) else "message"
    return f" {word} {buffer[: came.header.msg_len].hex()}"


# What is done for each verb. All take the session and what stands behind the verb and one space.


def run_piece(session, text):
    """The buffer is a memoryview, so that judging a long message at each of its bytes copies nothing."""
    piece = replay.bytes_of(text)
    if piece is None:
        return replay.BAD_LINE
    buffer = memoryview(session.array)[: session.lent]
    took, came = session.receiver.receive(buffer, piece)
    return f"took {took} held {session.receiver.held}{show(came, buffer)}"


def run_size(session, text):
    if not SIZE.fullmatch(text) or int(text) > ARRAY_BYTES:
        return replay.BAD_LINE
    session.lent = int(text)
    return "ok"


def run_forge(session, text):
    data = replay.bytes_of(text)
    if data is None or len(data) > ARRAY_BYTES:
        return replay.BAD_LINE
    session.array[: len(data)] = data
    session.receiver.held = len(data)
    return "ok"


VERBS = {b"piece": run_piece, b"size": run_size, b"forge": run_forge}


def answer(session, line):
    """The answer to a line that is not empty, given without its LF. What is no line changes nothing."""
    if line == b"reset":
        session.receiver.reset()
        return "ok"
    verb, _space, text = line.partition(b" ")
    return VERBS[verb](session, text) if verb in VERBS else replay.BAD_LINE


def main():
    session = Session()
    replay.answer_lines(lambda line: answer(session, line))


if __name__ == "__main__":
    main()
