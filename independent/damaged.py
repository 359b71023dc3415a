"""Damaged copies of a recording, as small files with telling names.

    python3 independent/damaged.py RECORDING FOLDER

Each copy holds at most the recording's first three messages, and in three copies there are messages of unknown types beside them.
RECORDING has at least three, the second with a per-peer header.
"""

import os
import sys


def edges(recording):
    """Where the first message, the second and the third end."""
    ends, place = [], 0
    for _ in range(3):
        place += int.from_bytes(recording[place + 1 : place + 5], "big")
        ends.append(place)
    return ends


def with_bytes(stream, place, new):
    return stream[:place] + new + stream[place + len(new) :]


def cut_copies(stream, first, second):
    """Cut at each length of the first message, and about the edges of the second one, its headers and its body."""
    peer = first + 6
    body = peer + 42
    lengths = [*range(first + 1), *range(first + 1, peer + 2), body - 1, body, body + 1, second - 1, second, second + 1]
    return {f"cut-at-{length:03}": stream[:length] for length in lengths}


def wrong_headers(stream, name, place):
    """A common header with a wrong version, an unknown type, or a length that does not fit."""
    copies = {}
    for version in (2, 4):
        copies[f"{name}-version-{version}"] = with_bytes(stream, place, bytes([version]))
    for kind in (7, 255):
        copies[f"{name}-type-{kind}"] = with_bytes(stream, place + 5, bytes([kind]))
    for length in (5, 6, 7, 1_048_576, 1_048_577):
        copies[f"{name}-length-{length}"] = with_bytes(stream, place + 1, length.to_bytes(4, "big"))
    return copies


def shortened_copies(stream, first, second):
    """The second message shortened, with a length field that says so; the third follows it."""
    copies = {}
    for length in (6, 7, 47, 48, 49, second - first - 1):
        message = with_bytes(stream[first : first + length], 1, length.to_bytes(4, "big"))
        copies[f"second-shortened-to-{length}"] = stream[:first] + message + stream[second:]
    return copies


def of_type(kind, body, length=None):
    """A message with this body, whose length field may say something else."""
    return b"\x03" + (6 + len(body) if length is None else length).to_bytes(4, "big") + bytes([kind]) + body


def with_unknown_types(stream, first, second):
    """Messages of unknown types beside the good ones. Whoever read their bodies would refuse that of type 9, and list that of type 255."""
    one, two, three = stream[:first], stream[first:second], stream[second:]
    refused = bytes.fromhex("02 00000005 04")
    return {
        "unknown-types-between": one + of_type(7, b"") + two + of_type(9, refused) + of_type(255, one) + three,
        "unknown-type-length-5": one + of_type(9, b"", length=5) + two + three,
        "unknown-type-cut": stream + of_type(9, refused)[:-1],
    }


def damaged_copies(recording):
    first, second, third = edges(recording)
    stream = recording[:third]
    return {
        **cut_copies(stream, first, second),
        **wrong_headers(stream, "first", 0),
        **wrong_headers(stream, "second", first),
        **shortened_copies(stream, first, second),
        "second-peer-type-4": with_bytes(stream, first + 6, b"\x04"),
        **with_unknown_types(stream, first, second),
    }


def main():
    recording_name, folder = sys.argv[1:]
    with open(recording_name, "rb") as file:
        recording = file.read()
    os.makedirs(folder, exist_ok=True)
    for name, copy in damaged_copies(recording).items():
        with open(os.path.join(folder, name + ".bmp"), "wb") as file:
            file.write(copy)


if __name__ == "__main__":
    main()
