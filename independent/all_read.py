"""Every message of the recordings, read by our lister.

    python3 independent/all_read.py RECORDING..

A recording that is too long for the lister is cut into pieces where messages end. The listings must be the ones that listing.py gives;
the last line says how many messages there are, and how many of them are answered 0.
"""

import os
import subprocess
import sys
import tempfile

import listing

LONGEST = 65_536


def pieces(recording):
    """The recording in pieces of whole messages, each as long as the lister takes."""
    start, place = 0, 0
    while place < len(recording):
        end = place + int.from_bytes(recording[place + 1 : place + 5], "big")
        if end - start > LONGEST:
            yield recording[start:place]
            start = place
        place = end
    yield recording[start:]


def main():
    root = os.path.dirname(os.path.dirname(os.path.abspath(__file__)))
    expected, names = [], []
    with tempfile.TemporaryDirectory() as folder:
        for recording in sys.argv[1:]:
            with open(recording, "rb") as file:
                for number, piece in enumerate(pieces(file.read())):
                    name = os.path.join(folder, f"{os.path.basename(recording)}.{number}")
                    with open(name, "wb") as out:
                        out.write(piece)
                    names.append(name)
                    expected += [name, *listing.listing(piece)]
        run = subprocess.run([os.path.join(root, "run"), "listings", *names], stdout=subprocess.PIPE, check=True)
    lines = run.stdout.decode("ascii").splitlines()
    if lines != expected:
        sys.exit("the listings differ from those of listing.py")
    messages = [line.split() for line in lines if line[0].isdigit()]
    good = sum(1 for fields in messages if fields[3] == "0")
    print(f"{len(names)} pieces of {len(sys.argv) - 1} recordings: {len(messages)} messages, {good} answered 0")
    if good != len(messages):
        sys.exit(1)


if __name__ == "__main__":
    main()
