#!/usr/bin/env python3
"""compare/difference.py OURS ORACLE [LIST]: compares two files of answers to one list, ours and the oracle's.

Left out are the parts that the Rust does not have (tail, sec, usec, time), and Route Monitoring's stop. All else is equal or is printed,
with the line of LIST where that is given. Strings are compared as bytes, whatever the bytes are. A refusal of ours goes with a refusal of
the Rust under a name that the number stands for; a name does not tell the number. What is missing in a Cut is as many bytes as the read of
the Rust lacked, or, where it reads a field in two parts and lacked bytes of the first, the second part more; these are counted apart.

Not compared: lines with a BGP message that the oracle cannot accept (`outside`), verbs that it does not have (`none`), answers of 1 to lines of
more bytes than a reader takes, and answers of 7 where the Rust's table is longer than ours, or the Rust refuses what comes later. The one difference that is intended (warning 8 goes by
bytes here, and by UTF-8 in the Rust) is known by what it must look like, and counted apart.

After the differences come the pairs of number and name that were met, and in the last line the counts. The exit status is 0 where nothing
differs.
"""

import collections
import itertools
import re
import sys

# 3, 5, 8 and 9 stand for one name each. Of the others only the refusal would have to agree; their names are held as well. No
# reader gives a number above 9.
NAMES = {
    2: {"CorruptedBgpMessage"},
    3: {"CorruptedBmpMessage"},
    4: {"CorruptedBmpMessage", "UnknownMessageType", "UnknownTlvType", "UnknownTlvValue"},
    5: {"CorruptedBmpMessage"},
    6: {"CorruptedBgpMessage"},
    8: {"InvalidOpenBmpHeader"},
    9: {"UnsupportedOpenBmpMessage"},
}
TOO_LONG = 1
CUT = 2
TOO_MANY = 7
LIMIT = 1_048_576
NAME_LENGTH_BIT = 8
MOST = {"tlvs": 32, "counters": 64}
# Fields that the Rust reads in two parts: an IPv4 address and a 16-bit AS behind what it skips, and what it skips behind a router's IPv4 address. For
# each verb the first and the last place of such a field, and the bytes of its two parts.
IN_PARTS = {"perpeer": [(10, 10, 12, 4), (26, 26, 2, 2)], "peerup": [(0, 0, 12, 4)], "openbmp": [(56, 56 + 65_535, 4, 12)]}
KINDS = ("equal", "refused by both", "cut in a part", "warning 8 by bytes", "outside", "no such verb", "above the limits", "different")

OURS_ALONE = re.compile(r" (?:tail|sec|usec|time)=[^ ]*")
MONITORING_STOP = re.compile(r"^good stop=\d+ (?=warn=\d+ bgp=)")
# A Cut says what is missing, and no other refusal does; the Rust says it wherever a read of its own lacked bytes.
REFUSED = re.compile(r"refused (?:(2) at (\d+) missing ([1-9]\d*)|(?!2 )(\d+) at \d+)")
REFUSED_THERE = re.compile(r"refused (\w+)(?: missing ([1-9]\d*))?")
WARNINGS = re.compile(r" warn=(\d+) ")
TABLE_NAMES = re.compile(r"[\[,]3:\d+:N:([0-9a-f]*)")
TABLE = re.compile(r"(tlvs|counters)=\[(.*)\]$")


def plain(answer):
    """An answer without what is not compared."""
    return MONITORING_STOP.sub("good ", OURS_ALONE.sub("", answer))


def is_warning_by_bytes(ours, oracle):
    """Whether two Peer Ups differ in the bit about the length of table names alone, and each has it exactly as its own measure says."""
    here, there = WARNINGS.search(ours), WARNINGS.search(oracle)
    if not here or not there or "lport=" not in ours or WARNINGS.sub(" ", ours) != WARNINGS.sub(" ", oracle):
        return False
    names = [bytes.fromhex(name) for name in TABLE_NAMES.findall(ours)]
    by_bytes = any(not 1 <= len(name) <= 255 for name in names)
    by_utf8 = any(not 1 <= len(name.decode("latin-1").encode("utf-8")) <= 255 for name in names)
    here, there = int(here[1]), int(there[1])
    return here ^ there == NAME_LENGTH_BIT and bool(here & NAME_LENGTH_BIT) == by_bytes and bool(there & NAME_LENGTH_BIT) == by_utf8


def too_many(oracle):
    """Whether the Rust's answer allows a 7 of ours."""
    if oracle.startswith("refused "):
        return True
    table = TABLE.search(oracle)
    return bool(table) and table[2].count(",") + 1 > MOST[table[1]]


def is_too_long(line):
    """Whether a line of the list has more bytes than a reader takes."""
    parts = (part.rpartition("*") for part in line.split(" ")[-1].split("+"))
    return sum(int(times or 1) * (len(digits) // 2) for times, _, digits in parts) > LIMIT


def is_cut_in_part(place, missing, lacked, line):
    """Whether the Rust lacked bytes of the first part of a field, and ours are those and the second part."""
    fields = IN_PARTS.get(line.split(" ")[0], ()) if line else sum(IN_PARTS.values(), [])
    return any(low <= place <= high and lacked <= one and missing == lacked + two for low, high, one, two in fields)


def kind_of_refusal(refused, number, oracle, line):
    """One of KINDS for a refusal of ours below the limits."""
    there = REFUSED_THERE.fullmatch(oracle)
    if not there or there[1] not in NAMES.get(number, ()):
        return "different"
    if number != CUT or refused[3] == there[2]:
        return "refused by both"
    if there[2] and is_cut_in_part(int(refused[2]), int(refused[3]), int(there[2]), line):
        return "cut in a part"
    return "different"


def kind(ours, oracle, line):
    """One of KINDS for two answers to one line, where that is known."""
    if oracle == "outside":
        return "outside"
    if oracle == "none":
        return "different" if ours == "bad line" else "no such verb"
    refused = REFUSED.fullmatch(ours)
    number = int(refused[1] or refused[4]) if refused else None
    if number == TOO_LONG:
        return "above the limits" if line and is_too_long(line) else "different"
    if number == TOO_MANY:
        return "above the limits" if too_many(oracle) else "different"
    if refused:
        return kind_of_refusal(refused, number, oracle, line)
    ours, oracle = plain(ours), plain(oracle)
    if ours == oracle:
        return "equal"
    return "warning 8 by bytes" if is_warning_by_bytes(ours, oracle) else "different"


def lines(path):
    """The lines of a file that are not empty: an empty line of the list has no answer."""
    with open(path, "rb") as file:
        for line in file:
            if line != b"\n":
                yield line.removesuffix(b"\n").decode("ascii", "backslashreplace")


def compare(ours, oracle, asked=None):
    """Compares two files of answers, prints what was found, and tells whether nothing differs."""
    counts, pairs = collections.Counter(), collections.Counter()
    rows = itertools.zip_longest(lines(ours), lines(oracle), lines(asked) if asked else ())
    for number, (here, there, line) in enumerate(rows, 1):
        if here is None or there is None or (asked and line is None):
            print(f"{number}: one of the files ends here")
            counts["different"] += 1
            break
        found = kind(here, there, line)
        counts[found] += 1
        if found in ("refused by both", "cut in a part"):
            pairs[here.split()[1], there.split()[1]] += 1
        if found == "different":
            print(f"{number}: {line or ''}\n  ours    {here}\n  oracle  {there}")
    for (number, name), count in sorted(pairs.items()):
        print(f"refused {number}, {name} in the Rust: {count}")
    print(f"{counts.total()} lines: " + ", ".join(f"{counts[each]} {each}" for each in KINDS))
    return counts["different"] == 0


if __name__ == "__main__":
    if len(sys.argv) not in (3, 4):
        sys.exit("usage: compare/difference.py OURS ORACLE [LIST]")
    sys.exit(0 if compare(*sys.argv[1:]) else 1)
