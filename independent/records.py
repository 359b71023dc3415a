"""What the program records must print of each line: the record that `rewrite-` reads, written into outputs of several lengths, and changed.

    write NAME L into R: ANSWER outside=SAME
    change NAME C: ANSWER outside=SAME
    value stats V: writable

L is how many bytes the line has, and for a record that is made one byte longer one more. R is the output's length: L + 1, L, L - 1 and 0;
where the line has as many bytes as a slice may have, also 1,048,577 and 0 for the longer record. Where the line has fewer than 65,536 bytes,
C goes through the changes that docs/REPLAY.md lists for the reader, each into an output of 1,048,577 bytes. The answer is
`written N inside=SAME`, by whether the bytes are those of the line, or a refusal of the reader or the writer, in the words of replay. All of
an array of 1,048,577 bytes, of which the output is the first part, is compared with what it held before. V goes through the values and
lengths of Statistics that docs/REPLAY.md lists, made of the first counter, and what is said of each is `writable` or `not writable`.
"""

import sys

import bmp
import replay

LIMIT = 1_048_576
SMALL = 65_536
UNTOUCHED = 0xA5

# A place outside every buffer, and a time that no two words give.
OUTSIDE = 4_294_967_295
NO_TIME = -0.0

# Entries that are not used.
NO_COUNTER = bmp.StatCounter(0, 0, bmp.Raw(bmp.View(0, 0)))
NO_INFORMATION = bmp.InformationTlv(0, 0, bmp.View(0, 0))


def longer(name, record):
    """The record with one byte more in its first view."""
    if name == b"peerdown":
        return record._replace(data=longer_view(record.data))
    if name == b"monitoring":
        return record._replace(bgp_message=longer_view(record.bgp_message))
    if name == b"stats":
        counter = record.counters[0]
        counter = counter._replace(stat_len=counter.stat_len + 1, stat_data=bmp.Raw(longer_view(counter.stat_data.view)))
        return record._replace(counters=[counter] + record.counters[1:])
    return record._replace(tlvs=[longer_tlv(name, record.tlvs[0])] + record.tlvs[1:])


def longer_tlv(name, tlv):
    tlv = tlv._replace(info_len=tlv.info_len + 1)
    if name == b"termination":
        return tlv._replace(info_value=bmp.String(longer_view(tlv.info_value.view)))
    if name == b"mirroring":
        return tlv._replace(value=bmp.BgpMessage(longer_view(tlv.value.view)))
    return tlv._replace(info=longer_view(tlv.info))


def longer_view(view):
    return view._replace(length=view.length + 1)


# The changes of docs/REPLAY.md. What a change does not concern it leaves as it is.


def with_octet(address, place):
    """An unused octet of an IPv4 address is 1."""
    if address.afi != bmp.IPV4:
        return address
    return address._replace(octets=address.octets[:place] + b"\x01" + address.octets[place + 1 :])


def of_other_family(address):
    return address._replace(afi=bmp.IPV4 if address.afi == bmp.IPV6 else bmp.IPV6)


def outside(view):
    return view._replace(place=OUTSIDE)


def of_length(length):
    return lambda view: view._replace(length=length)


def field(name, change):
    """A change of one field of a record, or of an entry."""
    return lambda record: record._replace(**{name: change(getattr(record, name))})


def constant(name, value):
    return lambda record: record._replace(**{name: value})


def entry(place, change, name="tlvs"):
    """A change of the first or the last entry of a table, where it has one."""

    def changed(record):
        table = list(getattr(record, name))
        if table:
            table[place] = change(table[place])
        return record._replace(**{name: table})

    return changed


def overfull(zero, places, name="tlvs"):
    """One entry more than there are places. Places that the record does not use are zero."""

    def changed(record):
        table = (list(getattr(record, name)) + [zero] * places)[:places]
        return record._replace(**{name: table + table[-1:]})

    return changed


def of_form(name, form, change):
    """A change of an entry whose value has this form."""
    return lambda entry: change(entry) if isinstance(getattr(entry, name), form) else entry


def view_and_length(name, form, length):
    """An entry whose value is a view of this form, with this length."""
    return of_form(name, form, lambda e: e._replace(info_len=length, **{name: form(of_length(length)(getattr(e, name).view))}))


def view_outside(name, form):
    return of_form(name, form, lambda e: e._replace(**{name: form(outside(getattr(e, name).view))}))


def empty_information(tlv):
    return tlv._replace(info_len=0, info=of_length(0)(tlv.info))


def has_no_family(counter):
    return not isinstance(counter.stat_data, bmp.AfiSafiGauge)


def where(test, change):
    return lambda entry: change(entry) if test(entry) else entry


def open_changes(name):
    return [field(name, outside), field(name, of_length(18)), field(name, longer_view), field(name, of_length(65_536))]


def stats_changes():
    too_many = overfull(NO_COUNTER, 64, "counters")
    changes = [
        of_form("stat_data", bmp.Counter, constant("stat_data", bmp.Counter(2**32))),
        of_form("stat_data", bmp.AfiSafiGauge, field("stat_data", constant("safi", 256))),
        where(has_no_family, constant("unused_afi", 1)),
        where(has_no_family, constant("unused_safi", 1)),
        view_outside("stat_data", bmp.Raw),
    ]
    return [
        lambda record: too_many(record)._replace(stats_count=65),
        field("stats_count", lambda count: count + 1),
    ] + [entry(0, change, "counters") for change in changes]


def termination_changes():
    return [
        overfull(bmp.TerminationTlv(0, bmp.String(bmp.View(0, 0))), 32),
        entry(0, constant("info_value", bmp.UnknownType(2))),
        entry(0, view_outside("info_value", bmp.String)),
        entry(-1, view_and_length("info_value", bmp.String, 0)),
        entry(0, of_form("info_value", bmp.Reason, constant("info_len", 1))),
        entry(0, of_form("info_value", bmp.Reason, constant("info_value", bmp.Reason(5)))),
    ]


def mirroring_changes():
    return [
        overfull(bmp.RouteMirroringTlv(0, bmp.BgpMessage(bmp.View(0, 0))), 32),
        entry(0, constant("value", bmp.UnknownType(2))),
        entry(0, view_and_length("value", bmp.BgpMessage, 18)),
        entry(0, view_outside("value", bmp.BgpMessage)),
        entry(0, of_form("value", bmp.Information, constant("info_len", 3))),
        entry(0, of_form("value", bmp.Information, constant("value", bmp.Information(2)))),
    ]


def where_data(change):
    return where(lambda record: record.data is not None, change)


# From change 2 on, by the reader's name.
CHANGES = {
    "common": [constant("version", 4)],
    "perpeer": [
        field("peer_ip", lambda address: with_octet(address, 0)),
        field("peer_ip", of_other_family),
        constant("peer_type", 3),
        lambda record: record._replace(peer_flags=record.peer_flags | 0x20, peer_asn=65_536),
        constant("timestamp", NO_TIME),
    ],
    "openbmp": [
        constant("major_version", 2),
        constant("minor_version", 8),
        constant("object_type", 13),
        constant("timestamp", NO_TIME),
        field("router_ip", lambda address: with_octet(address, 15)),
        field("admin_id", outside),
        field("router_group", outside),
        field("admin_id", of_length(65_536)),
        field("router_group", of_length(65_536)),
    ],
    "stats": stats_changes(),
    "initiation": [overfull(NO_INFORMATION, 32), entry(0, field("info", outside)), entry(-1, empty_information)],
    "termination": termination_changes(),
    "mirroring": mirroring_changes(),
    "peerup": [
        field("local_addr", lambda address: with_octet(address, 0)),
        *open_changes("sent_open"),
        *open_changes("received_open"),
        overfull(NO_INFORMATION, 32),
        entry(0, field("info", outside)),
    ],
    "peerdown": [
        where_data(constant("reason", 4)),
        where_data(constant("data", None)),
        where_data(field("data", of_length(0))),
        where_data(field("data", outside)),
    ],
    "monitoring": [field("bgp_message", outside), field("bgp_message", of_length(18))],
}


def write_answer(writer, find_record, buffer, room):
    """The output is cut off an array, all of which is compared."""
    array = bytearray([UNTOUCHED]) * (LIMIT + 1)
    output = array[:room]
    try:
        length = writer(find_record(), buffer, output)
        said = f"written {length} inside={same(output[:length] == buffer[:length])}"
    except bmp.Refused as refusal:
        length = 0
        said = replay.show_refusal(refusal)
    array[:room] = output
    return f"{said} outside={same(array[length:] == bytearray([UNTOUCHED]) * (LIMIT + 1 - length))}"


def same(test):
    return "same" if test else "other"


def answers(line):
    fields = line.split(b" ")
    name = fields[0].removeprefix(b"rewrite-")
    if len(fields) != 3 or not fields[0].startswith(b"rewrite-") or name not in replay.READERS:
        return [replay.BAD_LINE]
    arguments, reader, _show, writer = replay.READERS[name]
    data = replay.bytes_of(fields[2])
    if fields[1] not in arguments or data is None:
        return [replay.BAD_LINE]
    return record_answers(name.decode("ascii"), data, lambda: reader(data, **arguments[fields[1]]).record, writer)


def record_answers(name, data, read, writer):
    length = len(data)
    buffer = data + bytes(LIMIT + 1 - length)
    tries = [(read, length, room) for room in (length + 1, length, max(length - 1, 0), 0)]
    if length == LIMIT:
        tries += [(lambda: longer(name.encode(), read()), length + 1, room) for room in (LIMIT + 1, 0)]
    for find_record, said_length, room in tries:
        yield f"write {name} {said_length} into {room}: {write_answer(writer, find_record, buffer, room)}"
    if length < SMALL:
        yield from change_answers(name, buffer, read, writer)
        if name == "stats":
            yield from value_answers(buffer, read)


def change_answers(name, buffer, read, writer):
    for number, change in enumerate(CHANGES[name], start=2):
        answer = write_answer(writer, lambda change=change: change(read()), buffer, LIMIT + 1)
        yield f"change {name} {number}: {answer}"


def value_answers(buffer, read):
    try:
        tests = [bmp.is_counter_writable(tried, buffer) for tried in value_tries((read().counters + [NO_COUNTER])[0])]
    except bmp.Refused:
        tests = 4 * [False]
    for number, test in enumerate(tests, start=1):
        yield f"value stats {number}: {'writable' if test else 'not writable'}"


def value_tries(counter):
    length = counter.stat_len
    return [
        counter,
        counter._replace(stat_len=length + 1),
        counter._replace(stat_data=bmp.Raw(bmp.View(0, length))),
        counter._replace(stat_data=bmp.Raw(bmp.View(OUTSIDE, length))),
    ]


def main():
    for line in sys.stdin.buffer:
        line = line[:-1] if line.endswith(b"\n") else line
        if line:
            for answer in answers(line):
                print(answer)


if __name__ == "__main__":
    main()
