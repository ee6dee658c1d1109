#!/usr/bin/env python3
"""Writes large uploads for measuring: of 1 MiB, and of half of it, each to the byte (blanks fill it up at the end).

    big.py FOLDER        writes FOLDER/NAME, an upload with no line before it, and prints what the model says of each,
                         without a register

    records        small lawful visits, as many as there is room for: no fault
    every_field    lawful visits with every field that may be written and an order: no fault
    orders         lawful visits with 999 orders each, and a last one with fewer: no fault
    late           small visits as in `records`, each with a fault of rule 29, the last to be tried
    late_orders    visits with orders as in `orders`, each with such a fault
    passed_over    one deletion with one field that is passed over, again and again: no fault
    repeated       one visit with one field again and again: a fault of rule 12 for each time but the first
    without_rows   one visit with fields that have no row, all different as long as there are IDs: faults of rule 11, then of rules 11 and 12

Those without faults are lawful on the receipt day 1130229 from the sender 3501200000, with lists by shape.
"""

import pathlib
import sys

import model
import samples

MIB = 1 << 20
BEGIN, END = model.DECLARATION + b"<RECS>", b"</RECS>"


def text(record):
    return samples.Written(record, 0, b"").text


def upload(size, records):
    """An upload of this size of records."""
    whole = BEGIN + b"".join(records) + END
    assert len(whole) <= size
    return whole + b" " * (size - len(whole))


def fill(room, parts):
    """As many of the parts as there is room for, and the room that is left."""
    taken = []
    for part in parts:
        if len(part) > room:
            break
        taken.append(part)
        room -= len(part)
    return taken, room


def identifier(k):
    return "35012000%012d" % (k + 1)


# Refills that do not fit.
LATE = dict(M26="1", M33="2")


def full_of(size, record, **changes):
    """As many records as there is room for and as an upload may have, each with an identifier of its own."""
    parts = (text(record().set(M15=identifier(k), **changes)) for k in range(model.MOST_RECORDS))
    return upload(size, fill(size - len(BEGIN + END), parts)[0])


def records(size):
    return full_of(size, samples.small)


def every_field(size):
    return full_of(size, lambda: samples.lawful("AK", "A", every=True))


def late(size):
    return full_of(size, samples.small, **LATE)


def full_of_orders(size, **changes):
    """As many records of 999 orders as there is room for, and one with fewer."""
    room, taken = size - len(BEGIN + END), []
    around = len(text(samples.small(M15=identifier(0), **changes)))
    for k in range(model.MOST_RECORDS):
        if room < around:
            break
        parts = (b"".join([b"<MB2>"] + [b"<%s>%s</%s>" % (n.encode(), v.encode(), n.encode()) for n, v in samples.drug(D03=str(j)).items()] + [b"</MB2>"])
                 for j in range(model.MOST_ORDERS))
        within, room = fill(room - around, parts)
        taken.append(text(samples.small(M15=identifier(k), **changes)).replace(b"</MB1>", b"</MB1>" + b"".join(within)))
    return upload(size, taken)


def orders(size):
    return full_of_orders(size)


def late_orders(size):
    return full_of_orders(size, **LATE)


def with_fields(size, record, fields):
    """One record whose visit has as many of the fields as there is room for."""
    whole = text(record)
    within, _ = fill(size - len(BEGIN + whole + END), fields)
    return upload(size, [whole.replace(b"</MB1>", b"".join(within) + b"</MB1>")])


def passed_over(size):
    return with_fields(size, samples.kept("D"), (b"<M20>1</M20>" for _ in range(size)))


def repeated(size):
    return with_fields(size, samples.small(), (b"<M20>1</M20>" for _ in range(size)))


def without_rows(size):
    names = [b"%c%02d" % (letter, k) for letter in b"ABCEFGIJKLNOPQRSTUVWXYZ" for k in range(100)]
    return with_fields(size, samples.small(), (b"<%s>1</%s>" % (names[k % len(names)], names[k % len(names)]) for k in range(size)))


def main():
    folder = pathlib.Path(sys.argv[1])
    folder.mkdir(parents=True, exist_ok=True)
    for make in (records, every_field, orders, passed_over, late, late_orders, repeated, without_rows):
        for name, size in ((make.__name__, MIB), (make.__name__ + "_half", MIB // 2)):
            whole = make(size)
            assert len(whole) == size
            (folder / name).write_bytes(whole)
            said = model.answer(b"%s %s\n%s" % (samples.SENDER, samples.DAY, whole), 2 * MIB, None).split("\n")[0]
            print("%s: %d records, %d accepted, %d faults" % (name, int(said[:4], 16), int(said[4:8], 16), int(said[8:], 16)))


if __name__ == "__main__":
    main()
