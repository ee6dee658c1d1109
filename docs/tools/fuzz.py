#!/usr/bin/env python3
"""Random inputs of `judge`: lawful records that are damaged a little, or that use few keys again and again, and what the model says of them.

    fuzz.py write COUNT SEED FOLDER        writes inputs NAME and expected outputs NAME.stdout
    fuzz.py compare COUNT SEED PROGRAM     runs a program on each, and tells of each difference a smallest input that shows it
    fuzz.py survey COUNT SEED              tells how often each rule and refusal comes

The same seed gives the same inputs.
"""

import collections
import copy
import pathlib
import random
import subprocess
import sys

import model
import queues
import samples

DAYS = [b"1130229"] * 12 + [b"1130215", b"1130214", b"1130301", b"1130228", b"9991231", b"0010101", b"1120229"]
NAMES = model.FIELDS + ["H02", "M00", "M53", "D00", "D16", "A05", "Z99"]
ODD = ["", " ", "0", "1", "9", "-", "A", "a", "00", "AB", b"\xa4\xa4", b"\xa4\x40", b"\xfe\xfe", "1130215", "1130215093000", "x" * 21, "~", "."]


def pools():
    """The values that the samples give to each field: they lie at the rules' boundaries."""
    found = {name: set() for name in NAMES}
    for name in ("first_tier", "second_tier", "third_tier", "codes_and_refills", "forms", "full"):
        for record, *_ in samples.SAMPLES[name]():
            for segment in [record.header, record.visit] + record.orders:
                for field, value in segment:
                    found.setdefault(field, set()).add(value if isinstance(value, bytes) else value.encode())
    found["M05"] = {samples.SENDER}
    found["H01"] |= {b"A", b"B"}
    return {name: sorted(values) or [b"1"] for name, values in found.items()}


POOLS = pools()


def value_for(dice, name):
    if name != "M05" and dice.random() < 0.12:
        return dice.choice(ODD)
    if name == "M05" and dice.random() < 0.004:
        return "3501200009"
    return dice.choice(POOLS[name])


def fitting(dice, name):
    return dice.choice([v for v in POOLS[name] if model.has_form(v, model.FORMS[name])])


def order_for(dice):
    order = samples.drug() if dice.random() < 0.6 else {}
    give = fitting if dice.random() < 0.9 else value_for
    for name in dice.sample([n for n in model.FIELDS if n[0] == "D"], dice.randint(0, 6)):
        order[name] = give(dice, name)
    if dice.random() < 0.5:
        order["D03"] = dice.choice(["1", "2", "02", "3", "003"])
    return list(order.items())


def start(dice):
    """A lawful record, or nearly so."""
    kind = dice.random()
    if kind < 0.12:
        return samples.kept(dice.choice("CD"))
    action = dice.choice("AB")
    if kind < 0.35:
        return samples.small(action)
    return samples.lawful(dice.choice(model.CATEGORIES), action, every=dice.random() < 0.35)


def change(dice, record):
    """Damages a record in one way."""
    segments = [record.header, record.visit, record.visit, record.visit] + record.orders
    segment = dice.choice(segments)
    kind = dice.random()
    if kind < 0.45 and segment:
        at = dice.randrange(len(segment))
        segment[at] = (segment[at][0], value_for(dice, segment[at][0]))
    elif kind < 0.60:
        letter = "H" if segment is record.header else "D" if segment in record.orders else "M"
        name = dice.choice([n for n in model.FIELDS if n[0] == letter])
        if all(n != name for n, _ in segment):
            segment.insert(dice.randint(0, len(segment)), (name, value_for(dice, name)))
    elif kind < 0.66 and segment:
        del segment[dice.randrange(len(segment))]
    elif kind < 0.70 and segment:
        name, value = dice.choice(segment)
        segment.insert(dice.randint(0, len(segment)), (name, dice.choice([value, value_for(dice, name)])))
    elif kind < 0.73 and segment:
        moved = segment.pop(dice.randrange(len(segment)))
        other = dice.choice(segments)
        other.insert(dice.randint(0, len(other)), moved)
    elif kind < 0.76 and segment:
        at = dice.randrange(len(segment))
        segment[at] = (segment[at][0], "")
    elif kind < 0.78:
        name = dice.choice(NAMES)
        segment.insert(dice.randint(0, len(segment)), (name, value_for(dice, name)))
    elif kind < 0.82:
        dice.shuffle(segment)
    elif kind < 0.84:
        record.set(H01=dice.choice("ABCDE"))
    elif kind < 0.87:
        record.set(M07=dice.choice(model.CATEGORIES))
    elif kind < 0.95:
        for _ in range(dice.randint(1, 3)):
            record.orders.insert(dice.randint(0, len(record.orders)), order_for(dice))
    elif record.orders:
        if dice.random() < 0.5:
            record.orders.append(copy.deepcopy(dice.choice(record.orders)))
        else:
            del record.orders[dice.randrange(len(record.orders))]


GROUPS = [["M08", "M09", "M10"], ["M08", "M09", "M10", "M04"], ["M26", "M33"], ["M12", "M49", "M52"], ["M11", "D01"], ["M04", "M11"], ["M13"], ["M13"]]
GROUPS += [[n] for n in "D02 D03 D04 D09 M06 M13 M15 M16 M17 M33 M35 M38 M41 M43 M50 M52 D01 D02 D03 D04 D06 D08 D09 D11 D12 D14".split()]


def nudge(dice, record):
    """Gives a few fields other values of the right form, where they may be written, and leaves out some that are free: the third tier."""
    action = dict(record.header)["H01"]
    category = dict(record.visit).get("M07")
    if not record.orders and dice.random() < 0.3:
        record.orders += [order_for(dice) for _ in range(dice.randint(1, 4))]
    order = dice.choice(record.orders) if record.orders else None
    for name in dice.choice(GROUPS):
        cell = model.NEEDS[name][2 * model.CATEGORIES.index(category) + "AB".index(action)] if category else "*"
        segment = record.visit if name[0] == "M" else order
        if cell == "~" or segment is None:
            continue
        at = next((k for k, (n, _) in enumerate(segment) if n == name), None)
        value = fitting(dice, name)
        if at is None:
            segment.insert(dice.randint(0, len(segment)), (name, value))
        elif cell == "*" and dice.random() < 0.25:
            del segment[at]
        else:
            segment[at] = (name, value)


def upload_of(dice):
    records = []
    for _ in range(dice.choice([1, 1, 2, 3, 5, 10, 20, 40])):
        record = start(dice)
        way = nudge if dice.random() < 0.6 else change
        for _ in range(dice.choice([0, 1, 1, 1, 2, 2, 3, 4, 6])):
            way(dice, record)
        records.append(record)
    return records


def spoil(dice, record):
    """Damages a record in the one or the other way."""
    (nudge if dice.random() < 0.6 and dict(record.visit).get("M07") in model.CATEGORIES else change)(dice, record)


def night_of(dice):
    """Records of one night from one sender, and their day."""
    night = queues.Night(dice, spoil, hurt, [samples.SENDER.decode()])
    for _ in range(dice.randint(1, 12)):
        night.add("receive", night.senders[0], night.receipt(), 4096, 0, night.records(night.senders[0]))
    records = [record for command in night.commands for record in command[-1]]
    return records, night.receipt().encode()


def text_of(records, day, blanks=(b"", b"")):
    text, _ = samples.write([(r,) for r in records], *blanks)
    return text[:11] + day + text[18:]


def hurt(dice, text):
    """Damages single bytes, so that the file goes back whole, mostly."""
    at = dice.randrange(len(text))
    kind = dice.random()
    if kind < 0.4:
        return text[:at] + bytes([dice.choice(b"<>/&\"' \t\nAM0\x80\x81\xa4\xff")]) + text[at + 1:]
    if kind < 0.6:
        return text[:at] + text[at + 1:]
    if kind < 0.8:
        return text[:at]
    tag = dice.choice(model.STRUCTURE)
    where = text.find(b"<", at)
    return text[:where] + tag + text[where:] if where >= 0 else text + tag


def case(seed):
    """An input: its records and its day, or none and the text alone."""
    dice = random.Random(seed)
    records, day = night_of(dice) if dice.random() < 0.4 else (upload_of(dice), dice.choice(DAYS))
    blanks = dice.choice([(b"", b""), (b"", b""), (b"\n", b""), (b"\r\n", b"\t "), (b" ", b"\n")])
    text = text_of(records, day, blanks)
    if dice.random() < 0.06:
        return None, day, hurt(dice, text)
    return records, day, text


def run(program, text):
    done = subprocess.run([program], input=text, stdout=subprocess.PIPE, timeout=60)
    return done.stdout.decode() + ("" if done.returncode == 0 else "\n(status %d)" % done.returncode)


def smaller(records):
    """Records with a record, an order or a field less."""
    for k in range(len(records)):
        if len(records) > 1:
            yield records[:k] + records[k + 1:]
    for k, record in enumerate(records):
        for j in range(len(record.orders)):
            less = copy.deepcopy(records)
            del less[k].orders[j]
            yield less
        for number, segment in enumerate([record.header, record.visit] + record.orders):
            for at in range(len(segment)):
                less = copy.deepcopy(records)
                del ([less[k].header, less[k].visit] + less[k].orders)[number][at]
                yield less


def shrink(program, records, day):
    while True:
        for less in smaller(records):
            text = text_of(less, day)
            if run(program, text) != model.answer(text) + "\n":
                records = less
                break
        else:
            return text_of(records, day)


def compare(count, seed, program):
    bad = 0
    for k in range(count):
        records, day, text = case(seed * 1_000_003 + k)
        if run(program, text) != model.answer(text) + "\n":
            bad += 1
            least = shrink(program, records, day) if records else text
            print("input %d:\n%s\nthe program says\n%sthe model\n%s\n" % (k, least.decode("latin-1"), run(program, least), model.answer(least)))
            if bad == 20:
                break
    print("%d inputs, %d differ" % (count, bad))
    return bad


def survey(count, seed):
    seen = collections.Counter()
    for k in range(count):
        lines = model.answer(case(seed * 1_000_003 + k)[2]).split("\n")
        if len(lines[0]) == 12:
            seen["refusal %d, cause %d" % (int(lines[0][:2], 16), int(lines[0][2:4], 16))] += 1
        else:
            seen["records"] += int(lines[0][:4], 16)
            seen["accepted"] += int(lines[0][4:8], 16)
        for line in lines[1:]:
            seen["rule %d" % int(line[14:16], 16)] += 1
    for name, number in sorted(seen.items()):
        print(name, number)


def main():
    do, count, seed = sys.argv[1], int(sys.argv[2]), int(sys.argv[3])
    if do == "write":
        folder = pathlib.Path(sys.argv[4])
        folder.mkdir(parents=True, exist_ok=True)
        for k in range(count):
            text = case(seed * 1_000_003 + k)[2]
            (folder / ("%06d" % k)).write_bytes(text)
            (folder / ("%06d.stdout" % k)).write_text(model.answer(text) + "\n")
    elif do == "compare":
        sys.exit(1 if compare(count, seed, sys.argv[4]) else 0)
    elif do == "survey":
        survey(count, seed)


if __name__ == "__main__":
    main()
