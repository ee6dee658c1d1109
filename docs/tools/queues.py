#!/usr/bin/env python3
"""Random queues of `relay` in dense use: few senders, few keys, two patients, small registers, days around the due days.

A queue is a list of commands, so that it can be made smaller: ("register", kind, slots), ("shape",), ("rows", rows), ("lookup", sender, identifier),
and ("receive", sender, day, verdict rows, report rows, upload), whose upload is bytes or a list of records. `write` makes the bytes of it.

fuzz_relay.py makes queues of it and compares a program with the model.
"""

import model
import relay_model
import samples

SENDERS = ["3501200000", "3501200001", "AB00000009"]
IDENTIFIERS = [name + "0" * 18 + "1" for name in "ABCDE"]
PLACEHOLDERS = ["9" * 20, "F" * 20, "35AZ" + "0" * 16]
PATIENTS = [("A123456789", "0010101"), ("A1", "0010102")]
ORDINARY = "01 01 01 02 04 08 09 AA AC AG AK BC CA DA DA EA".split()
WHERE = [(113, 1), (113, 1), (113, 12), (112, 1), (189, 1), (1, 1), (999, 9), (999, 11)]


def day_of(month, day):
    """A day of the month with this number, counted from year 0; day 31 is its last, whatever its length."""
    month = min(max(month, 12), 999 * 12 + 11)
    year, month = month // 12, month % 12 + 1
    return "%03d%02d%02d" % (year, month, min(day, model.month_length(year, month)))


class Night:
    """A queue in the making. The model works it meanwhile, so that what stands is known. `damage` spoils a record, `hurt` an upload's bytes."""

    def __init__(self, dice, damage, hurt, senders=None):
        self.dice, self.damage, self.hurt = dice, damage, hurt
        self.relay = relay_model.Relay(b"")
        self.senders = senders or SENDERS[:dice.choice([1, 2, 2, 3])]
        self.identifiers = IDENTIFIERS[:dice.randint(2, 5)]
        year, month = dice.choice(WHERE)
        self.first = self.month = year * 12 + month
        self.day = 15
        self.commands = []

    def chance(self, share):
        return self.dice.random() < share

    def add(self, *command):
        self.commands.append(command)
        self.relay.queue, self.relay.at = write([command]), 0
        self.relay.answers()

    # ------------------------------------------------------------------------------------------------------------------ records

    def standing(self, sender=None):
        """The keys that stand, of one sender or of all."""
        return [tuple(part.decode() for part in key) for key in sorted(self.relay.register.entries) if sender in (None, key[0].decode())]

    def identifier(self, sender, share):
        """Of what stands, with this chance, or any."""
        if self.chance(0.04):
            return self.dice.choice(PLACEHOLDERS)
        stand = self.standing(sender)
        return self.dice.choice(stand)[1] if stand and self.chance(share) else self.dice.choice(self.identifiers)

    def person(self, sender, identifier):
        """Mostly the patient of what stands."""
        entry = self.relay.register.entries.get((sender.encode(), identifier.encode()))
        if entry and self.chance(0.9):
            return entry.patient, entry.birth
        patient, birth = self.dice.choice(PATIENTS)
        return (patient, self.dice.choice(PATIENTS)[1]) if self.chance(0.1) else (patient, birth)

    def moment(self):
        """A visit on the receipt day or in the months before it."""
        back = self.dice.choice([0] * 8 + [1] * 8 + [2, 3])
        day = day_of(self.month - back, self.dice.choice([1, 1, 15, 31, 31]))
        if day > self.receipt() and self.chance(0.95):
            day = self.receipt()
        return day + self.dice.choice(["000000", "093000", "235959"])

    def receipt(self):
        return day_of(self.month, self.day)

    def refills(self, highest):
        """Rising digits, few."""
        digits = sorted(self.dice.sample(range(1, highest + 1), min(highest, self.dice.choice([0, 1, 1, 1, 2]))))
        return "".join(map(str, digits)) or self.dice.choice(["", "0"])

    def visit(self, sender, identifier):
        action = self.dice.choice("AAAB")
        patient, birth = self.person(sender, identifier)
        dispensed = self.chance(0.5)
        category = self.dice.choice(["AE", "AF"]) if dispensed else self.dice.choice(ORDINARY)
        record = samples.lawful(category, "A" if category == "AC" else action, every=self.chance(0.1))
        moment = self.moment()
        times = 9 if dispensed and self.chance(0.8) else self.dice.choice([None, 0, 1, 2, 2, 3, 3, 9])
        record.set(M15=identifier, M03=patient, M04=birth, M05=sender, M11=moment, M26=None if times is None else str(times), M33=self.refills(min(times or 0, 3)))
        if any(name == "M08" for name, _ in record.visit):
            record.set(M08=None, M09=None, M10=None)
        if any(name == "M50" for name, _ in record.visit):
            record.set(M50=self.dice.choice(["W0101", "W0101", "RRRRR", "DW", "ER", "W-01"]))
        for order in record.orders:
            order[:] = [(name, moment if name == "D01" else value) for name, value in order]
        if model.NEEDS["M16"][2 * model.CATEGORIES.index(category)] != "~":
            stand = self.standing()
            origin = self.dice.choice(stand) if stand and self.chance(0.5) else (self.dice.choice(self.senders), self.dice.choice(self.identifiers))
            record.set(M17=origin[0], M16=self.dice.choice(PLACEHOLDERS) if self.chance(0.1) else origin[1])
        return record

    def record(self, sender):
        kind = self.dice.random()
        identifier = self.identifier(sender, 0.7 if kind < 0.28 else 0.2)
        if kind < 0.28:
            patient, birth = self.person(sender, identifier)
            record = samples.kept("C" if kind < 0.13 else "D", M15=identifier, M03=patient, M04=birth, M05=sender)
        else:
            record = self.visit(sender, identifier)
        if self.chance(0.05):
            self.damage(self.dice, record)
            # What a look-up prints of a patient is plain.
            record.visit[:] = [(name, "A" if name == "M03" and not is_plain(value) else value) for name, value in record.visit]
        return record

    def records(self, sender):
        return [self.record(sender) for _ in range(self.dice.choice([1, 1, 1, 1, 2, 2, 3, 4, 6, 12]))]

    # ----------------------------------------------------------------------------------------------------------------- commands

    def receive(self):
        sender = self.dice.choice(self.senders)
        upload = self.records(sender) if self.chance(0.98) else []
        if self.chance(0.03):
            upload = self.hurt(self.dice, text_of(upload))
        elif self.chance(0.01):
            upload = b""
        day = self.receipt() if self.chance(0.99) else self.dice.choice(["1130230", "0000101", "113022", "11302290"])
        called = sender if self.chance(0.99) else self.dice.choice([sender[:9], sender + "0", sender[:9] + "a"])
        verdict_rows = 4096 if self.chance(0.98) else self.dice.choice([0, 4095, 4097, 9999])
        self.add("receive", called, day, verdict_rows, self.dice.choice([4096, 4096, 4096, 0, 1, 2, 3]), upload)

    def rows(self):
        """Rows for all codes that lawful records have here, some too few or too short; some of them bad."""
        codes = [(1, sender) for sender in SENDERS] + [(2, "B223456789"), (3, "AC12345100"), (4, "J00"), (6, "W0101"), (7, "A000")]
        codes += [code for code in [(1, "A"), (4, "I10"), (4, "J0"), (4, "J000"), (5, "0FT44ZZ"), (7, "A001")] if self.chance(0.3)]
        rows = []
        for number, code in sorted(codes):
            if self.chance(0.97):
                days = sorted(day_of(self.month - self.dice.randint(-1, 2), self.dice.choice([1, 15, 31])) for _ in range(2))
                rows.append([number, code] + (days if self.chance(0.12) else ["0010101", "9991231"]))
        for _ in range(self.dice.choice([0, 0, 0, 1, 2])):
            self.spoil(rows)
        self.add("rows", [tuple(row) for row in rows])

    def spoil(self, rows):
        if not rows:
            return
        at, kind = self.dice.randrange(len(rows)), self.dice.randrange(7)
        if kind == 0:
            rows.insert(at, list(rows[at]))
        elif kind == 1:
            rows.insert(at, rows.pop(self.dice.randrange(len(rows))))
        elif kind == 2:
            rows[at][0] = self.dice.choice([0, 8, 255])
        elif kind == 3:
            rows[at][1] = "A" * self.dice.choice([12, 13, 14])
        elif kind == 4:
            rows[at][self.dice.choice([2, 3])] = self.dice.choice(["1130230", "0000101", "113022A", "9991232"])
        elif kind == 5:
            rows[at][2:] = self.dice.choice([["1130102", "1130101"], ["1130101", "1130101"]])
        else:
            rows[at][1] = rows[at][1][:-1] or "Z"

    def look(self):
        for sender in self.senders:
            for identifier in self.identifiers:
                if self.chance(0.3):
                    self.add("lookup", sender, identifier)
        if self.chance(0.02):
            self.add("lookup", self.senders[0], self.dice.choice(PLACEHOLDERS))

    def register(self):
        slots = self.dice.choice([0, 1, 2, 3, 3, 4, 4, 5, 6, 6, 256, 65_536, 65_537])
        self.add("register", self.dice.choice(["ordered", "scattered"]), slots)

    def go_on(self):
        """Another day, also backward, so that what was past due may be withdrawn again."""
        self.day = self.dice.choice([1, 1, 15, 31, 31])
        self.month = self.first + self.dice.choice([0] * 6 + [1] * 5 + [2, 3])

    def run(self, steps):
        if self.chance(0.95):
            self.register()
        for _ in range(steps):
            kind = self.dice.random()
            if kind < 0.03:
                self.register()
            elif kind < 0.08:
                self.add("shape")
            elif kind < 0.14:
                self.rows()
            elif kind < 0.24:
                self.go_on()
            else:
                self.receive()
                self.look()
        return self.commands


def is_plain(value):
    return all(32 <= byte < 127 for byte in (value if isinstance(value, bytes) else value.encode()))


def text_of(records):
    """The upload of some records, without the line of sender and day."""
    return samples.write([(record,) for record in records], b"")[0][19:]


def write(commands):
    """The bytes of a queue."""
    lines = []
    for name, *parts in commands:
        if name == "shape":
            lines.append(b"lists shape")
        elif name == "rows":
            lines.append(b"lists rows %d" % len(parts[0]))
            lines += [" ".join(map(str, row)).encode() for row in parts[0]]
        elif name == "receive":
            upload = parts[-1] if isinstance(parts[-1], bytes) else text_of(parts[-1])
            lines += [" ".join(["receive", *map(str, parts[:-1]), str(len(upload))]).encode(), upload]
        else:
            lines.append(" ".join([name, *map(str, parts)]).encode())
    return b"".join(line + b"\n" for line in lines)
