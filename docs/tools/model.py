#!/usr/bin/env python3
"""What `judge` prints, worked out a second time.

A model of the rules of docs/FORMAT.md in plain Python, made from the rules' text alone and kept apart from the proved code, so that the two
can be compared: it shares no table and no thought with it. It judges one record after the other as a reader would do it by hand, and is slow.

    model.py < INPUT         prints what `judge` prints of the input

All rules are judged, 11 to 29 by the record alone and 30 to 35 by the register.
"""

import sys

MOST_INPUT = 65_536
MOST_BYTES = 1_048_576
MOST_RECORDS = 4_096
MOST_ORDERS = 999
MOST_ENTRIES = 65_536
ROWS = 4_096
SLOTS = 256

# ---------------------------------------------------------------------------------------------------------------------- the tables

CATEGORIES = ("01 02 03 04 05 06 07 08 09 AJ AA AB AC AD AE AF AG AH AI BA BB BC BD BE BF CA DA DB DC AK EA").split()

# The need of each field: V required, ~ barred, * free. Two letters a category, in the order above: under A, then under B.
NEEDS = dict(line.split() for line in """
H00 VVVVVVVVVVVVVVVVVVVVVVVVVVVVVVVVVVVVVVVVVVVVVVVVVVVVVVVVVVVVVV
H01 VVVVVVVVVVVVVVVVVVVVVVVVVVVVVVVVVVVVVVVVVVVVVVVVVVVVVVVVVVVVVV
M01 V~V~V~V~V~V~V~V~V~V~V~V~V~V~V~V~V~V~V~V~V~V~V~V~V~V~V~V~V~V~V~
M02 V~V~V~V~V~V~V~V~V~V~V~V~V~V~V~V~V~V~V~V~V~V~V~V~V~V~V~V~V~V~V~
M03 VVVVVVVVVVVVVVVVVVVVVVVVVVVVVVVVVVVVVVVVVVVVVVVVVVVVVVVVVVVVVV
M04 VVVVVVVVVVVVVVVVVVVVVVVVVVVVVVVVVVVVVVVVVVVVVVVVVVVVVVVVVVVVVV
M05 VVVVVVVVVVVVVVVVVVVVVVVVVVVVVVVVVVVVVVVVVVVVVVVVVVVVVVVVVVVVVV
M06 VVVVVVVVVVVVVVVVVVVVVVVVVVVVVVVVVVVVVVVVVVVVVVVVVVVVVVVVVVVVVV
M07 VVVVVVVVVVVVVVVVVVVVVVVVVVVVVVVVVVVVVVVVVVVVVVVVVVVVVVVVVVVVVV
M08 **************************************************************
M09 **************************************************************
M10 **************************************************************
M11 VVVVVVVVVVVVVVVVVVVVVVVVVVVVVVVVVVVVVVVVVVVVVVVVVVVVVVVVVVVVVV
M12 VVVVVVVVVVVVVVVVVVVVVVVVVVVVVVVVVVVVVVVVVVVVVVVVVVVVVVVVVVVVVV
M13 VVVVVVVVVVVVVVVVVV*V*V*VVV~V*V*V*V*V*V~V~V~V~V~V~V~V~V~V~V~V~V
M14 V~V~V~V~V~V~V~V~V~V~V~V~V~V~V~V~V~V~V~V~V~V~V~V~V~V~V~V~V~V~V~
M15 VVVVVVVVVVVVVVVVVVVVVVVVVVVVVVVVVVVVVVVVVVVVVVVVVVVVVVVVVVVVVV
M16 ~~~~~~~~~~~~~~~~~~VVVVVV~~~~VVVVVVVVVVVVVVVVVV~~VV******VVVVVV
M17 ~~~~~~~~~~~~~~~~~~VVVVVV~~~~VVVVVVVVVVVVVVVVVV~~VV******VVVVVV
M18 ~~~~~~~~~~~~~~~~~~VVVVVV~~~~VVVVVVVVVVVVVVVVVV~~VV******VVVVVV
M19 ~~~~~~~~~~~~~~~~~~VVVVVV~~~~VVVVVVVVVVVVVVVVVV~~VV******VVVVVV
M20 ******~~~~******************VVVV~~****~~~~****~~~~********~~~~
M21 ******~~~~******~~~~~~~~~~******~~~~**~~~~~~~~~~~~**~~~~~~~~~~
M22 ******~~~~******~~~~~~~~~~******~~~~**~~~~~~~~~~~~**~~~~~~~~~~
M23 VVVV************VV********VV~~~~******************************
M24 **************************************************************
M25 **************************************************************
M26 **************************************************************
M27 **************************************************************
M28 **************************************************************
M29 **************************************************************
M30 ****************~~~~******************************************
M31 ****************~~~~******************************************
M32 ****************~~~~******************************************
M33 **************************************************************
M34 **************************************************************
M35 VVVVVVVVVVVVVVVVVVVVVVVV**VVVVVVVVVV**VVVVVVVVVVVV******VVVVVV
M36 **************************************************************
M37 **************************************************************
M38 **************************************************************
M39 **************************************************************
M40 **************************************************************
M41 **************************************************************
M42 **************************************************************
M43 **************************************************************
M44 VVVVVV**~~VVVVVVVVVVVVVVVVVVVVVVVVVV**********~~~~************
M45 VVVVVV**~~VVVVVVVVVV******VVVV**************VV~~~~************
M46 ****************~~~~********************VV**************VV****
M47 ****************~~~~********************VV**************VV****
M48 ****************~~~~******************************************
M49 **************************************************************
M50 ******VVVV******VVVV******************VVVVVVVVVVVV~~~~~~VVVVVV
M51 VVVVVVVVVVVVVVVVVVVVVVVVVVVVVVVVVVVVVVVVVVVVVVVVVVVVVVVVVVVVVV
M52 **************************************************************
D01 ****************VVVV********VVVVVV********VV******************
D02 ****************VVVV********VVVVVV********VV******************
D03 ****************VVVV********VVVVVV********VV******************
D04 ****************************VVVVVV****************************
D05 ****************VVVV********VVVVVV****************************
D06 ****************VVVV********VVVVVV********VV******************
D07 ******************************************VV******************
D08 ****************************VVVV******************************
D09 ****************************VVVV******************************
D10 ****************************VVVVVV********VV******************
D11 **************************************************************
D12 **************************************************************
D13 **************************************************************
D14 ****************************VVVV******************************
D15 **************************************************************
""".strip().splitlines())

# The written form of each field: X n is 1 to n bytes, 9 n is 1 to n digits, "day" and "moment" are real ones, "amount n" is n digits at most, of
# which the first may be a minus, and "quantity" is 1 to 5 digits, perhaps with a point and one digit.
FORMS = dict(line.split(" ", 1) for line in """
H00 X 1
H01 X 1
M01 X 12
M02 X 12
M03 X 10
M04 day
M05 X 10
M06 X 10
M07 X 2
M08 day
M09 9 1
M10 X 1
M11 moment
M12 X 1
M13 X 4
M14 X 256
M15 X 20
M16 X 20
M17 X 10
M18 X 4
M19 moment
M20 9 2
M21 9 2
M22 9 2
M23 X 1
M24 9 1
M25 9 1
M26 9 1
M27 9 1
M28 9 1
M29 9 1
M30 9 1
M31 9 1
M32 9 1
M33 9 4
M34 9 4
M35 X 9
M36 X 9
M37 X 9
M38 X 9
M39 X 9
M40 X 9
M41 X 9
M42 X 9
M43 X 9
M44 amount 8
M45 amount 8
M46 amount 8
M47 amount 7
M48 amount 7
M49 moment
M50 X 10
M51 X 2
M52 X 20
D01 moment
D02 X 1
D03 9 3
D04 X 1
D05 X 1
D06 X 12
D07 X 6
D08 X 18
D09 9 2
D10 quantity
D11 X 40
D12 X 10
D13 X 20
D14 X 4
D15 X 100
""".strip().splitlines())

# Codes of D06 with which D08 and D14 are excused.
EXCUSED = b"M01 M02 M03 M04 M05 M06 M11 M12 M13 A21 MA1 MA2 MA3 MA4 P31102 P32102 P33021 P23021 P34021 P38021".split()

# The visit numbers of an abnormal visit, list 7.
ABNORMAL = (b"A000 A001 A010 A011 A020 A021 A030 A031 B000 B001 C000 C001 D000 D001 "
            b"D010 D011 E000 E001 F000 Z000 Z001 G000 IC98 IC09 F00B CV19 FORE TM01").split()

# Which list has the codes of a field; list 7 has M13, under B alone.
LISTS = {"M05": 1, "D12": 1, "M06": 2, "D06": 3, "M35": 4, "M36": 4, "M37": 4, "M38": 4, "M39": 4, "M40": 4, "M41": 5, "M42": 5, "M43": 5, "M50": 6}

# Beds that need not be in the list.
BEDS = [b"RRRRR", b"DW", b"ER"]

# What is kept of a cancellation or a deletion; all other fields are passed over.
KEPT = ["H00", "H01", "M03", "M04", "M05", "M15"]

FIELDS = list(NEEDS)
DIGITS = b"0123456789"
CAPITALS = b"ABCDEFGHIJKLMNOPQRSTUVWXYZ"
SIGNS = CAPITALS + DIGITS

# ------------------------------------------------------------------------------------------------------------------- small tests


def all_of(value, kind):
    return len(value) > 0 and all(b in kind for b in value)


def is_day(value):
    """Seven digits of a real day of the years 001 to 999; the leap years are those of the year plus 1911."""
    if len(value) != 7 or not all_of(value, DIGITS):
        return False
    year, month, day = int(value[:3]), int(value[3:5]), int(value[5:])
    return year >= 1 and 1 <= month <= 12 and 1 <= day <= month_length(year, month)


def is_moment(value):
    if len(value) != 13 or not all_of(value, DIGITS) or not is_day(value[:7]):
        return False
    return int(value[7:9]) <= 23 and int(value[9:11]) <= 59 and int(value[11:]) <= 59


def is_quantity(value):
    whole, point, part = value.partition(b".")
    return all_of(whole, DIGITS) and len(whole) <= 5 and (point == b"" or len(part) == 1 and all_of(part, DIGITS))


def has_form(value, form):
    kind, _, width = form.partition(" ")
    if kind == "day":
        return is_day(value)
    if kind == "moment":
        return is_moment(value)
    if kind == "quantity":
        return is_quantity(value)
    if not 1 <= len(value) <= int(width):
        return False
    if kind == "X":
        return True
    if kind == "amount" and value[:1] == b"-":
        value = value[1:]
    return all_of(value, DIGITS)


def count_characters(value):
    """A pair of Big5 is one character."""
    count, at = 0, 0
    while at < len(value):
        at += 2 if value[at] >= 0x81 else 1
        count += 1
    return count


def is_placeholder(identifier):
    """Identifiers that stand for no particular record."""
    return identifier in (b"9" * 20, b"F" * 20) or len(identifier) == 20 and identifier.endswith(b"0" * 16)


def month_length(year, month):
    """Years are those of the Republic: 1911 less than the Gregorian ones."""
    gregorian = year + 1911
    leap = gregorian % 4 == 0 and (gregorian % 100 != 0 or gregorian % 400 == 0)
    return [31, 29 if leap else 28, 31, 30, 31, 30, 31, 31, 30, 31, 30, 31][month - 1]


def due_day(visit):
    """The last day of the month after that of a visit, given by its day or its moment. After December 999 there is no month."""
    year, month = int(visit[:3]), int(visit[3:5])
    if (year, month) == (999, 12):
        return b"9991231"
    year, month = (year + 1, 1) if month == 12 else (year, month + 1)
    return b"%03d%02d%02d" % (year, month, month_length(year, month))


# --------------------------------------------------------------------------------------------------------------------- code lists
#
# Lists are a function of list number, code and day.


def by_shape(number, code, day):
    return code in ABNORMAL if number == 7 else 1 <= number <= 6 and 1 <= len(code) <= 12 and all_of(code, SIGNS)


def by_rows(rows):
    """Lists of rows (list number, code, first day, last day). Refused with the number of the first row that is bad."""
    for k, (number, code, first, last) in enumerate(rows):
        good = 1 <= number <= 7 and 1 <= len(code) <= 12 and is_day(first) and is_day(last) and first <= last
        if not good or k > 0 and not (rows[k - 1][:2] < (number, code)):
            raise Refused(10, 0, k)
    return lambda number, code, day: any((number, code) == row[:2] and row[2] <= day <= row[3] for row in rows)


# ------------------------------------------------------------------------------------------------------------- reading an upload


class Refused(Exception):
    def __init__(self, number, cause, place):
        self.number, self.cause, self.place = number, cause, place

    def __str__(self):
        return "%02X%02X%08X" % (self.number, self.cause, self.place)


class Field:
    def __init__(self, name, tag, place, value):
        self.name, self.tag, self.place, self.value = name, tag, place, value


class Segment:
    """A segment of a record: 0 is the header, 1 the visit, 2 the first order. It keeps the written fields alone."""

    def __init__(self, letter, number, tag):
        self.letter, self.number, self.tag = letter, number, tag
        self.fields = []

    def owns(self, name):
        return name[0] == self.letter and name in NEEDS

    def find(self, name):
        """The field of that name that has the value: the first, in its own segment."""
        return next((f for f in self.fields if f.name == name and self.owns(name)), None)

    def value(self, name):
        field = self.find(name)
        return field.value if field else b""

    def place(self, name):
        """Where a fault of this field is told: at its value, or at the segment's tag if it is absent."""
        field = self.find(name)
        return field.place if field else self.tag


class Record:
    def __init__(self):
        self.header = self.visit = None
        self.orders = []
        self.end = None

    def segments(self):
        return [self.header, self.visit] + self.orders


DECLARATION = b'<?xml version="1.0" encoding="Big5"?>'
STRUCTURE = [b"<%s%s>" % (slash, name) for name in b"RECS REC MSH MB MB1 MB2".split() for slash in (b"", b"/")]
BLANKS = b" \t\r\n"
FIELD = "a field's opening tag"


class Reader:
    """Reads the structure and stops at the first byte with which no lawful upload goes on."""

    def __init__(self, upload):
        self.upload, self.at = upload, 0

    def byte(self, at):
        if at >= len(self.upload):
            raise Refused(6, 0, len(self.upload))
        return self.upload[at]

    def declaration(self):
        for k, wanted in enumerate(DECLARATION):
            if self.upload[k:k + 1] != bytes([wanted]):
                raise Refused(2, 0, k)
        self.at = len(DECLARATION)

    def blanks(self):
        while self.at < len(self.upload) and self.upload[self.at] in BLANKS:
            self.at += 1

    def tag(self, *wanted):
        """Goes over one of the tags that are wanted. Gives the tag and its place."""
        self.blanks()
        classes = {w: [b"<", CAPITALS, DIGITS, DIGITS, b">"] if w == FIELD else [bytes([b]) for b in w] for w in wanted}
        start = self.at
        while True:
            k = self.at - start
            byte = self.byte(self.at)
            classes = {w: c for w, c in classes.items() if byte in c[k]}
            if not classes:
                raise Refused(3, 3, self.at)
            self.at += 1
            for w, c in classes.items():
                if len(c) == k + 1:
                    return w, start

    def must(self, tag, number):
        """Goes over this tag; another whole tag of the structure in its place has a refusal of its own."""
        self.blanks()
        for other in STRUCTURE:
            if other != tag and self.upload.startswith(other, self.at):
                raise Refused(number, 0, self.at)
        return self.tag(tag)[1]

    def value(self):
        start = self.at
        while self.byte(self.at) != ord("<"):
            byte = self.upload[self.at]
            if 0x81 <= byte <= 0xFE:
                self.at += 1
                second = self.byte(self.at)
                if not (0x40 <= second <= 0x7E or 0xA1 <= second <= 0xFE):
                    raise Refused(3, 1, self.at)
            elif not 0x20 <= byte <= 0x7E or byte in b"<>&\"'":
                raise Refused(3, 1, self.at)
            self.at += 1
        return start, self.upload[start:self.at]

    def closing(self, name):
        for wanted, cause in [("<", 3), ("/", 3)] + [(letter, 2) for letter in name] + [(">", 3)]:
            if self.byte(self.at) != ord(wanted):
                raise Refused(3, cause, self.at)
            self.at += 1

    def segment(self, letter, number, tag, closing):
        segment = Segment(letter, number, tag)
        while True:
            found, place = self.tag(FIELD, closing)
            if found == closing:
                return segment
            name = self.upload[place + 1:place + 4].decode()
            start, value = self.value()
            self.closing(name)
            if value:
                segment.fields.append(Field(name, place, start, value))

    def record(self, places):
        record = Record()
        record.header = self.segment("H", 0, self.must(b"<MSH>", 4), b"</MSH>")
        self.tag(b"<MB>")
        record.visit = self.segment("M", 1, self.must(b"<MB1>", 5), b"</MB1>")
        while True:
            found, place = self.tag(b"<MB2>", b"</MB>")
            if found == b"</MB>":
                record.end = place
                self.tag(b"</REC>")
                return record
            if len(record.orders) == MOST_ORDERS:
                places.append(place)
            record.orders.append(self.segment("D", 2 + len(record.orders), place, b"</MB2>"))

    def records(self):
        """The records, and where the limits are passed."""
        records, places = [], []
        self.declaration()
        self.tag(b"<RECS>")
        while True:
            found, place = self.tag(b"<REC>", b"</RECS>")
            if found == b"</RECS>":
                break
            if len(records) == MOST_RECORDS:
                places.append(place)
            records.append(self.record(places))
        self.blanks()
        if self.at < len(self.upload):
            raise Refused(3, 3, self.at)
        return records, places


def take(sender, day, upload, verdict_rows=MOST_RECORDS):
    """The records of an upload that does not go back."""
    if len(sender) != 10 or not all_of(sender, SIGNS) or not is_day(day) or verdict_rows < MOST_RECORDS:
        raise Refused(9, 0, 0)
    if not 1 <= len(upload) <= MOST_BYTES:
        raise Refused(1, 0, 0)
    records, places = Reader(upload).records()
    if places:
        raise Refused(8, 0, min(places))
    for record in records:
        for segment in record.segments():
            for field in segment.fields:
                if field.name == "M05" and field.value != sender:
                    raise Refused(7, 0, field.place)
    return records


# ------------------------------------------------------------------------------------------------------------- rules of one record
#
# A fault is (rule, place, field, segment), so that faults sort as they are told. Each rule gives the faults that a record has of it.


def at(rule, segment, name):
    """A fault at the value of a field, or at the tag of the segment if it is absent."""
    return rule, segment.place(name), name, segment.number


def action_of(record):
    """A, B, C or D, or nothing."""
    letter = record.header.value("H01")
    return letter.decode() if letter in (b"A", b"B", b"C", b"D") else ""


def is_judged(record, name):
    return action_of(record) not in ("C", "D") or name in KEPT


def first_tier(record):
    header, visit = record.header, record.visit
    for segment in record.segments():
        earlier = set()
        for field in segment.fields:
            if not is_judged(record, field.name):
                continue
            if not segment.owns(field.name):
                yield 11, field.tag, field.name, segment.number
            if field.name in earlier:
                yield 12, field.tag, field.name, segment.number
            earlier.add(field.name)
    if header.value("H00") != b"1":
        yield at(13, header, "H00")
    action = action_of(record)
    if not action:
        yield at(13, header, "H01")
    if action in ("A", "B") and visit.value("M07").decode("latin-1") not in CATEGORIES:
        yield at(13, visit, "M07")


def need(record, name):
    """V, ~ or * for a field of this record."""
    action = action_of(record)
    if action in ("C", "D"):
        return "V" if name in KEPT else "*"
    column = CATEGORIES.index(record.visit.value("M07").decode())
    return NEEDS[name][2 * column + "AB".index(action)]


def excuses(order):
    return order.value("D06") in EXCUSED


def second_tier(record):
    own = [(s, name) for s in record.segments() for name in FIELDS if name[0] == s.letter and is_judged(record, name)]
    for segment, name in own:
        absent = segment.find(name) is None
        needed = need(record, name)
        excused = name in ("D08", "D14") and excuses(segment)
        if needed == "V" and absent and not excused:
            yield at(14, segment, name)
        if needed == "~" and not absent:
            yield at(15, segment, name)
        if not absent and not has_form(segment.value(name), FORMS[name]):
            yield at(16, segment, name)
    if not record.orders and any(need(record, name) == "V" for name in FIELDS if name[0] == "D"):
        yield 14, record.end, "D02", 2


def rule_17(day, action, category, visit, orders):
    if not visit.value("M04") <= visit.value("M11")[:7] <= day:
        yield at(17, visit, "M11")


def rule_18(day, action, category, visit, orders):
    birth, count, rank = visit.value("M08"), visit.value("M09"), visit.value("M10")
    if not birth and not count and not rank:
        return
    good = (birth and count and rank
            and 1 <= int(count) <= 5
            and rank.upper() in (b"A", b"B", b"C", b"D", b"E")
            and rank.upper()[0] - ord("A") + 1 <= int(count)
            and visit.value("M04") < birth <= visit.value("M11")[:7])
    if not good:
        yield at(18, visit, "M08")


def rule_19(day, action, category, visit, orders):
    mark, moment, actual = visit.value("M12"), visit.value("M49"), visit.value("M52")
    if not (mark == b"1" and not actual or mark == b"2" and moment and actual):
        yield at(19, visit, "M12")


def rule_20(day, action, category, visit, orders):
    if action != "A":
        return
    number = visit.value("M13")
    if category in ("01", "02", "03", "04", "05", "06", "07", "08", "09"):
        good = all_of(number, DIGITS) and int(number) <= 1500
    elif category == "AC":
        good = number[:2] == b"IC" and count_characters(number) == 4
    else:
        good = not number
    if not good:
        yield at(20, visit, "M13")


def rule_21(visit, names):
    for name in names:
        value = visit.value(name)
        if value and not (len(value) == (10 if name == "M17" else 20) and all_of(value, SIGNS)):
            yield at(21, visit, name)


def rule_22(day, action, category, visit, orders):
    for order in orders:
        if order.value("D01") not in (b"", visit.value("M11")):
            yield at(22, order, "D01")


def rule_23(day, action, category, visit, orders):
    earlier = set()
    for order in orders:
        if order.value("D03"):
            number = int(order.value("D03"))
            if number in earlier:
                yield at(23, order, "D03")
            earlier.add(number)


def rule_24(day, action, category, visit, orders):
    for order in orders:
        kind = order.value("D02")
        if not kind:
            continue
        good = kind in (b"1", b"2", b"3", b"4", b"5", b"J", b"G", b"M", b"P", b"Q")
        if kind in (b"1", b"M"):
            wanted = ["D04", "D09", "D10"] + ([] if excuses(order) else ["D08", "D14"])
            good = (all(order.value(name) for name in wanted)
                    and order.value("D04") in (b"A", b"B", b"C", b"D", b"E", b"F")
                    and 1 <= int(order.value("D09")) <= 92)
        if not good:
            yield at(24, order, "D02")


def rule_25(day, action, category, visit, orders):
    for order in orders:
        if action == "A" and order.value("D02") in (b"1", b"2", b"3") and not order.value("D11"):
            yield at(25, order, "D11")


def rule_26(lists, action, visit, orders):
    day = visit.value("M11")[:7]
    for segment in [visit] + orders:
        for name, number in LISTS.items():
            code = segment.value(name)
            if code and not lists(number, code, day) and not (name == "M50" and code in BEDS):
                yield at(26, segment, name)
    if action == "B" and visit.value("M13") and not lists(7, visit.value("M13"), day):
        yield at(26, visit, "M13")


def rule_27(day, action, category, visit, orders):
    if category in ("AE", "AF") and not (visit.value("M16") and visit.value("M17")):
        yield at(27, visit, "M16")


def rule_28(day, action, category, visit, orders):
    if category == "AC" and action != "A":
        yield at(28, visit, "M07")


def rule_29(day, action, category, visit, orders):
    refills, times = visit.value("M33"), int(visit.value("M26") or b"0")
    if refills in (b"", b"0"):
        return
    digits = [int(chr(b)) for b in refills]
    rising = all(a < b for a, b in zip(digits, digits[1:]))
    if not (rising and all(1 <= d <= times for d in digits)):
        yield at(29, visit, "M33")


VISIT_RULES = [rule_17, rule_18, rule_19, rule_20, rule_22, rule_23, rule_24, rule_25, rule_27, rule_28, rule_29]


def third_tier(record, day, lists):
    action, visit = action_of(record), record.visit
    if action in ("C", "D"):
        yield from rule_21(visit, ["M15"])
        return
    yield from rule_21(visit, ["M15", "M16", "M17", "M52"])
    yield from rule_26(lists, action, visit, record.orders)
    for rule in VISIT_RULES:
        yield from rule(day, action, visit.value("M07").decode(), visit, record.orders)


def faults_of(record, day, lists=by_shape):
    """The faults of a record by itself, as they are told: those of the first tier that has any."""
    for tier in (first_tier, second_tier, lambda r: third_tier(r, day, lists)):
        faults = sorted(tier(record))
        if faults:
            return faults
    return []


# ------------------------------------------------------------------------------------------------------------------- the register
#
# A register is a table of keys and entries; a key is (sender, identifier). What a record would be as an entry is made of it in any case.


DISPENSINGS = (b"AE", b"AF")


class Entry:
    """What is kept of a visit record."""

    def __init__(self, visit):
        self.patient, self.birth, self.category, self.moment = (visit.value(name) for name in ("M03", "M04", "M07", "M11"))
        self.origin = None
        if self.category in DISPENSINGS and not is_placeholder(visit.value("M16")):
            self.origin = visit.value("M17"), visit.value("M16")
        self.times = int(visit.value("M26") or b"0")
        self.refills = {int(chr(b)) for b in visit.value("M33")} - {0}
        self.cancelled = False

    def source(self, key):
        """The key of which this entry, which stands under `key`, takes its refills, or none."""
        if self.origin:
            return self.origin
        return None if self.category in DISPENSINGS else key


class Register:
    def __init__(self, most):
        self.most = min(most, MOST_ENTRIES)
        self.entries = {}

    def is_dispensed(self, key):
        """Does an entry with this origin stand under another key?"""
        return any(entry.origin == key for other, entry in self.entries.items() if other != key)

    def is_taken(self, refill, source, key):
        """Does an entry under another key than `key` take this refill of `source`?"""
        return any(refill in entry.refills and entry.source(other) == source for other, entry in self.entries.items() if other != key)


def fourth_tier(record, sender, day, register):
    """The rules that a record breaks which has no other fault. The action is one of four, and the fields that count have their forms."""
    action, visit = action_of(record), record.visit
    key = sender, visit.value("M15")
    stands = register.entries.get(key)
    if action in ("C", "D"):
        if stands is None or (stands.patient, stands.birth) != (visit.value("M03"), visit.value("M04")):
            yield 30
    elif day > due_day(visit.value("M11")):
        yield 31
    if stands and day > due_day(stands.moment):
        yield 31
    if stands and register.is_dispensed(key):
        yield 32
    if action == "C" and stands and (stands.category in DISPENSINGS or stands.times == 0 or stands.cancelled):
        yield 34
    if action in ("A", "B") and not is_placeholder(key[1]):
        entry = Entry(visit)
        if entry.origin == key:
            yield 33
        origin = register.entries.get(entry.origin)
        if origin and (origin.cancelled or any(origin.times < refill for refill in entry.refills)):
            yield 33
        source = entry.source(key)
        if source and any(register.is_taken(refill, source, key) for refill in entry.refills):
            yield 33
        if not stands and len(register.entries) >= register.most:
            yield 35


def enter(record, sender, register):
    """What an accepted record leaves."""
    action, visit = action_of(record), record.visit
    key = sender, visit.value("M15")
    if action == "C":
        register.entries[key].cancelled = True
    elif action == "D":
        del register.entries[key]
    elif not is_placeholder(key[1]):
        register.entries[key] = Entry(visit)


def settle(record, sender, day, lists, register):
    """The faults of a record, and what it leaves."""
    faults = faults_of(record, day, lists)
    if not faults and register is not None:
        broken = sorted(fourth_tier(record, sender, day, register))
        if broken:
            return [at(broken[0], record.visit, "M15")]
        enter(record, sender, register)
    return faults


# --------------------------------------------------------------------------------------------------------------------- what is printed


def receive(sender, day, upload, register, lists=by_shape, verdict_rows=MOST_RECORDS, report_rows=ROWS):
    """The lines for an upload, and the verdicts of its records or none if it goes back. Without a register only the first three tiers are judged."""
    try:
        records = take(sender, day, upload, verdict_rows)
    except Refused as refused:
        return [str(refused)], None
    faults = [settle(record, sender, day, lists, register) for record in records]
    verdicts = [found[0][0] if found else 0 for found in faults]
    told = [(number, fault) for number, found in enumerate(faults, 1) for fault in found]
    lines = ["%04X%04X%08X" % (len(records), verdicts.count(0), len(told))]
    for number, (rule, place, name, segment) in told[:report_rows]:
        lines.append("%04X%04X%s%02X%08X" % (number, segment, name.encode().hex().upper(), rule, place))
    return lines, verdicts


def answer(data, most=MOST_INPUT, slots=SLOTS):
    """The lines that `judge` prints of its whole input, without the last line feed. Another program may read more of it, and have a register of
    another size or none."""
    data = data[:most]
    if len(data) < 19 or data[10:11] != b" " or data[18:19] != b"\n":
        return str(Refused(9, 0, 0))
    register = None if slots is None else Register(slots)
    return "\n".join(receive(data[:10], data[11:18], data[19:], register)[0])


if __name__ == "__main__":
    print(answer(sys.stdin.buffer.read()))
