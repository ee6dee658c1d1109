#!/usr/bin/env python3
"""Writes the sample inputs of `judge`, samples/judge/NAME, and what it must print of them, NAME.stdout; and one that the gate runs, beside the program.

    samples.py                      writes them
    samples.py --check              tells whether they stand as written here
    samples.py --against PROGRAM    tells whether the program prints so of each

Each record below says what it shows and which faults it has, told by hand from the rules: "1 M11 17" is a fault in segment 1 at the value of M11 of
rule 17; with "absent" behind it the place is the segment's tag, with "tag" that of the field (rules 11 and 12; "tag 2" is the second one
of the name in the segment), with "end" the record's </MB>. Where faults stand is worked out here while the upload is written. The model
(model.py) must say the same.
"""

import pathlib
import subprocess
import sys

import model

SENDER, DAY = b"3501200000", b"1130229"
TOP = pathlib.Path(__file__).resolve().parents[2]
FOLDER, GATE = TOP / "samples" / "judge", TOP / "crates" / "judge"

# ------------------------------------------------------------------------------------------------------------------ lawful records

VISIT = "1130215093000"

# A lawful value of each field, for the day and the sender above.
VALUES = {
    "H00": "1", "M01": "SAM000000001", "M02": "000012345678", "M03": "A123456789", "M04": "0800101", "M05": "3501200000",
    "M06": "B223456789", "M08": "1130101", "M09": "2", "M10": "B", "M11": VISIT, "M12": "1", "M14": "c2lnbmVk", "M15": "35012000000000000001",
    "M16": "ORIGIN00000000000001", "M17": "3501200001", "M18": "0003", "M19": "1130101080000", "M20": "28", "M21": "84", "M22": "28",
    "M23": "0", "M24": "1", "M25": "1", "M26": "3", "M27": "1", "M28": "1", "M29": "1", "M30": "1", "M31": "1", "M32": "1", "M33": "13",
    "M34": "2", "M35": "J00", "M36": "I10", "M37": "E119", "M38": "K30", "M39": "M545", "M40": "R05", "M41": "0FT44ZZ", "M42": "4A02X4Z",
    "M43": "3E033", "M44": "340", "M45": "-50", "M46": "1200", "M47": "0", "M48": "-0", "M49": "1130214093000", "M50": "W0101", "M51": "01",
    "M52": "35012000000000000009", "D01": VISIT, "D02": "4", "D03": "1", "D04": "A", "D05": "1", "D06": "AC12345100", "D07": "L",
    "D08": "TID", "D09": "7", "D10": "21", "D11": "c2lnbmVk", "D12": "3501200001", "D13": "X", "D14": "PO", "D15": "note",
}


def number_of(category, action):
    """A lawful M13, or none."""
    if action == "B":
        return "A000"
    return "IC11" if category == "AC" else "0012" if category < "10" else None


def fields_of(letter, category, action, every):
    """The fields of a segment: those that are required, or every one that may be written."""
    column = 2 * model.CATEGORIES.index(category) + "AB".index(action)
    given = dict(VALUES, H01=action, M07=category, M13=number_of(category, action))
    names = [n for n in model.FIELDS if n[0] == letter and (model.NEEDS[n][column] == "V" or every and model.NEEDS[n][column] == "*")]
    return [(n, given[n]) for n in names if given[n] is not None]


class Record:
    """A record to be written: header, visit and orders are lists of names and values."""

    def __init__(self, header, visit, orders):
        self.header, self.visit, self.orders = header, visit, orders

    def segment(self, letter):
        return {"H": self.header, "M": self.visit}.get(letter) if letter != "D" else self.orders[0]

    def set(self, **changes):
        """Sets fields in the segments that they belong to (D: the first order), behind the others if they are new. None drops one."""
        for name, value in changes.items():
            segment = self.segment(name[0])
            at = next((k for k, (n, _) in enumerate(segment) if n == name), None)
            if at is not None:
                segment[at:at + 1] = [] if value is None else [(name, value)]
            elif value is not None:
                segment.append((name, value))
        return self

    def add(self, header=(), visit=(), orders=()):
        """Writes more at the end of each segment."""
        self.header += header
        self.visit += visit
        for k, fields in enumerate(orders):
            self.orders[k] += fields
        return self


def lawful(category, action, every=False):
    """A lawful record with the required fields, or with every field that may be written."""
    record = Record(fields_of("H", category, action, every), fields_of("M", category, action, every), [])
    order = fields_of("D", category, action, every)
    if every:
        record.set(M12="2")
    if order:
        record.orders.append(order)
        if any(n == "D08" for n, _ in order):
            record.set(D02="1")
            if action == "A":
                record.set(D11=VALUES["D11"])
    return record


def small(action="B", *orders, **changes):
    """A small lawful record, with these changes and these orders."""
    record = lawful("DA", action).set(**changes)
    record.orders = [list(order.items()) for order in orders]
    return record


def kept(action="D", **changes):
    """A lawful cancellation or deletion."""
    visit = [(n, VALUES[n]) for n in ("M03", "M04", "M05", "M15")]
    return Record([("H00", "1"), ("H01", action)], visit, []).set(**changes)


DRUG = dict(D02="1", D04="A", D06="AC12345100", D08="TID", D09="7", D10="21", D14="PO")


def drug(**changes):
    """An order of a drug, lawful under B."""
    return {n: v for n, v in dict(DRUG, **changes).items() if v is not None}

# ---------------------------------------------------------------------------------------------------------------------- writing


class Written:
    """A record that is written, with its places."""

    def __init__(self, record, start, blank):
        self.text = b""
        self.start = start
        self.places = {}
        self.put(b"<REC>" + blank)
        self.segment(0, b"MSH", record.header)
        self.put(blank + b"<MB>")
        self.segment(1, b"MB1", record.visit)
        for k, order in enumerate(record.orders):
            self.segment(2 + k, b"MB2", order)
        self.places["end"] = self.put(blank + b"</MB>") + len(blank)
        self.put(b"</REC>")

    def put(self, text):
        at = self.start + len(self.text)
        self.text += text
        return at

    def segment(self, number, tag, fields):
        self.places[number] = self.put(b"<%s>" % tag)
        for name, value in fields:
            code = name.encode()
            at = self.put(b"<%s>" % code)
            value = value if isinstance(value, bytes) else value.encode()
            place = self.put(value + b"</%s>" % code)
            if value:
                self.places.setdefault((number, name), []).append((at, place))
        self.put(b"</%s>" % tag)

    def fault(self, told):
        """The fault that "1 M11 17 absent" tells of: rule, place, field, segment."""
        number, name, rule, *where = told.split()
        number = int(number)
        if not where:
            place = self.places[number, name][0][1]
        elif where[0] == "tag":
            place = self.places[number, name][int(where[1]) - 1 if where[1:] else 0][0]
        else:
            place = self.places["end" if where[0] == "end" else number]
        return int(rule), place, name, number


def write(cases, blank=b"\n", within=b"", day=DAY):
    """The input and the output of a sample: each case is a record and the faults that it has. White space goes between records, and within."""
    upload = model.DECLARATION + blank + b"<RECS>" + blank
    faults, accepted = [], 0
    for number, (record, *told) in enumerate(cases, 1):
        written = Written(record, len(upload), within)
        upload += written.text + blank
        found = sorted(written.fault(t) for t in told)
        accepted += not found
        faults += [(number, fault) for fault in found]
    upload += b"</RECS>" + blank
    lines = ["%04X%04X%08X" % (len(cases), accepted, len(faults))]
    for number, (rule, place, name, segment) in faults[:model.ROWS]:
        lines.append("%04X%04X%s%02X%08X" % (number, segment, name.encode().hex().upper(), rule, place))
    return b"%s %s\n%s" % (SENDER, day, upload), "\n".join(lines) + "\n"

# ----------------------------------------------------------------------------------------------------- categories, full and needs


def columns():
    return [(category, action) for category in model.CATEGORIES for action in "AB"]


def categories(every):
    """A lawful record of each category under A and one under B; but one of AC under B always breaks rule 28."""
    return [(lawful(c, a, every), *(["1 M07 28"] if (c, a) == ("AC", "B") else [])) for c, a in columns()]


def needs():
    """The whole table of needs: of each category, under A and under B, a record with no field but H00, H01 and M07, and one with every
    field that is barred somewhere. What the one does not tell, that a field is required or barred, the other does."""
    somewhere = [n for n in model.FIELDS if "~" in model.NEEDS[n]]
    cases = []
    for k, (category, action) in enumerate(columns()):
        for names in ([], somewhere):
            visit = [(n, dict(VALUES, M13="A000")[n]) for n in names] + [("M07", category)]
            told = []
            for name in model.FIELDS:
                cell, number = model.NEEDS[name][k], "HMD".find(name[0])
                if cell == "V" and name not in names and name not in ("H00", "H01", "M07"):
                    told.append("%d %s 14 absent" % (number, name))
                if cell == "~" and name in names:
                    told.append("1 %s 15" % name)
            cases.append((Record([("H00", "1"), ("H01", action)], visit, [[]]), *told))
    return cases

# ------------------------------------------------------------------------------------------------------------------------- forms


LONGEST = {"day": "1130131", "moment": "1130131235959", "quantity": "99999.9"}


def longest(name):
    """The longest value of a field's form, and one that is a byte too long."""
    form = model.FORMS[name]
    kind, _, width = form.partition(" ")
    if kind == "X":
        return "A" * int(width), "A" * int(width) + " "
    if kind in ("9", "amount"):
        return "9" * int(width), "9" * int(width) + "0"
    return LONGEST[form], LONGEST[form] + "0"


BAD = {
    "9": ["A", "-1", " 1", "1.0"],
    "amount 8": ["-", "1-", "--1", "+1", "-99999999"],
    "amount 7": ["-", "1-", "-9999999"],
    "day": ["1120229", "1890229", "0000101", "1131301", "1130100", "1130431", "113011", "113011A"],
    "moment": ["1130115240000", "1130115236000", "1130115235960", "1120229000000", "113011508300", "1130115"],
    "quantity": ["5.", ".5", "5.55", "123456", "100000.5", "5,5", "-5", "."],
}
GOOD = {
    "9": ["0", "99", "00"],
    "amount 8": ["-0", "0", "00000000", "-9999999"],
    "amount 7": ["-0", "-999999", "9999999"],
    "day": ["1090229", "0010101", "0890229", "1121231"],
    "moment": ["1130229000000", "1130101235959"],
    "quantity": ["5", "0", "00000", "12345", "0.0", "99999.9"],
}


def forms():
    """The written forms. In DA under B six fields are barred, as the first two records show; a barred field of a wrong form gives rules 15 and 16."""
    names = [n for n in model.FIELDS if n not in ("H00", "H01", "M05", "M07")]
    barred = ["1 %s 15" % n for n in ("M01", "M02", "M14", "M21", "M22", "M50")]
    cases = []
    for which, fault in ((0, False), (1, True)):
        record = Record([("H00", "1"), ("H01", "B")], [("M05", "3501200000"), ("M07", "DA")], [[]])
        for name in names:
            record.segment(name[0]).append((name, longest(name)[which]))
        told = ["%d %s 16" % ("HMD".find(n[0]), n) for n in names] if fault else []
        cases.append((record, *barred, *told))
    # The forms of one kind each, in a field that is free in DA under B; what is good keeps rule 26 and the others too.
    shown = {"9": "M20", "amount 8": "M44", "amount 7": "M47", "day": "M04", "moment": "M49"}
    for kind, name in shown.items():
        cases += [(small(**{name: value}), "1 %s 16" % name) for value in BAD[kind]]
        cases += [(small(**{name: value}),) for value in GOOD[kind]]
    cases.append((small("B", *[dict(D10=v) for v in GOOD["quantity"]]),))
    cases.append((small("B", *[dict(D10=v) for v in BAD["quantity"]]), *["%d D10 16" % (2 + k) for k in range(len(BAD["quantity"]))]))
    # Widths count bytes: a pair of Big5 is two of them, and its second byte may look like a letter. Blanks are not trimmed.
    cases.append((small(M18=b"\xa4\xa4\xa4\x40"),))
    cases.append((small(M18=b"\xa4\xa4\xa4\x40\x41"), "1 M18 16"))
    cases.append((small(M03=b"          "),))
    cases.append((small(M03=b"           "), "1 M03 16"))
    cases.append((small(M20=b"\xa4\xa4"), "1 M20 16"))
    # Under C and D the forms of M04, M03, M05 and M15 alone are looked at, and the later rule 21 not, if one is wrong.
    cases.append((kept("D", M04="1120229", M15="350120000000000000011"), "1 M04 16", "1 M15 16"))
    cases.append((kept("C", M03="A1234567890"), "1 M03 16"))
    # The record that stands has a patient of ten blanks.
    cases.append((kept("C", M11="never", M08="x", M44="-"), "1 M15 30"))
    return cases

# ------------------------------------------------------------------------------------------------------------------- the first tier


def first_tier():
    H, M = [("H00", "1")], [("M05", "3501200000")]
    return [
        (small(),),  # as it should be
        # 11: fields outside their segments.
        (small().add(visit=[("H00", "1")]), "1 H00 11 tag"),
        (small().add(header=[("M03", "A123456789")]), "0 M03 11 tag"),
        (small().add(header=[("D01", VISIT)]), "0 D01 11 tag"),
        (small().add(visit=[("D01", VISIT)]), "1 D01 11 tag"),
        (small("B", {"H01": "B"}), "2 H01 11 tag"),
        (small("B", {"D03": "1"}, {"M05": "3501200000"}), "3 M05 11 tag"),
        # 11: fields without a row, and their neighbours that have one.
        (small().add(header=[("H02", "1")]), "0 H02 11 tag"),
        (small().add(visit=[("M00", "1"), ("M53", "1"), ("M99", "1")]), "1 M00 11 tag", "1 M53 11 tag", "1 M99 11 tag"),
        (small("B", {"D00": "1", "D16": "1", "D15": "1"}), "2 D00 11 tag", "2 D16 11 tag"),
        (small().add(visit=[("A00", "1"), ("Z99", "1"), ("N01", "1"), ("L52", "1")]), "1 A00 11 tag", "1 Z99 11 tag", "1 N01 11 tag", "1 L52 11 tag"),
        # 11: an empty field is unwritten, wherever it stands.
        (small().add(header=[("M03", ""), ("X00", "")], visit=[("H00", ""), ("M53", "")]),),
        # 11: a misplaced field has no value: M07 and H01 are absent here.
        (small(M07=None).add(header=[("M07", "DA")]), "0 M07 11 tag", "1 M07 13 absent"),
        (small(H01=None).add(visit=[("H01", "B")]), "1 H01 11 tag", "0 H01 13 absent"),
        # 11: a misplaced field takes nothing from the one at its place.
        (small().add(header=[("M07", "ZZ")]), "0 M07 11 tag"),
        # 12: a field again in one segment, twice, three times, not side by side, and with the same value.
        (small().add(visit=[("M03", "A123456789")]), "1 M03 12 tag 2"),
        (small().add(visit=[("M03", "B123456789"), ("M03", "C123456789")]), "1 M03 12 tag 2", "1 M03 12 tag 3"),
        (small("B").add(header=[("H00", "1")]), "0 H00 12 tag 2"),
        # 12: each order by itself.
        (small("B", {"D03": "1"}, {"D03": "2"}, {"D03": "3"}).add(orders=[[], [("D05", "1"), ("D03", "4")]]), "3 D03 12 tag 2"),
        (small("B", {"D03": "1"}, {"D03": "2"}),),
        # 12: an empty field does not count, before or behind.
        (small(M03=None).add(visit=[("M03", ""), ("M03", "A123456789"), ("M03", "")]),),
        (small(H01=None).add(header=[("H01", ""), ("H01", "B")]),),
        # 11 and 12: a misplaced field again, also one without a row.
        (small().add(header=[("M03", "A"), ("M03", "A")]), "0 M03 11 tag", "0 M03 11 tag 2", "0 M03 12 tag 2"),
        (small().add(visit=[("Q07", "A"), ("Q07", "B")]), "1 Q07 11 tag", "1 Q07 11 tag 2", "1 Q07 12 tag 2"),
        # 12: in different segments it is not again.
        (small("B", {"M03": "A"}).add(header=[("M03", "A")]), "0 M03 11 tag", "2 M03 11 tag"),
        # 13: H00.
        (small(H00=None), "0 H00 13 absent"),
        (small(H00="2"), "0 H00 13"),
        (small(H00="3"), "0 H00 13"),
        (small(H00="11"), "0 H00 13"),
        (small(H00=" "), "0 H00 13"),
        (small(H00=""), "0 H00 13 absent"),
        # 13: H01.
        (small(H01=None), "0 H01 13 absent"),
        (small(H01="E"), "0 H01 13"),
        (small(H01="b"), "0 H01 13"),
        (small(H01="AB"), "0 H01 13"),
        (small(H01="@"), "0 H01 13"),
        # 13: M07 is asked for under A and B, and not without a right H01.
        (small(M07=None), "1 M07 13 absent"),
        (small(M07="10"), "1 M07 13"),
        (small(M07="00"), "1 M07 13"),
        (small(M07="AL"), "1 M07 13"),
        (small(M07="BG"), "1 M07 13"),
        (small(M07="CB"), "1 M07 13"),
        (small(M07="DD"), "1 M07 13"),
        (small(M07="EB"), "1 M07 13"),
        (small(M07="da"), "1 M07 13"),
        (small(M07="D"), "1 M07 13"),
        (small(M07="DA "), "1 M07 13"),
        (small(M07=b"\xa4\xa4"), "1 M07 13"),
        (small(H01="E", M07="ZZ"), "0 H01 13"),
        (small(H01=None, M07=None), "0 H01 13 absent"),
        (small(H00="2", H01="E"), "0 H00 13", "0 H01 13"),
        (small(H00=None, H01=None), "0 H00 13 absent", "0 H01 13 absent"),
        # The value of a field that is written again is the first.
        (small(M07="ZZ").add(visit=[("M07", "DA")]), "1 M07 12 tag 2", "1 M07 13"),
        (small(M07="DA").add(visit=[("M07", "ZZ")]), "1 M07 12 tag 2"),
        (small(H00="2").add(header=[("H00", "1")]), "0 H00 12 tag 2", "0 H00 13"),
        (small().add(header=[("H01", "D"), ("M07", "DA")]), "0 H01 12 tag 2", "0 M07 11 tag"),
        (kept().add(header=[("H01", "B"), ("M07", "DA")]), "0 H01 12 tag 2"),
        # The first written H01 tells the action, wherever in MSH it stands.
        (Record([("M07", "DA"), ("H00", "1"), ("H01", "D")], kept().visit, []),),
        (Record([("M07", "DA"), ("H00", "1"), ("H01", "B")], small().visit, []), "0 M07 11 tag"),
        # A later tier is not judged if this one has a fault: here M03 is absent and M04 no day.
        (small(M03=None, M04="1130230", H00="2"), "0 H00 13"),
        # Under C and D all but H00, H01, M03, M04, M05 and M15 is passed over. What stood was deleted just before, so rule 30 is reached.
        (kept("C"), "1 M15 30"),
        (kept("D"), "1 M15 30"),
        (kept("D", M07="ZZ").add(header=[("M07", "x"), ("X00", "x"), ("D01", "x")], visit=[("H02", "x"), ("M07", "y"), ("D01", "y"), ("D01", "z")]), "1 M15 30"),
        (kept("C").add(header=[("M03", "A123456789")]), "0 M03 11 tag"),
        (kept("D").add(visit=[("H00", "1"), ("H01", "D")]), "1 H00 11 tag", "1 H01 11 tag"),
        (kept("D").add(visit=[("M15", "1"), ("M04", "1")]), "1 M15 12 tag 2", "1 M04 12 tag 2"),
        (kept("C").add(header=[("M05", "3501200000"), ("M05", "3501200000")]), "0 M05 11 tag", "0 M05 11 tag 2", "0 M05 12 tag 2"),
        (Record([("H00", "1"), ("H01", "D")], kept().visit, [[("M15", "1"), ("M16", "1"), ("M15", "1"), ("D03", "x"), ("D03", "x")]]),
         "2 M15 11 tag", "2 M15 11 tag 2", "2 M15 12 tag 2"),
        (kept("D", H00=None), "0 H00 13 absent"),
        (kept("C", H00="2"), "0 H00 13"),
        # With no right H01 rules 11 and 12 look at all fields.
        (kept("F").add(header=[("M07", "x"), ("X00", "x")], visit=[("M07", "y"), ("M07", "z")]),
         "0 H01 13", "0 M07 11 tag", "0 X00 11 tag", "1 M07 12 tag 2"),
        # Faults rise by rule, then by place: those of rule 11 in all segments before those of rule 12.
        (Record([("H01", "E"), ("M20", "1"), ("M20", "1"), ("H00", "1")], M + [("M03", "A"), ("M03", "A"), ("H00", "1")], [[("D01", "1"), ("D01", "1")], [("M01", "1")]]),
         "0 M20 11 tag", "0 M20 11 tag 2", "1 H00 11 tag", "3 M01 11 tag", "0 M20 12 tag 2", "1 M03 12 tag 2", "2 D01 12 tag 2", "0 H01 13"),
        (Record([], [], []), "0 H00 13 absent", "0 H01 13 absent"),
        (Record(H + [("H01", "A")], [], []), "1 M07 13 absent"),
    ]

# ------------------------------------------------------------------------------------------------------------------ the second tier


def none_with(record):
    record.orders = []
    return record


def second_tier():
    """Presence in orders; what is required or barred in general is shown by `needs`."""
    medicine = lambda **changes: lawful("AE", "A").set(**changes)
    two = lambda first, second: Record(medicine().header, medicine().visit, [[(n, v) for n, v in fields if v is not None] for fields in (first, second)])
    order = dict(medicine().orders[0])
    return [
        (medicine(),),
        # No order at all: one fault, at </MB>, where the column requires a field of orders, and none where it does not.
        (none_with(medicine()), "2 D02 14 end"),
        (none_with(lawful("AG", "B")), "2 D02 14 end"),
        (small(),),
        (none_with(lawful("09", "A")), "2 D02 14 end"),
        (none_with(lawful("BC", "B")), "2 D02 14 end"),
        (none_with(lawful("01", "A")),),
        # The one fault beside others of this tier; M18 stands behind nothing but its segment's tag.
        (none_with(lawful("AF", "A").set(M18=None, M12="11")), "1 M18 14 absent", "1 M12 16", "2 D02 14 end"),
        # An order with no field, and one with a field alone.
        (two({}.items(), order.items()), *["2 %s 14 absent" % n for n in ("D01", "D02", "D03", "D04", "D05", "D06", "D08", "D09", "D10", "D14")]),
        (two(order.items(), dict(order, D03=None, D05=None).items()), "3 D03 14 absent", "3 D05 14 absent"),
        # D08 and D14 are excused by the D06 of the same order, and nothing else is.
        (medicine(D06="M01", D08=None, D14=None),),
        (medicine(D06="P38021", D08=None, D14=None),),
        (medicine(D06="M07", D08=None, D14=None), "2 D08 14 absent", "2 D14 14 absent"),
        (medicine(D06="M01 ", D08=None, D14=None), "2 D08 14 absent", "2 D14 14 absent"),
        (medicine(D06="m01", D08=None, D14=None), "2 D08 14 absent", "2 D14 14 absent"),
        (medicine(D06="MA1", D08=None, D09=None), "2 D09 14 absent"),
        (medicine(D06=None, D08=None, D14=None), "2 D06 14 absent", "2 D08 14 absent", "2 D14 14 absent"),
        (two(dict(order, D06="M01").items(), dict(order, D03="2", D08=None).items()), "3 D08 14 absent"),
        # An empty field is absent, and a field of blanks is not.
        (small(M06=""), "1 M06 14 absent"),
        (small(M51=" "),),
        (small(M14=""),),
        # Absent fields stand at one place, and are told by their names, before the fields that are written.
        (small(M51=None, M06=None, M12="12", M14="x", M15="x" * 21),
         "1 M06 14 absent", "1 M51 14 absent", "1 M14 15", "1 M12 16", "1 M15 16"),
        # Barred, and of a wrong form too.
        (small(M50="12345678901"), "1 M50 15", "1 M50 16"),
        # Under C and D.
        (kept("D", M03=None), "1 M03 14 absent"),
        (kept("C", M04=None, M15=""), "1 M04 14 absent", "1 M15 14 absent"),
        (kept("D", M05=None), "1 M05 14 absent"),
        (kept("C", M07="01", M16="x", M50="12345678901"), "1 M15 34"),
        # A later tier is not judged: M15 is no identifier here.
        (small(M15="x", M51=None), "1 M51 14 absent"),
    ]


# ------------------------------------------------------------------------------------------------------------------- the third tier


def rules_17_to_21():
    born = dict(M08="1130101", M09="1", M10="A")
    pairs = b"\xa4\xa4"
    return [
        # 17: birth day on the day of the visit, and the day after it; the visit on the receipt day, and the day after it.
        (small(M04="1130215"),),
        (small(M04="1130216"), "1 M11 17"),
        (small(M11="1130229235959"),),
        (small(M11="1130301000000"), "1 M11 17"),
        (small(M04="1130302", M11="1130301000000"), "1 M11 17"),
        # 18: all or none.
        (small(**born),),
        (small(M09="1", M10="A"), "1 M08 18 absent"),
        (small(M08="1130101", M10="A"), "1 M08 18"),
        (small(M08="1130101", M09="1"), "1 M08 18"),
        (small(M08="1130101"), "1 M08 18"),
        (small(M09="1"), "1 M08 18 absent"),
        (small(M10="A"), "1 M08 18 absent"),
        (small(M08="", M09="", M10=""),),
        # 18: M09 1 to 5.
        (small(M08="1130101", M09="5", M10="E"),),
        (small(M08="1130101", M09="0", M10="A"), "1 M08 18"),
        (small(M08="1130101", M09="6", M10="A"), "1 M08 18"),
        # 18: M10 A to E or a to e, its rank at most M09.
        (small(M08="1130101", M09="5", M10="e"),),
        (small(M08="1130101", M09="1", M10="a"),),
        (small(M08="1130101", M09="2", M10="B"),),
        (small(M08="1130101", M09="1", M10="B"), "1 M08 18"),
        (small(M08="1130101", M09="3", M10="d"), "1 M08 18"),
        (small(M08="1130101", M09="5", M10="F"), "1 M08 18"),
        (small(M08="1130101", M09="5", M10="f"), "1 M08 18"),
        (small(M08="1130101", M09="5", M10="@"), "1 M08 18"),
        (small(M08="1130101", M09="5", M10="`"), "1 M08 18"),
        (small(M08="1130101", M09="5", M10="1"), "1 M08 18"),
        # 18: born after the mother, on the day of the visit at most.
        (small(M08="0800102", M09="1", M10="A"),),
        (small(M08="0800101", M09="1", M10="A"), "1 M08 18"),
        (small(M08="0791231", M09="1", M10="A"), "1 M08 18"),
        (small(M08="1130215", M09="1", M10="A"),),
        (small(M08="1130216", M09="1", M10="A"), "1 M08 18"),
        (small(M08="1130216", M09="6", M10="z"), "1 M08 18"),
        # 19.
        (small(M12="2", M49="1130214093000", M52="35012000000000000009"),),
        (small(M12="2", M52="35012000000000000009"), "1 M12 19"),
        (small(M12="2", M49="1130214093000"), "1 M12 19"),
        (small(M12="2"), "1 M12 19"),
        (small(M12="1", M52="35012000000000000009"), "1 M12 19"),
        (small(M12="1", M49="1130214093000"),),
        (small(M12="0"), "1 M12 19"),
        (small(M12="3", M49="1130214093000", M52="35012000000000000009"), "1 M12 19"),
        # 20: under A a number of at most 1500 in 01 to 09.
        (lawful("01", "A").set(M13="1500"),),
        (lawful("01", "A").set(M13="1501"), "1 M13 20"),
        (lawful("09", "A").set(M13="1500"),),
        (lawful("09", "A").set(M13="9999"), "1 M13 20"),
        (lawful("02", "A").set(M13="0000"),),
        (lawful("03", "A").set(M13="5"),),
        (lawful("04", "A").set(M13="00A1"), "1 M13 20"),
        (lawful("05", "A").set(M13=" 12"), "1 M13 20"),
        (lawful("06", "A").set(M13="A000"), "1 M13 20"),
        (lawful("07", "A").set(M13="IC11"), "1 M13 20"),
        (lawful("08", "A").set(M13="-12"), "1 M13 20"),
        # 20: under AC four characters that begin with IC. A pair of Big5 is one.
        (lawful("AC", "A").set(M13="IC9z"),),
        (lawful("AC", "A").set(M13="IC  "),),
        (lawful("AC", "A").set(M13="IC1"), "1 M13 20"),
        (lawful("AC", "A").set(M13=b"IC" + pairs), "1 M13 20"),
        (lawful("AC", "A").set(M13="ic11"), "1 M13 20"),
        (lawful("AC", "A").set(M13="1IC1"), "1 M13 20"),
        (lawful("AC", "A").set(M13="0012"), "1 M13 20"),
        # 20: otherwise absent under A, where it is free.
        (lawful("AJ", "A"),),
        (lawful("AJ", "A").set(M13="0012"), "1 M13 20"),
        (lawful("AE", "A").set(M13="IC11"), "1 M13 20"),
        (lawful("DA", "A").set(M13="0012"), "1 M13 15"),
        # 21: twenty or ten characters.
        (small(M15="3501200000000000000"), "1 M15 21"),
        (small(M15="3501200000000000000a"), "1 M15 21"),
        (small(M15="3501200000 000000001"), "1 M15 21"),
        (small(M15=pairs * 10), "1 M15 21"),
        (small(M15="ABCXYZ0123456789ABCD"),),
        (small(M16="ORIGIN0000000000001"), "1 M16 21"),
        (small(M16="ORIGIN00000000000001", M17="350120000"), "1 M17 21"),
        (small(M17="350120000a"), "1 M17 21"),
        (small(M17="ABCXYZ0189"),),
        (small(M12="2", M49="1130214093000", M52="3501200000000000009"), "1 M52 21"),
        (small(M12="2", M49="1130214093000", M52="-", M15="-", M16="-", M17="-"), "1 M15 21", "1 M16 21", "1 M17 21", "1 M52 21"),
        (kept("D", M15="3501200000000000000"), "1 M15 21"),
        (kept("C", M15="3501200000000000000a"), "1 M15 21"),
        (kept("C", M16="-", M17="-", M52="-"), "1 M15 34"),
        (kept("D", M04="9991231"), "1 M15 30"),
    ]


def orders(*orders, action="B"):
    return small(action, *orders)


def rules_22_to_25():
    goods = "1 2 3 4 5 J G M P Q".split()
    kinds = [drug(D02=k) if k in "1M" else dict(D02=k) for k in goods]
    excused = [code.decode() for code in model.EXCUSED]
    return [
        # 22.
        (orders(dict(D01=VISIT)),),
        (orders(dict(D01="1130215093001")), "2 D01 22"),
        (orders(dict(D01=VISIT), dict(D05="1"), dict(D01="1130214093000"), dict(D01="1130215093000")), "4 D01 22"),
        # 23: by number; each order by those before it.
        (orders(dict(D03="1"), dict(D03="2"), dict(D03="10"), dict(D03="999"), dict(D03="0")),),
        (orders(dict(D03="1"), dict(D03="1")), "3 D03 23"),
        (orders(dict(D03="001"), dict(D03="1"), dict(D03="01")), "3 D03 23", "4 D03 23"),
        (orders(dict(D03="7"), dict(D05="1"), dict(D03="8"), dict(D03="7")), "5 D03 23"),
        (orders(dict(D03="0"), dict(D03="000")), "3 D03 23"),
        (orders(dict(D03="999"), dict(D03="100"), dict(D03="010"), dict(D03="10"), dict(D03="999")), "5 D03 23", "6 D03 23"),
        (orders(dict(D03="1")),),  # the record before this one takes no number from it
        # 24: the kinds.
        (orders(*kinds),),
        (orders(*[drug(D02=k) for k in "0 6 7 8 9 A B H I K L N O R j m".split()]), *["%d D02 24" % k for k in range(2, 18)]),
        (orders(drug(D02=" ")), "2 D02 24"),
        # 24: what a drug needs, one left out each, under 1 and M.
        *[(orders(*[drug(D02=k, **{name: None}) for name in ("D04", "D08", "D09", "D10", "D14")]), *["%d D02 24" % n for n in range(2, 7)]) for k in "1M"],
        (orders(drug(D06=None)),),
        (orders(drug(D06=None, D08=None)), "2 D02 24"),
        # 24: the excuse of each code, and of none else; nothing but D08 and D14 is excused.
        (orders(*[drug(D06=code, D08=None, D14=None) for code in excused]),),
        (orders(*[drug(D02="M", D06=code, D14=None) for code in ("M01", "M07", "M10", "A22", "MA5", "P31103", "M0", "M011")]),
         *["%d D02 24" % k for k in range(3, 10)]),
        (orders(*[drug(D06="M01", **{name: None}) for name in ("D04", "D09", "D10")]), "2 D02 24", "3 D02 24", "4 D02 24"),
        # 24: D04 A to F, D09 1 to 92, under 1 and M alone.
        (orders(*[drug(D04=k) for k in "ABCDEF"]),),
        (orders(*[drug(D02="M", D04=k) for k in "G@a0f"]), *["%d D02 24" % k for k in range(2, 7)]),
        (orders(*[drug(D09=k) for k in ("1", "01", "92")]),),
        (orders(*[drug(D09=k) for k in ("0", "00", "93", "99")]), *["%d D02 24" % k for k in range(2, 6)]),
        (orders(dict(D02="2", D04="Z", D09="93"), dict(D02="Q", D04="Z", D09="0"), dict(D04="Z", D09="0")),),
        (orders(drug(D04="G", D09="93", D08=None)), "2 D02 24"),
        # 25: under A, of the kinds 1, 2 and 3.
        (orders(*[dict(k, D11="x") for k in kinds], action="A"),),
        (orders(*kinds, action="A"), "2 D11 25 absent", "3 D11 25 absent", "4 D11 25 absent"),
        (orders(dict(D05="1"), dict(D02="2", D11=""), action="A"), "3 D11 25 absent"),
        (orders(drug(), dict(D02="2"), dict(D02="3")),),
        (orders(drug(D09="93"), action="A"), "2 D02 24", "2 D11 25 absent"),
    ]


def rules_26_to_29():
    codes = ["M06"] + ["M%d" % k for k in range(35, 44)]
    pairs = b"\xa4\xa4"
    visit = dict(M26="3")
    return [
        # 26: what is written of the lists 2, 4 and 5, all right and all wrong; M05 is the sender, and so always right here.
        (small(**{name: "A0Z9" for name in codes}),),
        (small(**{name: "A0.9" for name in codes}), *["1 %s 26" % name for name in codes]),
        *[(small(**{name: "a0"}), "1 %s 26" % name) for name in codes],
        # 26: the lists 1 and 3 in each order.
        (orders(dict(D06="AC12345100", D12="3501200001"), dict(D06="Z" * 12, D12="Z" * 10)),),
        (orders(dict(D06="ac12345100"), dict(D12="350120000-"), dict(D06="0"), dict(D06=" ", D12=pairs)),
         "2 D06 26", "3 D12 26", "5 D06 26", "5 D12 26"),
        # 26: beds. A bed of A to Z and 0 to 9 is in the list by shape; RRRRR, DW and ER are so too.
        *[(lawful("EA", "B").set(M50=bed),) for bed in ("RRRRR", "DW", "ER", "W0101")],
        *[(lawful("EA", "B").set(M50=bed), "1 M50 26") for bed in ("W-01", "dw", "E R", "RRRRR ")],
        # 26: the visit numbers of list 7 under B, in every category, and not under A.
        *[(small(M13=number),) for number in [code.decode() for code in model.ABNORMAL]],
        *[(small(M13=number), "1 M13 26") for number in ("0012", "A002", "a000", "A00", "F001", "IC11", "IC99", "TM02", "000A")],
        (lawful("01", "B").set(M13="0012"), "1 M13 26"),
        (lawful("AJ", "B").set(M13="IC11"), "1 M13 26"),
        (lawful("02", "A"),),
        # 27 says of AE and AF what is required of them already: without M16 or M17 the second tier has the fault.
        (lawful("AE", "A").set(M16=None), "1 M16 14 absent"),
        (lawful("AF", "B").set(M17=None), "1 M17 14 absent"),
        # 28.
        (lawful("AC", "B"), "1 M07 28"),
        (lawful("AC", "A"),),
        (kept("D", M07="AC"),),
        # 29: with M26 = 3.
        *[(small(M33=refills, **visit),) for refills in ("13", "123", "1", "3", "0", "23", "")],
        *[(small(M33=refills, **visit), "1 M33 29") for refills in ("21", "124", "4", "11", "00", "01", "10", "1233", "113")],
        # 29: with other numbers of times, and without.
        (small(M33="0"),),
        (small(M33="1"), "1 M33 29"),
        (small(M33="1", M26="0"), "1 M33 29"),
        (small(M33="1", M26="1"),),
        (small(M33="6789", M26="9"),),
        (small(M33="9", M26="8"), "1 M33 29"),
        (small(M33="1234", M26="4"),),
        (small(M33="1234", M26="3"), "1 M33 29"),
        (lawful("AE", "A").set(M33="2", M26="2"),),
        (lawful("AE", "A").set(M33="2"), "1 M33 29"),
        # Many rules at once: faults rise by rule, then by place, whatever the order of the fields.
        (Record([("H01", "B"), ("H00", "1")],
                [("M52", "x"), ("M33", "9"), ("M51", "01"), ("M43", "-"), ("M17", "x"), ("M16", "x"), ("M36", "-"), ("M15", "x"), ("M13", "0012"), ("M12", "1"),
                 ("M11", "1130301093000"), ("M10", "A"), ("M07", "DA"), ("M06", "-"), ("M05", "3501200000"), ("M04", "0800101"), ("M03", "A"), ("M35", "-")],
                [[("D06", "-"), ("D03", "1"), ("D02", "1"), ("D01", VISIT)], [("D12", "-"), ("D03", "1"), ("D02", "9"), ("D01", VISIT)]]),
         "1 M11 17", "1 M08 18 absent", "1 M12 19", "1 M52 21", "1 M17 21", "1 M16 21", "1 M15 21", "2 D01 22", "3 D01 22", "3 D03 23", "2 D02 24", "3 D02 24",
         "1 M43 26", "1 M36 26", "1 M13 26", "1 M06 26", "1 M35 26", "2 D06 26", "3 D12 26", "1 M33 29"),
    ]


def many():
    """More faults than there are rows: all are counted, and the first 4,096 told."""
    fields = [("X%02d" % (k % 100), "1") for k in range(2600)]
    told = ["1 X%02d 11 tag %d" % (k % 100, 1 + k // 100) for k in range(2600)] + ["1 X%02d 12 tag %d" % (k % 100, 1 + k // 100) for k in range(100, 2600)]
    return [(small().add(visit=fields), *told), (small(H00="2"), "0 H00 13")]


# -------------------------------------------------------------------------------------------------------------------- the register
#
# The records of a file are judged one after the other against a register that is empty before the first.


def key(name):
    """An identifier that begins so."""
    return name.ljust(20, "X")


def prescription(name, times="3", refills="", category="01", **changes):
    return lawful(category, "A").set(**dict(dict(M15=key(name), M26=times, M33=refills), **changes))


def dispensing(name, origin, refills="", category="AE", action="A", **changes):
    """A dispensing of a prescription of this sender. Its own times are nine, so that rule 29 lets any refills pass."""
    return lawful(category, action).set(**dict(dict(M15=key(name), M16=key(origin), M17="3501200000", M26="9", M33=refills), **changes))


def cancel(name, **changes):
    return kept("C", **dict(dict(M15=key(name)), **changes))


def delete(name, **changes):
    return kept("D", **dict(dict(M15=key(name)), **changes))


def nothing_stands():
    return [(kept("D"), "1 M15 30")]


def withdrawals():
    """Rules 30 and 34, and what cancellations and deletions leave."""
    return [
        # 30: nothing stands; then something, of another patient, another birth day, another key.
        (cancel("A"), "1 M15 30"),
        (delete("A"), "1 M15 30"),
        (prescription("A"),),
        (delete("A", M03="A123456788"), "1 M15 30"),
        (delete("A", M03="A12345678"), "1 M15 30"),
        (delete("A", M03="A123456789".lower()), "1 M15 30"),
        (delete("A", M04="0800102"), "1 M15 30"),
        (cancel("A", M03="B123456789"), "1 M15 30"),
        (cancel("A", M04="0800102"), "1 M15 30"),
        (delete("B"), "1 M15 30"),
        (delete("A"),),
        (delete("A"), "1 M15 30"),
        (cancel("A"), "1 M15 30"),
        # 30: a short patient, and a correction that changes patient and birth day; corrections themselves may.
        (prescription("C", M03="A1"),),
        (delete("C"), "1 M15 30"),
        (prescription("C", M03="A12", M04="0800102"),),
        (delete("C", M03="A1", M04="0800102"), "1 M15 30"),
        (delete("C", M03="A12"), "1 M15 30"),
        (delete("C", M03="A12", M04="0800102"),),
        # A record with an earlier fault leaves nothing, and does nothing.
        (prescription("D", M33="21"), "1 M33 29"),
        (delete("D"), "1 M15 30"),
        (prescription("D"),),
        (delete("D", H00="2"), "0 H00 13"),
        (delete("D"),),
        # 34: without times.
        (prescription("E", times=None),),
        (cancel("E"), "1 M15 34"),
        (prescription("E", times="0"),),
        (cancel("E"), "1 M15 34"),
        (prescription("E", times="1"),),
        (cancel("E"),),
        # 34: cancelled already. A correction takes the mark away; a cancelled record may be deleted.
        (cancel("E"), "1 M15 34"),
        (prescription("E", times="9"),),
        (cancel("E"),),
        (cancel("E", M04="0800102"), "1 M15 30"),
        (delete("E"),),
        (delete("E"), "1 M15 30"),
        # 34: of a dispensing, with times, with an origin and without. Other categories may have an origin and be cancelled.
        (dispensing("F", "NONE", "1"),),
        (cancel("F"), "1 M15 34"),
        (dispensing("G", "NONE", "2", category="AF"),),
        (cancel("G"), "1 M15 34"),
        (dispensing("H", "NONE", M16="9" * 20),),
        (cancel("H"), "1 M15 34"),
        (dispensing("I", "NONE", category="AG"),),
        (cancel("I"),),
        (dispensing("J", "NONE", category="AE", action="B"),),
        (cancel("J"), "1 M15 34"),
        (small(M15=key("K"), M26="1"),),
        (cancel("K"),),
        # 34: a dispensing that is corrected to something else.
        (prescription("F"),),
        (cancel("F"),),
    ]


def dispensings():
    """Rules 32 and 33."""
    return [
        # 32: whatever would change what is dispensed, until nothing dispenses it.
        (prescription("A", "3", "1"),),
        (dispensing("A2", "A", "2"),),
        (prescription("A", "3", "1"), "1 M15 32"),
        (cancel("A"), "1 M15 32"),
        (delete("A"), "1 M15 32"),
        (delete("A", M03="B123456789"), "1 M15 30"),
        (dispensing("A", "NONE", "1"), "1 M15 32"),
        (dispensing("A3", "A", "3", category="AF", action="B"),),
        (delete("A2"),),
        (delete("A"), "1 M15 32"),
        (delete("A3"),),
        (prescription("A", "4"),),
        (cancel("A"),),
        # 32: also by a dispensing without refills, and of a dispensing.
        (prescription("B"),),
        (dispensing("B1", "B"),),
        (delete("B"), "1 M15 32"),
        (dispensing("B2", "B1"),),
        (delete("B1"), "1 M15 32"),
        (delete("B2"),),
        (delete("B1"),),
        (delete("B"),),
        # 32 comes before 33 and 34: cancelled is what a dispensing cannot be made of, and what is dispensed cannot be cancelled.
        (dispensing("C1", "C"),),
        (dispensing("C2", "C1", "1"),),
        (cancel("C1"), "1 M15 32"),
        (dispensing("C1", "C1"), "1 M15 32"),
        # 33: of itself, new and as a correction, with refills and without.
        (dispensing("D", "D"), "1 M15 33"),
        (dispensing("D", "D", "1", category="AF"), "1 M15 33"),
        (dispensing("D", "E"),),
        (dispensing("D", "D"), "1 M15 33"),
        (dispensing("D", "D", M17="3501200001"),),  # of another sender's
        (dispensing("D", "D", category="AG"),),
        # 33: the origin is cancelled.
        (prescription("F"),),
        (cancel("F"),),
        (dispensing("F1", "F", "1"), "1 M15 33"),
        (dispensing("F1", "F"), "1 M15 33"),
        (dispensing("F1", "F", category="AG"),),
        (prescription("F"),),
        (dispensing("F1", "F", "1"),),
        # 33: the origin has fewer times.
        (prescription("G", "2"),),
        (dispensing("G1", "G", "3"), "1 M15 33"),
        (dispensing("G1", "G", "13"), "1 M15 33"),
        (dispensing("G1", "G", "2"),),
        (dispensing("G2", "G", "1"),),
        (prescription("H", None),),
        (dispensing("H1", "H", "1"), "1 M15 33"),
        # M33 = 0 is no refill, which nobody takes.
        (dispensing("H1", "H", "0"),),
        (dispensing("H2", "H", "0"),),
        (prescription("I", "9"),),
        (dispensing("I1", "I", "6789"),),
        # 33: taken already; a correction may keep its own refills, and a deletion frees them.
        (prescription("J", "4"),),
        (dispensing("J1", "J", "12"),),
        (dispensing("J2", "J", "2"), "1 M15 33"),
        (dispensing("J2", "J", "13"), "1 M15 33"),
        (dispensing("J2", "J", "3"),),
        (dispensing("J1", "J", "12"),),
        (dispensing("J1", "J", "23"), "1 M15 33"),
        (dispensing("J1", "J", "2"),),
        (dispensing("J3", "J", "1", category="AF"),),
        (delete("J2"),),
        (dispensing("J3", "J", "13", category="AF"),),
        # 33: the prescription itself has taken refills, and takes them of nobody else.
        (prescription("K", "3", "12"),),
        (dispensing("K1", "K", "1"), "1 M15 33"),
        (dispensing("K1", "K", "3"),),
        (prescription("L", "3", "12"),),
        # 33: what was dispensed before the prescription came. The dispensing that is there keeps it from taking that refill itself.
        (dispensing("M1", "M", "2"),),
        (prescription("M", "3", "2"), "1 M15 33"),
        (prescription("M", "3", "123"), "1 M15 33"),
        (prescription("M", "3", "13"),),
        (dispensing("M2", "M", "1"), "1 M15 33"),
        # 33: a prescription with fewer times than were dispensed before it came breaks nothing.
        (dispensing("N1", "N", "9"),),
        (prescription("N", "1", "1"),),
        # 33: refills of another sender's prescription with the same identifier are others.
        (prescription("P", "3", "1"),),
        (dispensing("P1", "P", "1", M17="3501200001"),),
        (dispensing("P2", "P", "1", M17="3501200001"), "1 M15 33"),
        (dispensing("P2", "P", "1"), "1 M15 33"),
        # Only AE and AF have an origin: AG takes of its own key, and keeps nothing from being deleted.
        (prescription("Q", "3"),),
        (dispensing("Q1", "Q", "1", category="AG"),),
        (dispensing("Q2", "Q", "1"),),
        (dispensing("Q3", "Q1", "1"), "1 M15 33"),
        (delete("Q2"),),
        (delete("Q"),),
        # A dispensing that becomes something else frees what it took.
        (prescription("R", "3"),),
        (dispensing("R1", "R", "1"),),
        (prescription("R1", "3", "1"),),
        (dispensing("R2", "R", "1"),),
    ]


def placeholders():
    """Identifiers that stand for no particular record, as key and as origin, and some that are nearly so."""
    nines, effs, zeros = "9" * 20, "F" * 20, "ABCD" + "0" * 16
    near = ["9" * 19 + "8", "F" * 19 + "E", "ABCDE" + "0" * 15, "8" + "9" * 19]
    cases = []
    for k, name in enumerate((nines, effs, zeros, "0" * 20)):
        # Nothing is kept of such a record, not even its refills, and it may come again.
        cases += [
            (prescription("", M15=name),),
            (prescription("", "3", "1", M15=name),),
            (delete("", M15=name), "1 M15 30"),
            (cancel("", M15=name), "1 M15 30"),
            (dispensing("", "P%d" % k, "1", M15=name),),
            (dispensing("X%d" % k, "P%d" % k, "1"),),
            (dispensing("", "P%d" % k, "1", M15=name),),
            (prescription("P%d" % k),),
            (dispensing("", "P%d" % k, "9", M15=name),),
            # As an origin it is none: the refills are taken of nothing, and it is not the own key.
            (dispensing("Y%d" % k, "", "1", M16=name),),
            (dispensing("Z%d" % k, "", "1", M16=name, category="AF"),),
            (dispensing("", "", "1", M15=name, M16=name),),
            # It takes nothing of its own key either: this one may take the first refill of it, and the next one not.
            (dispensing("U%d" % k, "Y%d" % k, "1"),),
            (dispensing("T%d" % k, "Y%d" % k, "1"), "1 M15 33"),
            # Its visit must not be past due.
            (small(M15=name, M11="1121231093000"), "1 M15 31"),
        ]
    for k, name in enumerate(near):
        cases += [
            (dispensing("V%d" % k, "", "1", M16=name),),
            (dispensing("W%d" % k, "", "1", M16=name), "1 M15 33"),
            (prescription("", M15=name),),
            (delete("", M15=name), "1 M15 32"),
            (delete("V%d" % k),),
            (delete("", M15=name),),
            (delete("", M15=name), "1 M15 30"),
        ]
    return cases


def visit_of(name, moment, **changes):
    return small(M15=key(name), M11=moment, **changes)


def due_days():
    """Rule 31 on 29 February 113: visits of January are due today."""
    return [
        (visit_of("A", "1130101000000"),),
        (visit_of("B", "1130131235959"),),
        (visit_of("C", "1121231235959"), "1 M15 31"),
        (visit_of("C", "1120229000000"), "1 M11 16"),
        (visit_of("C", "1120228000000"), "1 M15 31"),
        (visit_of("C", "1090229000000"), "1 M15 31"),
        (delete("A"),),
    ]


def past_due():
    """Rule 31 on 1 March 113: visits of January were due on the day before."""
    return [
        (visit_of("A", "1130201000000"),),
        (visit_of("B", "1130131235959"), "1 M15 31"),
        (visit_of("B", "1130101000000"), "1 M15 31"),
        (visit_of("B", "1120301000000"), "1 M15 31"),
        (visit_of("B", "1130301093000"),),
        (visit_of("C", "1130301093000"),),
        # A correction has its own visit, beside that of what stands.
        (visit_of("A", "1130131235959"), "1 M15 31"),
        (visit_of("A", "1130229235959"),),
        # It is told before the others, and not if an earlier tier has a fault. Records that withdraw have no visit of their own.
        (dispensing("D", "D", "1", M11="1130131093000").set(D01="1130131093000"), "1 M15 31"),
        (visit_of("D", "1130131093000", M33="1"), "1 M33 29"),
        (delete("A", M11="1120101000000"),),
    ]


def new_year():
    """Rule 31 on 31 January 113: visits of December are due today."""
    return [
        (visit_of("A", "1121201000000"),),
        (visit_of("B", "1121231235959"),),
        (visit_of("C", "1121130235959"), "1 M15 31"),
        (visit_of("C", "1111231000000"), "1 M15 31"),
    ]


def last_days():
    """Rule 31 on the last day there is."""
    return [
        (visit_of("A", "9991231235959"),),
        (visit_of("B", "9991201000000"),),
        (visit_of("C", "9991130235959"),),
        (visit_of("D", "9991101000000"),),
        (visit_of("E", "9991031235959"), "1 M15 31"),
        (visit_of("F", "9981231000000"), "1 M15 31"),
        (delete("A"),),
    ]


def full_register():
    """Rule 35: 256 records stand, and no other has room until one is deleted. Corrections have room."""
    name = lambda k: "S%03d" % k
    fill = lambda k, **changes: small(M15=key(name(k)), M03="A", **changes)
    return [
        *[(fill(k),) for k in range(256)],
        (fill(256), "1 M15 35"),
        (fill(0),),
        (small(M15="9" * 20, M03="A"),),
        (delete(name(255), M03="A"),),
        (fill(256),),
    ]


SAMPLES = {
    "categories": lambda: categories(False),
    "full": lambda: categories(True),
    "needs": needs,
    "forms": forms,
    "first_tier": first_tier,
    "second_tier": second_tier,
    "third_tier": lambda: rules_17_to_21() + rules_22_to_25(),
    "codes_and_refills": rules_26_to_29,
    "many": many,
    "nothing_stands": nothing_stands,
    "withdrawals": withdrawals,
    "dispensings": dispensings,
    "placeholders": placeholders,
    "due_days": due_days,
    "past_due": past_due,
    "new_year": new_year,
    "last_days": last_days,
    "full_register": full_register,
}

# White space of all four kinds in one sample, and none in another. Other receipt days.
WRITTEN = {
    "second_tier": dict(blank=b"\r\n", within=b"\r\n\t "),
    "nothing_stands": dict(blank=b""),
    "past_due": dict(day=b"1130301"),
    "new_year": dict(day=b"1130131"),
    "last_days": dict(day=b"9991231"),
    "full_register": dict(blank=b""),
}


def against(program):
    bad = 0
    for name in SAMPLES:
        done = subprocess.run([program], input=(FOLDER / name).read_bytes(), stdout=subprocess.PIPE, timeout=60)
        good = done.returncode == 0 and done.stdout == (FOLDER / (name + ".stdout")).read_bytes()
        bad += not good
        print("%s: %s" % (name, "as it must" if good else "NOT as it must"))
    sys.exit(1 if bad else 0)


def main():
    if "--against" in sys.argv:
        against(sys.argv[-1])
    bad = 0
    FOLDER.mkdir(parents=True, exist_ok=True)
    for name, cases in [*SAMPLES.items(), ("gate", lambda: first_tier() + rules_17_to_21() + rules_22_to_25())]:
        text, output = write(cases(), **WRITTEN.get(name, {}))
        said = model.answer(text) + "\n"
        if said != output:
            bad += 1
            for one, other in zip(output.split("\n"), said.split("\n")):
                if one != other:
                    print("%s: by hand %s, the model %s" % (name, one, other))
                    break
        if len(text) > model.MOST_INPUT:
            bad += 1
            print("%s: %d bytes are too many" % (name, len(text)))
        files = [GATE / "stdin", GATE / "stdout"] if name == "gate" else [FOLDER / name, FOLDER / (name + ".stdout")]
        for path, content in zip(files, (text, output.encode())):
            if "--check" not in sys.argv:
                path.write_bytes(content)
            elif not path.exists() or path.read_bytes() != content:
                bad += 1
                print("%s is not as it is written here" % path.name)
        print("%s: %d records, %d bytes" % (name, int(output[:4], 16), len(text)))
    sys.exit(1 if bad else 0)


if __name__ == "__main__":
    main()
