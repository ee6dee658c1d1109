#!/usr/bin/env python3
"""Writes the sample queues of `relay`, samples/relay/NAME, and what it must print of them, NAME.stdout.

    nights.py                      writes them
    nights.py --check              tells whether they stand as written here
    nights.py --against PROGRAM    tells whether the program prints so of each

Beside each command stands its answer, told by hand from the rules: the faults of each record as in samples.py, what a look-up finds, a refusal.
The model (relay_model.py) must say the same.
"""

import itertools
import pathlib
import subprocess
import sys

import relay_model
import samples

FOLDER = pathlib.Path(__file__).resolve().parents[2] / "samples" / "relay"
CLINIC, PHARMACY, OTHER = "3501200000", "3501200001", "AB00000009"
key = samples.key


class Queue:
    def __init__(self):
        self.text, self.answers = b"", b""

    def put(self, line, *answers):
        self.text += line.encode() + b"\n"
        self.answers += "".join(answer + "\n" for answer in answers).encode()

    def send(self, sender, day, cases, rows=4096, verdict_rows=4096):
        """An upload that is taken: each case is a record and the faults that it has."""
        for record, *_ in cases:
            record.set(M05=sender)
        upload, output = samples.write(cases)
        counts, *lines = output.rstrip("\n").split("\n")
        verdicts = [min((int(told.split()[2]) for told in tolds), default=0) for _, *tolds in cases]
        self.receive(sender, day, upload[19:], counts, *lines[:rows], "V " + "".join("%02X" % verdict for verdict in verdicts), rows=rows, verdict_rows=verdict_rows)

    def receive(self, sender, day, upload, *answers, rows=4096, verdict_rows=4096):
        self.put("receive %s %s %d %d %d" % (sender, day, verdict_rows, rows, len(upload)), *answers)
        self.text += upload + b"\n"

    def look(self, sender, name, answer):
        """A visit moment that is told as a day is half past nine."""
        words = answer.split(" ")
        if len(words) == 8 and len(words[3]) == 7:
            words[3] += "093000"
        self.put("lookup %s %s" % (sender, key(name)), " ".join(words))

    def lists(self, rows, answer="ok"):
        self.put("lists rows %d" % len(rows), answer)
        self.text += "".join(row + "\n" for row in rows).encode()


def visit(name, day="1130215", times="3", refills="", **changes):
    return samples.prescription(name, times, refills, M11=day + "093000", **changes)


def dispense(name, origin, refills="", day="1130215", sender=CLINIC, **changes):
    record = samples.dispensing(name, origin, refills, M17=sender, M11=day + "093000", **changes)
    return record.set(D01=day + "093000")


cancel, delete = samples.cancel, samples.delete

# ------------------------------------------------------------------------------------------------------------------------- night


def work(q):
    """The same night for each kind of register, of six slots."""
    # A prescription that takes its first refill itself, one without times, and a small visit.
    q.look(CLINIC, "A", "none")
    q.send(CLINIC, "1130215", [(visit("A", refills="1"),), (visit("B", times=None),), (samples.small(M15=key("C"), M03="A1"),)])
    q.look(CLINIC, "A", "A123456789 0800101 01 1130215 - 3 1 0")
    q.look(CLINIC, "B", "A123456789 0800101 01 1130215 - 0 - 0")
    q.look(CLINIC, "C", "A1 0800101 DA 1130215 - 0 - 0")
    q.look(PHARMACY, "A", "none")
    # Dispensings elsewhere: one is good; a refill that is taken, one beyond the times, one without times, and one of itself are not.
    q.send(PHARMACY, "1130216", [
        (dispense("D", "A", "2"),),
        (dispense("E", "A", "1"), "1 M15 33"),
        (dispense("E", "A", "4"), "1 M15 33"),
        (dispense("E", "B", "1"), "1 M15 33"),
        (dispense("E", "E", sender=PHARMACY), "1 M15 33"),
    ])
    q.look(PHARMACY, "D", "A123456789 0800101 AE 1130215 3501200000:AXXXXXXXXXXXXXXXXXXX 9 2 0")
    q.look(PHARMACY, "E", "none")
    # Another pharmacy comes too late for the second refill, and not for the third. It has no D to delete.
    q.send(OTHER, "1130216", [
        (dispense("F", "A", "2", category="AF"), "1 M15 33"),
        (dispense("F", "A", "23", category="AF"), "1 M15 33"),
        (dispense("F", "A", "3", category="AF"),),
        (delete("D"), "1 M15 30"),
    ])
    q.look(OTHER, "F", "A123456789 0800101 AF 1130215 3501200000:AXXXXXXXXXXXXXXXXXXX 9 3 0")
    q.look(PHARMACY, "D", "A123456789 0800101 AE 1130215 3501200000:AXXXXXXXXXXXXXXXXXXX 9 2 0")
    # The clinic can do nothing with what is dispensed, nor cancel what has no times.
    q.send(CLINIC, "1130217", [
        (cancel("A"), "1 M15 32"),
        (delete("A"), "1 M15 32"),
        (visit("A", times="9", refills="1"), "1 M15 32"),
        (delete("A", M04="0800102"), "1 M15 30"),
        (cancel("B"), "1 M15 34"),
        (cancel("C"), "1 M15 30"),
        (cancel("C", M03="A1"), "1 M15 34"),
    ], rows=3)
    q.look(CLINIC, "A", "A123456789 0800101 01 1130215 - 3 1 0")
    # A dispensing is deleted and not cancelled; then its refill is free for the other pharmacy. What was the origin of three is that of two.
    q.send(PHARMACY, "1130217", [(cancel("D"), "1 M15 34"), (delete("D"),), (delete("D"), "1 M15 30")], rows=1)
    q.look(PHARMACY, "D", "none")
    q.send(OTHER, "1130217", [(dispense("G", "A", "2"),), (dispense("F", "A", "3", category="AE"),)])
    q.look(OTHER, "G", "A123456789 0800101 AE 1130215 3501200000:AXXXXXXXXXXXXXXXXXXX 9 2 0")
    q.look(OTHER, "F", "A123456789 0800101 AE 1130215 3501200000:AXXXXXXXXXXXXXXXXXXX 9 3 0")
    # Nothing is dispensed any more: A is cancelled, and nobody may dispense it, until it is corrected.
    q.send(OTHER, "1130218", [(delete("F"),), (delete("G"),)], rows=0)
    q.look(OTHER, "G", "none")
    q.send(CLINIC, "1130218", [(cancel("A"),), (cancel("A"), "1 M15 34")])
    q.look(CLINIC, "A", "A123456789 0800101 01 1130215 - 3 1 1")
    q.send(PHARMACY, "1130218", [(dispense("D", "A", "2"), "1 M15 33"), (dispense("D", "A"), "1 M15 33")])
    q.send(CLINIC, "1130219", [(visit("A", times="2", M03="A123"),)])
    q.look(CLINIC, "A", "A123 0800101 01 1130215 - 2 - 0")
    q.send(PHARMACY, "1130219", [(dispense("D", "A", "12"),)])
    q.look(PHARMACY, "D", "A123456789 0800101 AE 1130215 3501200000:AXXXXXXXXXXXXXXXXXXX 9 12 0")
    # A dispensing that comes before its prescription. Six records stand then: there is room for corrections alone.
    q.send(PHARMACY, "1130220", [(dispense("H", "I", "1"),)])
    q.send(CLINIC, "1130220", [(visit("I", refills="1"), "1 M15 33"), (visit("I", refills="2"),), (visit("J"), "1 M15 35"), (visit("B", times="1"),)])
    q.look(CLINIC, "I", "A123456789 0800101 01 1130215 - 3 2 0")
    q.look(CLINIC, "J", "none")
    q.look(CLINIC, "B", "A123456789 0800101 01 1130215 - 1 - 0")
    # A placeholder needs no room, and takes nothing. As an origin it is none.
    q.send(OTHER, "1130220", [(dispense("", "I", "1", M15="9" * 20),), (delete("", M15="9" * 20), "1 M15 30"), (dispense("K", "I", "3"), "1 M15 35")])
    q.put("lookup %s %s" % (OTHER, "9" * 20), "none")
    q.send(CLINIC, "1130221", [(delete("C", M03="A1"),)])
    q.send(OTHER, "1130221", [(dispense("K", "", "1", M16="F" * 20),)])
    q.look(OTHER, "K", "A123456789 0800101 AE 1130215 - 9 1 0")
    q.look(CLINIC, "C", "none")
    # Uploads that go back change nothing: the first record of this one would delete H.
    good = samples.write([(delete("H").set(M05=PHARMACY),)])[0][19:]
    foreign = samples.write([(delete("H").set(M05=PHARMACY),), (delete("B"),)])[0][19:]
    q.receive(PHARMACY, "1130221", foreign, "0700%08X" % (foreign.rindex(b"<M05>") + 5))
    q.receive(PHARMACY, "1130221", good, "090000000000", verdict_rows=4095)
    q.receive("350120000a", "1130221", good, "090000000000")
    q.receive(PHARMACY, "1130230", good, "090000000000")
    q.receive(PHARMACY, "1130221", b"", "010000000000")
    q.receive(PHARMACY, "1130221", good[:-10], "0600%08X" % (len(good) - 10))
    q.receive(PHARMACY, "1130221", good + b"?", "0303%08X" % len(good))
    q.look(PHARMACY, "H", "A123456789 0800101 AE 1130215 3501200000:IXXXXXXXXXXXXXXXXXXX 9 1 0")
    # An upload without records.
    q.send(PHARMACY, "1130221", [])
    # Due days: those of February on 31 March, and the day after. What stands past due stays, also if a new visit would be in time.
    q.send(PHARMACY, "1130331", [(delete("H"),), (dispense("L", "I", "3", day="1130201"),), (dispense("M", "I", "1", day="1130131"), "1 M15 31")])
    q.look(PHARMACY, "L", "A123456789 0800101 AE 1130201 3501200000:IXXXXXXXXXXXXXXXXXXX 9 3 0")
    q.send(PHARMACY, "1130401", [
        (delete("L"), "1 M15 31"),
        (cancel("L"), "1 M15 31"),
        (delete("L", M03="A1"), "1 M15 30"),
        (dispense("L", "I", "3", day="1130301"), "1 M15 31"),
        (visit("M", day="1130229"), "1 M15 31"),
        (visit("", day="1130229", M15="9" * 20), "1 M15 31"),
        (visit("", day="1130301", M15="9" * 20),),
        (visit("M", day="1130301"), "1 M15 35"),
    ])
    q.send(CLINIC, "1130401", [(delete("I"), "1 M15 31"), (cancel("B"), "1 M15 31")], rows=2)
    q.look(PHARMACY, "L", "A123456789 0800101 AE 1130201 3501200000:IXXXXXXXXXXXXXXXXXXX 9 3 0")
    # The receipt day of another upload may be earlier. What stands is still dispensed.
    q.send(CLINIC, "1130331", [(delete("I"), "1 M15 32"), (cancel("B"),), (delete("B"),)])
    q.look(CLINIC, "B", "none")


def due_days(q):
    """The ends of months and years, for records and for what stands. The digit 0 of M33 is no refill."""
    q.send(CLINIC, "1121231", [(visit("A", "1121231", refills="0"),), (visit("B", "1121130"),)])
    q.look(CLINIC, "A", "A123456789 0800101 01 1121231 - 3 - 0")
    q.send(CLINIC, "1130101", [(cancel("B"), "1 M15 31"), (visit("B", "1130101"), "1 M15 31"), (visit("C", "1121130"), "1 M15 31")])
    q.send(CLINIC, "1130131", [(cancel("A"),), (visit("C", "1130131"),)])
    q.send(CLINIC, "1130201", [(delete("A"), "1 M15 31"), (visit("D", "1121231"), "1 M15 31")])
    q.look(CLINIC, "A", "A123456789 0800101 01 1121231 - 3 - 1")
    q.send(CLINIC, "1130229", [(visit("C", "1130131"),)])
    q.send(CLINIC, "1130301", [(delete("C"), "1 M15 31")])
    # Two dispensings of a key whose identifier another sender has too; the times of what stands there are three.
    q.send(PHARMACY, "1130301", [(dispense("C", "C", "3", day="1130301"),)])
    q.send(OTHER, "1130301", [(dispense("C", "C", "3", day="1130301"), "1 M15 33"), (dispense("C", "C", "3", day="1130301", sender=OTHER), "1 M15 33")])
    # A dispensing without an origin takes nothing, of its own key neither.
    q.put("register ordered 9", "ok")
    q.send(PHARMACY, "1130301", [(dispense("K", "", "1", M16="0" * 20, day="1130301"),)])
    q.send(OTHER, "1130301", [(dispense("L", "K", "1", day="1130301", sender=PHARMACY),), (dispense("M", "K", "1", day="1130301", sender=PHARMACY), "1 M15 33")])
    q.look(OTHER, "L", "A123456789 0800101 AE 1130301 3501200001:KXXXXXXXXXXXXXXXXXXX 9 1 0")
    # The last days there are.
    q.send(CLINIC, "9991130", [(visit("Y", "9991031"),), (visit("Z", "9991130"),)])
    q.send(CLINIC, "9991231", [(delete("Y"), "1 M15 31"), (visit("Z", "9991231"),), (delete("Z"),), (visit("Z", "9991031"), "1 M15 31")])


LISTS = ["1 3501200000 1120101 1140101", "2 B223456789 1120101 1140101", "4 J00 1130201 1130215", "7 A000 1130214 1140101"]


def codes(q):
    """Code lists of rows, over one register."""
    def small(name, day="1130215", **changes):
        return samples.small(M15=key(name), M11=day + "093000", **changes)
    q.lists(LISTS)
    # Spans have both ends. The day of the visit counts, and J0 and J000 are other codes than J00.
    q.send(CLINIC, "1130301", [
        (small("A"),),
        (small("B", M35="J00"),),
        (small("C", "1130216", M35="J00"), "1 M35 26"),
        (small("C", "1130201", M35="J00"), "1 M13 26"),
        (small("C", "1130131", M35="J00"), "1 M35 26", "1 M13 26"),
        (small("C", M13="A001"), "1 M13 26"),
        (small("C", M35="J0", M36="J000", M41="J00"), "1 M35 26", "1 M36 26", "1 M41 26"),
        (small("C", "1130214", M35="J00"),),
        (visit("D", M35="J00"),),
    ])
    q.look(CLINIC, "C", "A123456789 0800101 DA 1130214 - 0 - 0")
    # A sender without a row. Whoever withdraws needs none.
    q.send(PHARMACY, "1130301", [(small("A"), "1 M05 26"), (delete("A"), "1 M15 30")])
    # Beds that need no row, and one that has none.
    q.send(CLINIC, "1130301", [
        *[(samples.lawful("EA", "B").set(M15=key("E"), M50=bed, M16=key("X"), M17=PHARMACY),) for bed in ("RRRRR", "DW", "ER")],
        (samples.lawful("EA", "B").set(M15=key("E")), "1 M50 26"),
    ])
    q.look(CLINIC, "E", "A123456789 0800101 EA 1130215 - 0 - 0")
    # Lists that are refused: out of order, twice the same, no list, a code too long, no day, the last day before the first; the first bad row is told.
    q.lists(LISTS[:2] + ["1 3501200001 1120101 1140101"], "0A0000000002")
    q.lists(LISTS + ["7 A000 1140102 1150101"], "0A0000000004")
    q.lists(["0 A 1120101 1140101"], "0A0000000000")
    q.lists(LISTS + ["8 A 1120101 1140101"], "0A0000000004")
    q.lists(["1 ABCDEFGHIJKLM 1120101 1140101"], "0A0000000000")
    q.lists(["1 A 1130230 1140101"], "0A0000000000")
    q.lists(["1 A 1120101 1130229", "1 A1 1130229 1130228", "1 A1 1130229 1130228"], "0A0000000001")
    # The lists in use have stayed.
    q.send(CLINIC, "1130301", [(small("B"),), (small("B", "1130216", M35="J00"), "1 M35 26")])
    q.send(PHARMACY, "1130301", [(small("A"), "1 M05 26")])
    # No row at all, then lists by shape.
    q.lists([])
    q.send(CLINIC, "1130301", [(small("B"), "1 M05 26", "1 M06 26", "1 M13 26"), (delete("B"),)])
    q.put("lists shape", "ok")
    q.send(PHARMACY, "1130301", [(small("A", M35="J0"),)])
    q.look(CLINIC, "B", "none")
    q.look(PHARMACY, "A", "A123456789 0800101 DA 1130215 - 0 - 0")


def night():
    q = Queue()
    # Before any command there is an empty register, and lists by shape.
    q.send(CLINIC, "1130215", [(visit("A"),)])
    q.look(CLINIC, "A", "A123456789 0800101 01 1130215 - 3 - 0")
    q.put("good evening", "error unknown command")
    for kind in ("ordered", "scattered"):
        q.put("register %s 6" % kind, "ok")
        work(q)
    q.put("register scattered 4", "ok")
    due_days(q)
    q.put("register ordered 0", "ok")
    q.send(CLINIC, "1130215", [(visit("A"), "1 M15 35"), (delete("A"), "1 M15 30")])
    q.put("register scattered 65537", "ok")
    codes(q)
    return q


SAMPLES = {"night": night}


def against(program):
    bad = 0
    for name in SAMPLES:
        done = subprocess.run([program], input=(FOLDER / name).read_bytes(), stdout=subprocess.PIPE, timeout=60)
        good = done.returncode == 0 and done.stdout == (FOLDER / (name + ".stdout")).read_bytes()
        bad += not good
        print("%s: %s" % (name, "as it must" if good else "NOT as it must"))
    sys.exit(1 if bad else 0)


def main():
    if "--against" in sys.argv:
        against(sys.argv[-1])
    bad = 0
    FOLDER.mkdir(parents=True, exist_ok=True)
    for name, make in SAMPLES.items():
        queue = make()
        said = relay_model.answers(queue.text)
        bad += said != queue.answers
        for k, (one, other) in enumerate(itertools.zip_longest(queue.answers.split(b"\n"), said.split(b"\n")), 1):
            if one != other:
                print("%s, line %d: by hand %s, the model %s" % (name, k, one, other))
        for path, content in ((FOLDER / name, queue.text), (FOLDER / (name + ".stdout"), queue.answers)):
            if "--check" not in sys.argv:
                path.write_bytes(content)
            elif not path.exists() or path.read_bytes() != content:
                bad += 1
                print("%s is not as it is written here" % path.name)
        print("%s: %d bytes, %d lines of answers" % (name, len(queue.text), queue.answers.count(b"\n")))
    sys.exit(1 if bad else 0)


if __name__ == "__main__":
    main()
