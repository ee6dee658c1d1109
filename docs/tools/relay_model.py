#!/usr/bin/env python3
"""What `relay` prints, worked out a second time, with the model of the rules (model.py) and none of the proved code.

    relay_model.py < QUEUE         prints what `relay` prints of a night's queue

A queue is a line for each command; behind `lists rows N` come N rows, and behind `receive` the upload and a line feed:

    register ordered|scattered N
    lists shape
    lists rows N
    receive SENDER DAY VERDICTROWS REPORTROWS LENGTH
    lookup SENDER IDENTIFIER
"""

import sys

import model

KINDS = (b"ordered", b"scattered")
LONGEST_LINE = 4096
MOST_ROWS = 65_536
WORDS, UNKNOWN, NUMBER = "wrong number of words or blanks", "unknown command", "no number"


class Bad(Exception):
    """Why a command is not done."""


def number(word):
    if not 1 <= len(word) <= 9 or not all(0x30 <= byte <= 0x39 for byte in word):
        raise Bad(NUMBER)
    return int(word)


def words_of(line):
    if len(line) > LONGEST_LINE:
        raise Bad("the line is too long")
    words = line.split(b" ")
    if b"" in words:
        raise Bad(WORDS)
    return words


def exactly(words, count):
    if len(words) != count:
        raise Bad(WORDS)
    return words


class Relay:
    def __init__(self, queue):
        self.queue, self.at = queue, 0
        self.register, self.lists = model.Register(model.MOST_ENTRIES), model.by_shape

    def line(self):
        end = self.queue.find(b"\n", self.at)
        end = len(self.queue) if end < 0 else end
        text, self.at = self.queue[self.at:end], end + 1
        return text

    def upload(self, length):
        """The bytes of an upload, and over the line feed behind it."""
        end = self.at + length
        if end >= len(self.queue):
            self.at = len(self.queue)
            raise Bad("the input ends inside an upload")
        text, self.at = self.queue[self.at:end], end + 1
        if self.queue[end:end + 1] != b"\n":
            self.line()
            raise Bad("no line feed behind the upload")
        return text

    def row(self, line):
        list_number, code, first, last = exactly(words_of(line), 4)
        if number(list_number) > 255:
            raise Bad(NUMBER)
        return int(list_number), code, first, last

    def make_lists(self, count):
        lines = []
        for _ in range(count):
            if self.at >= len(self.queue):
                raise Bad("the input ends inside the rows")
            lines.append(self.line())
        rows = [self.row(line) for line in lines]
        try:
            self.lists = model.by_rows(rows)
        except model.Refused as refused:
            return str(refused).encode()
        return b"ok"

    def receive(self, sender, day, verdict_rows, report_rows, length):
        verdict_rows, report_rows, length = number(verdict_rows), number(report_rows), number(length)
        upload = self.upload(length)
        if max(verdict_rows, report_rows) > MOST_ROWS:
            raise Bad("too many rows")
        lines, verdicts = model.receive(sender, day, upload, self.register, self.lists, verdict_rows, report_rows)
        if verdicts is not None:
            lines.append("V " + "".join("%02X" % verdict for verdict in verdicts))
        return "\n".join(lines).encode()

    def look_up(self, *key):
        entry = self.register.entries.get(key)
        if entry is None:
            return b"none"
        origin = b":".join(entry.origin) if entry.origin else b"-"
        refills = b"".join(b"%d" % refill for refill in sorted(entry.refills)) or b"-"
        return b" ".join([entry.patient, entry.birth, entry.category, entry.moment, origin, b"%d" % entry.times, refills, b"%d" % entry.cancelled])

    def obey(self, line):
        name, *words = words_of(line)
        if name == b"register":
            if not words:
                raise Bad(WORDS)
            if words[0] not in KINDS:
                raise Bad(UNKNOWN)
            self.register = model.Register(number(exactly(words, 2)[1]))
            return b"ok"
        if name == b"lists":
            if not words:
                raise Bad(WORDS)
            if words[0] == b"rows":
                return self.make_lists(number(exactly(words, 2)[1]))
            if words[0] != b"shape":
                raise Bad(UNKNOWN)
            exactly(words, 1)
            self.lists = model.by_shape
            return b"ok"
        if name == b"receive":
            return self.receive(*exactly(words, 5))
        if name == b"lookup":
            return self.look_up(*exactly(words, 2))
        raise Bad(UNKNOWN)

    def answer(self, line):
        try:
            return self.obey(line)
        except Bad as bad:
            return b"error " + str(bad).encode()

    def answers(self):
        """The answers to all commands, each with its line feed."""
        found = []
        while self.at < len(self.queue):
            found.append(self.answer(self.line()) + b"\n")
        return b"".join(found)


def answers(queue):
    return Relay(queue).answers()


if __name__ == "__main__":
    sys.stdout.buffer.write(answers(sys.stdin.buffer.read()))
