#!/usr/bin/env python3
"""Compares `relay` and its model on random queues that are damaged: bytes changed, taken away or put in, lines added, lost or altered.

    fuzz_damaged.py COUNT SEED PROGRAM

Exit status 1, if an answer differs; the first difference of each such queue is printed, and how often each `error` came.
"""

import collections
import random
import sys

import fuzz_relay
import queues
import relay_model

LINES = [
    b"", b" ", b"good evening", b"register", b"register ordered", b"register ordered 2 ", b"register big 3", b"register scattered 0000000003",
    b"register scattered 000000003", b"lists", b"lists shape ", b"lists shape", b"lists rows", b"lists rows 0", b"lists rows 1", b"lists rows 2",
    b"lists rows 1000000000", b"lists of", b"receive", b"receive 3501200000 1130215 4096 0 0", b"receive 3501200000 1130215 4096 0 1",
    b"receive a b 4096 65536 3", b"receive a b 4096 65537 3", b"receive a b 65537 1 3", b"receive a b 1 1 3 4", b"receive a b 1 x 3", b"lookup a",
    b"lookup a b", b"lookup a b c", b"lookup 3501200000 A0000000000000000001", b"1 A 0010101 9991231", b"256 A 1 1", b"1 A 0010101", b"abc",
    b"x" * 4095, b"x" * 4096, b"x" * 4097, b"lookup a " + b"b" * 4087, b"lookup a " + b"b" * 4088, b"lookup a " + b"b" * 9000, b"1 " + b"b" * 5000 + b" 1 1",
]
COMMANDS = (b"receive", b"lists", b"register", b"lookup")


def alter_word(dice, text):
    lines = text.split(b"\n")
    places = [k for k, line in enumerate(lines) if line.startswith(COMMANDS)]
    if not places:
        return text
    at = dice.choice(places)
    words = lines[at].split(b" ")
    k = dice.randrange(len(words))
    words[k] = dice.choice([b"", b"0", b"1", b"7", b"65536", b"65537", b"x", words[k] + b"1", words[k][:-1], words[k] + b" "])
    lines[at] = b" ".join(words)
    return b"\n".join(lines)


def damage(dice, text):
    for _ in range(dice.choice([1, 1, 2, 3, 6])):
        kind, at = dice.randrange(6), dice.randrange(len(text) + 1)
        if kind == 0:
            text = text[:at] + text[at + 1:]
        elif kind == 1:
            text = text[:at] + bytes([dice.choice(b" \n0129aAZ<\r\x00\xff")]) + text[at:]
        elif kind == 2 and dice.random() < 0.3:
            text = text[:at]
        elif kind in (3, 4):
            lines = text.split(b"\n")
            k = dice.randrange(len(lines))
            lines[k:k + (kind == 4)] = [dice.choice(LINES)] if kind == 3 else []
            text = b"\n".join(lines)
        elif kind == 5:
            text = alter_word(dice, text)
    return text


def main():
    count, seed, program = int(sys.argv[1]), int(sys.argv[2]), sys.argv[3]
    bad, errors = 0, collections.Counter()
    for k in range(count):
        dice = random.Random(seed * 7919 + k)
        night = queues.Night(dice, fuzz_relay.fuzz.spoil, fuzz_relay.fuzz.hurt).run(dice.choice([3, 6, 12]))
        text = damage(dice, queues.write(night))
        expected, printed = relay_model.answers(text).split(b"\n"), fuzz_relay.run(program, text).split(b"\n")
        errors.update(line.decode() for line in expected if line.startswith(b"error"))
        if expected != printed:
            bad += 1
            at = next((i for i, (a, b) in enumerate(zip(expected, printed)) if a != b), min(len(expected), len(printed)))
            print("queue %d, line %d: the model %r, the program %r" % (k, at, expected[at:at + 1], printed[at:at + 1]))
    for error, times in sorted(errors.items()):
        print("%6d %s" % (times, error))
    print("%d queues, %d differ" % (count, bad))
    sys.exit(1 if bad else 0)


if __name__ == "__main__":
    main()
