#!/usr/bin/env python3
"""Random queues of `relay`, and what the model says of them.

    fuzz_relay.py write COUNT SEED FOLDER        writes queues NAME and expected outputs NAME.stdout
    fuzz_relay.py compare COUNT SEED PROGRAM     runs a program on each, and tells of each difference a smallest queue that shows it
    fuzz_relay.py survey COUNT SEED              tells how often each verdict, refusal and answer comes

The same seed gives the same queues.
"""

import collections
import copy
import pathlib
import random
import subprocess
import sys

import fuzz
import queues
import relay_model


def queue_of(seed):
    dice = random.Random(seed)
    return queues.Night(dice, fuzz.spoil, fuzz.hurt).run(dice.choice([4, 10, 20, 40, 80]))


def run(program, text):
    try:
        done = subprocess.run([program], input=text, stdout=subprocess.PIPE, timeout=60)
    except subprocess.TimeoutExpired:
        return b"(no end)"
    return done.stdout + (b"" if done.returncode == 0 else b"\n(status %d)" % done.returncode)


def differs(program, commands):
    text = queues.write(commands)
    return run(program, text) != relay_model.answers(text)


def smaller(commands):
    """Queues with a run of commands less, then with a record, an order, a field or a row less."""
    size = len(commands) // 2
    while size:
        for k in range(0, len(commands) - size + 1):
            yield commands[:k] + commands[k + size:]
        size //= 2
    for k, (name, *parts) in enumerate(commands):
        last = parts[-1] if parts else None
        if not isinstance(last, list):
            continue
        if name == "receive":
            less = list(fuzz.smaller(last)) + ([[]] if len(last) == 1 else [])
        else:
            less = [last[:j] + last[j + 1:] for j in range(len(last))]
        for one in less:
            yield commands[:k] + [(name, *parts[:-1], one)] + commands[k + 1:]


def shrink(program, commands):
    while True:
        for less in smaller(commands):
            if differs(program, less):
                commands = less
                break
        else:
            return commands


def compare(count, seed, program):
    bad = 0
    for k in range(count):
        commands = queue_of(seed * 1_000_003 + k)
        if differs(program, commands):
            bad += 1
            least = queues.write(shrink(program, copy.deepcopy(commands)))
            print("queue %d:\n%s\nthe program says\n%s\nthe model\n%s\n" % tuple(
                [k] + [text.decode("latin-1") for text in (least, run(program, least), relay_model.answers(least))]), flush=True)
            if bad == 10:
                break
    print("%d queues, %d differ" % (count, bad))
    return bad


def survey(count, seed):
    seen = collections.Counter()
    for k in range(count):
        commands = queue_of(seed * 1_000_003 + k)
        for line in relay_model.answers(queues.write(commands)).decode("latin-1").split("\n"):
            if line.startswith("V "):
                verdicts = [int(line[at:at + 2], 16) for at in range(2, len(line), 2)]
                seen.update("verdict %d" % verdict for verdict in verdicts)
            elif len(line) == 12 and line[:2] < "0B" and line.isalnum():
                seen["refusal %d" % int(line[:2], 16)] += 1
            elif " " in line:
                seen["entry found" + (", cancelled" if line.endswith(" 1") else "") + (", with an origin" if ":" in line else "")] += 1
            elif line in ("ok", "none"):
                seen[line] += 1
        seen.update("command %s" % command[0] for command in commands)
    for name, number in sorted(seen.items()):
        print(name, number)


def main():
    do, count, seed = sys.argv[1], int(sys.argv[2]), int(sys.argv[3])
    if do == "write":
        folder = pathlib.Path(sys.argv[4])
        folder.mkdir(parents=True, exist_ok=True)
        for k in range(count):
            text = queues.write(queue_of(seed * 1_000_003 + k))
            (folder / ("%06d" % k)).write_bytes(text)
            (folder / ("%06d.stdout" % k)).write_bytes(relay_model.answers(text))
    elif do == "compare":
        sys.exit(1 if compare(count, seed, sys.argv[4]) else 0)
    elif do == "survey":
        survey(count, seed)


if __name__ == "__main__":
    main()
