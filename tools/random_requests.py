#!/usr/bin/env python3
"""Compares `inspect` with the model of request_cases.py on random requests.

    python3 tools/random_requests.py SEED COUNT [PROGRAM]

PROGRAM is crates/inspect/out/inspect if not given, which ./demo builds. Most requests are nearly right: a
good request, with some attributes shuffled, doubled or spoiled, and then a
byte changed, added, removed, or the end cut off. Prints how often each outcome
came up, and the first difference, if there is one; then the status is 1.
"""

import random
import subprocess
import sys
from collections import Counter

import request_cases as model

NAMES = [b"attributes-charset", b"attributes-natural-language", b"printer-uri",
         b"notify-subscription-ids", b"notify-sequence-numbers", b"notify-wait",
         b"x", b"requesting-user-name"]
NUMBERS = [0, 1, 2, 3, 5, 8, 100, 0x7FFFFFFF, 0x80000000]


def value(dice):
    return dice.choice([
        model.number(dice.choice(NUMBERS), 4),
        bytes([dice.choice([0, 1, 2])]),
        b"utf-8",
        bytes(dice.choice([0, 1, 3, 0x21, 0xFF]) for _ in range(dice.randrange(6))),
    ])


def attributes(dice):
    """The attributes behind the first two, in any order."""
    ids = [dice.randrange(1, 14) for _ in range(dice.choice([1, 1, 2, 3, 8, 9, 10]))]
    if dice.random() < 0.8:
        ids = dice.sample(range(1, 20), len(ids))
    row = [model.attribute(0x45, b"printer-uri", b"ipp://hub/p"), model.ids(*ids)]
    if dice.random() < 0.5:
        row.append(model.numbers(*(dice.randrange(1, 9) for _ in range(dice.randrange(1, 5)))))
    if dice.random() < 0.4:
        row.append(model.wait(bytes([dice.choice([0, 1, 0, 1, 2])])))
    if dice.random() < 0.3:
        row.append(model.attribute(dice.randrange(0x10, 0x100), dice.choice(NAMES), value(dice)))
    if dice.random() < 0.2:
        row.append(model.attribute(0x44, b"x", b"q") + model.further(dice.randrange(0x10, 0x100), value(dice)))
    dice.shuffle(row)
    if dice.random() < 0.1:
        row.insert(dice.randrange(len(row) + 1), model.further(dice.choice([0x21, 0x22, 0x47]), value(dice)))
    return row


def spoiled(dice, data):
    at = dice.randrange(len(data))
    chance = dice.random()
    if chance < 0.2:
        return data[:at] + bytes([dice.choice([0, 1, 3, 0x21, 0xFF, dice.randrange(256)])]) + data[at + 1:]
    if chance < 0.27:
        return data[:at]
    if chance < 0.34:
        return data[:at] + bytes([dice.randrange(256)]) + data[at:]
    if chance < 0.40:
        return data[:at] + data[at + 1:]
    return data


def request(dice):
    head = model.head(major=dice.choice([1] * 8 + [2, 2, 0, 3]), minor=dice.randrange(3),
                      operation=dice.choice([0x1C] * 15 + [0x1B]),
                      request_id=dice.choice([1] * 12 + [0, 0x7FFFFFFF, 0x80000000]))
    first = [b"\x01", model.charset(dice.choice([b"utf-8"] * 12 + [b"us-ascii"])),
             model.attribute(0x48, b"attributes-natural-language", b"en")]
    last = []
    if dice.random() < 0.3:
        last = [bytes([dice.choice([1, 2, 3, 4, 6, 15])]), model.attribute(0x21, dice.choice(NAMES), value(dice))]
    data = head + b"".join(first + attributes(dice) + last[:dice.randrange(3)]) + b"\x03"
    return spoiled(dice, data)


def main(arguments):
    seed, count, *program = arguments
    dice = random.Random(int(seed))
    lines = [request(dice).hex() for _ in range(int(count))]
    expected = [text for place, line in enumerate(lines, 1) for text in model.report(place, line)]
    run = subprocess.run(program or ["crates/inspect/out/inspect"], input="\n".join(lines) + "\n",
                         capture_output=True, text=True, check=True)
    found = run.stdout.splitlines()
    outcomes = Counter(text.split(": ", 1)[1] for text in expected if text.startswith("line"))
    for words, times in outcomes.most_common():
        print(f"{times:8} {words}")
    for here, there in zip(found + [None], expected + [None]):
        if here != there:
            print(f"inspect says {here!r}, the model {there!r}")
            return 1
    print(f"{len(lines)} requests: the same")
    return 0


if __name__ == "__main__":
    sys.exit(main(sys.argv[1:]))
