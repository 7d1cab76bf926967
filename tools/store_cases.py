#!/usr/bin/env python3
"""Cases for `stores`, which plays scripts on several stores.

    python3 tools/store_cases.py stdin     the input, a script of several parts
    python3 tools/store_cases.py stdout    the output that the rules call for

The file has a model of a store, a reader of lines, the cases, random steps and
the printing. The model knows nothing of lanes, chains and shelves but their
sizes: a store is, for each slot, a list of notices, with two numbers.

  - The reserve is how many notices every slot may hold in any case, the spare
    how many more all slots together may hold. What a slot holds above the
    reserve, added up over the slots, is the spare in use.
  - A put is refused where there is no such slot, or the slot holds the reserve
    or more while the spare in use is all of the spare; else the notice is added
    at the end of the slot's list. A refusal changes nothing.
  - A drop takes off the oldest notice of a slot, if there is one, a clear all of
    them; the other lists stay.
  - Sizes out of range are made the nearest in it: 1 to 64 slots, a reserve of 1
    to 9, for chains a spare of 0 to 32, for a shelf 1 to 16. Lanes have no spare,
    and a shelf adds its size to the spare of the store below it.

In the first parts the cases say, by hand, what must come out. Every run first
checks that the model says the same. The last parts are drawn at random, always
alike; there the model alone says what must come out.
"""

import sys
from collections import Counter, namedtuple

# ------------------------------------------------------------------ model

Notice = namedtuple("Notice", "number second job")


class Store:
    def __init__(self, name, slots, reserve, spare):
        self.name, self.slots, self.reserve, self.spare = name, slots, reserve, spare
        self.lists = {slot: [] for slot in range(slots)}

    def in_use(self):
        return sum(max(0, len(held) - self.reserve) for held in self.lists.values())

    def full(self, slot):
        return slot not in self.lists or (
            len(self.lists[slot]) >= self.reserve and self.in_use() == self.spare)

    def put(self, slot, notice):
        if self.full(slot):
            return "refused"
        self.lists[slot].append(notice)
        return "taken"

    def drop(self, slot):
        if self.lists.get(slot):
            self.lists[slot].pop(0)
        return "done"

    def clear(self, slot):
        if slot in self.lists:
            self.lists[slot] = []
        return "done"

    def len(self, slot):
        return str(len(self.lists.get(slot, [])))

    def at(self, slot, place):
        held = self.lists.get(slot, [])
        if place >= len(held):
            return "none"
        return "notice %d, second %d, job %d" % held[place]


def nearest(low, high, number):
    return max(low, min(high, number))


def groups(slots, reserve, spare):
    """The groups, each a name and its stores."""
    def made(name, size):
        return Store(name, nearest(1, 64, slots), nearest(1, 9, reserve), size)

    def chains(size):
        return nearest(0, 32, size)

    def shelf(size):
        return nearest(1, 16, size)

    half, third = spare // 2, spare // 3
    return [
        ("no spare", [made("lanes", 0), made("chains", chains(0))]),
        ("with spare", [
            made("chains", chains(spare)),
            made("shelf over lanes", shelf(spare)),
            made("shelf over chains", shelf(half) + chains(spare - half)),
            made("shelf over shelf over chains",
                 shelf(third) + shelf(third) + chains(spare - 2 * third)),
        ]),
    ]

# ------------------------------------------------------------------ lines


LARGEST = 2147483647
COUNTS = {"sizes": 3, "put": 2, "drop": 1, "clear": 1, "len": 1, "at": 2}


def words_of(line):
    """The words, between blanks and tabs, or none of a comment."""
    words = line.replace("\t", " ").split(" ")
    words = [word for word in words if word]
    return [] if words and words[0].startswith("#") else words


def read(line):
    """The verb and its numbers; none where the line is no step."""
    verb, *rest = words_of(line)
    if COUNTS.get(verb) != len(rest):
        return None
    if not all(set(word) <= set("0123456789") and int(word) <= LARGEST for word in rest):
        return None
    numbers = [int(word) for word in rest]
    if verb == "put" and numbers[1] == 0:
        return None
    return verb, numbers


def answer(stores, verb, numbers, notice):
    """What a group shows: once, if all its stores show the same, else each by its name."""
    if verb == "put":
        numbers = [numbers[0], notice]
    shown = [getattr(store, verb)(*numbers) for store in stores]
    if len(set(shown)) == 1:
        return shown[0]
    return "differ" + "".join(f" [{store.name}: {text}]"
                              for store, text in zip(stores, shown))


def report(text):
    """What is printed for each line of a script that is not passed over."""
    made = None
    for place, line in enumerate(text.splitlines(), 1):
        if not words_of(line):
            continue
        step = read(line)
        if step and step[0] == "sizes":
            made, puts = groups(*step[1]), 0
            yield "line %d: sizes %d %d %d" % (place, *step[1])
            for group, stores in made:
                for store in stores:
                    yield (f"  {group}: {store.name}: slots {store.slots}, "
                           f"reserve {store.reserve}, spare {store.spare}")
        elif made is None:
            yield f"line {place}: no sizes yet"
        elif step is None:
            yield f"line {place}: not a step"
        else:
            verb, numbers = step
            puts += verb == "put"
            notice = Notice(puts, place, numbers[-1])
            answers = [f"{group}: " + answer(stores, verb, numbers, notice)
                       for group, stores in made]
            said = " ".join([verb, *map(str, numbers)])
            yield f"line {place}: {said}: " + "; ".join(answers)

# ------------------------------------------------------------------ cases


# A case is a line and what it comes to: the answers with no spare and with the spare, or what is
# said of the line itself, or the sizes that come of it; None where the line is passed over.
NO_STEP = "not a step"
Sizes = namedtuple("Sizes", "slots reserve spares")


def sized(slots, reserve, *spares):
    """The slots and the reserve of all stores, and the spares of those that have one."""
    return Sizes(slots, reserve, spares)


def both(text):
    return (text, text)


def told(number, job):
    """A notice that `at` shows: the number of its put in the part, and its job."""
    return (number, job)


DONE = both("done")


CASES = [
    ("# Scripts for the stores.", None),
    ("# Before the first sizes there is nothing to play on.", None),
    ("put 0 7", "no sizes yet"),
    ("good morning", "no sizes yet"),
    ("", None),
    ("# A slot filled to the reserve, then over it until the spare is out.", None),
    ("sizes 2 2 3", sized(2, 2, 3, 3, 3, 3)),
    ("put 0 11", both("taken")),
    ("put 0 12", both("taken")),
    ("put 0 13", ("refused", "taken")),
    ("put 0 14", ("refused", "taken")),
    ("put 0 15", ("refused", "taken")),
    ("put 0 16", both("refused")),
    ("len 0", ("2", "5")),
    ("at 0 0", both(told(1, 11))),
    ("at 0 1", both(told(2, 12))),
    ("at 0 2", ("none", told(3, 13))),
    ("at 0 3", ("none", told(4, 14))),
    ("at 0 4", ("none", told(5, 15))),
    ("at 0 5", both("none")),
    ("# The other slot has its reserve all the same, and no more.", None),
    ("put 1 21", both("taken")),
    ("put 1 22", both("taken")),
    ("put 1 23", both("refused")),
    ("# A drop while others wait: those behind move up, in their order.", None),
    ("drop 0", DONE),
    ("len 0", ("1", "4")),
    ("at 0 0", both(told(2, 12))),
    ("at 0 1", ("none", told(3, 13))),
    ("# Where the drop left room, a put of that slot is the last of its list.", None),
    ("put 0 17", both("taken")),
    ("at 0 1", (told(10, 17), told(3, 13))),
    ("at 0 4", ("none", told(10, 17))),
    ("# One of the spare came free and was taken again.", None),
    ("put 0 18", both("refused")),
    ("put 1 24", both("refused")),
    ("# The other slot takes what a drop sets free.", None),
    ("drop 0", DONE),
    ("put 1 25", ("refused", "taken")),
    ("put 0 19", ("taken", "refused")),
    ("len 0", ("2", "4")),
    ("len 1", ("2", "3")),
    ("at 1 2", ("none", told(13, 25))),
    ("# Down to those that came last, and then to nothing.", None),
    ("drop 0", DONE),
    ("drop 0", DONE),
    ("at 0 0", ("none", told(5, 15))),
    ("at 0 1", ("none", told(10, 17))),
    ("drop 0", DONE),
    ("at 0 0", ("none", told(10, 17))),
    ("drop 0", DONE),
    ("drop 0", DONE),
    ("len 0", both("0")),
    ("at 0 0", both("none")),
    ("len 1", ("2", "3")),
    ("# A clear frees what the slot had of the spare, and no other slot's.", None),
    ("put 1 26", ("refused", "taken")),
    ("put 1 27", ("refused", "taken")),
    ("put 1 28", both("refused")),
    ("put 0 31", both("taken")),
    ("put 0 32", both("taken")),
    ("put 0 33", both("refused")),
    ("clear 1", DONE),
    ("len 1", both("0")),
    ("at 1 0", both("none")),
    ("put 0 34", ("refused", "taken")),
    ("put 0 35", ("refused", "taken")),
    ("put 0 36", ("refused", "taken")),
    ("put 0 37", both("refused")),
    ("at 0 4", ("none", told(23, 36))),
    ("clear 1", DONE),
    ("len 0", ("2", "5")),
    ("# Slots that are not there hold nothing, take nothing and change nothing.", None),
    ("put 2 41", both("refused")),
    ("len 2", both("0")),
    ("at 2 0", both("none")),
    ("drop 2", DONE),
    ("clear 2", DONE),
    ("put 2147483647 42", both("refused")),
    ("at 2147483647 2147483647", both("none")),
    ("len 0", ("2", "5")),
    ("# Places beyond the end.", None),
    ("at 0 2", ("none", told(21, 34))),
    ("at 0 5", both("none")),
    ("at 0 2147483647", both("none")),
    ("", None),
    ("# How a line may be written: blanks and tabs, leading zeros, comments.", None),
    ("  sizes\t3  1 4 ", sized(3, 1, 4, 4, 4, 4)),
    ("\tput   0\t7  ", both("taken")),
    ("put 00 007", ("refused", "taken")),
    ("  # put 0 7", None),
    ("#put 0 7", None),
    ("   ", None),
    ("len 0", ("1", "2")),
    ("# The notices of a part are numbered anew, the refused ones too.", None),
    ("at 0 0", both(told(1, 7))),
    ("at 0 1", ("none", told(2, 7))),
    ("# The smallest job and the largest.", None),
    ("put 1 1", both("taken")),
    ("put 2 2147483647", both("taken")),
    ("at 2 0", both(told(4, 2147483647))),
    ("# None of these is a step.", None),
    ("put 0 0", NO_STEP),
    ("put 0 2147483648", NO_STEP),
    ("put 99999999999999999999999999999999 1", NO_STEP),
    ("put 0", NO_STEP),
    ("put", NO_STEP),
    ("put 0 7 8", NO_STEP),
    ("put 0 7 # seven", NO_STEP),
    ("put 0 seven", NO_STEP),
    ("put 0 7x", NO_STEP),
    ("put 0 +7", NO_STEP),
    ("put -1 7", NO_STEP),
    ("put 0,7", NO_STEP),
    ("put zero 7", NO_STEP),
    ("Put 0 7", NO_STEP),
    ("puts 0 7", NO_STEP),
    ("pu 0 7", NO_STEP),
    ("drop", NO_STEP),
    ("drop 0 1", NO_STEP),
    ("drop x", NO_STEP),
    ("drop 0 x", NO_STEP),
    ("clear", NO_STEP),
    ("clear 0 0", NO_STEP),
    ("clean 0", NO_STEP),
    ("len", NO_STEP),
    ("len 0 0", NO_STEP),
    ("at 0", NO_STEP),
    ("at 0 x", NO_STEP),
    ("at 0 0 x", NO_STEP),
    ("at 0 0 0", NO_STEP),
    ("at x x", NO_STEP),
    ("sizes 3 1", NO_STEP),
    ("sizes 3 1 4 1", NO_STEP),
    ("sizes 3 1 x", NO_STEP),
    ("sizes 3 1 4 x", NO_STEP),
    ("7", NO_STEP),
    ("0 put 7", NO_STEP),
    ("# No put among them counted.", None),
    ("put 2 9", ("refused", "taken")),
    ("at 2 1", ("none", told(5, 9))),
    ("", None),
    ("# Sizes out of range are made the nearest; here the stores of a group still agree.", None),
    ("sizes 0 0 3", sized(1, 1, 3, 3, 3, 3)),
    ("put 0 1", both("taken")),
    ("put 1 2", both("refused")),
    ("put 0 3", ("refused", "taken")),
    ("put 0 4", ("refused", "taken")),
    ("put 0 5", ("refused", "taken")),
    ("put 0 6", both("refused")),
    ("", None),
    ("sizes 2147483647 10 16", sized(64, 9, 16, 16, 16, 16)),
    ("put 63 1", both("taken")),
    ("put 64 1", both("refused")),
    ("len 63", both("1")),
    ("", None),
    ("# With no spare asked for, or more than a shelf has, they do not: a shelf has 1 to 16 places.", None),
    ("sizes 4 2 0", sized(4, 2, 0, 1, 1, 2)),
    ("put 3 1", both("taken")),
    ("put 3 2", both("taken")),
    ("len 3", both("2")),
    ("", None),
    ("sizes 4 2 40", sized(4, 2, 32, 16, 36, 40)),
    ("put 3 1", both("taken")),
    ("put 3 2", both("taken")),
    ("put 3 3", ("refused", "taken")),
    ("len 3", ("2", "3")),
    ("", None),
]

# ----------------------------------------------------------------- random


class Dice:
    """A small generator of its own, so that the same is drawn everywhere."""

    def __init__(self, seed):
        self.state = seed

    def below(self, bound):
        self.state = (self.state * 6364136223846793005 + 1442695040888963407) % 2**64
        return (self.state >> 33) % bound


def drawn(dice, slots, reserve, spare, count):
    """A part of so many steps: many puts, most of them in the first slots."""
    yield f"sizes {slots} {reserve} {spare}"
    for _ in range(count):
        slot = min(dice.below(slots + 1), dice.below(slots + 1))
        place = dice.below(reserve + spare // 2 + 1)
        kind = dice.below(40)
        if kind < 20:
            yield f"put {slot} {dice.below(900) + 100}"
        elif kind < 28:
            yield f"drop {slot}"
        elif kind < 29:
            yield f"clear {slot}"
        elif kind < 32:
            yield f"len {slot}"
        else:
            yield f"at {slot} {place}"


def random_lines():
    dice = Dice(20)
    yield "# Drawn at random."
    yield from drawn(dice, 4, 2, 6, 90)
    yield ""
    yield from drawn(dice, 2, 1, 3, 50)
    yield ""
    yield from drawn(dice, 9, 3, 16, 100)

# --------------------------------------------------------------- printing


def script():
    return "".join(line + "\n" for line in [*(line for line, _ in CASES), *random_lines()])


def expected(place, line, outcome, puts):
    """What a case says by hand of its line; `puts` has the lines of the puts of its part."""
    if isinstance(outcome, str):
        return f"line {place}: {outcome}"
    texts = [text if isinstance(text, str)
             else f"notice {text[0]}, second {puts[text[0] - 1]}, job {text[1]}"
             for text in outcome]
    said = " ".join(word.lstrip("0") or "0" if word.isdigit() else word
                    for word in words_of(line))
    return f"line {place}: {said}: no spare: {texts[0]}; with spare: {texts[1]}"


def check():
    printed = list(report(script()))
    found = iter(printed)
    puts = []
    for place, (line, outcome) in enumerate(CASES, 1):
        if isinstance(outcome, Sizes):
            puts = []
            assert next(found).startswith(f"line {place}: sizes ")
            for spare in (0, 0, *outcome.spares):
                said = next(found)
                assert said.endswith(f": slots {outcome.slots}, reserve {outcome.reserve}, "
                                     f"spare {spare}"), said
        elif outcome is not None:
            if isinstance(outcome, tuple) and "put" in line:
                puts.append(place)
            said = next(found)
            assert said == expected(place, line, outcome, puts), (line, outcome, said)
    assert not any("differ" in line for line in printed)
    # The random parts come to every answer, and to refusals of both groups.
    seen = Counter(line.split(": ", 2)[2] for line in found if ": put " in line)
    assert seen["no spare: taken; with spare: taken"] > 20
    assert seen["no spare: refused; with spare: taken"] > 20
    assert seen["no spare: refused; with spare: refused"] > 20
    assert seen["no spare: taken; with spare: refused"] > 2


def main(arguments):
    check()
    if arguments == ["stdin"]:
        sys.stdout.write(script())
    elif arguments == ["stdout"]:
        for line in report(script()):
            print(line)
    else:
        sys.exit(__doc__)


if __name__ == "__main__":
    main(sys.argv[1:])
