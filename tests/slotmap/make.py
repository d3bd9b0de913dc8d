#!/usr/bin/env python3
"""Makes the slot tables that the program `slotmap` is run on.

    python3 tests/slotmap/make.py                     writes crates/slotmap/args, stdin and stdout
    python3 tests/slotmap/make.py --seed 7 --to DIR   tables at random, good ones and faulty ones, into DIR

The stored table is a fixed one; its stdout is by the reference beside this file. Into DIR go a folder for each case, with the
files args (a word a line) and stdin, as a crate has them; what must be printed is the reference's to say. The same seed gives the
same files.
"""
import argparse
import random
import sys
from pathlib import Path

sys.dont_write_bytecode = True  # nothing is left behind in the repository

from reference import LONGEST, SLOTS, account, entries  # noqa: E402

CRATE = Path(__file__).resolve().parents[2] / "crates" / "slotmap"
BLANKS = " \t\n\v\f\r"

# Words that are no roster's size, and lists of words that are not one.
NO_SIZES = ("0", "65", "256", "-1", "+5", "5.", "0x10", " 5", "5 ", "five", "", "٥", "1" * 21, "18446744073709551617")
NO_WORDS = ([], ["5", "5"], ["", ""], ["5", "6", "7"])


# ---- entries


def unowned(dice, size):
    """An entry that is no roster number."""
    return dice.choice((65535, 65535, size, 300, 64, 255, 256, 0x3030, 0x2020, dice.randrange(size, 65536)))


def entry(dice, size):
    return unowned(dice, size) if dice.random() < 0.3 else dice.randrange(size)


def ranges(dice, size, count):
    """A table in so many stretches; an unowned stretch has one kind of entry, or many."""
    cuts = sorted(dice.sample(range(1, SLOTS), count - 1))
    table = []
    for first, end in zip([0, *cuts], [*cuts, SLOTS]):
        value = entry(dice, size)
        mixed = value >= size and dice.random() < 0.5
        table += [unowned(dice, size) if mixed else value for _ in range(first, end)]
    return table


def tables(dice):
    """A name, a roster's size and a table."""
    size = dice.choice((1, 2, 3, 5, 16, 33, 63, 64, dice.randrange(1, 65)))
    few = ranges(dice, size, dice.randrange(2, 12))
    yield "few", size, few
    yield "one-entry-more", size, few[:-1] + [entry(dice, size)]
    yield "many", size, ranges(dice, size, dice.randrange(1000, 3000))
    yield "each-by-chance", size, [entry(dice, size) for _ in range(SLOTS)]
    yield "one-owner", size, [dice.randrange(size)] * SLOTS
    yield "nobody", size, [unowned(dice, size) for _ in range(SLOTS)]
    most = dice.randrange(2, 65)
    yield "every-slot-a-range", most, [(slot + slot // most) % most for slot in range(SLOTS)]
    one = dice.randrange(SLOTS)
    yield "one-slot", size, [dice.randrange(size) if slot == one else 65535 for slot in range(SLOTS)]
    yield "one-unowned", size, [size if slot == one else dice.randrange(size) for slot in range(SLOTS)]


# ---- the two forms


def raw(table):
    return b"".join(value.to_bytes(2, "little") for value in table)


def lined(table, width=64):
    """So many entries a line, in lower case."""
    lines = (table[at : at + width] for at in range(0, len(table), width))
    return "".join(" ".join(f"{value:04x}" for value in line) + "\n" for line in lines).encode()


def spaced(dice, table):
    """Digits of either case, with blanks anywhere between them, before and behind."""
    chance = dice.choice((0.0, 0.01, 0.3, 1.0))
    upper = dice.choice((0.0, 0.5, 1.0))
    text = []
    for digit in "".join(f"{value:04x}" for value in table):
        if dice.random() < chance:
            text += dice.choices(BLANKS, k=dice.randrange(1, 5))
        text.append(digit.upper() if dice.random() < upper else digit)
    text += dice.choices(BLANKS, k=dice.randrange(4))
    return "".join(text).encode()


def form(dice, table):
    return dice.choice((raw, lined, lambda table: spaced(dice, table)))(table)


# ---- faults


def changed(dice, data, byte):
    """The data with one byte replaced, anywhere."""
    place = dice.randrange(len(data))
    return data[:place] + bytes([byte]) + data[place + 1 :]


def odd(dice):
    """A byte that is no character of the text form, most often one that stands beside those."""
    near = b"/:@G`g!,-.x\x00\x08\x0e\x1f\x7f\x80\xff"
    return dice.choice(near) if dice.random() < 0.8 else dice.choice(sorted(set(range(256)) - set(b"0123456789abcdefABCDEF \t\n\v\f\r")))


def faulty(dice, table):
    """A name and an input that is no table, or hardly one."""
    memory, text, wild = raw(table), lined(table), spaced(dice, table)
    digits = "".join(f"{value:04x}" for value in table).encode()
    yield "memory-byte-short", memory[:-1]
    yield "memory-byte-long", memory + bytes([dice.randrange(256)])
    yield "memory-half", memory[:SLOTS]
    yield "memory-twice", memory * 2
    yield "memory-blank-behind", memory + b"\n"
    yield "text-odd", changed(dice, text, odd(dice))
    yield "text-odd-wild", changed(dice, wild, odd(dice))
    yield "text-odd-first", bytes([odd(dice)]) + text
    yield "text-odd-last", wild + bytes([odd(dice)])
    yield "text-with-mark", b"\xef\xbb\xbf" + text
    lost = dice.choice([place for place, byte in enumerate(text) if byte not in b" \n"])
    yield "text-digit-missing", text[:lost] + text[lost + 1 :]
    yield "text-digit-more", wild + b"0"
    yield "text-entry-missing", text[:-6] + b"\n"
    yield "text-half", digits[: 2 * SLOTS]  # as long as a table in memory
    yield "text-half-spaced", (text + b" " * SLOTS)[: 2 * SLOTS]
    yield "text-half-and-odd", changed(dice, digits[: 2 * SLOTS], odd(dice))  # a table in memory again
    yield "empty", b""
    yield "one-digit", b"7"
    yield "blanks-alone", b" \n" * dice.randrange(1, 30000)
    yield "blanks-as-memory", b" " * (2 * SLOTS)
    yield "zeros-as-memory", bytes(2 * SLOTS)  # node 0 owns all
    yield "zeros-one-short", bytes(2 * SLOTS - 1)
    yield "longest", text + b" " * (LONGEST - len(text))
    yield "too-long", text + b" " * (LONGEST - len(text) + 1)
    yield "far-too-long", bytes(3 * LONGEST)
    yield "anything", dice.randbytes(dice.randrange(1, 100))


def cases(dice):
    """A name, the words and the input of each case."""
    for name, size, table in tables(dice):
        yield name + "-memory", [str(size)], raw(table)
        yield name + "-text", [str(size)], form(dice, table) if name != "few" else spaced(dice, table)
    size = dice.randrange(1, 65)
    table = ranges(dice, size, 20)
    for name, data in faulty(dice, table):
        yield name, [str(size)], data
    yield "size-with-zeros", ["0" * dice.randrange(1, 18) + str(size)], form(dice, table)
    yield "size-wrong", [dice.choice(NO_SIZES)], form(dice, table)
    yield "size-wrong-again", [dice.choice(NO_SIZES)], b""
    yield "words-wrong", dice.choice(NO_WORDS), form(dice, table)
    yield "words-wrong-again", dice.choice(NO_WORDS), b"no table"


# ---- the stored run


def stored():
    """A roster of five, of which one owns nothing: unowned stretches at the front, in the middle and at the end, of several
    kinds of entries, and ranges of one slot."""
    size = 5
    stretches = (
        (65535, 3), (0, 1), (1, 1), (0, 5457), (65535, 2), (5, 1), (300, 4), (1, 5000), (2, 1), (1, 460),
        (64, 1), (2, 5000), (4, 1), (255, 1), (4, 2), (0, 1), (2, 430), (0x0100, 10), (65535, 8),
    )  # fmt: skip
    table = [value for value, length in stretches for _ in range(length)]
    assert len(table) == SLOTS
    lines = lined(table).decode().split("\n")
    for k in range(0, len(lines), 3):
        lines[k] = lines[k].upper()
    lines[1] = lines[1].replace(" ", "")
    lines[2] = lines[2].replace(" ", "\t")
    for k in (200, 90, 90, 8):
        lines.insert(k, "")
    return size, table, "\n".join(lines).encode()


def main():
    options = argparse.ArgumentParser()
    options.add_argument("--seed", type=int)
    options.add_argument("--to", type=Path)
    o = options.parse_args()
    if o.seed is None or o.to is None:
        size, table, text = stored()
        assert entries(text) == table
        (CRATE / "args").write_text(f"{size}\n")
        (CRATE / "stdin").write_bytes(text)
        (CRATE / "stdout").write_text(account(size, table))
        return
    for name, words, data in cases(random.Random(o.seed)):
        folder = o.to / name
        folder.mkdir(parents=True, exist_ok=True)
        (folder / "args").write_text("".join(word + "\n" for word in words))
        (folder / "stdin").write_bytes(data)


if __name__ == "__main__":
    main()
