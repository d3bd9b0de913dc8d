#!/usr/bin/env python3
"""What the program `slotmap` must print: a second opinion, not written from the Rattle code.

    python3 tests/slotmap/reference.py SIZE < table

The table on standard input has 16,384 entries, in one of two forms:

- as they lie in memory: 32,768 bytes, two an entry, the low byte first;
- as text: four hexadecimal digits an entry, the highest first, in either case. Blanks, tabs and line ends (the bytes 9 to 13 and
  32) stand wherever one likes and say nothing.

32,768 bytes that are all such characters are text, half a table of it at most: as they lie in memory every entry of them would be
2,313 or more, and so no node's number.

An entry below SIZE is the owner of its slot, any other leaves it unowned. A line for each stretch of slots that have one owner or
none, as long as it goes, in ascending order; then a line of totals. A fault is told on standard error, with what was expected, and
nothing is printed then.
"""
import itertools
import sys

SLOTS = 16384
NODES = 64
LONGEST = 1048576
BLANKS = b" \t\n\v\f\r"
DIGITS = b"0123456789abcdefABCDEF"
EXPECTED = """usage: slotmap SIZE, with a slot table on standard input
SIZE is how many nodes the roster has, from 1 to 64
the table has 16,384 entries: as 32,768 bytes as they lie in memory, two an entry, the low byte first; \
or as text, four hexadecimal digits an entry, with blanks and line ends wherever one likes
"""


class Fault(Exception):
    """What is wrong with the arguments or the input, in words."""


def roster(words):
    """The roster's size."""
    if not words:
        raise Fault("the roster's size is missing")
    if len(words) > 1:
        raise Fault("there is more than one argument")
    word = words[0]
    if not (word.isascii() and word.isdigit() and len(word) <= 20 and 1 <= int(word) <= NODES):
        raise Fault("the roster's size is no number from 1 to 64")
    return int(word)


def whole(stream):
    """All of the input."""
    try:
        data = stream.read(LONGEST + 1)
    except OSError as error:
        raise Fault(f"the input could not be read: {error.strerror}") from error
    if len(data) > LONGEST:
        raise Fault(f"the input has more than {LONGEST:,} bytes")
    return data


def entries(data):
    """The entries of a table in either form."""
    text = data.translate(None, BLANKS)
    odd = text.translate(None, DIGITS)
    if odd and len(data) == 2 * SLOTS:
        return [data[2 * slot] + 256 * data[2 * slot + 1] for slot in range(SLOTS)]
    if odd:
        place = data.index(odd[:1])
        line = data.count(b"\n", 0, place) + 1
        character = place - data.rfind(b"\n", 0, place)
        raise Fault(
            f"this is no slot table: it has {len(data):,} and not {2 * SLOTS:,} bytes, "
            f"and character {character:,} of line {line:,} is neither a hexadecimal digit nor a blank"
        )
    if len(text) != 4 * SLOTS:
        raise Fault(f"this is no slot table: it has {len(text):,} and not {4 * SLOTS:,} hexadecimal digits")
    return [int(text[at : at + 4], 16) for at in range(0, len(text), 4)]


def slots_in(count):
    return "1 slot" if count == 1 else f"{count:,} slots"


def stretches(size, table):
    """First slot, last slot and owner, or None, of each stretch."""
    slot = 0
    for owner, group in itertools.groupby(entry if entry < size else None for entry in table):
        length = len(list(group))
        yield slot, slot + length - 1, owner
        slot += length


def told(first, last, owner):
    """A stretch in words."""
    one = first == last
    slots = f"slot {first:,}" if one else f"slots {first:,} to {last:,}"
    if owner is None:
        whose = "is unowned" if one else "are unowned"
    else:
        whose = f"belongs to node {owner}" if one else f"belong to node {owner}"
    return f"{slots}, that is {slots_in(last - first + 1)}, {whose}"


def totals(size, table):
    """How many slots each owner has, and how many nobody has."""
    each = [(node, table.count(node)) for node in range(size)]
    parts = [f"node {node} owns {slots_in(count)}" for node, count in each if count]
    free = SLOTS - sum(count for _, count in each)
    if free == 0:
        parts.append("no slot is unowned")
    else:
        parts.append(f"{slots_in(free)} {'is' if free == 1 else 'are'} unowned")
    return "in all: " + "; ".join(parts)


def account(size, table):
    """All that is printed of a table."""
    lines = [told(*stretch) for stretch in stretches(size, table)]
    return "".join(line + "\n" for line in [*lines, totals(size, table)])


def main(words):
    try:
        size = roster(words)
        sys.stdout.write(account(size, entries(whole(sys.stdin.buffer))))
    except Fault as fault:
        sys.stderr.write(f"slotmap: {fault}\n{EXPECTED}")


if __name__ == "__main__":
    main(sys.argv[1:])
