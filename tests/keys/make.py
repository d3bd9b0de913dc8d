#!/usr/bin/env python3
"""Makes the keys that the program `keyslots` is run on, and their slots by an implementation of its own.

    python3 tests/keys/make.py                     writes crates/keyslots/stdin and stdout
    python3 tests/keys/make.py --seed 7 --to DIR   the same with other keys, into DIR

The input is a key a line, in lowercase hexadecimal, with some lines that are no keys; the output the slot of each, or `bad`.
The gate runs the program on the one and compares with the other. Nothing here is taken from the Rattle code: CRC16 is the
bitwise one of the specification, and the hashed part goes by Python's `find`. The same seed gives the same files.
"""
import argparse
import random
from pathlib import Path

CRATE = Path(__file__).resolve().parents[2] / "crates" / "keyslots"
LONGEST = 65536


def crc16(data):
    crc = 0
    for byte in data:
        crc ^= byte << 8
        for _ in range(8):
            crc = (crc << 1) ^ 0x1021 if crc & 0x8000 else crc << 1
            crc &= 0xFFFF
    return crc


def hashed(key):
    opening = key.find(b"{")
    if opening >= 0:
        closing = key.find(b"}", opening + 1)
        if closing > opening + 1:
            return key[opening + 1 : closing]
    return key


def slot(key):
    return crc16(hashed(key)) % 16384


def keys(dice):

    def text(n):
        return bytes(dice.choice(b"abcdefghijklmnopqrstuvwxyz0123456789:_-") for _ in range(n))

    # document 01's cases, the specification's and the tutorial's, and published values of CRC-16/XMODEM
    yield from (b"123456789", b"\x01", b"", b"foo{123456789}{zap}", b"foo{}{123456789}", b"foo{{bar}}zap", b"a}b{c")
    yield from (b"{user1000}.following", b"{user1000}.followers", b"user1000", b"foo{}{bar}", b"foo{{bar}}zap", b"foo{bar}{zap}")
    yield from (b"foo", b"bar", b"hello", b"a", b"A", b"key", b"somekey", b"{a}", b"{a", b"a}", b"}{", b"{}", b"{{}}", b"}a{b}")
    # every byte alone, and alone in a tag
    for byte in range(256):
        yield bytes([byte])
    for byte in range(0, 256, 5):
        yield b"x{" + bytes([byte]) + b"}y"
    # braces in every arrangement, up to five bytes of them with a letter between
    for n in range(1, 6):
        for arrangement in range(3**n):
            digits = [arrangement // 3**k % 3 for k in range(n)]
            yield bytes(b"{}k"[d] for d in digits)
    # any bytes, braces among them more often
    for _ in range(150):
        n = dice.randrange(0, 90)
        yield bytes(dice.choice((0x7B, 0x7D)) if dice.random() < 0.1 else dice.randrange(256) for _ in range(n))
    # keys as people write them, with and without a tag
    for _ in range(100):
        head, tag, tail = text(dice.randrange(1, 30)), text(dice.randrange(1, 20)), text(dice.randrange(0, 30))
        yield head + b"{" + tag + b"}" + tail
        yield head + tail
    # long ones, odd lengths and even, up to the longest that the program takes
    for n in (255, 256, 257, 1000, 4095, 4096, 4097):
        yield bytes(dice.randrange(256) for _ in range(n))
        yield text(n)
        yield text(n) + b"{" + text(n) + b"}" + text(7)
    yield text(LONGEST)


NO_KEYS = ["zz", "3", "313", "0x31", "AB", "aB", "31 32", " 31", "31 ", "3g", "g3", "31:", "/0", "`a", "€", "31\r", "-1"]


def main():
    options = argparse.ArgumentParser()
    options.add_argument("--seed", type=int, default=20261115)
    options.add_argument("--to", type=Path, default=CRATE)
    o = options.parse_args()
    lines = [(key.hex(), str(slot(key))) for key in keys(random.Random(o.seed))]
    dice = random.Random(7)
    for line in NO_KEYS + ["31" * LONGEST + "3", "7b" * (LONGEST + 20000)]:
        lines.insert(dice.randrange(len(lines)), (line, "bad"))
    (o.to / "stdin").write_bytes("".join(line + "\n" for line, _ in lines).encode() + b"3132")
    (o.to / "stdout").write_text("".join(answer + "\n" for _, answer in lines))
    print(f"{len(lines)} lines")


if __name__ == "__main__":
    main()
