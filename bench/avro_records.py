#!/usr/bin/env python3
"""Prints a schema's line and so many records of it in binary form: a number, a text and a text that may be null.

Run: avro_records.py COUNT
"""
import sys

SCHEMA = (
    '{"type":"record","name":"r","fields":[{"name":"n","type":"long"},{"name":"t","type":"string"},'
    '{"name":"m","type":["null","string"]}]}'
)


def long(number):
    number = number << 1 if number >= 0 else (-number << 1) - 1
    out = bytearray()
    while number > 127:
        out.append(number & 127 | 128)
        number >>= 7
    out.append(number)
    return bytes(out)


def text(told):
    return long(len(told)) + told.encode()


def main(count):
    out = sys.stdout.buffer
    out.write(SCHEMA.encode() + b"\n")
    state = 1
    for place in range(count):
        # A linear congruence, so that each run has the same records.
        state = (state * 6364136223846793005 + 1442695040888963407) % 2**64
        number = (state >> 20) - 2**43
        some = long(0) if state >> 63 else long(1) + text("m" * (state >> 40 & 31))
        out.write(long(number) + text(f"key-{place % 5000:08}") + some)


main(int(sys.argv[1]))
