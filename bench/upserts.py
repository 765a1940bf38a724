#!/usr/bin/env python3
"""Prints a script: a table, LINES upserts of ROWS rows each, and a snapshot. It is the same script each time.

Run: upserts.py LINES ROWS

The table has one file group. Its key is `id`, its partition field `p`, and its rows are ordered by `v`. Keys are
drawn from half as many names as there are rows, so that about as many rows meet a present row as meet none. Values of
`v` are drawn from a thousand numbers around 0, so that some rows meet their own. Bodies have 16 bytes.
"""
import random
import sys

SEED = 1
INIT = ('{"job":"init","name":"t","schema":{"type":"record","name":"r","fields":[{"name":"id","type":"string"},'
        '{"name":"p","type":"string"},{"name":"v","type":"long"},{"name":"body","type":"string"}]},'
        '"key":"id","partition":"p","ordering":"v","buckets":1}')


def row(draw, names):
    return '{"id":"k%06d","p":"x","v":%d,"body":"%016x"}' % (
        draw.randrange(names), draw.randrange(-500, 500), draw.getrandbits(64))


lines, rows = int(sys.argv[1]), int(sys.argv[2])
draw, names = random.Random(SEED), max(lines * rows // 2, 1)
print(INIT)
for _ in range(lines):
    print('{"job":"upsert","rows":[' + ",".join(row(draw, names) for _ in range(rows)) + "]}")
print('{"job":"snapshot"}')
