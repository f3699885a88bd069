#!/usr/bin/env python3
"""usage: tests/fuzz/seeds.py FOLDER

Writes inputs to begin with, some for each call, mostly zeros, which choose what is admitted."""
import os
import random
import sys

if sys.argv[1:] in (["--help"], ["-h"]):
    print(__doc__.strip())
    sys.exit(0)
if len(sys.argv) != 2 or not os.path.isdir(sys.argv[1]):
    print("usage: tests/fuzz/seeds.py FOLDER", file=sys.stderr)
    sys.exit(2)
CALLS = 32  # at least as many as fuzz.c has
draw = random.Random(1)
for call in range(CALLS):
    for number in range(16):
        share = draw.random()
        rest = bytes(draw.randrange(256) if draw.random() < share else 0 for _ in range(400))
        with open(os.path.join(sys.argv[1], f"seed-{call}-{number}"), "wb") as seed:
            seed.write(bytes([call]) + rest)
