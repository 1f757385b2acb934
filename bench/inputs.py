#!/usr/bin/env python3
"""Usage: inputs.py FOLDER. Writes the scripts that bench.sh measures: order 16, 64 random paths of 3 to 6 parts."""

import random
import sys
from pathlib import Path

dice = random.Random(16)


def path():
    parts = dice.sample(range(16), dice.randint(3, 6))
    return b"P" + sum(1 << part for part in parts).to_bytes(2, "big")


def rate(part):
    return b"R" + bytes([part]) + dice.randint(1, 65535).to_bytes(4, "big")


opening = b"N\x10" + b"".join(path() for _ in range(64)) + b"O"
rates = b"".join(rate(part) for part in range(16))
rounds = b"".join(rate(i % 16) + b"F" for i in range(50))

folder = Path(sys.argv[1])
for name, script in {
    "opening": opening,
    "figures-50": opening + rates + rounds,
    "tallies-20": opening + b"T" * 20,
    "signatures-20": opening + b"S" * 20,
    "cuts-5": opening + b"M" * 5,
}.items():
    assert len(script) <= 4096
    (folder / f"{name}.bin").write_bytes(script)
