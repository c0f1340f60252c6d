#!/usr/bin/env python3
"""How fast rows go: raster operations, rows read and written in each depth, rows translated.

    bench/rows.py [--program PATH] [--runs N]

Each is the difference of two runs of the program `row_bench` with other counts, in Mpixel/s of rows of 1,024.
`both` is a row read and written back, `xlate` a row read and translated.
"""
from pathlib import Path

from timing import least, options

WIDTH = 1024
NAMES = (["rop-66", "rop-b8", "rop-1e"]
         + [f"{what}-{depth}" for depth in (1, 4, 8, 16, 24, 32) for what in ("read", "both")]
         + ["xlate-8-32", "xlate-565-32", "xlate-24-32", "xlate-32-565", "xlate-32-8"])


def times(program, name, count, runs):
    return least([program, name, str(count)], b"", runs)


def main():
    program, runs = options(Path("crates/row_bench/out/row_bench"), 5)
    few, many = 1_000, 101_000
    for name in NAMES:
        spent = (times(program, name, many, runs) - times(program, name, few, runs)) / (many - few)
        print(f"{name:14} {spent * 1e9:9.0f} ns a row {WIDTH / spent / 1e6:9.0f} Mpixel/s")


if __name__ == "__main__":
    main()
