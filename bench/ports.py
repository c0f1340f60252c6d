#!/usr/bin/env python3
"""How long drawings through a port over memory take, beside the same calls on bits.

    bench/ports.py [--program PATH] [--runs N]

`paint16` is a paint of 16 by 16 pixels of a screen of 4096 by 1024 through the port. The others are of a whole screen of 1024 by 768: `paint` and
`whole`, a copy of a source that is lent, through the port, and beside them `solid` and `copy`, the same on bits. Each is the difference of two runs
of the program `port_bench` with other counts.
"""
from pathlib import Path

from timing import least, options, seconds_each

# each operation, and the one on bits that it is compared with
PAIRS = [("paint16", None), ("paint", "solid"), ("whole", "copy")]
# about so many seconds are spent on a case
LONG, MOST = 0.4, 400_000


def spent(program, name, runs):
    """The seconds that an operation takes once."""
    return seconds_each(lambda count, tries: least([program, name, str(count)], b"", tries), runs, LONG, MOST)


def main():
    program, runs = options(Path("crates/port_bench/out/port_bench"), 5)
    for depth in (8, 16, 32):
        for what, beside in PAIRS:
            each = spent(program, f"{what}-{depth}", runs)
            row = f"{what}-{depth}"
            if beside is None:
                print(f"{row:12} {each * 1e6:10.1f} us")
                continue
            plain = spent(program, f"{beside}-{depth}", runs)
            print(f"{row:12} {each * 1e6:10.1f} us {plain * 1e6:10.1f} us on bits {each / plain:8.1f} times")


if __name__ == "__main__":
    main()
