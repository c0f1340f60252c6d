#!/usr/bin/env python3
"""How fast the kernels draw on surfaces of 1024 by 768 in memory, and how fast memory is set and copied beside them.

    bench/kernels.py [--program PATH] [--runs N]

Each is the difference of two runs of the program `kernel_bench` with other counts. The last column is the part of the speed of
`set` (paints) or `move` (all else) of the target's bytes.
"""
from pathlib import Path

from timing import least, options, seconds_each

PIXELS = 1024 * 768
PAINTS = ["solid", "xor", "hatch", "pattern"]
OTHERS = ["copy", "self", "masked", "b8", "66"]
# about so many seconds are spent on a case
LONG = 0.15


def spent(program, name, runs):
    """The seconds that an operation takes once."""
    return seconds_each(lambda count, tries: least([program, name, str(count)], b"", tries), runs, LONG, 400_000)


def main():
    program, runs = options(Path("crates/kernel_bench/out/kernel_bench"), 5)
    for depth in (8, 16, 32):
        beside = {kind: spent(program, f"{kind}-{depth}", runs) for kind in ("set", "move")}
        changes = {8: ["from32", "many"], 16: [], 32: ["from8"]}[depth]
        for what in ["set", "move"] + PAINTS + OTHERS + changes:
            name = f"{what}-{depth}"
            kind = "set" if what in PAINTS or what == "set" else "move"
            each = beside[what] if what in beside else spent(program, name, runs)
            print(f"{name:12} {each * 1e6:10.1f} us {PIXELS / each / 1e6:10.0f} Mpixel/s {beside[kind] / each:8.3f} of {kind}")


if __name__ == "__main__":
    main()
