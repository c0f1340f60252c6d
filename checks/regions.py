#!/usr/bin/env python3
"""Compares the operations on regions with the region algebra of an independent oracle, rectangle by rectangle.

    regions.py --program PATH --oracle DIR [--seed S] [--count N]

Each case is an operation on two regions of up to eight rectangles, some without points, some far off. Now and then it is one on two regions of
hundreds of rectangles, up to 4,096, which lie apart, touch, lie one in the other or overlap.
"""
import argparse
import random
import subprocess
import sys
from pathlib import Path

MOST_RECTS = 4096


def rectangle(chance):
    if chance.random() < 0.05:
        return tuple(chance.randrange(-2**31, 2**31) for _ in range(4))
    left, top = chance.randrange(-4, 12), chance.randrange(-4, 12)
    return (left, top, left + chance.randrange(-1, 8), top + chance.randrange(-1, 8))


def grid(chance, most):
    """Up to so many rectangles in rows, columns or a grid, with gaps or without, and where they end."""
    across = chance.choice([1, 2, 64, most])
    columns = chance.randrange(1, across + 1)
    rows = chance.randrange(1, most // columns + 1)
    width, height = chance.randrange(1, 4), chance.randrange(1, 4)
    step, down = width + chance.randrange(2), height + chance.randrange(2)
    rects = [(x * step, y * down, x * step + width, y * down + height) for y in range(rows) for x in range(columns)]
    return rects, columns * step, rows * down


def two_grids(chance):
    """Two grids, of which the second lies beside the first, touches it, lies in it or overlaps it."""
    most = 4096 if chance.random() < 0.1 else 300
    first, right, bottom = grid(chance, most)
    second, _, _ = grid(chance, most)
    dx, dy = chance.choice([(right + 5, 0), (0, bottom + 5), (right, 0), (0, bottom), (right // 4, bottom // 4), (1, 1), (0, 0), (-right // 2, 1)])
    return first, [(left + dx, top + dy, end + dx, below + dy) for left, top, end, below in second]


def printed(program, operation, first, second):
    """The rectangles that the program gives, or how many they are where they are too many."""
    words = [str(edge) for rect in first + second for edge in rect]
    done = subprocess.run([program, operation, str(len(first)), *words], capture_output=True, text=True, check=True)
    if done.stdout.startswith("too many "):
        return int(done.stdout.split()[2])
    return tuple(tuple(int(edge) for edge in line.split()) for line in done.stdout.splitlines())


def main():
    parser = argparse.ArgumentParser()
    parser.add_argument("--program", type=Path, required=True)
    parser.add_argument("--oracle", type=Path, required=True)
    parser.add_argument("--seed", type=int, default=1)
    parser.add_argument("--count", type=int, default=500)
    asked = parser.parse_args()
    sys.path.insert(0, str(asked.oracle))
    from model import region
    chance = random.Random(asked.seed)
    program = asked.program.resolve()
    for case in range(asked.count):
        operation = chance.choice(sorted(region.OPERATIONS))
        if chance.random() < 0.1:
            first, second = two_grids(chance)
        else:
            first = [rectangle(chance) for _ in range(chance.randrange(9))]
            second = [rectangle(chance) for _ in range(chance.randrange(1, 9))]
        found = printed(program, operation, first, second)
        wanted = region.combine(operation, region.from_rects(first), region.from_rects(second))
        if found != (wanted if len(wanted) <= MOST_RECTS else len(wanted)):
            print(f"case {case} {operation} {first} {second}: {found}, and the oracle has {wanted}")
            return 1
    print(f"regions: {asked.count} operations agree with the oracle")
    return 0


if __name__ == "__main__":
    sys.exit(main())
