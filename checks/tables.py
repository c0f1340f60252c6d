#!/usr/bin/env python3
"""Compares the built program with an independent oracle on whole tables.

    tables.py --gdi PATH --oracle DIR

At each of the seven formats: each raster operation of one byte on all eight combinations of a pattern's, a source's and
the target's bit, at every bit of a value, alone and on either side of a mask; each mix on all four; and each shift of a
rectangle of 5 by 4 inside a bitmap onto itself by up to three pixels in either direction, and over the bitmap's edges, as
a copy, as an exclusive or and under a mask, where all of its points exist and where some don't, and under clips of several
rectangles.
"""
import argparse
import random
import sys
from pathlib import Path

from asking import CONFIG, oracles_answer, programs_answer
from random_scripts import BITS, DIGITS

CODES = 32
SHIFTS = [(x, y) for y in range(-3, 4) for x in range(-3, 4)]
PLACES = [("11 10", 3, 3), ("9 8", 2, 2), ("38 10", 30, 3)]
# rectangles from the corner of what is drawn: teeth side by side, and stairs with more than one step in a row
TEETH = [(0, 0, 1, 4), (2, 0, 3, 4), (4, 0, 5, 4)]
STAIRS = [(0, 0, 2, 1), (4, 0, 5, 2), (1, 1, 3, 2), (0, 2, 1, 4), (2, 2, 5, 3), (3, 3, 4, 4)]


def combined(form, operand, count):
    """The values of a row: bit j of pixel k has the operand's bit of the combination k + j of all eight."""
    return " ".join("%0*x" % (DIGITS[form], sum((operand >> (k + j) % 8 & 1) << j for j in range(BITS[form])))
                    for k in range(count))


def operands(form):
    """A pattern, a source and a target of sixteen pixels, and a mask of half of them."""
    lines = [f"bitmap {name} 16 1 {form}" for name in ("p", "s", "t", "d")] + ["bitmap k 16 1 1"]
    lines += [f"pixels {name} 0 0 {combined(form, operand, 16)}" for name, operand in (("p", 0xF0), ("s", 0xCC), ("d", 0xAA))]
    return lines + ["pixels k 0 0 " + "1 " * 8 + "0 " * 8, "brush b pattern p"]


def rop_script(form, first):
    """Some of the raster operations, each alone, and as the one where the mask is 1 beside another."""
    lines = operands(form)
    for code in range(first, first + CODES):
        for high in (code, (code * 7 + 3) % 256):
            lines += ["copy t 0 0 16 1 d 0 0", f"blt t 0 0 16 1 s 0 0 k 0 0 b {high:02x}{code:02x}", "dump t"]
    return lines


def mix_script(form):
    lines = operands(form)
    for mix in range(1, 17):
        lines += ["copy t 0 0 16 1 d 0 0", f"paint t 0 0 16 1 b {mix}", "dump t"]
    return lines


def noise(name, size, form):
    """A bitmap of random values, always the same ones."""
    chance = random.Random(f"{size} {form}")
    width, height = map(int, size.split())
    lines = [f"bitmap {name} {size} {form}"]
    for y in range(height):
        values = ("%0*x" % (DIGITS[form], chance.randrange(1 << BITS[form])) for _ in range(width))
        lines.append(f"pixels {name} 0 {y} " + " ".join(values))
    return lines


def clip_of(rects, left, top):
    """The lines that make a clip of rectangles from a corner on, and the line that sets it; without rectangles there is none."""
    if not rects:
        return [], "clip none"
    moved = (f"{left + x} {top + y} {left + right} {top + bottom}" for x, y, right, bottom in rects)
    return ["region c rects " + " ".join(moved)], "clip c"


def shift_script(form, place, rects=()):
    """Each shift in five ways, from the same bitmap; under the mask, and where some of its points don't exist."""
    size, left, top = place
    rect = f"t {left} {top} {left + 5} {top + 4}"
    made, clip = clip_of(rects, left, top)
    lines = noise("n", size, form) + noise("k", "5 4", "1") + [f"bitmap t {size} {form}"] + made
    begin = ["clip none", "copy t 0 0 " + size + " n 0 0", clip]
    for x, y in SHIFTS:
        source = f"t {left + x} {top + y}"
        for way in ("- 0 0 - CCCC", "- 0 0 - 6666", "k 0 0 - AACC", "k 1 -1 - 33CC"):
            lines += begin + [f"blt {rect} {source} {way}", "dump t"]
        lines += begin + [f"copy {rect} {source}", "dump t"]
    return lines


def scripts():
    for form in BITS:
        yield from (rop_script(form, first) for first in range(0, 256, CODES))
        yield mix_script(form)
        yield from (shift_script(form, place) for place in PLACES)
        yield from (shift_script(form, PLACES[0], rects) for rects in (TEETH, STAIRS))


def differing(gdi, answer, lines):
    """How many entries of a table a script has, and the drawing lines of those in which program and oracle differ."""
    data = (CONFIG + "\n".join(lines) + "\n").encode()
    text = programs_answer(gdi, data)[0].split(b"dump t ")[1:]
    wanted = answer(data)[0].split(b"dump t ")[1:]
    drawn = [line for line, after in zip(lines, lines[1:]) if after == "dump t"]
    if len(wanted) != len(drawn):
        sys.exit(f"tables: the oracle doesn't draw {lines[0]}")
    text += [None] * (len(drawn) - len(text))
    return len(drawn), [line for line, found, due in zip(drawn, text, wanted) if found != due]


def main():
    parser = argparse.ArgumentParser()
    parser.add_argument("--gdi", required=True, type=Path)
    parser.add_argument("--oracle", required=True, type=Path)
    asked = parser.parse_args()
    answer = oracles_answer(asked.oracle)
    entries = failed = 0
    for lines in scripts():
        count, wrong = differing(asked.gdi, answer, lines)
        entries += count
        failed += len(wrong)
        if wrong:
            print(f"tables: {lines[0]}: {wrong[0]} differs")
    print(f"tables: {entries - failed} passed, {failed} failed")
    return 1 if failed else 0


if __name__ == "__main__":
    sys.exit(main())
