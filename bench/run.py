#!/usr/bin/env python3
"""How fast the built program paints, copies, converts and combines surfaces of 1024 by 768. `bench/run.sh` calls it.

Each case is the difference of two runs of the program with other counts of one command, in Mpixel/s. Beside it stand the speeds of
`memset` and `memcpy` of the target's bytes, and the part of one of them that the case reaches: of `memset` for paints, of `memcpy`
for all else. The clipped cases draw in a thousand squares, and their pixels are those of the squares.
"""
import argparse
import subprocess
import sys
from pathlib import Path
from typing import NamedTuple

from timing import GDI, least, seconds_each

WIDTH, HEIGHT = 1024, 768
CONFIG = '[[screen]]\nkind = "linear"\nx = 0\ny = 0\nwidth = 1\nheight = 1\nformat = "8"\n%%\n'
FORMATS = {8: "8", 16: "565", 32: "32"}
# the squares of a clip: so many columns and rows of them, and how long their sides are
COLUMNS, ROWS, SIDE = 40, 25, 16
# about so many seconds are spent on the longer run of a case
LONG = 0.3


class Case(NamedTuple):
    """A command that is measured, drawn in the squares alone where it is clipped."""
    name: str
    line: str
    is_paint: bool
    is_clipped: bool = False

    def pixels(self):
        return COLUMNS * ROWS * SIDE * SIDE if self.is_clipped else WIDTH * HEIGHT


def squares():
    """The region of the squares, which lie apart."""
    corners = [(column * WIDTH // COLUMNS, row * HEIGHT // ROWS) for row in range(ROWS) for column in range(COLUMNS)]
    return "region squares rects " + " ".join(f"{x} {y} {x + SIDE} {y + SIDE}" for x, y in corners)


def setup(depth):
    """The surfaces and brushes that the cases of a depth are drawn with."""
    form = FORMATS[depth]
    whole = f"0 0 {WIDTH} {HEIGHT}"
    lines = [f"bitmap {name} {WIDTH} {HEIGHT} {kept}"
             for name, kept in [("target", form), ("source", form), ("narrow", "8"), ("wide", "32"), ("mask", "1")]]
    lines += [f"bitmap tile 8 8 {form}", "paint tile 0 0 8 8 #123456 13", "paint tile 2 2 6 6 #E0A000 13",
              "brush tiles pattern tile", "brush lines hatch cross FF0000 FFFFFF",
              "brush slants hatch bdiagonal 00FF00 0000FF", "brush dots hatch diagcross 000000 FFFFFF",
              f"paint mask {whole} dots 13"]
    lines += [f"paint {name} {whole} slants 13" for name in ("source", "narrow", "wide")]
    return lines


def cases(depth):
    """The cases of a depth."""
    whole = f"0 0 {WIDTH} {HEIGHT}"
    found = [
        Case("solid paint", f"paint target {whole} #FF0000 13", True),
        Case("xor paint", f"paint target {whole} #FF0000 7", True),
        Case("hatch paint", f"paint target {whole} lines 13", True),
        Case("pattern paint", f"paint target {whole} tiles 13", True),
        Case("copy", f"copy target {whole} source 0 0", False),
        Case("copy by (1,1)", f"copy target 1 1 {WIDTH} {HEIGHT} target 0 0", False),
        Case("masked blt AACC", f"blt target {whole} source 0 0 mask 0 0 - AACC", False),
        Case("rop3 B8", f"blt target {whole} source 0 0 - 0 0 tiles B8B8", False),
        Case("clipped paint", f"paint target {whole} #FF0000 13", True, True),
        Case("clipped (1,1)", f"copy target 1 1 {WIDTH} {HEIGHT} target 0 0", False, True),
    ]
    if depth == 32:
        found.append(Case("8 to 32", f"copy target {whole} narrow 0 0", False))
    if depth == 8:
        found.append(Case("32 to 8", f"copy target {whole} wide 0 0", False))
    return found


def text(depth, case, count):
    clip = [squares(), "clip squares"] if case.is_clipped else []
    return (CONFIG + "\n".join(setup(depth) + clip + [case.line] * count) + "\n").encode()


def spent(gdi, depth, case, runs):
    """The seconds that the command of a case takes."""
    return seconds_each(lambda count, tries: least([gdi, "run"], text(depth, case, count), tries), runs, LONG, 90_000)


def memory_of(program, depth):
    """The seconds that memset and memcpy of a surface take, or none."""
    if not program:
        return None
    said = subprocess.run([program, str(WIDTH * HEIGHT * depth // 8)], stdout=subprocess.PIPE, check=True, text=True)
    return [int(word) / 1e9 for word in said.stdout.split()]


def row_of(case, depth, seconds, memory):
    speed = case.pixels() / seconds / 1e6
    row = f"{case.name:16} {depth:4} bits {speed:9.0f} Mpixel/s"
    if memory:
        speeds = [WIDTH * HEIGHT / each / 1e6 for each in memory]
        row += "".join(f" {each:9.0f}" for each in speeds)
        row += f" {speed / speeds[0 if case.is_paint else 1]:8.2f} of {'memset' if case.is_paint else 'memcpy'}"
    return row


def main():
    parser = argparse.ArgumentParser()
    parser.add_argument("--program", type=Path, default=GDI)
    parser.add_argument("--runs", type=int, default=5)
    parser.add_argument("--memory", default="")
    asked = parser.parse_args()
    gdi = asked.program.resolve()
    if not gdi.exists():
        sys.exit(f"bench: {gdi} isn't built")
    print(f"{'':34}{'' if not asked.memory else '           memset    memcpy'}")
    for depth in FORMATS:
        memory = memory_of(asked.memory, depth)
        for case in cases(depth):
            try:
                seconds = spent(gdi, depth, case, asked.runs)
            except subprocess.CalledProcessError as stopped:
                sys.exit(f"bench: {case.name} at {depth} bits: the program ended with status {stopped.returncode}")
            print(row_of(case, depth, seconds, memory), flush=True)


if __name__ == "__main__":
    main()
