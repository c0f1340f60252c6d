#!/usr/bin/env python3
"""Runs the scripts of checks/refusals.txt, and scripts at each limit and just past it, through the built program.

    refusals.py --gdi PATH [--oracle DIR]

With an oracle, each answer is also asked of it.
"""
import argparse
import sys
from pathlib import Path

from asking import CONFIG, oracles_answer, programs_answer

HERE = Path(__file__).resolve().parent


def refused(line, number):
    return f"refused script {line} {number}\n"


def accepted(commands):
    return f"end {commands}\n"


def written_cases():
    for line in (HERE / "refusals.txt").read_text().splitlines():
        if line and not line.startswith("#"):
            place, script = line.split(" | ", 1) if " | " in line else line.split(" |", 1)
            first, number = place.split()
            want = accepted(number) if first == "end" else refused(first, number)
            yield want, script.replace(" / ", "\n") + "\n"


def name_limits():
    """As many brushes, tables and bitmaps as may be, and one more. The first script line has number 9."""
    brushes = "".join(f"brush b{i} solid 000000\n" for i in range(1024))
    yield accepted(1024), brushes
    yield refused(9 + 1024, 12), brushes + "brush x solid 000000\n"
    yield refused(9 + 1024, 12), brushes + "brush x hatch cross 000000 000000\n"
    yield refused(9 + 1025, 12), brushes + "bitmap m 1 1 8\nbrush x pattern m\n"
    yield refused(9 + 1025, 7), brushes + "# a comment\nbrush 9 solid 000000\n"
    tables = "".join(f"table t{i} 000000 FFFFFF\n" for i in range(256))
    yield accepted(256), tables
    yield refused(9 + 256, 12), tables + "table x 000000 FFFFFF\n"
    bitmaps = "".join(f"bitmap m{i} 1 1 8\n" for i in range(4096))
    yield accepted(4096), bitmaps
    yield refused(9 + 4096, 12), bitmaps + "bitmap x 1 1 8\n"
    yield refused(9 + 4096, 4), bitmaps + "bitmap x 1 0 8\n"
    yield accepted(4098), bitmaps + "delete m7\nbitmap x 1 1 8\n"
    yield refused(9 + 4098, 12), bitmaps + "delete m7\nbitmap x 1 1 8\nbitmap m7 1 1 8\n"
    yield refused(9 + 4097, 15), "table t 000000 FFFFFF\n" + bitmaps + "bitmap x 1 1 8 t\n"
    yield accepted(4096 + 1024 + 256), tables + bitmaps + brushes


def region_limits():
    """10,000 names; 4,096 rectangles in a region, and 262,144 in all; and one more."""
    empty = "".join(f"region r{i} rects\n" for i in range(10_000))
    yield accepted(10_000), empty
    yield refused(9 + 10_000, 12), empty + "table t 000000 FFFFFF\n"
    yield refused(9 + 10_000, 12), empty + "region x rects\n"
    apart = "".join(f" {2 * i} 0 {2 * i + 1} 1" for i in range(4_096))
    full = "region a rects" + apart + "\n"
    yield accepted(1), full
    yield refused(9, 13), "region a rects" + apart + " 9000 0 9001 1\n"
    stripes = full + "".join(f"region s{i} offset a {i} {i}\n" for i in range(63))
    yield accepted(64), stripes
    yield accepted(65), stripes + "region x subtract a s0\n"
    yield refused(9 + 64, 12), stripes + "region x rects 0 0 1 1\n"
    yield refused(9 + 64, 12), stripes + "region x union a s1\n"
    yield refused(11, 13), "region b rects 0 5 1 6\n" + full + "region y union a b\n"


def command_limits():
    """100,000 commands, and one more; a long line; many bitmaps one after the other."""
    backs = "back 000000\n" * 100_000
    yield accepted(100_000), backs + "# a comment\n\n"
    yield refused(9 + 100_000, 14), backs + "back 000000\n"
    yield refused(9 + 100_000, 14), backs + "frob\n"
    yield refused(9 + 100_002, 14), backs + "\n# a comment\nback\n"
    row = "bitmap m 4 1 8\npixels m -32768 0 " + "01 02 03 04 05 " * 6_554
    yield accepted(3), row + "\ndump m\n"
    yield refused(10, 3), row + "6\ndump x\n"
    turns = "bitmap m 4096 1024 1\ndelete m\n" * 40_000
    yield refused(9 + 80_000, 5), turns + "delete m\n"


def main():
    parser = argparse.ArgumentParser()
    parser.add_argument("--gdi", required=True, type=Path)
    parser.add_argument("--oracle", type=Path)
    asked = parser.parse_args()
    answer = oracles_answer(asked.oracle) if asked.oracle else None
    passed = failed = 0
    for want, script in [*written_cases(), *name_limits(), *region_limits(), *command_limits()]:
        data = (CONFIG + script).encode()
        text, status = programs_answer(asked.gdi, data)
        said = answer(data)[0] if answer else text
        right = text.decode().splitlines(True)[-1:] == [want] and status == (2 if want.startswith("refused") else 0)
        if right and said == text:
            passed += 1
        else:
            failed += 1
            print(f"refusals: {script[-60:]!r} gives {text[-40:]!r}, the oracle {said[-40:]!r}, wanted {want!r}")
    print(f"refusals: {passed} passed, {failed} failed")
    return 1 if failed else 0


if __name__ == "__main__":
    sys.exit(main())
