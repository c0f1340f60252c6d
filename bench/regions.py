#!/usr/bin/env python3
"""How fast regions are made and combined, beside pixman where its library and a C compiler are at hand.

    bench/regions.py [--program PATH] [--runs N]

Each case of a shape is the time of one operation on two regions of so many rectangles, the difference of two runs with other counts of it;
where the answer has over 4,096 rectangles a region isn't made of it, and the number is marked. The other cases are the time of a run of
the program `region_bench`, less that of a run without work.
"""
import shutil
import subprocess
import tempfile
from pathlib import Path

from timing import least, options, seconds_each

HERE = Path(__file__).resolve().parent
SHAPES = ["rows", "columns", "checkers", "combs"]
OPERATIONS = ["union", "intersect", "subtract", "xor", "offset", "rects"]
COUNTS = [100, 1_000, 4_095]
MOST_RECTS = 4_096
# about so many seconds are spent on the longer run of a case, and at most so many operations are done
LONG, MOST = 0.1, 4_000_000
REFUSED = [
    ("65,535 rectangles in a line, refused", "line", 65_535),
    ("32,768 columns across 32,768 rows, refused", "grid", 32_768),
]


def pixman_program(room):
    """The program of the same operations by pixman, or none."""
    if not (shutil.which("cc") and shutil.which("pkg-config")):
        return None
    flags = subprocess.run(["pkg-config", "--cflags", "--libs", "pixman-1"], capture_output=True, text=True)
    if flags.returncode:
        return None
    program = Path(room) / "pixman"
    subprocess.run(["cc", "-O2", "-o", program, HERE / "pixman.c", *flags.stdout.split()], check=True)
    return program


def rects_given(program, words):
    """How many rectangles the answer of an operation has."""
    said = subprocess.run([program, *words, "0"], stdout=subprocess.PIPE, check=True, text=True)
    return int(said.stdout.split()[-1])


def each(program, words, runs):
    """The seconds of one operation."""
    return seconds_each(lambda count, tries: least([program, *words, str(count)], b"", tries), runs, LONG, MOST)


def shape_cases(program, pixman, runs):
    for shape in SHAPES:
        for operation in OPERATIONS:
            for count in COUNTS:
                words = [operation, str(count), shape]
                many = rects_given(program, words)
                row = f"{operation:9} {shape:9} {count:5} {many:6}{'*' if many > MOST_RECTS else ' '}"
                ours = each(program, words, runs)
                row += f" {ours * 1e6:10.2f} us"
                if pixman:
                    if rects_given(pixman, words) != many:
                        raise SystemExit(f"{row}: pixman has another number of rectangles")
                    theirs = each(pixman, words, runs)
                    row += f" {theirs * 1e6:10.2f} us {ours / theirs:6.2f}"
                print(row, flush=True)


def main():
    program, runs = options(Path("crates/region_bench/out/region_bench"), 5)
    with tempfile.TemporaryDirectory() as room:
        pixman = pixman_program(room)
        if not pixman:
            print("bench: no pixman is here, so nothing stands beside the times")
        shape_cases(program, pixman, runs)
    start = least([program, "line", "0"], b"", runs)
    for title, operation, count in REFUSED:
        spent = least([program, operation, str(count)], b"", runs) - start
        print(f"{title:44} {spent * 1000:8.2f} ms")


if __name__ == "__main__":
    main()
