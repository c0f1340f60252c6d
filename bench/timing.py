"""What the benchmarks share: their options, and the times of a program."""
import argparse
import subprocess
import time
from pathlib import Path

GDI = Path("crates/gdi_tool/out/gdi_tool")
FEW = 2


def options(program, runs):
    """The program to be measured, its path made whole, and how often a time is taken."""
    parser = argparse.ArgumentParser()
    parser.add_argument("--program", type=Path, default=program)
    parser.add_argument("--runs", type=int, default=runs)
    asked = parser.parse_args()
    return asked.program.resolve(), asked.runs


def least(words, data, runs):
    """The least time in seconds of some runs of a program and its words on an input."""
    times = []
    for _ in range(runs):
        start = time.perf_counter()
        subprocess.run(words, input=data, stdout=subprocess.DEVNULL, check=True)
        times.append(time.perf_counter() - start)
    return min(times)


def seconds_each(spent, runs, long, most):
    """The seconds that one more of something takes: the difference of two counts of it, of which the greater takes a quarter of
    `long` seconds or more, or is near `most`. `spent(count, runs)` gives the least time of some runs of a count."""
    start = spent(FEW, runs)
    count = 8
    while spent(FEW + count, 1) - start < long / 4 and count < most / 4:
        count *= 4
    return max(spent(FEW + count, runs) - start, 1e-9) / count
