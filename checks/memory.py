#!/usr/bin/env python3
"""Runs the example of a desktop, and a script of each command that draws or makes something, with each request for memory refused in turn.

    memory.py --gdi PATH [--oracle DIR]

A run that a refusal ends has status 4 and a first part of the text. Any other has the text of the run in which the command that wanted memory
does nothing, with the lines of a drawing's report, or the one line of a dump or sum that could not be read, and status 9; or the whole text and
status 0 where nothing wanted memory. With an oracle each text is also asked of it. It wants gdb, since a proved program is built once and has no word that refuses memory.
"""
import argparse
import json
import os
import re
import shutil
import subprocess
import sys
import tempfile
from concurrent.futures import ThreadPoolExecutor
from pathlib import Path

from asking import CONFIG, programs_answer, told

HERE = Path(__file__).resolve().parent
DESKTOP = HERE.parent / "examples" / "desktop.gdi"
REPORT = re.compile(rb"^command (\d+) memory \S+ 0\n", re.MULTILINE)
UNREAD = re.compile(rb"^(?:dump|sum) \S+ memory\n", re.MULTILINE)
READING = re.compile(rb"^(?:dump|sum) ", re.MULTILINE)
DRAWS_NOTHING = b"paint screen 0 0 0 0 #000000 13"
DONE, NO_MEMORY, MEMORY_SEEN = 0, 4, 9

SCREEN = "paint screen 0 0 4 1 #FF0000 13\n"
MONO = "bitmap mono 3 2 1\npixels mono 0 0 1 0 1\npixels mono 0 1 0 1 1\n"
DEEP = "bitmap deep 3 2 24\npixels deep 0 0 102030 405060 708090\n"
CLIP = "region steps rects 0 0 2 1 1 1 3 2\nclip steps\n"
SCRIPTS = {
    "paint": SCREEN + CLIP + "paint screen 0 0 4 2 #00FF00 7\n",
    "hatch": SCREEN + "brush lines hatch cross FF0000 0000FF\nbrushorg 1 1\npaint screen 0 0 4 2 lines 13\n",
    "pattern": SCREEN + MONO + "brush dots pattern mono\npaint screen 0 0 4 2 dots 13\n",
    "copy": SCREEN + DEEP + CLIP + "copy screen 1 0 4 2 deep 0 0\n",
    "shift": SCREEN + "copy screen 1 1 4 2 screen 0 0\n",
    "blt": SCREEN + DEEP + MONO + "blt screen 0 0 4 2 deep 0 0 - 0 0 #0000FF B8B8\n",
    "mask": SCREEN + DEEP + MONO + "blt screen 0 0 3 2 deep 0 0 mono 0 0 - AACC\n",
    "pixels": "bitmap deep 3 2 32\nclip none\npixels deep -1 1 00010203 04050607 08090A0B\ndump deep\n",
    "bitmap": "bitmap first 2 2 4\nbitmap second 3 1 8\ndelete first\nbitmap third 1 1 565\nsum second\ndump third\n",
    "table": "table two FF0000 0000FF\nbitmap mono 3 1 1 two\npixels mono 0 0 1 0 1\ncopy screen 0 0 3 1 mono 0 0\n",
    "brush": "dump 0\nbrush plain solid 00FF00\ndump 0\nbrush lines hatch vertical 000000 FFFFFF\npaint screen 0 0 4 2 plain 13\n",
    "reads": "sum 0\nbitmap wide 8 4 32\ndump wide\ndump 0\nsum wide\nbitmap wider 9 5 32\nsum wider\n",
    "region": SCREEN + CLIP + "region moved offset steps 1 0\nregion both union steps moved\nclip both\npaint screen 0 0 4 2 #FFFFFF 13\n",
}


def inputs():
    """The name of each input, and its text. Each script ends with what stands on the screen."""
    yield DESKTOP.stem, DESKTOP.read_bytes()
    for name, script in SCRIPTS.items():
        yield name, (CONFIG + script + "dump 0\nsum 0\n").encode()


def refused_runs(gdi, folder, name, first, step):
    """The text and the status of each run of the input of a name in which a request is refused: that of a number, and so on by steps."""
    output = folder / f"{name}.{first}"
    asked = ["run", str(folder / name), first, step, str(output)]
    words = ["gdb", "-batch", "-nx", "-ex", f"py asked = {asked!r}", "-x", HERE / "refusing.py", gdi.resolve()]
    said = subprocess.run(words, capture_output=True, text=True, timeout=900)
    try:
        ends = json.loads(Path(f"{output}.json").read_text(encoding="utf-8"))
    except FileNotFoundError:
        raise SystemExit(f"memory: gdb refused no request: {said.stderr[-400:]}") from None
    return [(name, Path(text).read_bytes(), status) for text, status in ends]


def all_runs(gdi, folder):
    """The desktop makes most requests: they are shared out."""
    shares = 4 * (os.cpu_count() or 1)
    asked = [(DESKTOP.stem, first, shares) for first in range(1, shares + 1)] + [(name, 1, 1) for name in SCRIPTS]
    with ThreadPoolExecutor(os.cpu_count()) as pool:
        runs = pool.map(lambda one: refused_runs(gdi, folder, *one), asked)
        return [run for some in runs for run in some]


def with_commands(data):
    """The lines of an input, and at which of them its commands stand."""
    lines = data.split(b"\n")
    first = lines.index(b"%%") + 1
    return lines, [at for at in range(first, len(lines)) if lines[at].strip(b" ") and not lines[at].startswith(b"#")]


def without(data, number):
    """An input whose command of a number does nothing."""
    lines, commands = with_commands(data)
    lines[commands[number - 1]] = DRAWS_NOTHING
    return b"\n".join(lines)


def wanting(data, text):
    """The numbers of the commands of which a text says that they wanted memory: the drawings, and then the readings."""
    lines, commands = with_commands(data)
    readings = [number for number, at in enumerate(commands, 1) if READING.match(lines[at].lstrip(b" "))]
    unread = [readings[len(READING.findall(text, 0, found.start()))] for found in UNREAD.finditer(text)]
    return [int(number) for number in REPORT.findall(text)] + unread


def is_right(gdi, data, whole, text, status):
    """Whether a run may end so."""
    numbers = wanting(data, text)
    if status == NO_MEMORY:
        return not numbers and whole.startswith(text) and (not text or text.endswith(b"\n"))
    if status == MEMORY_SEEN and len(numbers) == 1:
        return programs_answer(gdi, without(data, numbers[0])) == (UNREAD.sub(b"", REPORT.sub(b"", text)), DONE)
    return (text, status) == (whole, DONE)


def oracles_verdict(oracle):
    """The function that says what the oracle finds wrong with an end of an input's run, if anything."""
    sys.path.insert(0, str(oracle.resolve()))
    from model.verify import Difference, verify_run

    def verdict(data, text, status):
        try:
            verify_run(data, text, status=status)
        except Difference as difference:
            return str(difference)
        return None
    return verdict


def faults(gdi, verdict, known, runs):
    """What is wrong, of each end once."""
    for name, text, status in sorted(set(runs), key=repr):
        data, whole = known[name]
        if not is_right(gdi, data, whole, text, status):
            yield f"{name} ends with status {status} and {text[-60:]!r}"
        elif wrong := verdict(data, text, status):
            yield f"{name} ends with status {status}, and the oracle says: {wrong}"
    seen = {status for _, _, status in runs}
    for status in (NO_MEMORY, MEMORY_SEEN):
        if status not in seen:
            yield f"no run ends with status {status}"


def can_stop(gdi):
    """Whether gdb is here, and may stop a program that it runs."""
    if not shutil.which("gdb"):
        return False
    words = ["gdb", "-batch", "-nx", "-ex", "set startup-with-shell off", "-ex", "tbreak main", "-ex", "run", "-ex", "kill", gdi.resolve()]
    said = subprocess.run(words, capture_output=True, text=True, timeout=60, stdin=subprocess.DEVNULL)
    return "Temporary breakpoint 1, " in said.stdout


def main():
    parser = argparse.ArgumentParser()
    parser.add_argument("--gdi", required=True, type=Path)
    parser.add_argument("--oracle", type=Path)
    asked = parser.parse_args()
    if not can_stop(asked.gdi):
        print("memory: gdb isn't here or may not stop a program, so no request for memory was refused")
        return 0
    known = {name: (data, programs_answer(asked.gdi, data)[0]) for name, data in inputs()}
    with tempfile.TemporaryDirectory() as folder:
        for name, (data, _) in known.items():
            (Path(folder) / name).write_bytes(data)
        runs = all_runs(asked.gdi, Path(folder))
    verdict = oracles_verdict(asked.oracle) if asked.oracle else lambda *end: None
    return told("memory", len(runs), list(faults(asked.gdi, verdict, known, runs)), 10)


if __name__ == "__main__":
    sys.exit(main())
