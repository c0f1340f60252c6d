#!/usr/bin/env python3
"""Compares the built program with an independent oracle on random inputs, refused ones among them.

    random_inputs.py --gdi PATH --oracle DIR [--seed S] [--count N] [--keep DIR]

An accepted input has the oracle's text, a refused one its line and number. The program doesn't build
every command yet: the first line of a command that it doesn't build is `refused script LINE 1`, unless
an earlier line is refused; any configuration but that of one linear screen of format 8 at 0 0 is
`refused config 0`.
"""
import argparse
import random
import re
import sys
from pathlib import Path

from asking import oracles_answer, programs_answer
from random_scripts import random_script

BUILT = {b"table", b"bitmap", b"delete", b"pixels", b"brush", b"brushorg", b"back", b"region", b"clip", b"blt",
         b"copy", b"paint", b"dump", b"sum"}
SIDE = rb"([1-9][0-9]{0,3})"
CONFIG = re.compile(
    rb'\[\[screen\]\]\nkind = "linear"\nx = 0\ny = 0\nwidth = ' + SIDE
    + rb"\nheight = " + SIDE + rb'\nformat = "8"')


def configuration(chance, width, height):
    """The text before the script, spoiled now and then."""
    lines = ["[[screen]]", 'kind = "linear"', "x = 0", "y = 0", f"width = {width}", f"height = {height}",
             'format = "8"', "%%"]
    roll = chance.random()
    if roll < 0.02:
        lines.remove("%%")
    elif roll < 0.06:
        at = chance.randrange(len(lines))
        lines[at] = chance.choice(["", "width = 0", "height = 4097", "width = 04", "x = 1", lines[at] + " ",
                                   "%%", "kind = 'linear'", "width = 4096", "x = -0"])
    return lines


def one_input(chance):
    width, height = chance.randrange(1, 24), chance.randrange(1, 12)
    text = "\n".join(configuration(chance, width, height) + random_script(chance, width, height))
    if chance.random() < 0.8:
        text += "\n"
    data = text.encode()
    if chance.random() < 0.1:
        data = data.replace(b"\n", b"\r\n")
    if chance.random() < 0.05:
        at = chance.randrange(len(data))
        data = data[:at] + bytes([chance.randrange(256)]) + data[at + chance.randrange(2):]
    return data


def lines_of(data):
    """The lines; a CR before an LF is dropped."""
    lines = data.split(b"\n")
    return [line.removesuffix(b"\r") for line in lines[:-1]] + lines[-1:]


def unbuilt_line(lines, start, end):
    """The number of the first line of a command that isn't built yet, where no line before it is refused: `end` is
    the number of the first refused line, or one past the last."""
    for number, line in enumerate(lines[start:end], start + 1):
        words = [word for word in line.split(b" ") if word]
        if words and not line.startswith(b"#") and words[0] not in BUILT:
            return number
    return None


def wanted(answer, data):
    """The text and the status that the program owes today."""
    text, status = answer(data)
    if text == b"refused config 10\n":
        return text, status
    lines = lines_of(data)
    start = lines.index(b"%%") + 1
    match = CONFIG.fullmatch(b"\n".join(lines[:start - 1]))
    if not match or max(map(int, match.groups())) > 4096 or int(match[1]) * int(match[2]) > 4194304:
        return b"refused config 0\n", 2
    refused = re.fullmatch(rb"refused script (\d+) (\d+)\n", text)
    end = int(refused[1]) if refused else len(lines) + 1
    line = unbuilt_line(lines, start, end)
    return (b"refused script %d 1\n" % line, 2) if line else (text, status)


def keep(folder, name, data):
    if folder:
        folder.mkdir(parents=True, exist_ok=True)
        (folder / name).write_bytes(data)


def main():
    parser = argparse.ArgumentParser()
    parser.add_argument("--gdi", required=True, type=Path)
    parser.add_argument("--oracle", required=True, type=Path)
    parser.add_argument("--seed", type=int, default=1)
    parser.add_argument("--count", type=int, default=1000)
    parser.add_argument("--keep", type=Path)
    asked = parser.parse_args()
    answer = oracles_answer(asked.oracle)
    failed, refused = 0, 0
    for number in range(asked.count):
        data = one_input(random.Random(f"{asked.seed}/{number}"))
        text, status = wanted(answer, data)
        refused += status == 2
        found = programs_answer(asked.gdi, data)
        if found != (text, status):
            failed += 1
            keep(asked.keep, f"{asked.seed}_{number}.input", data)
            if failed <= 10:
                print(f"random inputs: {asked.seed}/{number} differs: {found[0][:60]!r}, wanted {text[:60]!r}")
    print(f"random inputs: {asked.count - failed} passed, {failed} failed ({refused} of them refused)")
    return 1 if failed else 0


if __name__ == "__main__":
    sys.exit(main())
