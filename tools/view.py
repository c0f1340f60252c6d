#!/usr/bin/env python3
"""Shows the dumps of an output of `gdi run`, which it reads from standard input: as PNG files, or in the terminal.

    ./gdi run < examples/desktop.gdi | tools/view.py --out pictures/
    ./gdi run < examples/icon.gdi | tools/view.py --zoom 4

A dump has values and no colours. Those of 1, 4 and 8 bits are shown by the default table of their format; --input names the
input that the output is of, and then by the tables that it gives its bitmaps. A terminal needs a column for each pixel of a
row, 24-bit colour and half blocks.
"""
import argparse
import sys
from pathlib import Path

from dumps import read_dumps, tables_of
from pictures import picture_of, png_of, side_by_side, terminal_text, zoomed


def whole_number(text):
    """A zoom factor: 1 or more."""
    if not text.isdecimal() or int(text) < 1:
        raise argparse.ArgumentTypeError(f"{text} isn't a whole number from 1 on")
    return int(text)


def options():
    parser = argparse.ArgumentParser(description=__doc__, formatter_class=argparse.RawDescriptionHelpFormatter)
    parser.add_argument("--out", type=Path, metavar="DIR", help="write PNG files there, in place of text on the terminal")
    parser.add_argument("--input", type=Path, metavar="FILE", help="the input with the colour tables")
    parser.add_argument("--zoom", type=whole_number, default=1, metavar="N", help="each pixel as N by N; 1 where none is given")
    parser.add_argument("--together", action="store_true", help="all dumps side by side in one picture")
    return parser.parse_args()


def name_of(number, dump):
    """The name of the picture of a dump: its number among the dumps, and what it shows."""
    return f"{number:02}_screen{dump.name}" if dump.name.isdecimal() else f"{number:02}_{dump.name}"


def named_pictures(asked):
    """What is to be shown, each with its name."""
    dumps = read_dumps(sys.stdin.read())
    tables = tables_of(dumps, asked.input.read_bytes() if asked.input else None)
    pictures = [zoomed(picture_of(dump, table), asked.zoom) for dump, table in zip(dumps, tables)]
    if asked.together:
        return [("together", side_by_side(pictures))]
    return [(name_of(number, dump), picture) for number, (dump, picture) in enumerate(zip(dumps, pictures), 1)]


def write_files(folder, pictures):
    folder.mkdir(parents=True, exist_ok=True)
    for name, picture in pictures:
        path = folder / f"{name}.png"
        path.write_bytes(png_of(picture))
        print(f"{path}: {picture.width} by {len(picture.rows)}")


def show_in_terminal(pictures):
    for name, picture in pictures:
        sys.stdout.buffer.write(f"{name}\n{terminal_text(picture)}".encode())


def main():
    asked = options()
    try:
        pictures = named_pictures(asked)
        if asked.out:
            write_files(asked.out, pictures)
        else:
            show_in_terminal(pictures)
    except (OSError, ValueError) as fault:
        sys.exit(f"view: {fault}")


if __name__ == "__main__":
    main()
