#!/usr/bin/env python3
"""Checks tools/view.py: what it makes of small dumps is read back, and its pixels are compared with colours worked out by hand.
The picture of the README has to be that of the example it is said to show.

    pictures.py
"""
import struct
import subprocess
import sys
import tempfile
import zlib
from pathlib import Path

from asking import told

TOP = Path(__file__).resolve().parent.parent
VIEW = TOP / "tools" / "view.py"
CONFIG = '[[screen]]\nkind = "linear"\nx = 0\ny = 0\nwidth = 2\nheight = 1\nformat = "8"\n%%\n'
GAP = " 606060" * 8
# A name, the output, the input or nothing, further words, and the pictures by their names: rows of colours.
CASES = [
    ("format 1", "dump 0 2 1 1\n01\nend 1\n", "", [], {"01_screen0": ["000000 ffffff"]}),
    ("format 4", "dump b 4 1 4\n017f\nend 2\n", "", [], {"01_b": ["000000 111111 777777 ffffff"]}),
    ("format 8", "dump b 4 2 8\n00ffe01c\n03b64925\nend 2\n", "", [],
     {"01_b": ["000000 ffffff ff0000 00ff00", "0000ff b6b6aa 494955 242455"]}),
    ("format 555", "dump b 4 2 555\n7fff7c0003e0001f\n8000421004210c63\nend 2\n", "", [],
     {"01_b": ["ffffff ff0000 00ff00 0000ff", "000000 848484 080808 181818"]}),
    ("format 565", "dump b 4 2 565\nfffff80007e0001f\n8410082100400cc3\nend 2\n", "", [],
     {"01_b": ["ffffff ff0000 00ff00 0000ff", "848284 080408 000800 089a18"]}),
    ("format 24", "dump b 2 1 24\n123456fedcba\nend 2\n", "", [], {"01_b": ["123456 fedcba"]}),
    ("format 32", "dump b 2 1 32\nff12345600fedcba\nend 2\n", "", [], {"01_b": ["123456 fedcba"]}),
    ("zoom", "dump 0 2 2 1\n01\n11\nend 1\n", "", ["--zoom", "2"],
     {"01_screen0": ["000000 000000 ffffff ffffff"] * 2 + ["ffffff ffffff ffffff ffffff"] * 2}),
    ("two dumps", "dump 0 1 1 1\n1\nsum 0 0000000000000001\ndump b 1 1 4\n1\nend 4\n", "", [],
     {"01_screen0": ["ffffff"], "02_b": ["111111"]}),
    ("side by side", "dump 0 1 2 1\n1\n0\ndump b 1 1 4\n1\nend 3\n", "", ["--together"],
     {"together": ["ffffff" + GAP + " 111111", "000000" + GAP + " 606060"]}),
    ("a table of its own", "dump b 2 1 1\n01\ndump 0 2 1 1\n01\nend 4\n",
     "table t 102030 405060\nbitmap b 2 1 1 t\ndump b\ndump 00\n", [],
     {"01_b": ["102030 405060"], "02_screen0": ["000000 ffffff"]}),
    ("a screen's table", "dump 0 2 1 1\n01\nend 1\n", '[[screen]]\nformat = "1"\ntable = ["102030", "aBcDeF"]\n%%\ndump 0\n', [],
     {"01_screen0": ["102030 abcdef"]}),
    ("a name used again", "dump b 1 1 1\n1\ndump b 1 1 1\n1\nend 6\n",
     "table t 102030 405060\nbitmap b 1 1 1 t\ndump b\ndelete b\nbitmap b 1 1 1\ndump b\n", [],
     {"01_b": ["405060"], "02_b": ["ffffff"]}),
]
# The output, the input or nothing, and a part of what is said of it.
FAULTS = [
    ("refused script 9 2\n", "", "the program wrote `refused script 9 2`"),
    ("sum 0 0000000000000001\nend 1\n", "", "no dump"),
    ("dump 0 2 2 1\n01\n", "", "isn't whole"),
    ("dump 0 2 1 16\n01\n", "", "isn't the first line of a dump"),
    ("dump 0 1 1 1\n1\nend 1\n", "bitmap b 1 1 1\ndump b\n", "aren't those that the input asks for"),
]
BLACK_ON_WHITE = "\x1b[38;2;0;0;0m\x1b[48;2;255;255;255m\N{UPPER HALF BLOCK}"
WHITE_ALONE = "\x1b[38;2;255;255;255m\x1b[49m\N{UPPER HALF BLOCK}"


def view(output, script, words, folder):
    """Runs the tool on an output; an input is handed to it where there is a script, with a configuration where it has none."""
    source = folder / "input"
    source.write_text(script if "%%" in script else CONFIG + script)
    more = ["--input", source] if script else []
    return subprocess.run([VIEW, *words, *more], input=output.encode(), capture_output=True)


def parts_of(data):
    """The parts of a PNG file by their kinds, each with the right sum."""
    assert data[:8] == b"\x89PNG\r\n\x1a\n"
    parts, at = {}, 8
    while at < len(data):
        length, = struct.unpack_from(">I", data, at)
        parts[data[at + 4:at + 8]] = data[at + 8:at + 8 + length]
        assert struct.unpack_from(">I", data, at + 8 + length)[0] == zlib.crc32(data[at + 4:at + 8 + length])
        at += 12 + length
    return parts


def colours_of(path):
    """The rows of a PNG file as colours in hexadecimal digits."""
    parts = parts_of(path.read_bytes())
    assert list(parts) == [b"IHDR", b"IDAT", b"IEND"]
    width, height, *kind = struct.unpack(">IIBBBBB", parts[b"IHDR"])
    data = zlib.decompress(parts[b"IDAT"])
    assert kind == [8, 2, 0, 0, 0] and len(data) == height * (1 + 3 * width)
    rows = [data[at:at + 1 + 3 * width] for at in range(0, len(data), 1 + 3 * width)]
    assert all(row[0] == 0 for row in rows)
    return [row[1:].hex(" ", 3) for row in rows]


def made(output, script, words):
    """The pictures that the tool makes, by their names."""
    with tempfile.TemporaryDirectory() as name:
        folder = Path(name)
        view(output, script, [*words, "--out", folder / "pictures"], folder)
        return {path.stem: colours_of(path) for path in sorted(folder.glob("pictures/*.png"))}


def failures():
    """The names of the cases that fail, one after the other, and None for each that doesn't."""
    for name, output, script, words, pictures in CASES:
        yield name if made(output, script, words) != pictures else None
    desktop = made((TOP / "examples" / "desktop.expected").read_text(), "", ["--zoom", "2"])
    yield "docs/desktop.png" if desktop != {"01_screen0": colours_of(TOP / "docs" / "desktop.png")} else None
    with tempfile.TemporaryDirectory() as folder:
        for output, script, said in FAULTS:
            run = view(output, script, [], Path(folder))
            yield said if run.returncode != 1 or said not in run.stderr.decode() else None
        text = view("dump 0 1 3 1\n0\n1\n1\nend 1\n", "", [], Path(folder)).stdout.decode()
        yield "terminal" if text != f"01_screen0\n{BLACK_ON_WHITE}\x1b[0m\n{WHITE_ALONE}\x1b[0m\n" else None


def main():
    found = list(failures())
    return told("pictures", len(found), [f"{name} differs" for name in found if name])


if __name__ == "__main__":
    sys.exit(main())
