#!/usr/bin/env python3
"""Runs each example of docs/SCRIPT.md: an indented text, a line `prints`, and the indented output.

    guide.py --gdi PATH
"""
import argparse
import re
import sys
from pathlib import Path
from textwrap import dedent

from asking import CONFIG, programs_answer, told

GUIDE = Path(__file__).resolve().parent.parent / "docs" / "SCRIPT.md"
INDENTED = r"((?:    .*\n)+)"


def examples():
    """Each whole input with its output. A script without a configuration has that of the first example."""
    for text, output in re.findall(rf"{INDENTED}\nprints\n\n{INDENTED}", GUIDE.read_text()):
        text = dedent(text)
        yield text if "%%\n" in text else CONFIG + text, dedent(output)


def main():
    parser = argparse.ArgumentParser()
    parser.add_argument("--gdi", required=True, type=Path)
    gdi = parser.parse_args().gdi
    found = list(examples())
    bad = [text for text, output in found if programs_answer(gdi, text.encode()) != (output.encode(), 0)]
    return told("guide", len(found), [f"the example {text.removeprefix(CONFIG)[:60]!r} differs" for text in bad])


if __name__ == "__main__":
    sys.exit(main())
