#!/usr/bin/env python3
"""Runs each example that has its text beside it: examples/NAME.gdi and examples/NAME.expected.

    examples.py --gdi PATH
"""
import argparse
import sys
from pathlib import Path

from asking import programs_answer, told

EXAMPLES = Path(__file__).resolve().parent.parent / "examples"


def main():
    parser = argparse.ArgumentParser()
    parser.add_argument("--gdi", required=True, type=Path)
    gdi = parser.parse_args().gdi
    texts = sorted(EXAMPLES.glob("*.expected"))
    answers = [(path, *programs_answer(gdi, path.with_suffix(".gdi").read_bytes())) for path in texts]
    return told("examples", len(texts), [f"{path.stem} differs (status {status})" for path, text, status in answers
                                         if (text, status) != (path.read_bytes(), 0)])


if __name__ == "__main__":
    sys.exit(main())
