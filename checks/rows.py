#!/usr/bin/env python3
"""Runs the worked rows that checks/rows.txt names through the built program: text and status are those of the row.

    rows.py --gdi PATH --oracle DIR
"""
import argparse
import sys
from pathlib import Path

from asking import programs_answer, told

HERE = Path(__file__).resolve().parent


def wanted_rows():
    lines = (HERE / "rows.txt").read_text().splitlines()
    return [line for line in lines if line and not line.startswith("#")]


def differs(gdi, row):
    words = row.with_suffix(".args")
    words = words.read_text().split() if words.exists() else ["run"]
    due = row.with_suffix(".expected").read_bytes(), int(row.with_suffix(".status").read_text())
    return programs_answer(gdi, row.with_suffix(".input").read_bytes(), words) != due


def main():
    parser = argparse.ArgumentParser()
    parser.add_argument("--gdi", required=True, type=Path)
    parser.add_argument("--oracle", required=True, type=Path)
    asked = parser.parse_args()
    names = wanted_rows()
    return told("rows", len(names), [f"{name} differs" for name in names if differs(asked.gdi, asked.oracle / "rows" / name)])


if __name__ == "__main__":
    sys.exit(main())
