#!/usr/bin/env python3
"""Checks tools/explain.py: each refusal is told with the right line, rule and word.

    explained.py --gdi PATH [--oracle DIR] [--seed S] [--count N]

A script is written here for each rule. With an oracle so many refused inputs of its own random ones are asked too: line and
rule have to be those that the oracle says. The words of a rule are those of docs/SCRIPT.md.
"""
import argparse
import re
import subprocess
import sys
import tempfile
from pathlib import Path

from asking import CONFIG, oracles_answer, told
from random_inputs import BUILT

TOP = Path(__file__).resolve().parent.parent
EXPLAIN = TOP / "tools" / "explain.py"
APART = " ".join(f"{2 * i} 0 {2 * i + 1} 1" for i in range(4097))
# The rule, a script whose last line breaks it, the words that the marks stand below, and a part of the sentence.
CASES = [
    (1, "frob 0", "frob", "`frob` isn't a command."),
    (2, "paint screen 0 0 1 1 #000000", "", "The line has 7 words with the command itself, and this command has 8."),
    (2, "table t 000000", "", "this command has 4, 18 or 258."),
    (2, "brush b", "", "A right form: brush NAME hatch KIND FORE BACK"),
    (3, "paint  screen 0 0 1 1 #00000 13", "#00000", "Word 7, `#00000`, has to be BRUSH: "),
    (3, "bitmap b 1 1 8\npixels b 0 0 00 0", "0", "Word 6, `0`, has to be V: "),
    (3, "region r join a b", "join", "one of rects, union, intersect, subtract, xor, offset."),
    (4, "bitmap b 4097 1 8", "4097", "Word 3, `4097`, has to be W: a number from 1 to 4096."),
    (4, "dump 1", "1", "0 for the screen, or the name of a bitmap."),
    (4, "region a rects 0 0 9 9\nregion b offset a 32767 0", "", "Moved so far, the region would have an edge outside"),
    (5, "bitmap b 1 1 8\npaint screen 0 0 1 1 b 13", "b", "`b` is the name of a bitmap, made in line 9."),
    (5, "bitmap b 1 1 8\ndelete b\ndump b", "b", "`b` was deleted in line 10."),
    (5, "copy screen 0 0 1 1 - 0 0", "-", "has to be SRC: `screen` or the name of a bitmap."),
    (6, "table t 000000 FFFFFF\nbrush t solid 000000", "t", "`t` is the name of a table, made in line 9."),
    (7, "brush 9 solid 000000", "9", "has to be NAME: a new name, a letter and at most 31 letters"),
    (8, "paint screen 1 0 0 1 #000000 13", "0", "The right edge, 0, is less than the left one, 1."),
    (8, "region r rects 0 0 1 1 0 1 1 0", "0", "The lower edge, 0, is less than the upper one, 1."),
    (9, "blt screen 0 0 1 1 - 0 0 - 0 0 - B8CC", "-", "B8CC needs a source and a mask and a brush, and"),
    (10, "bitmap k 1 1 8\nblt screen 0 0 1 1 - 0 0 k 0 0 - AA55", "k", "The mask `k` has the format 8."),
    (11, "bitmap k 1 1 1\nblt k 0 0 1 1 - 0 0 k 0 0 - AA55", "k", "The mask `k` is the target too."),
    (12, "bitmap b 4096 1025 8", "", "The bitmap would have 4,198,400 pixels, and 4,194,304 are the most."),
    (12, "bitmap b 65 1 8\nbrush p pattern b", "b", "`b` is 65 by 1, and a pattern has sides of at most 64."),
    (13, "region r rects " + APART, "", "The region would have over 4,096 rectangles."),
    (14, "back 000000\n" * 100_000 + "dump 0", "", "100,000 commands stand before it."),
    (15, "table t 000000 FFFFFF\nbitmap b 1 1 4 t", "t", "The format 4 takes a table of 16 colours, and `t` has 2."),
]
# Whole inputs, and what is said of them.
INPUTS = [
    ("dump 0\n", "The configuration is refused by rule 10: no line is exactly `%%`"),
    ("[[screen]]\n%%\n", "The configuration is refused by rule "),
    (" " * 16_777_217, "The input is refused for its size: it has more than 16,777,216 bytes."),
    (CONFIG + "dump 0\n", "The input is accepted: it has a right configuration and 1 command."),
]


def rule_words():
    """The words of each rule of the guide, as far as its first semicolon."""
    section = (TOP / "docs" / "SCRIPT.md").read_text().partition("### Refusals")[2].partition("\n## ")[0]
    rows = re.findall(r"^\| (\d+) \| (.*?)(?:;.*)? \|$", section, re.MULTILINE)
    return {int(number): words for number, words in rows}


RULE_WORDS = rule_words()


def explained(gdi, data):
    run = subprocess.run([EXPLAIN, "--gdi", gdi], input=data, capture_output=True, timeout=60)
    return run.stdout.decode().splitlines()


def marked(lines):
    """The text above the marks, or nothing where there are none."""
    marks = lines[2]
    return lines[1][marks.index("^"):len(marks)] if set(marks) == {" ", "^"} else ""


def refusal(line, rule):
    return f"Line {line} is refused by rule {rule}: {RULE_WORDS[rule]}."


def written_failures(gdi):
    """A sentence for each written case that fails, None for each other."""
    for rule, script, word, part in CASES:
        lines = explained(gdi, (CONFIG + script + "\n").encode())
        head = refusal(9 + script.count("\n"), rule)
        right = lines[0] == head and marked(lines) == word and part in "\n".join(lines[2:])
        yield None if right else f"{script[-60:]!r} gives {lines[:4]}"
    for text, said in INPUTS:
        lines = explained(gdi, text.encode())
        yield None if lines[0].startswith(said) and len(lines) == 1 else f"{text[-60:]!r} gives {lines[:4]}"


def refused_inputs(oracle, seed, count):
    """So many refused inputs of the oracle's random ones, each with the oracle's line and rule."""
    answer = oracles_answer(oracle)
    commands = ",".join(sorted(word.decode() for word in BUILT))
    with tempfile.TemporaryDirectory() as folder:
        subprocess.run([sys.executable, oracle / "fuzz.py", "--seed", str(seed), "--count", str(3 * count), "--out", folder,
                        "--spoilt", "--plain", "--commands", commands], check=True)
        for path in sorted(Path(folder).glob("*.input")):
            data = path.read_bytes()
            refused = re.fullmatch(rb"refused script (\d+) (\d+)\n", answer(data)[0])
            if refused and count:
                count -= 1
                yield data, int(refused[1]), int(refused[2])


def random_failures(gdi, oracle, seed, count):
    """The same of so many random inputs: the sentence names the line and the rule, and the line's text stands below it."""
    for data, line, rule in refused_inputs(oracle, seed, count):
        lines = explained(gdi, data)
        text = data.decode("utf-8", "backslashreplace").split("\n")[line - 1].removesuffix("\r")
        right = len(lines) >= 3 and lines[0] == refusal(line, rule) and lines[1].strip(" .")[:40] in text
        yield None if right else f"line {line} {text[:60]!r}, rule {rule}, gives {lines[:4]}"


def main():
    parser = argparse.ArgumentParser()
    parser.add_argument("--gdi", required=True, type=Path)
    parser.add_argument("--oracle", type=Path)
    parser.add_argument("--seed", type=int, default=1)
    parser.add_argument("--count", type=int, default=100)
    asked = parser.parse_args()
    found = list(written_failures(asked.gdi))
    if asked.oracle:
        drawn = list(random_failures(asked.gdi, asked.oracle, asked.seed, asked.count))
        found += drawn + ["too few refused inputs"] * (len(drawn) < asked.count)
    return told("explained", len(found), [said for said in found if said], shown=10)


if __name__ == "__main__":
    sys.exit(main())
