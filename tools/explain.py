#!/usr/bin/env python3
"""Says in words why `gdi run` refuses an input: the line, the word at fault, the rule, and the right form of the command.

    tools/explain.py FILE
    tools/explain.py --gdi PATH < FILE

It runs the program, and ends with the program's exit status. The program alone decides whether an input is refused and by
which rule; the line is read again only to find the word.
"""
import argparse
import re
import subprocess
import sys
from pathlib import Path

from commands import FORMS, form_of, forms_of
from inputs import command_lines, counted
from names import names_before
from reasons import reason_of

GDI = Path(__file__).resolve().parent.parent / "gdi"
WIDTH = 110
RULES = {
    1: "an unknown command, or one that isn't built yet",
    2: "a wrong number of words",
    3: "the spelling of a number, a colour, a raster operation, a value or a fixed word",
    4: "a number out of its range",
    5: "an unknown name, or a name of another kind",
    6: "a new name that is in use",
    7: "a new name that isn't a letter and at most 31 letters, digits or `_`",
    8: "a rectangle that isn't well ordered",
    9: "the raster operation needs a source, a mask or a brush that isn't given",
    10: "a mask of another format than 1",
    11: "a mask that is the target",
    12: "a size or a total past its limit",
    13: "a region of over 4,096 rectangles",
    14: "over 100,000 commands",
    15: "a table that doesn't fit the format",
}
CONFIG_RULES = {
    0: "a configuration other than that of one linear screen of format 8 at 0 0, as docs/SCRIPT.md shows it",
    10: "no line is exactly `%%`, which has to stand between the configuration and the script",
}
STATUSES = {
    1: "The program wasn't called as it wants to be; it wrote `usage`.",
    4: "There was no memory for the input, or for a bitmap or a brush.",
    5: "The program couldn't read the input.",
    6: "The program couldn't write its output.",
}


def visible(text):
    """Text with an escape in place of each character that can't be shown."""
    return "".join(char if char.isprintable() else char.encode("unicode_escape").decode() for char in text)


def shown_line(text, place):
    """The line, indented, of a long one a part; below the word at a place a line of marks."""
    text = visible(text)
    start, end = list(re.finditer("[^ ]+", text))[place or 0].span()
    first = max(0, min(start - WIDTH // 3, len(text) - WIDTH)) if len(text) > WIDTH else 0
    part = ("..." if first else "") + text[first:first + WIDTH] + ("..." if len(text) > first + WIDTH else "")
    lines = ["    " + part]
    if place is not None:
        before = start - first + (3 if first else 0)
        lines.append("    " + " " * before + "^" * min(end - start, len(part) - before))
    return lines


def right_forms(words):
    """The forms that the line could have had."""
    forms = forms_of(words[0])
    if not forms:
        return ["The commands are " + ", ".join(dict.fromkeys(form.once()[0] for form in FORMS)) + "."]
    chosen = [form_of(words)] if form_of(words) in forms else forms
    return [("The right form: " if len(chosen) == 1 else "A right form: ") + form.text for form in chosen]


def script_refusal(data, number, rule):
    """What is to be said of a refused line."""
    lines = list(command_lines(data))
    line = next(line for line in lines if line.number == number)
    place, sentence = reason_of(rule, line.words, names_before(lines, number))
    head = f"Line {number} is refused by rule {rule}: {RULES.get(rule, 'a rule that this tool has no words for')}."
    return [head, *shown_line(line.text, place), *([visible(sentence)] if sentence else []), *right_forms(line.words)]


def explained(data, text, status):
    """The lines that explain a program's answer to an input."""
    script = re.match(r"refused script (\d+) (\d+)\n", text)
    config = re.match(r"refused config (\d+)\n", text)
    if script:
        return script_refusal(data, int(script[1]), int(script[2]))
    if config:
        rule = int(config[1])
        return [f"The configuration is refused by rule {rule}: {CONFIG_RULES.get(rule, 'one of its lines is wrong')}."]
    if text == "refused input size\n":
        return ["The input is refused for its size: it has more than 16,777,216 bytes."]
    end = re.search(r"^end (\d+)\n\Z", text, re.MULTILINE)
    if end and status in (0, 9):
        missed = " For some of them there was no memory, and these drew nothing." if status == 9 else ""
        return [f"The input is accepted: it has a right configuration and {counted(int(end[1]), 'command')}.{missed}"]
    return [STATUSES.get(status, f"The program ended with the status {status}, which this tool has no words for.")]


def main():
    parser = argparse.ArgumentParser(description=__doc__, formatter_class=argparse.RawDescriptionHelpFormatter)
    parser.add_argument("file", nargs="?", type=Path, help="the input; standard input where no file is named")
    parser.add_argument("--gdi", type=Path, default=GDI, metavar="PATH", help="the program; ./gdi beside this folder where none is named")
    asked = parser.parse_args()
    try:
        data = asked.file.read_bytes() if asked.file else sys.stdin.buffer.read()
        # The word `check`, once the program has it, refuses the same inputs and draws nothing.
        run = subprocess.run([str(asked.gdi.resolve()), "run"], input=data, stdout=subprocess.PIPE)
    except OSError as fault:
        sys.exit(f"explain: {fault}")
    print("\n".join(explained(data, run.stdout.decode(), run.returncode)))
    sys.exit(run.returncode)


if __name__ == "__main__":
    main()
