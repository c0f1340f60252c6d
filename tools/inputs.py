"""An input as the program reads it: its lines, and the command lines of its script with their words."""
from typing import NamedTuple


class CommandLine(NamedTuple):
    """A line of the script that is a command. Lines are numbered from 1 over the whole input."""
    number: int
    text: str
    words: list


def lines_of(data):
    """The lines as text; a CR before an LF is dropped, and a byte that is no text is written as an escape."""
    *ended, last = data.split(b"\n")
    lines = [line.removesuffix(b"\r") for line in ended] + [last]
    return [line.decode("utf-8", "backslashreplace") for line in lines]


def configuration_of(data):
    """The text before the first line that is exactly `%%`."""
    lines = lines_of(data)
    return "\n".join(lines[:lines.index("%%")]) if "%%" in lines else ""


def command_lines(data):
    """The commands of the script: the lines behind the first `%%` that aren't empty and don't begin with `#`."""
    lines = lines_of(data)
    start = lines.index("%%") + 1 if "%%" in lines else len(lines)
    for number, line in enumerate(lines[start:], start + 1):
        words = [word for word in line.split(" ") if word]
        if words and not line.startswith("#"):
            yield CommandLine(number, line, words)


def quoted(word):
    """A word in a sentence; a long one is cut."""
    return f"`{word}`" if len(word) <= 40 else f"`{word[:40]}...`"


def counted(number, noun):
    """A number with its noun, which has an s unless there is one."""
    return f"{number:,} {noun}" if number == 1 else f"{number:,} {noun}s"
