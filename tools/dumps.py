"""The dumps that the program writes, and the colour tables of the surfaces that they show."""
import tomllib
from typing import NamedTuple

from colours import DIGITS, colour_of_word, default_table
from inputs import command_lines, configuration_of


class Dump(NamedTuple):
    """A dump: X as the script has it, and for each row the hexadecimal digits of its values."""
    name: str
    width: int
    height: int
    format: str
    rows: list


def read_dumps(output):
    """The dumps of an output in their order. A ValueError says why it isn't one."""
    lines = iter(output.splitlines())
    dumps = []
    for line in lines:
        words = line.split(" ")
        if words[0] in ("refused", "usage"):
            raise ValueError(f"the program wrote `{line}`")
        if words[0] == "dump":
            dumps.append(read_dump(words, lines))
    if not dumps:
        raise ValueError("the output has no dump")
    return dumps


def read_dump(words, lines):
    """The dump whose first line has these words; its rows are taken from the lines."""
    if len(words) == 3:
        raise ValueError(f"{words[1]} could not be read: {words[2]}")
    if len(words) != 5 or words[4] not in DIGITS:
        raise ValueError(f"`{' '.join(words)}` isn't the first line of a dump")
    _, name, width, height, form = words
    dump = Dump(name, int(width), int(height), form, [row for _, row in zip(range(int(height)), lines)])
    digits = dump.width * DIGITS[form]
    if len(dump.rows) != dump.height or any(len(row) != digits for row in dump.rows):
        raise ValueError(f"the dump of {name} isn't whole")
    return dump


def screen_tables(data):
    """The tables that the screens of a configuration are given, None where one has its format's own."""
    screens = tomllib.loads(configuration_of(data)).get("screen", [])
    return [[colour_of_word(word) for word in screen["table"]] if "table" in screen else None for screen in screens]


def written_name(word):
    """A screen's number or a bitmap's name as the output has it: a number may have zeros before it in the script."""
    return word if word[0].isalpha() else str(int(word))


def given_tables(data):
    """For each `dump` line of an input what it names, and the table that this was given by then, or None. A name can
    be another bitmap's after a `delete`, so the lines are followed in their order."""
    surfaces = {str(number): table for number, table in enumerate(screen_tables(data))}
    tables, found = {}, []
    for line in command_lines(data):
        command, name, *rest = line.words
        if command == "table":
            tables[name] = [colour_of_word(word) for word in rest]
        elif command == "bitmap":
            surfaces[name] = tables.get(rest[3]) if len(rest) > 3 else None
        elif command == "dump":
            found.append((written_name(name), surfaces.get(written_name(name))))
    return found


def tables_of(dumps, data=None):
    """The colour table of each dump: the one that the input gives the surface, where an input is at hand and has one,
    else the default table of its format."""
    given = given_tables(data) if data is not None else [(dump.name, None) for dump in dumps]
    if [name for name, _ in given] != [dump.name for dump in dumps]:
        raise ValueError("the dumps aren't those that the input asks for")
    return [table or default_table(dump.format) for dump, (_, table) in zip(dumps, given)]
