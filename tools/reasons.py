"""Why a line of a script is refused: for the rule that the program names, the word at fault and a sentence on it.

Each function is given the words of the line and the names known there, and answers with the word's place on the line, the
command being 0, and a sentence. The place is None where no single word is at fault.
"""
from colours import TABLE_SIZES
from commands import FORMS, IN_USE, RANGE, UNKNOWN, first_fault, form_of, meaning
from inputs import counted, quoted

MOST_NAMES, MOST_PIXELS, MOST_PIXELS_TOGETHER, LARGEST_PATTERN = 10_000, 4_194_304, 16_777_216, 64
MOST_OF_KIND = {"brush": 1_024, "table": 256, "bitmap": 4_096}
NEEDED = {"SRC|-": "a source", "MASK|-": "a mask", "BRUSH|-": "a brush"}


def unknown_command(words, names):
    return 0, f"{quoted(words[0])} isn't a command." + (" A tab is part of a word." if "\t" in words[0] else "")


def word_count(words, names):
    form = form_of(words)
    wanted = f"this command has {form.length()}" if form in FORMS else "this command has more, by its third word"
    return None, f"The line has {counted(len(words), 'word')} with the command itself, and {wanted}."


def word_at_fault(number):
    """The reason of a rule that a single word breaks."""
    def reason(words, names):
        found = first_fault(words, names)
        if found is None and number == RANGE:
            return None, "Moved so far, the region would have an edge outside -32768 to 32767."
        if found is None or found[1] != number:
            return None, ""
        place, word = found[0], words[found[0]]
        form_word = form_of(words).word(place)
        sentence = f"Word {place + 1}, {quoted(word)}, has to be {form_word}: {meaning(form_word)}."
        if form_word == "V":
            return place, f"{sentence} `{words[1]}` has the format {names.known[words[1]].format}."
        return place, f"{sentence} {names.told(word)}" if number in (UNKNOWN, IN_USE) else sentence
    return reason


def disordered(words, names):
    form = form_of(words)
    for place in range(1, len(words)):
        if form.word(place) == "LEFT":
            left, top, right, bottom = map(int, words[place:place + 4])
            if left > right:
                return place + 2, f"The right edge, {right}, is less than the left one, {left}."
            if top > bottom:
                return place + 3, f"The lower edge, {bottom}, is less than the upper one, {top}."
    return None, ""


def operand_missing(words, names):
    """A code needs an operand where a bit of its result changes with it alone."""
    form = form_of(words)
    where_not, where_set = bytes.fromhex(words[-1])
    needs = {"SRC|-": any((code >> 2 ^ code) & 0x33 for code in (where_not, where_set)), "MASK|-": where_not != where_set,
             "BRUSH|-": any((code >> 4 ^ code) & 0x0F for code in (where_not, where_set))}
    missing = [place for place, word in enumerate(words) if word == "-" and needs.get(form.word(place))]
    if not missing:
        return None, ""
    operands = " and ".join(NEEDED[form.word(place)] for place in missing)
    return missing[0], f"The raster operation {words[-1]} needs {operands}, and `-` stands there."


def mask_format(words, names):
    return 9, f"The mask `{words[9]}` has the format {names.known[words[9]].format}."


def mask_is_target(words, names):
    return 9, f"The mask `{words[9]}` is the target too."


def table_misfit(words, names):
    form, table = words[4], words[5]
    wanted = f"takes a table of {TABLE_SIZES[form]} colours" if form in TABLE_SIZES else "takes no table"
    return 5, f"The format {form} {wanted}, and `{table}` has {names.known[table].colours}."


def bitmap_limit(words, names):
    pixels = int(words[2]) * int(words[3])
    if pixels > MOST_PIXELS:
        return f"The bitmap would have {pixels:,} pixels, and {MOST_PIXELS:,} are the most."
    live = sum(known.pixels() for known in names.all_of("bitmap"))
    return f"With it the live bitmaps would have {live + pixels:,} pixels, and {MOST_PIXELS_TOGETHER:,} are the most."


def past_limit(words, names):
    kind, most = words[0], MOST_OF_KIND.get(words[0], MOST_NAMES)
    if len(names.known) - 2 >= MOST_NAMES:
        return None, f"{MOST_NAMES:,} names are in use, and no more may be."
    if len(names.all_of(kind)) >= most:
        return None, f"There are {most:,} of the kind {kind} already, and no more may be."
    if kind == "bitmap":
        return None, bitmap_limit(words, names)
    if kind == "brush":
        tile = names.known[words[3]]
        return 3, f"`{words[3]}` is {tile.width} by {tile.height}, and a pattern has sides of at most {LARGEST_PATTERN}."
    return None, "With this region the named regions would have over 262,144 rectangles together."


def region_too_large(words, names):
    return None, "The region would have over 4,096 rectangles."


def too_many_commands(words, names):
    return None, "100,000 commands stand before it."


REASONS = {1: unknown_command, 2: word_count, 8: disordered, 9: operand_missing, 10: mask_format, 11: mask_is_target,
           12: past_limit, 13: region_too_large, 14: too_many_commands, 15: table_misfit}
REASONS |= {number: word_at_fault(number) for number in range(3, 8)}


def reason_of(number, words, names):
    """The place of the word at fault, or None, and a sentence, which is empty where nothing can be told."""
    return REASONS[number](words, names) if number in REASONS else (None, "")
