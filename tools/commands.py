"""The commands of a script as one table: the form of each, and what each word of a form may be.

A word of a form in capitals is a kind of word, and stands in KINDS; every other stands as it is. `|` parts what may stand in
one place. `[WORDS]` may be left out, `[WORDS ...]` may stand as often as is wanted, and a word before `...` once or more often.
"""
import re
from typing import Callable, NamedTuple

from colours import DIGITS, TABLE_SIZES

SPELLING, RANGE, UNKNOWN, IN_USE, BAD_NAME = 3, 4, 5, 6, 7
HATCHES = ["horizontal", "vertical", "fdiagonal", "bdiagonal", "cross", "diagcross"]


class Form(NamedTuple):
    """One way to write a command; `times` says how often the word that may be repeated may stand, where not any number of
    times."""
    text: str
    times: tuple = ()

    def once(self):
        """The words that stand once, the command itself first."""
        words = self.text.partition("[")[0].split()
        return words[:-2] if words[-1] == "..." else words

    def repeated(self):
        """The words that may be repeated, or left out; most forms have none."""
        head, _, tail = self.text.partition("[")
        words = tail.rstrip("]").split() if tail else head.split()[len(self.once()):]
        return [word for word in words if word != "..."]

    def length(self):
        """How many words a line of this form has, in words."""
        least, group = len(self.once()), len(self.repeated())
        if not group:
            return str(least)
        if "..." not in self.text:
            return f"{least} or {least + group}"
        if self.times:
            *counts, last = [str(least + times) for times in self.times]
            return ", ".join(counts) + " or " + last
        return f"{least}, and {group} more for each repetition" if "[" in self.text else f"{least + group} or more"

    def word(self, place):
        """The form's word for a place on a line, the command itself being 0."""
        once = self.once()
        return once[place] if place < len(once) else self.repeated()[(place - len(once)) % len(self.repeated())]


class Kind(NamedTuple):
    """A kind of word: what it is, in words, and the number of the rule that a word breaks, or None. The words of its line
    and the names that are known there are at hand."""
    what: str
    fault: Callable


def spelled(pattern, what):
    return Kind(what, lambda word, words, names: None if re.fullmatch(pattern, word) else SPELLING)


def number(low, high):
    def fault(word, words, names):
        if not re.fullmatch("-?[0-9]{1,9}", word):
            return SPELLING
        return None if low <= int(word) <= high else RANGE
    return Kind(f"a number from {low} to {high}", fault)


def named(kind, *others):
    """A name of a thing of this kind, or one of other names."""
    def fault(word, words, names):
        return None if word in others or names.kind_of(word) == kind else UNKNOWN
    return Kind(" or ".join([f"`{other}`" for other in others] + [f"the name of a {kind}"]), fault)


def new_name():
    def fault(word, words, names):
        if not re.fullmatch("[A-Za-z][A-Za-z0-9_]{0,31}", word):
            return BAD_NAME
        return IN_USE if names.kind_of(word) else None
    return Kind("a new name, a letter and at most 31 letters, digits or `_`", fault)


def brush():
    colour, name = spelled("#[0-9A-Fa-f]{6}", "`#` and six hexadecimal digits"), named("brush")
    return Kind(f"{name.what}, or {colour.what}",
                lambda word, words, names: (colour if word.startswith("#") else name).fault(word, words, names))


def pixel_value():
    def fault(word, words, names):
        form = names.known[words[1]].format
        return None if re.fullmatch("[01]" if form == "1" else "[0-9A-Fa-f]{%d}" % DIGITS[form], word) else SPELLING
    digits = ", ".join(f"{count} for {form}" for form, count in DIGITS.items())
    return Kind(f"a value in as many hexadecimal digits as the bitmap's format has ({digits}; format 1 has 0 and 1)", fault)


def screen_or_bitmap():
    bitmap, screen = named("bitmap"), number(0, 0)
    return Kind("0 for the screen, or the name of a bitmap",
                lambda word, words, names: (bitmap if re.match("[A-Za-z]", word) else screen).fault(word, words, names))


COLOUR = spelled("[0-9A-Fa-f]{6}", "six hexadecimal digits, RRGGBB without `#`")
SIDE, EDGE, PLACE, SHIFT = number(1, 4096), number(-32768, 32767), number(-32768, 32766), number(-999999999, 999999999)
KINDS = {
    "NAME": new_name(), "C": COLOUR, "FORE": COLOUR, "BACK": COLOUR, "W": SIDE, "H": SIDE,
    "FORMAT": spelled("|".join(DIGITS), "one of " + ", ".join(DIGITS)), "TABLE": named("table"),
    "BITMAP": named("bitmap"), "V": pixel_value(), "KIND": spelled("|".join(HATCHES), "one of " + ", ".join(HATCHES)),
    "X": PLACE, "Y": PLACE, "SX": PLACE, "SY": PLACE, "MX": PLACE, "MY": PLACE,
    "LEFT": EDGE, "TOP": EDGE, "RIGHT": EDGE, "BOTTOM": EDGE, "A": named("region"), "B": named("region"),
    "DX": SHIFT, "DY": SHIFT, "REGION": named("region"), "TARGET": named("bitmap", "screen"), "SRC": named("bitmap", "screen"),
    "MASK": named("bitmap"), "BRUSH": brush(), "MIX": number(1, 16), "ROP4": spelled("[0-9A-Fa-f]{4}", "four hexadecimal digits"),
    "SURFACE": screen_or_bitmap(),
}
FORMS = [
    Form("table NAME C ...", tuple(TABLE_SIZES.values())),
    Form("bitmap NAME W H FORMAT [TABLE]"),
    Form("delete BITMAP"),
    Form("pixels BITMAP X Y V ..."),
    Form("brush NAME solid C"),
    Form("brush NAME hatch KIND FORE BACK"),
    Form("brush NAME pattern BITMAP"),
    Form("brushorg X Y"),
    Form("back C"),
    Form("region NAME rects [LEFT TOP RIGHT BOTTOM ...]"),
    Form("region NAME union|intersect|subtract|xor A B"),
    Form("region NAME offset A DX DY"),
    Form("clip REGION|none"),
    Form("blt TARGET LEFT TOP RIGHT BOTTOM SRC|- SX SY MASK|- MX MY BRUSH|- ROP4"),
    Form("copy TARGET LEFT TOP RIGHT BOTTOM SRC SX SY"),
    Form("paint TARGET LEFT TOP RIGHT BOTTOM BRUSH MIX"),
    Form("dump SURFACE"),
    Form("sum SURFACE"),
]


def forms_of(command):
    return [form for form in FORMS if form.once()[0] == command]


def form_of(words):
    """The form of a line with a known command. Of the commands with several forms the third word says which; where it says
    none, the form is made up of the first three words."""
    forms = forms_of(words[0])
    if len(forms) == 1:
        return forms[0]
    fitting = [form for form in forms if words[2:] and words[2] in form.word(2).split("|")]
    return fitting[0] if fitting else Form(f"{words[0]} NAME " + "|".join(form.word(2) for form in forms))


def meaning(form_word):
    """What may stand in the place of a form's word, in words."""
    choices = form_word.split("|")
    if not any(choice in KINDS for choice in choices):
        return "one of " + ", ".join(choices)
    return ", or ".join(KINDS[choice].what if choice in KINDS else f"`{choice}`" for choice in choices)


def rule_broken(form_word, word, words, names):
    """The number of the rule that a word breaks in the place of a form's word, or None."""
    choices = form_word.split("|")
    if word in [choice for choice in choices if choice not in KINDS]:
        return None
    kinds = [KINDS[choice] for choice in choices if choice in KINDS]
    return kinds[0].fault(word, words, names) if kinds else SPELLING


def first_fault(words, names):
    """The first word of a line that breaks a rule: its place and the rule's number. None where each word is in order."""
    form = form_of(words)
    for place, word in enumerate(words[1:], 1):
        broken = rule_broken(form.word(place), word, words, names)
        if broken:
            return place, broken
    return None
