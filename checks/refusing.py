"""Runs a program once for each of its requests for memory, and refuses that request; gdb runs this file.

    gdb -batch -nx -ex "py asked = [WORDS, INPUT, FIRST, STEP, OUTPUT]" -x refusing.py PROGRAM

The program is called with WORDS, and reads the file INPUT. Of its calls of malloc, and then of realloc, that of number FIRST is
refused, then each STEP further on, until the program ends before it comes to the call. A run writes OUTPUT.CALL.NUMBER, and OUTPUT.json
says of each run what it wrote, and its status, or none where a signal ended it.
"""
import json

import gdb

CALLS = "malloc", "realloc"
SETTINGS = ("confirm off", "pagination off", "breakpoint pending on", "print inferior-events off",
            "print thread-events off")


def quiet(command):
    gdb.execute(command, to_string=True)


def is_running():
    return gdb.selected_inferior().pid != 0


def run(words, source, text, stop, number):
    """Runs the program with the call of a number refused. Gives whether it came to that call."""
    stop.enabled = False
    quiet("tbreak main")
    quiet(f"run {words} < '{source}' > '{text}'")
    stop.enabled = True
    stop.ignore_count = number - 1
    quiet("continue")
    refused = is_running()
    if refused:
        stop.enabled = False
        quiet("return (void *) 0")
        quiet("continue")
    return refused


def status():
    """The status with which the program ended."""
    code = gdb.convenience_variable("_exitcode")
    return None if code is None else int(code)


def refuse_each(words, source, first, step, output):
    ends = []
    for call in CALLS:
        stop = gdb.Breakpoint(call)
        number, refused = first, True
        while refused:
            text = f"{output}.{call}.{number}"
            refused = run(words, source, text, stop, number)
            ends.append((text, status()))
            number += step
        stop.delete()
    with open(f"{output}.json", "w", encoding="utf-8") as file:
        json.dump(ends, file)


for setting in SETTINGS:
    gdb.execute(f"set {setting}")
quiet("handle all nostop noprint pass")
refuse_each(*asked)  # noqa: F821, given by the first command
