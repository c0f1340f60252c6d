"""What the checks share: the program's answer to an input, the oracle's, and what is said of the cases at the end."""
import subprocess
import sys

CONFIG = '[[screen]]\nkind = "linear"\nx = 0\ny = 0\nwidth = 4\nheight = 2\nformat = "8"\n%%\n'


def programs_answer(gdi, data, words=("run",)):
    """The text and the status with which the program answers an input, called with these words."""
    run = subprocess.run([gdi.resolve(), *words], input=data, capture_output=True, timeout=60)
    return run.stdout, run.returncode


def oracles_answer(oracle):
    """The function that gives the oracle's text and status of an input."""
    sys.path.insert(0, str(oracle.resolve()))
    from model.program import answer
    return lambda data: answer(["run"], data)


def told(check, count, faults, shown=None):
    """Prints the faults of a check, or so many of them, and how many of its cases passed and failed. Gives the status to end
    with, which is 0 where there were cases and none failed."""
    for fault in faults[:shown]:
        print(f"{check}: {fault}")
    print(f"{check}: {count - len(faults)} passed, {len(faults)} failed")
    return 1 if faults or not count else 0
