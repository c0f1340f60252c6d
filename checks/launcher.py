#!/usr/bin/env python3
"""Runs ./gdi over trees of its own, with an rt in place of the kit's: a program that can't be built anew isn't run.

    launcher.py
"""
import os
import shutil
import subprocess
import sys
import tempfile
from pathlib import Path

from asking import told

GDI = Path(__file__).resolve().parent.parent / "gdi"
FAILS = "echo 'rt: error: a goal is open'; exit 1\n"
BUILDS = "cat >/dev/null; printf '#!/bin/sh\\necho new\\n' >out/gdi_tool; chmod +x out/gdi_tool; echo new\n"


def put(path, text):
    """A program of the shell."""
    path.parent.mkdir(parents=True, exist_ok=True)
    path.write_text("#!/bin/sh\n" + text)
    path.chmod(0o755)


def answer(room, rt, is_old):
    """What ./gdi writes and its status, where a program stands that is older or newer than its source, and rt does so or isn't there."""
    tree = room / "tree"
    shutil.rmtree(tree, ignore_errors=True)
    crate = tree / "crates" / "gdi_tool"
    put(crate / "out" / "gdi_tool", "echo old\n")
    source = crate / "src" / "main.rt"
    source.parent.mkdir()
    source.write_text("")
    age = os.stat(crate / "out" / "gdi_tool").st_mtime + (5 if is_old else -5)
    os.utime(source, (age, age))
    shutil.copy(GDI, tree / "gdi")
    if rt is not None:
        put(tree / "bin" / "rt", rt)
    path = f"{tree / 'bin'}:/usr/bin:/bin"
    run = subprocess.run(["bash", tree / "gdi", "run"], input=b"", capture_output=True, timeout=60, env={"PATH": path})
    return run.stdout.decode(), run.returncode


CASES = [
    ("a build that fails", FAILS, True, ("", 127)),
    ("no rt", None, True, ("", 127)),
    ("a build that succeeds", BUILDS, True, ("new\n", 0)),
    ("a program that is newer than its source", FAILS, False, ("old\n", 0)),
]


def main():
    with tempfile.TemporaryDirectory() as room:
        got = [(name, answer(Path(room), rt, is_old), want) for name, rt, is_old, want in CASES]
    return told("launcher", len(got), [f"{name}: {said} instead of {want}" for name, said, want in got if said != want])


if __name__ == "__main__":
    sys.exit(main())
