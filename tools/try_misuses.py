#!/usr/bin/env python3
"""Tries programs that must not be: edits of a crate that the compiler has to refuse before anything is proved, each for the error that it names.

`rt ci` counts such an edit as bad, since no contract refuses it; so they stand in crates/NAME/misuses/ and not in must-fail/. An edit has the
lines 'file: src/lib.rt', 'old: TEXT' (standing once in that file), 'new: TEXT' and 'refused: ERROR', the error's name. Each is tried in a copy of
crates/. Run it at the top of the repository; its last line is 'N refused, M not'.
"""

import os
import re
import shutil
import subprocess
import sys
import tempfile


def parts(edit):
    with open(edit, encoding="utf-8") as f:
        return {k: v for k, v in (line.rstrip("\n").split(": ", 1) for line in f if ": " in line)}


def tried(crate, edit):
    """Why the edit is not refused for its error, or None where it is."""
    p = parts(edit)
    file = os.path.join(crate, p["file"])
    with open(file, encoding="utf-8") as f:
        own = f.read()
    if own.count(p["old"]) != 1:
        return f"its old text stands {own.count(p['old'])} times"
    try:
        with open(file, "w", encoding="utf-8") as f:
            f.write(own.replace(p["old"], p["new"]))
        ran = subprocess.run(["rt", "check"], cwd=crate, stdin=subprocess.DEVNULL, capture_output=True, text=True)
    finally:
        with open(file, "w", encoding="utf-8") as f:
            f.write(own)
    errors = set(re.findall(r"error\[([\w-]+)\]", ran.stdout + ran.stderr))
    if ran.returncode == 0 or errors != {p["refused"]}:
        return f"the check ended with {ran.returncode} and the errors {sorted(errors)}"
    return None


def main():
    refused, other = 0, 0
    with tempfile.TemporaryDirectory() as room:
        shutil.copytree("crates", os.path.join(room, "crates"), symlinks=True)
        shutil.copy("crates.txt", room)
        for name in sorted(os.listdir(os.path.join(room, "crates"))):
            crate = os.path.join(room, "crates", name)
            folder = os.path.join(crate, "misuses")
            for edit in sorted(os.listdir(folder)) if os.path.isdir(folder) else []:
                why = tried(crate, os.path.join(folder, edit))
                print(f"{name}/{edit}: " + (f"NOT REFUSED: {why}" if why else "refused"), flush=True)
                refused, other = refused + (not why), other + bool(why)
    print(f"{refused} refused, {other} not")
    return 1 if other else 0


sys.exit(main())
