#!/usr/bin/env python3
"""definitions.py [EDIT..]: tries wrong definitions of crate spec under the theorems over it.

The gate tries an edit on its own crate alone, and what no example table of spec holds passes there. Each edit of tests/definitions
(named without .edit; all, if none is named) is such a definition. It is tried in a copy of the repository, as those of
crates/*/must-fail are written: spec itself must still be proved, and a crate of theorems over it must refuse.
Prints a line for each, with the crate that refused and its first error, then 'N passed, M failed'.
"""
import os
import re
import shutil
import subprocess
import sys
import tempfile

HERE = os.path.dirname(os.path.abspath(__file__))
ROOT = os.path.dirname(HERE)
CRATES = ["spec", "theorems", "rio", "section7"]
LONGEST = 1800  # seconds for one edit


def read(path):
    with open(path, encoding="utf-8") as f:
        return f.read()


def pairs(path):
    """The file that an edit changes, and its old and new texts in order."""
    file, old, result = None, None, []
    for line in read(path).splitlines():
        if line.startswith("file: "):
            file = line[len("file: "):]
        elif line.startswith("old: "):
            old = line[len("old: "):]
        elif line.startswith("new: "):
            result.append((file, old, line[len("new: "):]))
        elif line and not line.startswith("#"):
            raise ValueError(f"{path}: not a line of an edit: {line}")
    return result


def attempt(room, crates, edit):
    """Which crate refuses the edit, and its first error; or why that cannot be said."""
    kept = {}
    try:
        for file, old, new in pairs(edit):
            path = os.path.join(room, "crates", "spec", file)
            text = read(path)
            kept.setdefault(path, text)
            if text.count(old) != 1:
                return None, f"the old text stands {text.count(old)} times in {file}"
            with open(path, "w", encoding="utf-8") as f:
                f.write(text.replace(old, new))
        for crate in crates:
            done = subprocess.run(["rt", "check", crate], cwd=room, text=True, timeout=LONGEST,
                                  stdout=subprocess.PIPE, stderr=subprocess.STDOUT)
            if done.returncode != 0:
                error = re.search(r"^(\S+: error: .*)$", done.stdout, re.M)
                return crate, error.group(1)[:160] if error else done.stdout.strip()[-200:]
        return None, "every theorem still holds"
    finally:
        for path, text in kept.items():
            with open(path, "w", encoding="utf-8") as f:
                f.write(text)


def main():
    folder = os.path.join(HERE, "definitions")
    names = sys.argv[1:] or sorted(f[:-len(".edit")] for f in os.listdir(folder) if f.endswith(".edit"))
    crates = [c for c in CRATES if os.path.isdir(os.path.join(ROOT, "crates", c))]
    failed = 0
    with tempfile.TemporaryDirectory() as room:
        for part in ["crates", "crates.txt"]:
            source = os.path.join(ROOT, part)
            if os.path.isdir(source):
                shutil.copytree(source, os.path.join(room, part), symlinks=True)
            elif os.path.exists(source):
                shutil.copy2(source, room)
        for name in names:
            crate, why = attempt(room, crates, os.path.join(folder, name + ".edit"))
            good = crate is not None and crate != "spec"
            failed += not good
            print(f"{'ok  ' if good else 'FAIL'} {name}: {'refused by ' + crate + ': ' if crate else ''}{why}", flush=True)
    print(f"{len(names) - failed} passed, {failed} failed")
    return 1 if failed else 0


sys.exit(main())
