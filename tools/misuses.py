#!/usr/bin/env python3
"""Sees that misuses which types rule out do not build. Run at the top of the repository:

    python3 tools/misuses.py

Each crates/NAME/misuse/*.edit is a change of NAME, by lines `file:`, `old:` and `new:`, that has to be refused before
anything is proved, with what its line `error:` says. It is tried on a copy. The last line is how many were refused.
"""
import glob
import os
import shutil
import subprocess
import sys
import tempfile


def refused(edit):
    """Why the edit was not refused as it should be, or nothing."""
    parts = dict(line.split(": ", 1) for line in open(edit, encoding="utf-8").read().splitlines())
    name = edit.split(os.sep)[1]
    with tempfile.TemporaryDirectory() as top:
        shutil.copy("crates.txt", top)
        shutil.copytree("crates", os.path.join(top, "crates"), ignore=shutil.ignore_patterns("out"))
        folder = os.path.join(top, "crates", name)
        path = os.path.join(folder, parts["file"])
        text = open(path, encoding="utf-8").read()
        if text.count(parts["old"]) != 1:
            return "its text does not stand once in its file"
        with open(path, "w", encoding="utf-8") as f:
            f.write(text.replace(parts["old"], parts["new"]))
        ran = subprocess.run(["rt", "try"], cwd=folder, stdin=subprocess.DEVNULL, capture_output=True, text=True)
        said = ran.stdout + ran.stderr
        if ran.returncode == 0:
            return "it builds"
        if parts["error"] not in said:
            return "it fails for another reason:\n" + said[-2000:]
        return None


def main():
    edits = sorted(glob.glob(os.path.join("crates", "*", "misuse", "*.edit")))
    failed = False
    for edit in edits:
        why = refused(edit)
        print(f"misuse {edit}: {why or 'does not build, as it must be'}")
        failed |= why is not None
    print(len(edits))
    sys.exit(1 if failed or not edits else 0)


main()
