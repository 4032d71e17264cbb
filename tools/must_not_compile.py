#!/usr/bin/env python3
"""Tries each crates/NAME/must-not-compile/*.edit on a copy of the crates: the edited crate must be refused with the error that the edit names.

usage: must_not_compile.py ROOT

An edit has the lines 'file: PATH' (below the crate's folder), 'old: TEXT' (which stands once in that file), 'new: TEXT' and 'error: TEXT'.
The crate is read and compiled by 'rt try', which proves nothing; without the edit it has to run. Ends with status 1 where an edit is not
refused so, where a crate does not run without its edits, or where there is no edit at all.
"""
import os
import shutil
import subprocess
import sys
import tempfile


def read_edit(path):
    """The four fields of an edit."""
    fields = {}
    with open(path, encoding="utf-8") as f:
        for line in f:
            key, _, text = line.rstrip("\n").partition(": ")
            fields[key] = text
    return fields["file"], fields["old"], fields["new"], fields["error"]


def copy_crates(root, to):
    """Copies crates.txt and the source folders of every crate."""
    os.makedirs(to)
    shutil.copy(os.path.join(root, "crates.txt"), to)
    for crate in os.listdir(os.path.join(root, "crates")):
        for part in ("src", "specs", "proofs"):
            folder = os.path.join(root, "crates", crate, part)
            if os.path.isdir(folder):
                shutil.copytree(folder, os.path.join(to, "crates", crate, part))


def try_crate(folder):
    """Whether the crate in this folder compiles and runs, and what was said."""
    run = subprocess.run(["rt", "try"], cwd=folder, capture_output=True, text=True, stdin=subprocess.DEVNULL)
    return run.returncode == 0, run.stdout + run.stderr


def refused(copy, crate, path):
    """Whether the crate with this edit is refused with the error that the edit names, and what was said. The copy is left as it was."""
    file, old, new, error = read_edit(path)
    target = os.path.join(copy, "crates", crate, file)
    with open(target, encoding="utf-8") as f:
        text = f.read()
    if text.count(old) != 1:
        return False, f"'{old}' stands {text.count(old)} times in {file}"
    with open(target, "w", encoding="utf-8") as f:
        f.write(text.replace(old, new))
    runs, said = try_crate(os.path.join(copy, "crates", crate))
    with open(target, "w", encoding="utf-8") as f:
        f.write(text)
    return not runs and error in said, said.strip()[-600:]


def try_edits(root, copy, crate):
    """Tries the edits of a crate, and answers how many there are and how many are not as they must be."""
    folder = os.path.join(root, "crates", crate, "must-not-compile")
    names = sorted(os.listdir(folder)) if os.path.isdir(folder) else []
    bad = 0
    if names:
        runs, said = try_crate(os.path.join(copy, "crates", crate))
        if not runs:
            print(f"must-not-compile {crate}: does not run without its edits: {said.strip()[-600:]}")
            bad = 1
    for name in names:
        good, said = refused(copy, crate, os.path.join(folder, name))
        bad += not good
        print(f"must-not-compile {crate}/{name}: " + ("does not compile, as it must not" if good else f"NOT REFUSED as it must be: {said}"))
    return len(names), bad


def main(root):
    with tempfile.TemporaryDirectory() as top:
        copy = os.path.join(top, "copy")
        copy_crates(root, copy)
        tried = [try_edits(root, copy, crate) for crate in sorted(os.listdir(os.path.join(root, "crates")))]
    count = sum(n for n, _ in tried)
    if count == 0:
        print("must-not-compile: there is no edit to try")
    return 1 if count == 0 or any(bad for _, bad in tried) else 0


if __name__ == "__main__":
    sys.exit(main(sys.argv[1]))
