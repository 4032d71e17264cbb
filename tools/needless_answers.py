#!/usr/bin/env python3
"""Drops the answers of a crate's proofs that the check finds alone, and says how many stay.

    python3 tools/needless_answers.py crates/NAME

It takes all answers away, asks `rt check --margin`, which halves the limits of the search, what it does not find, puts back just
those answers, and checks the crate as it then is. Look at the change before you keep it: where the last check does not prove the
crate, what is missing is named, and `git checkout` of that folder brings it back.
"""
import pathlib
import re
import subprocess
import sys

CRATE = pathlib.Path(sys.argv[1]).resolve()
ASKED = re.compile(r"`([^`\n]+)` of (proofs/\S+/Answers\.antt) must prove")
FOUND_NONE = re.compile(r"expected answers in \./(proofs/\S+/Answers\.antt); `search` did not prove ([^\n]*)")
UNREAD = re.compile(r"fn \S+: no proof: [^\n]*\./(proofs/\S+/Answers\.antt)")
ANSWER = re.compile(r"^pub (\S+) : goal\.")


def check(*options):
    """What `rt check` says of the crate."""
    done = subprocess.run(["rt", "check", *options], cwd=CRATE, stdout=subprocess.PIPE, stderr=subprocess.STDOUT, text=True)
    return done.stdout


def wanted(said):
    """For each file of answers the goals that were not found; none are named where no answer of the file can be spared."""
    goals = {}
    for match in ASKED.finditer(said):
        goals.setdefault(match.group(2), set()).add(match.group(1))
    for match in FOUND_NONE.finditer(said):
        goals.setdefault(match.group(1), set()).update(re.findall(r"`([^`]+)`", match.group(2)))
    for match in UNREAD.finditer(said):
        goals.setdefault(match.group(1), set())
    return goals


def serves(name, goals):
    """Whether the answer is one of the goals, or of a part of one, or of what one is a part of."""
    return any(name == g or name.startswith(g + "-") or g.startswith(name + "-") for g in goals)


def only(text, goals):
    """The text with the answers alone that serve the goals, and how many were dropped."""
    lines, name, skipping, dropped = [], None, False, 0
    for line in text.split("\n"):
        match = ANSWER.match(line)
        if match:
            name = match.group(1)
            skipping = not serves(name, goals)
            dropped += skipping
            while skipping and lines and lines[-1].startswith("--"):
                lines.pop()
        elif line and not line[0].isspace() and not (name and re.match(re.escape(name) + r"\b", line)):
            name, skipping = None, False
        if not skipping:
            lines.append(line)
    return re.sub(r"\n{3,}", "\n\n", "\n".join(lines)).rstrip("\n") + "\n", dropped


def main():
    texts = {path: path.read_text() for path in sorted((CRATE / "proofs").rglob("Answers.antt"))}
    for path in texts:
        path.unlink()
    goals, dropped, kept = wanted(check("--allow-holes", "--margin")), 0, 0
    for path, text in texts.items():
        names = [m.group(1) for m in map(ANSWER.match, text.split("\n")) if m]
        asked = goals.get(str(path.relative_to(CRATE)))
        if asked is None:
            dropped += len(names)
            continue
        fewer = 0
        if any(serves(name, asked) for name in names):
            text, fewer = only(text, asked)
        path.write_text(text)
        dropped, kept = dropped + fewer, kept + len(names) - fewer
    said = check()
    print("%s: %d answers dropped, %d kept" % (CRATE.name, dropped, kept))
    if "logic=proved" not in said:
        print("NOT PROVED:\n" + "\n".join(l for l in said.split("\n") if re.search(r"error|not proved|no proof", l)))
        sys.exit(1)


main()
