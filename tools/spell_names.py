#!/usr/bin/env python3
"""Brings the repository's own names in specs/, proofs/ and clauses to one spelling: definitions, lemmas, record fields and constructors in
snake case, with no dash but between a type and a name, as in Closed-of. Types, modules and every name of src/ stay as they are.

usage: spell_names.py ROOT [--list]

It writes the files of ROOT/crates in place and prints what it renamed, and where two names fall together. --list only prints.
"""
import os
import re
import sys

SIGNATURE = re.compile(r"^\s*(?:\|\s*)?((?:abbrev |pub |unfoldable |unfolding )*)((?:[^\s(){}\[\],;.:|]+ )*[^\s(){}\[\],;.:|]+) : (.*)$")
TOKEN = re.compile(r"[^\s(){}\[\],;.:«»]+")
OWN_PATH = re.compile(r"Rattle\.(\w+)\.")
GENERATED = ("invariant-", "decreases-")
# lemmas that would have the name of the function that they are about, and a module that would have the name of one that Rattle makes
LEMMAS = ("cost-now", "first-book", "placed-at", "triangle-slots", "vertex-slots")
MODULES = (("mesh", "Hidden", "Hiding"),)
WORDS = ("let", "in", "record", "data", "use", "where", "elim", "module", "open", "unfolding", "λ")


def files(root, ends):
    for folder, dirs, names in os.walk(os.path.join(root, "crates")):
        dirs[:] = sorted(d for d in dirs if d not in ("out", ".git"))
        for name in sorted(names):
            if name.endswith(ends):
                yield os.path.join(folder, name)


def read(path):
    with open(path, encoding="utf-8") as f:
        return f.read()


def snake(name):
    """A name in snake case."""
    if name in LEMMAS:
        return name.replace("-", "_") + "_lem"
    if name[:1].isupper() or not re.search(r"[A-Za-z]", name):
        return name
    name = re.sub(r"(?<=[a-z0-9])(?=[A-Z][a-z])", "_", name)
    name = re.sub(r"(?<=[a-z0-9])(?=[A-Z])", "_", name)
    return name.replace("-", "_").lower() if name.isascii() else name.replace("-", "_")


def defined(root):
    """Each name that a file of specs/ or proofs/ gives, with the files that give it; names of goals are not among them."""
    found = {}

    def add(name, path):
        found.setdefault(name, set()).add(path)

    for path in files(root, (".antt",)):
        for line in read(path).splitlines():
            line = line.split(" -- ")[0]
            if line.lstrip().startswith("--") or line.lstrip().startswith("use ") or line.lstrip().startswith("pub use "):
                for m in re.finditer(r" as ([^\s{},]+)", line):
                    if not line.lstrip().startswith("--"):
                        add(m[1], path)
                continue
            m = SIGNATURE.match(line)
            if m and not m[3].startswith("goal."):
                names = m[2].split(" ")
                if names[0] not in WORDS and not any(w in WORDS for w in names):
                    for name in names:
                        if not name.startswith(GENERATED):
                            add(name, path)
            m = re.match(r"^\s*module _ (.*)$", line)
            if m:
                for names in re.findall(r"[({]([^(){}:]+) :", line):
                    for name in names.split():
                        add(name, path)
    for path in files(root, (".rt",)):
        for line in read(path).splitlines():
            if line.lstrip().startswith("ghost use"):
                for m in re.finditer(r" as ([^\s{},]+)", line):
                    add(m[1], path)
    return found


def foreign(text, crates):
    """The names that the file imports from libraries that are not the repository's."""
    names = set()
    for m in re.finditer(r"use ([\w.·+'-]+)\.\{([^}]*)\}", text):
        own = OWN_PATH.match(m[1])
        if own and own[1] in crates:
            continue
        for part in m[2].split(","):
            part = part.strip()
            if part and " as " not in part:
                names.add(part)
            elif part:
                names.discard(part.split(" as ")[1])
    return names


def ghost_spans(text):
    """The spans of an .rt file that are antt: ghost lines, and the braces of clauses and ghost members."""
    spans = []
    for m in re.finditer(r"ghost use [^;]*;", text):
        spans.append(m.span())
    for m in re.finditer(r"\b(?:requires|ensures)\*?(?: \w+)? \{|\bghost \w+ ?(?:=|:) ?\{|\bghost \{", text):
        i = m.end() - 1
        depth, k = 0, i
        while k < len(text):
            depth += (text[k] == "{") - (text[k] == "}")
            k += 1
            if depth == 0:
                break
        spans.append((i, k))
    return sorted(spans)


def main(argv):
    root = argv[1]
    crates = {c for c in os.listdir(os.path.join(root, "crates"))}
    found = defined(root)
    names = {n: snake(n) for n in found if snake(n) != n}
    by_new = {}
    for old, new in names.items():
        by_new.setdefault(new, []).append(old)
    for new, olds in sorted(by_new.items()):
        if len(olds) > 1 or new in found:
            both = olds + ([new] if new in found else [])
            where = [found[n] for n in both]
            for i in range(len(both)):
                for j in range(i):
                    shared = where[i] & where[j]
                    if shared:
                        print(f"together: {both[i]} and {both[j]} in {sorted(shared)[0]}")
    if "--list" in argv:
        for old, new in sorted(names.items()):
            print(f"{old} -> {new}")
        return 0
    for crate, old, new in MODULES:
        folder = os.path.join(root, "crates", crate, "proofs")
        if os.path.exists(os.path.join(folder, old + ".antt")):
            os.rename(os.path.join(folder, old + ".antt"), os.path.join(folder, new + ".antt"))
    for path in files(root, (".antt", ".rt")):
        text = before = read(path)
        for crate, old, new in MODULES:
            text = re.sub(rf"Rattle\.{crate}\.proofs\.{old}\b", f"Rattle.{crate}.proofs.{new}", text)
            if os.path.relpath(path, root) == f"crates/{crate}/proofs/Lib.antt":
                text = re.sub(rf"\bmod {old}\b", f"mod {new}", text)
        keep = foreign(text, crates)
        tokens = set(TOKEN.findall(text))

        def turn(piece):
            out, last = [], 0
            for m in TOKEN.finditer(piece):
                t = m[0]
                if t in names and t not in keep and piece[max(0, m.start() - 5):m.start()] != "goal." and not (t.endswith("-is") and re.search(r"[^\w.]w\.$", piece[max(0, m.start() - 3):m.start()])):
                    out.append(piece[last:m.start()])
                    out.append(names[t])
                    last = m.end()
                    if names[t] in tokens:
                        clashes.add((t, names[t]))
            out.append(piece[last:])
            return "".join(out)

        clashes = set()
        if path.endswith(".antt"):
            lines = text.split("\n")
            new = "\n".join(l if l.lstrip().startswith("--") else turn(l) for l in lines)
        else:
            new, last = [], 0
            for a, b in ghost_spans(text):
                if a < last:
                    continue
                new.append(text[last:a])
                new.append(turn(text[a:b]))
                last = b
            new.append(text[last:])
            new = "".join(new)
        for t, n in sorted(clashes):
            print(f"look: {os.path.relpath(path, root)}: {t} -> {n}, which the file has already")
        if new != before:
            with open(path, "w", encoding="utf-8") as f:
                f.write(new)
    print(f"{len(names)} names")
    return 0


if __name__ == "__main__":
    sys.exit(main(sys.argv))
