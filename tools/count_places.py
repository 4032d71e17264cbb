#!/usr/bin/env python3
"""Lists the places of the sources that the points of docs/DESIGN-PASS.md are about, and counts them.

    python3 tools/count_places.py [--list] [FOLDER]

FOLDER is a checkout, this one by default. It reads text, so a place is one to look at: a row says where a shape stands, not that
it is wrong there.
"""
import collections
import pathlib
import re
import sys

LIST = "--list" in sys.argv
ARGS = [a for a in sys.argv[1:] if a != "--list"]
ROOT = pathlib.Path(ARGS[0] if ARGS else pathlib.Path(__file__).resolve().parent.parent)

NAME = r"[A-Za-z_]\w*"


def crate_of(path):
    return path.relative_to(ROOT / "crates").parts[0]


def body_at(text, start):
    """The text between the brace at or after `start` and the one that closes it."""
    depth, begin = 0, None
    for i in range(start, len(text)):
        if text[i] == "{":
            depth += 1
            begin = i if begin is None else begin
        elif text[i] == "}":
            depth -= 1
            if depth == 0:
                return text[begin + 1 : i], i
    return "", len(text)


class Function:
    """One function: its name, place, parameters, result, clauses and body."""

    def __init__(self, path, text, match):
        self.path, self.name = path, match.group("name")
        self.line = text.count("\n", 0, match.start("name")) + 1
        at, depth = match.end() - 1, 0
        for i in range(at, len(text)):
            depth += {"(": 1, ")": -1}.get(text[i], 0)
            if depth == 0:
                break
        self.params = [p.strip() for p in re.split(r",(?![^<\[(]*[>\])])", text[at + 1 : i]) if p.strip()]
        self.clauses, self.result, self.body, self.method = [], "", "", False
        rest = text[i + 1 :]
        arrow = re.match(r"\s*->\s*([^\n{]+)", rest)
        if arrow:
            self.result = arrow.group(1).strip()
        at = i + 1 + (arrow.end() if arrow else 0)
        while True:
            clause = re.compile(r"\s*(requires|ensures)\s*(%s)?\s*(?=\{)" % NAME).match(text, at)
            if not clause:
                break
            inner, at = body_at(text, clause.end())
            at += 1
            self.clauses.append((clause.group(1), clause.group(2) or "", " ".join(inner.split())))
        if re.compile(r"\s*\{").match(text, at):
            self.body, _ = body_at(text, at)

    def where(self):
        return "%s:%d %s" % (self.path.relative_to(ROOT / "crates"), self.line, self.name)


def read():
    sources, functions = [], []
    for path in sorted(ROOT.glob("crates/*/src/**/*.rt")):
        text = path.read_text()
        code = re.sub(r"//[^\n]*", lambda m: " " * len(m.group()), text)
        sources.append((path, code))
        for match in re.finditer(r"\bfn (?P<name>%s)(?:<[^()]*?>)?\(" % NAME, code):
            functions.append(Function(path, code, match))
    return sources, functions


def place(path, code, at, what):
    return "%s:%d %s" % (path.relative_to(ROOT / "crates"), code.count("\n", 0, at) + 1, " ".join(what.split()))


def enums(sources):
    for path, code in sources:
        for match in re.finditer(r"\benum (%s)[^{;]*\{" % NAME, code):
            inner, _ = body_at(code, match.start())
            variants = [v.strip() for v in re.split(r",(?![^({]*[)}])", inner) if v.strip()]
            yield path, code, match, variants


UNWRAPPED = (
    r"let (?:Some|Ok)\([^;]*?\) = [^;{]*?else \{\s*return [^;]*;\s*\}",
    r"if let Err\((%s)\) = [^{]*\{\s*return Err\([^;]*\);\s*\}" % NAME,
    r"Some\(_\) => true,\s*None => false",
    r"Err\(_\) => None",
    r"Ok\((\w+)\) => Ok\(\1\)|Some\((\w+)\) => \*?\2,\s*None => None",
)


def point_1(sources, functions):
    rows = collections.OrderedDict()
    rows["enums of two variants, one of them or both with a value"] = [
        place(p, c, m.start(), m.group(1) + ": " + " | ".join(v))
        for p, c, m, v in enums(sources)
        if len(v) == 2 and any("(" in x or "{" in x for x in v)
    ]
    rows["calls that answer with a bool whether they refused"] = [
        f.where() for f in functions if f.result == "bool" and any("&mut" in p for p in f.params)
    ]
    rows["results that say nothing, or a number that stands for none"] = [
        f.where()
        for f in functions
        if (re.match(r"u\d+|usize", f.result) and f.body.strip() == "0") or f.name == "place"
    ]
    rows["Option and Result taken apart by hand"] = [
        place(p, c, m.start(), m.group()) for p, c in sources for r in UNWRAPPED for m in re.finditer(r, c)
    ]
    return rows


def shape(body):
    tokens = re.findall(r"[A-Za-z_]\w*|\d+|\S", body)
    kept = {"for", "in", "while", "loop", "if", "else", "match", "return", "let", "mut", "as", "Some", "None", "Ok", "Err"}
    return tuple(t if t in kept or not re.match(r"\w", t) else ("n" if t[0].isdigit() else "i") for t in tokens)


def point_2(sources, functions):
    same, named = collections.defaultdict(list), collections.defaultdict(list)
    for f in functions:
        if len(shape(f.body)) > 12:
            same[shape(f.body)].append(f)
    for path, code in sources:
        for match in re.finditer(r"\b(?:struct|enum|trait) (%s)" % NAME, code):
            named[match.group(1)].append(place(path, code, match.start(), match.group()))
    rows = collections.OrderedDict()
    rows["functions whose bodies are alike but for names and values, by group"] = [
        " ~ ".join(f.where() for f in fs) for fs in same.values() if len(fs) > 1
    ]
    rows["types of one name in two places or more"] = [" ~ ".join(ps) for ps in named.values() if len(ps) > 1]
    return rows


def point_3(sources, functions):
    rows = collections.OrderedDict()
    find = lambda r: [place(p, c, m.start(), m.group()) for p, c in sources for m in re.finditer(r, c)]
    rows["loops over a range of numbers"] = find(r"\bfor [^{;]* in [^{;]*\.\.[^{;]*\{")
    rows["loops by while or loop"] = find(r"(?<!\w)(?:while [^{;]*|loop )\{")
    rows["counts kept by hand"] = find(r"%s \+= (?:1|one)\b|%s = %s\.saturating_add\(1\)" % (NAME, NAME, NAME))
    return rows


def point_4(sources, functions):
    simple = re.compile(r"^match \*?\w+(?:\.\w+)? \{(?:[^{}]|\{[^{}]*\})*\}$", re.S)
    rows = collections.OrderedDict()
    rows["functions that only turn a value into another by a match"] = [
        f.where()
        for f in functions
        if len([p for p in f.params if "Global" not in p]) == 1 and simple.match(f.body.strip()) and f.name not in ("from", "try_from")
    ]
    rows["values of one type made from one of another, field by field"] = [
        f.where()
        for f in functions
        if f.name in ("plus", "minus", "zero", "same", "earlier", "in_metres", "is_flat", "numbered")
    ]
    rows["fields taken out to be printed"] = [
        place(p, c, m.start(), m.group().split("{")[0] + "{ .. }")
        for p, c in sources
        for m in re.finditer(r"let [A-Z]\w* \{[^}]*\} = \w+;(?=\s*(?:let \w+ = )?(?:format|println)!)", c)
    ]
    return rows


def plain(clause):
    return re.sub(r"\.(?:now|old|new)\b", "", clause)


def point_5(sources, functions):
    facts = collections.defaultdict(set)
    groups = collections.defaultdict(set)
    for f in functions:
        for _, _, text in f.clauses:
            for part in re.split(r" → | × ", text):
                part = plain(part).strip("() ")
                if " " in part and "result" not in part:
                    facts[crate_of(f.path), part].add(f.where())
        pairs = [re.sub(r"\bmut |&mut |&", "", p) for p in f.params if ":" in p]
        for i in range(len(pairs)):
            for j in range(i + 1, len(pairs)):
                groups[crate_of(f.path), pairs[i] + ", " + pairs[j]].add(f.where())
    rows = collections.OrderedDict()
    rows["facts in the contracts of three functions or more, by crate"] = [
        "%s: %s (%d)" % (k[0], k[1], len(v)) for k, v in sorted(facts.items()) if len(v) > 2
    ]
    rows["two parameters that go together through three functions or more, by crate"] = [
        "%s: %s (%d)" % (k[0], k[1], len(v)) for k, v in sorted(groups.items()) if len(v) > 2
    ]
    return rows


def point_6(sources, functions):
    rows = collections.OrderedDict()
    lists, fixed = [], []
    for path, code in sources:
        for match in re.finditer(r"\bstruct (%s)[^{;(]*\{" % NAME, code):
            inner, _ = body_at(code, match.start())
            fields = re.findall(r"(?:pub )?(%s): (Vec<[^\n]*>|usize|u16|\[[^\n]*\]),?" % NAME, re.sub(r"ghost [^\n]*", "", inner))
            vecs = [n for n, t in fields if t.startswith("Vec") or t.startswith("[")]
            sizes = [n for n, t in fields if t in ("usize", "u16")]
            if len(vecs) > 1 or (vecs and sizes):
                lists.append(place(path, code, match.start(), "%s: %s" % (match.group(1), ", ".join(vecs + sizes))))
        for match in re.finditer(r"let (?:mut )?\w+(?:: [^=;]*)? = \[[^;\]]*; ?[^\]]*\];", code):
            fixed.append(place(path, code, match.start(), match.group()))
    rows["structs of two lists or more, or of a list and a number"] = lists
    rows["arrays of a fixed length in a function"] = fixed
    return rows


def point_7(sources, functions):
    kinds = {m.group(1) for p, c, m, v in enums(sources) if len(v) > 1 and not any("(" in x or "{" in x for x in v)}
    own = [k for k in kinds if not re.search(r"Refusal|Fault|Why|Flaw|Unkeyed", k)]
    rows = collections.OrderedDict()
    rows["parameters that say which step to run"] = [
        f.where() + " " + p for f in functions for p in f.params if re.match(r"\w+: &?(%s)$" % "|".join(own), p)
    ]
    rows["functions taken as values, closures, dyn"] = [
        place(p, c, m.start(), m.group()) for p, c in sources for m in re.finditer(r"\bdyn \w+|impl Fn\w*\(|: Fn\w*\(|\bfn\(", c)
    ]
    return rows


def point_8(sources, functions):
    rows = collections.OrderedDict()
    answers = sorted(ROOT.glob("crates/*/proofs/**/Answers.antt")) + sorted(ROOT.glob("crates/*/proofs/**/Invariants.antt"))
    lemmas = [p for p in sorted(ROOT.glob("crates/*/proofs/*.antt"))]
    count = lambda ps: ["%s: %d lines" % (p.relative_to(ROOT / "crates"), len(p.read_text().splitlines())) for p in ps]
    rows["files of answers and invariants"] = count(answers)
    rows["files of lemmas"] = count(lemmas)
    return rows


def main():
    sources, functions = read()
    for n, point in enumerate((point_1, point_2, point_3, point_4, point_5, point_6, point_7, point_8), 1):
        rows = point(sources, functions)
        print("%d: %d %s" % (n, sum(len(r) for r in rows.values()), "files" if n == 8 else "places"))
        for title, found in rows.items():
            lines = sum(int(f.split(": ")[1].split()[0]) for f in found) if n == 8 else 0
            print("   %4d %s%s" % (len(found), title, ", %d lines" % lines if lines else ""))
            if LIST:
                for f in found:
                    print("           " + f)


main()
