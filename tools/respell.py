#!/usr/bin/env python3
"""Spells the repository's own definitions and lemmas as today's Rattle spells names: in snake case, facts and types in camel case.

usage: tools/respell.py            at the top of the repository, once, after the kit's port.py

A name that specs/ or proofs/ declare, or give a variable, loses its inner capitals (tailWrite is tail_write) and its dashes (head-moves is head_moves), in every
.antt file, in the clauses of .rt files, and nowhere else. Names of src/, of the kit and of what Rattle generates stay. Where the new name is
that of another name in one of the files that have the old one, the lemma ends in _lem. Two labels that the kit's script made are named for what
they say.
"""
import os
import re
import sys

WORD = r"A-Za-z0-9_'\u00b7\u0080-\uffff"
NAME = re.compile(rf"[{WORD}\-+≡≤<>*/^∷]+")
CAMEL = re.compile(r"[a-z][a-z0-9]*([A-Z][A-Za-z0-9]*)+$")
DASHED = re.compile(r"[A-Za-z0-9_']+(-[A-Za-z0-9_']+)+$")
# what Rattle generates: the goals and loops of a function
MADE = re.compile(r"returns\b.*|.*-requires(-\d+)?$|.*-spec$")
DECLARED = re.compile(r"^\s*(?:(?:pub|abbrev|unfoldable|mutual) )*([^\s:(){},;]+) :(?: |$)")
HEAD = re.compile(r"^\s*(?:(?:pub|abbrev|unfoldable|mutual) )*(?:record|data) ([^\s:(){}]+)")


# names of the kit's script beside which one of ours would fall
FIRST = {
    "crates/arbiter/proofs/Priority.antt": {"by_level": "by_level_lem"},
    "crates/controller/proofs/Unnumbered.antt": {"with_two": "with_two_lem"},
    "crates/controller/proofs/Unserved.antt": {"with_two": "with_two_lem"},
    "crates/controller/proofs/Verdicts.antt": {"in_use": "in_use_lem"},
    "crates/parse/proofs/Spelling.antt": {"each_of": "each_of_lem"},
}


def files(root, *ends):
    for folder, dirs, names in os.walk(os.path.join(root, "crates")):
        dirs[:] = sorted(d for d in dirs if d not in ("out", "must-fail", "data"))
        for name in sorted(names):
            if name.endswith(ends):
                yield os.path.join(folder, name)


def own_proof(path):
    """A function's own proof file, whose names nobody else cites."""
    return path.endswith("/Proof.antt")


def declared(paths):
    names = set()
    for path in paths:
        if own_proof(path):
            continue
        with open(path, encoding="utf-8") as f:
            for line in f:
                m = DECLARED.match(line) or HEAD.match(line)
                if m:
                    names.add(m.group(1))
    return names


def snake(name):
    if CAMEL.match(name):
        name = re.sub(r"(?<=[a-z0-9])([A-Z])", lambda m: "_" + m.group(1).lower(), name)
    elif name[0].isupper():
        name = "".join(p[0].upper() + p[1:] for p in name.split("-"))
    elif DASHED.match(name):
        parts = [snake(p) if CAMEL.match(p) else p for p in name.split("-")]
        name = "_".join(parts)
    return name


def words(text):
    """The names that a text has, but for those behind a dot."""
    return {m.group(0) for m in NAME.finditer(re.sub(r'"(?:\\.|[^"\\])*"', "", text)) if text[:1] and m.string[m.start() - 1 : m.start()] != "."}


def bound(text):
    """The parameters, fields and variables of a source file, which a name of a clause would mean, and its clauses' own words in capitals."""
    text = re.sub(r'"(?:\\.|[^"\\])*"', "", text)
    found = set(re.findall(r"\b([a-z]\w*):", text)) | set(re.findall(r"\b(?:let|mut|for) ([a-z]\w*)", text))
    return found | {w for w in words(text) if CAMEL.match(w)}


def turned(text, names, calls=frozenset()):
    """The text with each name in its new spelling; string literals stay, and behind a dot what is a step by the name of a function in calls."""

    def one(m):
        if m.string[max(m.start() - 1, 0)] == "." and m.group(0).replace("-", "_") in calls:
            return m.group(0)
        return names.get(m.group(0), m.group(0))

    parts = re.split(r'("(?:\\.|[^"\\\n])*")', text)
    for i in range(0, len(parts), 2):
        parts[i] = NAME.sub(one, parts[i])
    return "".join(parts)


def labelled(text):
    def one(m):
        said = m.group(3)
        if m.group(1) == "result_value_2":
            return "ensures reads {" + said
        return "ensures " + ("unlimited" if "remainderAnswer" in said or "remainder_answer" in said else "refusal") + " {" + said
    return re.sub(r"ensures (result_value(?:_2)?)( )\{([^\n]*)", one, text)


def plan(root):
    antt = list(files(root, ".antt"))
    texts = {p: open(p, encoding="utf-8").read() for p in antt}
    for p, first in FIRST.items():
        if os.path.join(root, p) in texts:
            texts[os.path.join(root, p)] = turned(texts[os.path.join(root, p)], first)
    sources = {p: open(p, encoding="utf-8").read() for p in files(root, ".rt")}
    tokens = {p: words(t) for p, t in texts.items() if not own_proof(p)}
    source_tokens = {p: bound(t) for p, t in sources.items()}
    kit = set()
    for t in texts.values():
        for m in re.finditer(r"(?m)^\s*use ((?!Rattle\.(?!std\.|core\.))[\w.·]+)\.\{([^}]*)\}", t):
            kit |= {w.strip().split(" as ")[0] for w in m.group(2).split(",")}
    names = {}
    left = []
    local = {w for t in [*texts.values(), *sources.values()] for w in words(t) if CAMEL.match(w)}
    for name in sorted(declared(antt) | local):
        if name in kit or MADE.match(name) or not (CAMEL.match(name) or DASHED.match(name)):
            continue
        names[name] = snake(name)
    # two old names with one new one, or a new name that is in use beside the old
    used = {}
    for p, ws in [*tokens.items(), *source_tokens.items()]:
        for w in ws:
            used.setdefault(w, set()).add(p)
    taken = {}
    for name in sorted(names, key=lambda n: (not CAMEL.match(n), n)):
        new = names[name]
        beside = used.get(name, set()) & used.get(new, set())
        other = [n for n in taken.get(new, []) if used.get(n, set()) & used.get(name, set())]
        if beside or other:
            new += "_lem" if DASHED.match(name) else "_of"
            left.append(f"look: {name} -> {new}: beside {names[name]} in {sorted(os.path.relpath(b, root) for b in beside)[:3]} {other}")
            if used.get(name, set()) & used.get(new, set()):
                left.append(f"left: {name}: {new} is taken too")
                del names[name]
                continue
            names[name] = new
        taken.setdefault(new, []).append(name)
    return names, texts, sources, left


def main():
    root = os.path.dirname(os.path.dirname(os.path.realpath(__file__)))
    names, texts, sources, left = plan(root)
    if "--list" in sys.argv:
        for name, new in sorted(names.items()):
            print(name, new)
        return 0
    camel = {n: s for n, s in names.items() if CAMEL.match(n)}
    calls = {f for t in sources.values() for f in re.findall(r"\bfn (\w+)", t)}
    count = 0
    for path, text in texts.items():
        new = turned(text, names, calls if own_proof(path) else frozenset())
        if new != open(path, encoding="utf-8").read():
            count += 1
            with open(path, "w", encoding="utf-8") as f:
                f.write(new)
    for path, text in sources.items():
        new = labelled(turned(text, camel))
        if new != text:
            count += 1
            with open(path, "w", encoding="utf-8") as f:
                f.write(new)
    print("\n".join(left))
    print(f"respell: {len(names)} names in {count} files")
    return 0


if __name__ == "__main__":
    raise SystemExit(main())
