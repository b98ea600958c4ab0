#!/usr/bin/env python3
"""Brings the repository's own definitions, lemmas and variables to snake case, as today's Rattle spells words.

usage: python3 tools/snake_names.py KIT [--dry]     at the top, once, after port.py; KIT is the kit's folder rattle/

Words of the kit keep their spelling, and so do functions, strings, inputs and outputs; types and modules begin with a capital and stay.
Where a lemma comes to the name of a definition that stands in the same file, it ends in _law; what still falls together is printed.
"""
import collections
import os
import re
import sys

TOKEN = re.compile(r"[^\W\d][\w']*(?:-[\w']+)*")
# These stood in snake case beside a word that comes to the same.
APART = {"no_walk": "decoded_no_walk", "by_blocks": "read_by_blocks"}
APART_IN = {"list_count": ("crates/theory/", "list_count_law")}
GOALS = re.compile(r"\btie\.(?:Need|Invariant|Decreases)-([\w'-]+)")


def walk(root, ends):
    for folder, dirs, files in os.walk(root):
        dirs[:] = sorted(d for d in dirs if d not in ("out", ".git", "target"))
        for f in sorted(files):
            if f.endswith(ends):
                yield os.path.join(folder, f)


def read(p):
    with open(p, encoding="utf-8") as f:
        return f.read()


def kit_words(kit):
    words = set()
    for part in ("std", "std_alloc", "std_collections", "std_heap", "std_io", "core", "logic", "antt", "io", "libc"):
        for p in walk(os.path.join(kit, part), (".antt", ".rt", ".md")):
            words.update(t for t in TOKEN.findall(read(p)) if "-" in t or re.match(r"[a-z]\w*[A-Z]", t))
    return words


def snake(t):
    t = re.sub(r"(?<=[a-z0-9'])([A-Z])", lambda m: "_" + m.group(1).lower(), t)
    return t.replace("-", "_")


def is_old(t):
    return t[0].islower() and ("-" in t or re.search(r"[a-z0-9][A-Z]", t) is not None)


def split(text, kind):
    """The text in pieces, each with what it is: 'code', 'comment' or 'string'."""
    if kind == ".antt":
        parts = re.split(r"(--[^\n]*)", text)
        return [(p, "comment" if i % 2 else "code") for i, p in enumerate(parts)]
    parts = re.split(r'(//[^\n]*|b?"(?:[^"\\]|\\.)*")', text)
    return [(p, "code" if i % 2 == 0 else "comment" if p.startswith("//") else "string") for i, p in enumerate(parts)]


def kept_in(path, text):
    """In a proof file the names of goals are the compiler's."""
    if not path.endswith("/Proof.antt"):
        return frozenset()
    names = set(GOALS.findall(text)) | {g.lower() for g in GOALS.findall(text)}
    names |= set(re.findall(r"(?m)^([\w'-]+) :(?= )", text)) | set(re.findall(r"\btie\.([\w'-]+)", text))
    return names


def turned(path, text, names):
    kind = os.path.splitext(path)[1]
    kept = kept_in(path, text)

    def one(t, what):
        if t in APART_IN and path.startswith(APART_IN[t][0]):
            return APART_IN[t][1]
        if t in kept or t not in names:
            return t
        if what == "comment" and "-" in t:
            return t
        return names[t]

    out = []
    for piece, what in split(text, kind):
        if what == "string":
            out.append(piece)
        elif what == "comment":
            piece = re.sub(r"`([^`\n]+)`", lambda m: "`" + TOKEN.sub(lambda n: names.get(n.group(0), n.group(0)), m.group(1)) + "`", piece)
            out.append(TOKEN.sub(lambda m: one(m.group(0), what), piece))
        else:
            out.append(TOKEN.sub(lambda m: one(m.group(0), what), piece))
    return "".join(out)


def main(argv):
    kit = kit_words(argv[0])
    files = list(walk("crates", (".antt", ".rt")))
    used = collections.Counter()
    where = collections.defaultdict(set)
    for p in files:
        text = read(p)
        kept = kept_in(p, text)
        for piece, what in split(text, os.path.splitext(p)[1]):
            if what != "code":
                continue
            for t in TOKEN.findall(piece):
                used[t] += 1
                if t not in kept:
                    where[t].add(p)
    names = {t: snake(t) for t in used if is_old(t) and where[t] and t not in kit}
    names.update(APART)
    apart = lambda t: {p for p in where[t] if p.endswith(".antt") and not p.endswith("/Proof.antt")}
    groups = collections.defaultdict(set)
    for t, s in names.items():
        groups[s].add(t)
    for s, ts in sorted(groups.items()):
        both = sorted(ts, key=lambda t: "-" in t) + ([s] if s in used and s not in APART else [])
        for t in [t for t in both if "-" in t and any(apart(t) & apart(o) for o in both if o != t)]:
            names[t] = s + "_law"
            print(f"apart: {t} becomes {names[t]}, beside {[o for o in both if o != t]}")
        left = [t for t in both if names.get(t, t) == s]
        if len(left) > 1 and set.intersection(*[apart(t) for t in left]):
            print("together:", left, sorted(set.intersection(*[apart(t) for t in left])))
    print(f"{len(names)} names")
    if "--dry" in argv:
        return 0
    for p in files + list(walk("crates", (".edit",))):
        text = read(p)
        new = turned(p, text, names) if not p.endswith(".edit") else TOKEN.sub(lambda m: names.get(m.group(0), m.group(0)), text)
        if new != text:
            with open(p, "w", encoding="utf-8") as f:
                f.write(new)
    return 0


if __name__ == "__main__":
    raise SystemExit(main(sys.argv[1:]))
