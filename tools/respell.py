#!/usr/bin/env python3
"""Brings the repository's own definitions and lemmas to one spelling: words in snake case.

Run once, at the top, on the tree that the kit's port.py made. A name that specs/ or the lemma files of proofs/ declare
loses its inner capitals and dashes: styleOf is style_of, front-shown is front_shown. Types keep theirs. What Rattle makes of
the code (goals, steps) and the functions of src/ are not touched. Turned are: all .antt, the clauses of .rt, the texts of
edits, the tables under compare/, and the words in code spans of the documents.
"""
import os
import re
import sys

W = re.compile(r"[^\s(){}\[\].;,@\"«»`|]+")
HEAD = re.compile(r"^(?:(?:unfoldable|abbrev|pub|data|record) )*([^\s(){}.;,@\"«»]+)(?: [({].*)? : ")
# where a definition and a lemma would fall together, the lemma gets '_lem'
LEMMAS = {
    "size-lasts", "write-lasts", "measure-lasts", "read-lasts", "step-lasts", "text-fits", "is-extent", "count-in", "kind-in", "in-range",
    "is-flawless", "text-long", "plain-width", "leaf-row", "in-turn", "text-short",
}
# as above, where port.py had turned the lemma already
FIXED = {"plain_code": ("reader", "plain_code_lem"), "body_is": ("writer", "body_is_lem"), "too_long": ("writer", "too_long_lem"), "front_of": ("laws", "front_of_lem"), "countBy": ("*", "count_under")}


def snake(n):
    if n[:1].islower():
        n = re.sub(r"(?<=[a-z0-9])([A-Z])", lambda m: "_" + m[1].lower(), n)
    return re.sub(r"(?<=[\w*'₀-₉])-(?=\w)", "_", n)


def crates():
    return sorted(os.listdir("crates"))


def lemma_files():
    for c in crates():
        for sub in ("specs", "proofs"):
            top = f"crates/{c}/{sub}"
            for f in sorted(os.listdir(top)) if os.path.isdir(top) else []:
                if f.endswith(".antt"):
                    yield c, os.path.join(top, f)


def declared():
    names = set()
    for _, p in lemma_files():
        with open(p) as f:
            for l in f:
                m = HEAD.match(l.strip())
                if m and not l.strip().startswith("--"):
                    names.add(m[1])
    return names


def table(names):
    new = {}
    for n in names:
        if n in LEMMAS:
            new[n] = snake(n) + "_lem"
        elif n not in FIXED and snake(n) != n:
            new[n] = snake(n)
    for n, (_, m) in FIXED.items():
        new[n] = m
    taken = {}
    for n in sorted(names):
        m = new.get(n, n)
        if m in taken and taken[m] != n:
            sys.exit(f"{n} and {taken[m]} fall together at {m}")
        taken[m] = n
    return new


def turn(text, new, known=(), leave=()):
    def one(m):
        w = m[0]
        if w in leave:
            return w
        if w in new:
            return new[w]
        # names that port.py had turned in the crates and nowhere else
        return snake(w) if snake(w) in known and w != snake(w) else w

    return W.sub(one, text)


CLAUSE = re.compile(r"^\s*(?:requires|ensures|ghost)\b.*$", re.M)
SPAN = re.compile(r"`[^`\n]+`")


def syntax(text):
    """What port.py does to specs/, for the lines that edits and tables quote."""
    text = re.sub(r"(?<=[\w')]) \.(?=\w)", ".", text)
    text = text.replace("′", "'").replace("from_to_", "from◌to◌")
    text = re.sub(r"(?<![\w◌])_([≡+*/%^<>=&|∷≤∙-]+|>>=|>>|\+\+)_(?![\w◌])", r"◌\1◌", text)
    return text


def main():
    names = declared()
    new = table(names)
    known = {new.get(n, n) for n in names}
    # the changes of compare/mutations.txt have names of their own
    with open("compare/mutations.txt") as f:
        changes = set(re.findall(r"(?m)^# ([a-z0-9-]+):", f.read()))
    count = 0

    def write(p, old, text):
        nonlocal count
        if text != old:
            count += 1
            with open(p, "w") as f:
                f.write(text)

    for c in crates():
        mine = {k: v for k, v in new.items() if k not in FIXED or FIXED[k][0] in (c, "*")}
        for d, _, fs in os.walk(f"crates/{c}"):
            for f in sorted(fs):
                p = os.path.join(d, f)
                if not f.endswith((".antt", ".rt", ".edit")):
                    continue
                with open(p) as h:
                    old = h.read()
                if f.endswith(".antt"):
                    write(p, old, turn(old, mine))
                elif f.endswith(".rt"):
                    write(p, old, CLAUSE.sub(lambda m: turn(m[0], mine), old))
                elif ".antt" in old:
                    write(p, old, "".join(turn(syntax(l), mine, known) if l.startswith(("old:", "new:")) else l for l in old.splitlines(keepends=True)))
    # of all crates together, in the form of edits
    with open("compare/mutations.txt") as h:
        old = h.read()
    mine = {k: v for k, v in new.items() if k not in FIXED}
    write("compare/mutations.txt", old, "".join(turn(syntax(l), mine, known) if l.startswith(("old:", "new:")) else l for l in old.splitlines(keepends=True)))
    for d in ("docs", "docs/wishes", "."):
        for f in sorted(os.listdir(d)):
            if f.endswith(".md"):
                p = os.path.join(d, f)
                with open(p) as h:
                    old = h.read()
                write(p, old, SPAN.sub(lambda m: turn(m[0], {k: v for k, v in new.items() if k not in FIXED}, known, changes), old))
    print(f"{len(new)} names, {count} files")


main()
