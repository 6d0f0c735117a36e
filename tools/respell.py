#!/usr/bin/env python3
"""Spells this repository's own names of definitions and lemmas as today's Rattle does: words in snake case, facts and
types in camel case. A dash becomes an underscore; TYPES has the facts that were written small.

usage: tools/respell.py [--list]        at the top, once, after port.py

It goes by text: a name counts as ours where a file of specs/ or proofs/ declares it. Names that Rattle makes (goals,
steps), names of the source, of the library and of the standard (xMc, LARc) stay as they are. In comments and in pages
only what stands in backticks is turned. It stops where two of our names would fall together in one crate.
"""

import collections
import os
import re
import sys

TYPES = {
    "positive-at": "PositiveAt",
    "along": "Along",
    "not-complete": "NotComplete",
    "not-absent": "NotAbsent",
    "not_stopped": "NotStopped",
}
# Facts that other files use as the name of something else: each with the module that declares it.
TYPES_IN = {
    "count": ("rpe_quantise", "Counts"),
    "rounding": ("rpe_inverse", "Inverse"),
    "size": ("short_ratios", "Bounds"),
}
STRING = re.compile(r'"(?:[^"\\\n]|\\.)*"')
SIGNATURE = re.compile(
    r"^\s*(?:(?:abbrev|unfoldable|pub|data|record|ruleset) )*([^\s(){};,.\"«»\[\]]+)"
    r"(?: \{[^{}\n]*\}| \([^()\n]*\))*(?: :| =$| = | where)"
)
TOKEN = re.compile(r"[^\s(){};,.@\"«»\[\]`]+")
MADE = re.compile(r": (tie|statement|borrow\.|goal)\b")
LIKE_MADE = re.compile(r"(invariant|decreases)-loop\d*$|(returns|loop)(-\w+)?$")


def files(*ends):
    for folder, inner, names in os.walk("crates"):
        inner[:] = sorted(d for d in inner if d != "out")
        for name in sorted(names):
            if name.endswith(ends):
                yield os.path.join(folder, name)


def read(path):
    with open(path, encoding="utf-8") as f:
        return f.read()


def turned(name):
    return TYPES.get(name, name.replace("-", "_"))


def is_operator(name):
    return "◌" in name or not re.search(r"[A-Za-z]", name) or "→" in name or "ℤ" in name and len(name) < 4


def declared():
    """Our names that change, each with the files that declare it."""
    ours, others, made = collections.defaultdict(set), collections.defaultdict(set), set()
    for path in files(".antt"):
        for line in read(path).split("\n"):
            if line.lstrip().startswith("--") or line.startswith("use "):
                continue
            m = SIGNATURE.match(line)
            if not m or is_operator(m.group(1)):
                continue
            name = m.group(1)
            if MADE.search(line) or LIKE_MADE.match(name):
                made.add(name)
            elif turned(name) != name:
                ours[name].add(path)
            else:
                others[name].add(path)
    return ours, others, made


def main(argv):
    if not argv and not any(name.endswith("Proof.antt") for name in files(".antt")):
        print("the proofs are in today's form: it has run here")
        return 1
    ours, others, made = declared()
    if argv == ["--list"]:
        for name in sorted(ours):
            print(f"{name}\t{turned(name)}\t{' '.join(sorted(ours[name]))}")
        return 0
    new = collections.defaultdict(set)
    for name in ours:
        new[turned(name)].add(name)
    clash = 0
    for name, olds in new.items():
        crates = [{p.split("/")[1] for p in ours[o]} for o in olds]
        if len(olds) > 1 and set.intersection(*crates):
            print(f"two names fall together: {sorted(olds)}")
            clash = 1
        for o in olds:
            both = {p for p in ours[o]} & others.get(name, set())
            if both:
                print(f"{o} falls together with {name} in {sorted(both)}")
                clash = 1
    if clash:
        return 1

    def plain(text, skip, here):
        return TOKEN.sub(lambda m: here.get(m[0], turned(m[0]) if m[0] in ours and m[0] not in skip else m[0]), text)

    def code(text, skip, here=()):
        parts, at = [], 0
        for m in STRING.finditer(text):
            parts += [plain(text[at : m.start()], skip, dict(here)), m[0]]
            at = m.end()
        return "".join(parts) + plain(text[at:], skip, dict(here))

    def facts(path, text):
        """The facts of TYPES_IN that this file declares or imports."""
        for name, (crate, module) in TYPES_IN.items():
            declares = path == f"crates/{crate}/specs/{module}.antt"
            m = re.search(rf"use Rattle\.{crate}\.specs\.{module}\.{{([^}}]*)}}", text)
            if declares or m and name in re.split(r", *", m[1]):
                yield name, name.capitalize()

    def quoted(text):
        return re.sub(r"`[^`\n]*`", lambda m: code(m[0], set()), text)

    for path in files(".edit"):
        lines = read(path).split("\n")
        text = "\n".join(code(t, set()) if t.startswith(("old:", "new:")) else t for t in lines)
        if text != read(path):
            with open(path, "w", encoding="utf-8") as f:
                f.write(text)
    for path in files(".antt", ".rt"):
        here = tuple(facts(path, read(path)))
        mark = "--" if path.endswith(".antt") else "//"
        out = []
        skip = made if "/proofs/" in path else set()
        for line in read(path).split("\n"):
            at = re.search(rf"(^|\s){mark}(\s|$)", line)
            cut = at.start() if at else len(line)
            body = line[:cut]
            # In the source this turns only what a clause or a ghost line says: a minus has spaces round it there.
            body = code(body, skip, here)
            out.append(body + quoted(line[cut:]))
        text = "\n".join(out)
        if text != read(path):
            with open(path, "w", encoding="utf-8") as f:
                f.write(text)
    for folder, inner, names in os.walk("."):
        inner[:] = [d for d in inner if d not in (".git", "crates", "target", "build")]
        for name in names:
            path = os.path.join(folder, name)
            if name.endswith(".md"):
                text = quoted(read(path))
                if text != read(path):
                    with open(path, "w", encoding="utf-8") as f:
                        f.write(text)
    print(f"{len(ours)} names turned")
    return 0


if __name__ == "__main__":
    raise SystemExit(main(sys.argv[1:]))
