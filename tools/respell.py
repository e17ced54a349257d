#!/usr/bin/env python3
"""Brings the names that this repository declares in specs/ and proofs/ to today's spelling, once.

usage: respell.py [--check] [ROOT]

Words are in snake case and types in upper camel case: rootAt becomes root_at, front-last
front_last and Few-nodes FewNodes. A lemma that would meet a definition gets _lem behind its
name. Ghost members and clauses of src/ are turned too. Functions of src/, labels that the
toolchain makes (what an answer file states at a type 'goal.x', and what follows 'goal.' or
'c.'), strings, inputs and outputs keep their names.

It turns whole words in the .antt, .rt and .edit files below crates/. No .edit file that had
landed held such a word. It was run on the unfinished work too, so it knows of crates that
stand in unfinished/ alone.

A line 'meets:' names a file where a new name stood already; nothing is written then. With
--check nothing is written at all.
"""

import os
import re
import sys

WORD = r"[^\s(){}.;,@\"«»]+"
TOP = re.compile(rf"^ *(?:pub |abbrev |unfoldable )*({WORD})(?: \{{[^{{}}\n]*\}})* : (.*)$", re.M)
MEMBER = re.compile(rf"^\s+(?:pub )?({WORD}(?: {WORD})*) : ")
BLOCK = re.compile(rf"^(?:pub |abbrev |unfoldable )*(?:data|record) +({WORD})")
GHOST = re.compile(r"\bghost (\w+) *[:=]|\b(?:ensures|requires)\*? (\w+) \{")
# Lemmas and an alias that were in snake case, and that a definition meets in its new spelling: the folder where each is used, and its new name.
MET = {
    "still_open": ("crates/pages/proofs/", "still_open_lem"),
    "one_link": ("crates/reading/proofs/", "one_link_lem"),
    "from_tail": ("crates/ownership/proofs/", "from_tail_lem"),
    "part_by": ("proofs/", "part_by_lem"),
    "break_value": ("crates/causes/proofs/", "break_value_lem"),
    "sign_at": ("crates/binding/proofs/", "sign_case"),
}
STRING = re.compile(r'"(?:[^"\\\n]|\\.)*"')


def new_name(name):
    """The name in today's spelling."""
    if name in MET:
        return MET[name][1]
    if re.fullmatch(r"[A-Z][A-Za-z0-9]*(?:-[A-Za-z0-9]+)+", name):
        return "".join(part[:1].upper() + part[1:] for part in name.split("-"))
    if name[:1].isupper():
        return name
    name = re.sub(r"(?<=[a-z0-9])[A-Z]", lambda m: "_" + m[0].lower(), name)
    return name.replace("-", "_").replace("′", "'").replace("’", "'")


def files(root, ends):
    for folder, dirs, names in os.walk(os.path.join(root, "crates")):
        dirs[:] = sorted(d for d in dirs if d != "out")
        for name in sorted(names):
            if name.endswith(ends):
                yield os.path.join(folder, name)


def read(path):
    with open(path, encoding="utf-8") as f:
        return f.read()


def declared(root):
    """The names that specs/ and proofs/ declare, and the labels that the toolchain makes."""
    names, labels, fields = set(), set(), set()
    for path in files(root, ".antt"):
        text = read(path)
        for m in TOP.finditer(text):
            (labels if m[2].startswith("goal.") else names).add(m[1])
            if m[0].startswith(" "):
                fields.add(m[1])
        names.update(re.findall(rf"(?m)^use \S+ as ({WORD})$", text))
        block = None
        for line in text.split("\n"):
            m = BLOCK.match(line)
            if m:
                block = m[1]
                names.add(block)
            elif line and not line[0].isspace() and not line.startswith("--"):
                block = None
            elif block:
                m = MEMBER.match(line)
                if m:
                    names.update(m[1].split())
                    fields.update(m[1].split())
    for path in files(root, ".rt"):
        for m in GHOST.finditer(read(path)):
            names.add(m[1] or m[2])
            fields.add(m[1] or m[2])
    for name in list(names):
        names.update(part for part in name.split("◌") if "◌" in name and part)
    return names, labels, fields


def stands(name, text):
    """Whether the text has the name itself, and not as a folder in a path."""
    return re.search(rf"(?<![^\s(){{}};,@\"«»]){re.escape(name)}(?![^\s(){{}};,@\"«»])", text)


def turned(text, table, fields, path, skipped):
    """The text with the table's words in their new spelling."""

    def word(m):
        name = m[0]
        if path.endswith(".rt") and name.endswith(":") and name[:-1] in table:
            return table[name[:-1]] + ":"
        if name not in table or MET.get(name, ("",))[0] not in path:
            return name
        if m.start() and m.string[m.start() - 1] == ".":
            head = re.search(rf"({WORD})\.$", m.string[: m.start()])
            before = head[1] if head else ""
            module = before[:1].isupper() or before == ""
            if not module and name not in fields:
                skipped.append(f"{path}: {before}.{name}")
                return name
        return table[name]

    parts, at = [], 0
    for s in STRING.finditer(text) if path.endswith(".rt") else ():
        parts += [re.sub(WORD, word, text[at : s.start()]), s[0]]
        at = s.end()
    return "".join(parts) + re.sub(WORD, word, text[at:])


def main(words):
    check = "--check" in words
    roots = [w for w in words if not w.startswith("--")]
    root = roots[0] if roots else "."
    names, labels, fields = declared(root)
    # an alias of an import, which is no declaration
    names.add("sign_at")
    table = {n: new_name(n) for n in names if n not in labels and new_name(n) != n}
    for lemma in [n for n in table if "-" in n and n not in MET]:
        if any(new == table[lemma] and "-" not in n for n, new in table.items()):
            table[lemma] += "_lem"
    news = {}
    for old, new in sorted(table.items()):
        news.setdefault(new, []).append(old)
    bad = [f"meets: {n} comes of {' and '.join(o)}" for n, o in news.items() if len(o) > 1]
    out, skipped = {}, []
    for path in files(root, (".antt", ".rt", ".edit")):
        text = read(path)
        found = set(re.findall(WORD, text))
        if path.endswith(".antt"):
            for old in sorted(found & table.keys()):
                if table[old] not in MET and stands(table[old], text):
                    bad.append(f"meets: {path}: {old} and {table[old]}")
        new = turned(text, table, fields, path, skipped)
        if new != text:
            out[path] = new
    print(f"{len(table)} names, {len(out)} files")
    print("\n".join(f"left: {s}" for s in skipped))
    print("\n".join(bad))
    if bad and not check:
        return 1
    if not check:
        for path, text in out.items():
            with open(path, "w", encoding="utf-8") as f:
                f.write(text)
    return 0


if __name__ == "__main__":
    raise SystemExit(main(sys.argv[1:]))
