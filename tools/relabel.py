#!/usr/bin/env python3
"""Turns the labels that answer files cite to today's spelling, once: a name from the source keeps its underscores, and a dash joins the parts.

usage: relabel.py [ROOT]

So c.word-of-one becomes c.word_of_one, and goal.overflow-sub-x goal.overflow_sub-x. It reads which names
with underscores stand in src/, and turns labels in proofs/F/ alone: what follows a dot behind a lower-case
name, and what a file takes from the modules that the toolchain makes.
"""

import re
import sys

from respell import WORD, files, read

# Words with underscores that stand in the toolchain's own labels.
OURS = "from_residual in_ok in_err in_default overflow_add overflow_sub overflow_mul overflow_cast overflow_step slice_bounds nonzero_div nonzero_rem invariant_of offset_bounds type_inv".split()


def joined(label, idents):
    """The label with underscores in its names, the longest first: returns-in-all-digits gives returns-in-all_digits."""
    parts, out, at = label.split("-"), [], 0
    while at < len(parts):
        for n in range(len(parts) - at, 0, -1):
            name = "_".join(parts[at : at + n])
            if n == 1 or name in idents:
                out.append(name)
                at += n
                break
    return "-".join(out)


def main(words):
    root = words[0] if words else "."
    source = {}
    for path in files(root, ".rt"):
        names = re.findall(r"\b[a-z][a-z0-9]*(?:_[a-z0-9]+)+\b", read(path))
        source.setdefault(path.split("/src/")[0], set(OURS)).update(names)
    turned = 0
    for path in files(root, ".antt"):
        if path.split("/proofs/")[-1].count("/") == 0 or "/specs/" in path:
            continue
        text, idents = read(path), source[path.split("/proofs/")[0]]
        labels = set()
        for m in re.finditer(rf"(?<![^\s(){{}};,@«»])([a-z]\w*)((?:\.{WORD})+)", text):
            labels.update(m[2].split("."))
        for m in re.finditer(r"(?m)^use \S+\.(?:Goals|Given|Lts)\.\{([^}]*)\}", text):
            labels.update(x.strip() for x in m[1].split(","))
        table = {l: joined(l, idents) for l in labels if "-" in l and joined(l, idents) != l}
        new = re.sub(WORD, lambda m: table.get(m[0], m[0]), text)
        if new != text:
            turned += 1
            with open(path, "w", encoding="utf-8") as f:
                f.write(new)
    print(f"{turned} files")


if __name__ == "__main__":
    main(sys.argv[1:])
