#!/usr/bin/env python3
"""Assembles the oracle: our sources, with the crate's own text put in.

    python3 oracle/assemble.py SRC OUT

SRC is a folder with the published source of the crate syn 3.0.9 (its folder
src/). OUT is where the assembled program goes; it is made if it is not there.

Two kinds of lines in oracle/src ask for text of the crate:

    // whole: token.rs               the whole file stands here
    // verbatim: expr.rs: fn f(      the item that begins so stands here

The item is one that stands as far to the right as the line that asks for it, and
whose `cfg` holds with the features below; there must be exactly one. It is taken
with the attributes and comments right above it. With `around`, as in
`// verbatim: expr.rs: around pub struct X`, the item is the macro call that the
line stands in. Nothing within an item is changed: a `cfg` inside it is left to the
compiler, which has the same features.

When all is written, every piece is read back out of OUT and compared, byte for
byte, with the lines of SRC that it is said to be.
"""

import hashlib
import pathlib
import re
import sys

# Features that the assembled program is built with (see Cargo.toml).
FEATURES = {"full", "parsing", "clone-impls"}

# The files of syn 3.0.9, by their SHA-256. Of another version the pieces would be others.
KNOWN = {
    "expr.rs": "9196c144305eda8bdd63e117c8126aef2170af1dae08a951e4af70399bed8f5a",
    "lifetime.rs": "2f3a240a4a0d9536dd1e3255d5ae0d64efcc46f295cf565a09e8ac33cd3d3487",
    "lit.rs": "b474ef6e974844ba972c0fcedf3e075f03e822faf4e55a9b27f648efe7121098",
    "op.rs": "5cc4916e1a6b2eb02bd830d208cd3a0f03d917770d69edcf1ea6e6e5ea051757",
    "precedence.rs": "301f5cc51e1bbb35aeb64f6ed1b21d6f61d83f6c048aec9896976ee0011b948e",
    "stmt.rs": "60718ffd8e4b72bae9ea620670276af3bd407f248f2c5e3bd945a2ea8c541661",
    "token.rs": "fddf7540f6c87e088ca2e4cd59a4769bc99989907a71e0d7cb42ee6ec067a6ac",
}

ASKS = re.compile(r"^( *)// (whole|verbatim): (\w+\.rs)(?:: (.*))?$")
BEGINS = re.compile(r"^// ---- verbatim: (\w+\.rs), lines (\d+) to (\d+) ----$")
ENDS = "// ---- end of verbatim ----"


def fail(message):
    sys.exit("assemble: " + message)


def lines_of(text):
    """The lines of `text`, each with its line feed."""
    return re.findall(r"[^\n]*\n|[^\n]+", text)


# ---- Rust's text, as far as is needed to find where an item ends ----


def skip(text, at):
    """One past the comment, string, character or lifetime at `at`, or `at` if none begins there."""
    if text.startswith("//", at):
        end = text.find("\n", at)
        return len(text) if end < 0 else end
    if text.startswith("/*", at):
        return text.index("*/", at) + 2
    raw = re.compile(r'b?r(#*)"').match(text, at)
    if raw and not (at and (text[at - 1].isalnum() or text[at - 1] == "_")):
        closing = '"' + raw.group(1)
        return text.index(closing, raw.end()) + len(closing)
    if text[at] == '"':
        return re.compile(r'"(?:[^"\\]|\\.)*"', re.S).match(text, at).end()
    if text[at] == "'":
        char = re.compile(r"'(?:\\(?:x..|u\{[^}]*\}|.)|[^\\'])'", re.S).match(text, at)
        return char.end() if char else at + 1
    return at


def item_end(text, at):
    """One past the item that begins at `at`: past its `;`, or past the brace that closes it."""
    depth = 0
    while at < len(text):
        past = skip(text, at)
        if past > at:
            at = past
            continue
        char = text[at]
        at += 1
        if char in "([{":
            depth += 1
        elif char in ")]}":
            depth -= 1
            if depth == 0 and char == "}":
                return at
        elif char == ";" and depth == 0:
            return at
    fail("an item that does not end")


def holds(condition):
    """Whether the condition of a `cfg` holds with our features."""
    words = re.findall(r'\w+|"[^"]*"|[(),=]', condition)

    def one(i):
        name = words[i]
        if name in ("all", "any", "not"):
            parts, i = [], i + 2
            while words[i] != ")":
                value, i = one(i)
                parts.append(value)
                if words[i] == ",":
                    i += 1
            answer = {"all": all(parts), "any": any(parts), "not": not any(parts)}[name]
            return answer, i + 1
        if i + 1 < len(words) and words[i + 1] == "=":
            return name == "feature" and words[i + 2].strip('"') in FEATURES, i + 3
        return False, i + 1

    return one(0)[0]


def conditions(attributes):
    return re.findall(r"#\[cfg\((.*)\)\]", attributes)


def functions(text):
    """How many functions stand in `text`, not counting what our features leave out."""
    count, at = 0, 0
    while at < len(text):
        attribute = re.compile(r"#\[cfg\((.*?)\)\]\s*").match(text, at)
        if attribute and not holds(attribute.group(1)):
            at = attribute.end()
            while more := re.compile(r"#\[[^\n]*\]\s*").match(text, at):
                at = more.end()
            if re.compile(r"(pub(\(\w+\))? )?(fn|impl|mod|use|enum|struct|const|macro_rules!)\b").match(text, at):
                at = item_end(text, at)
            continue
        past = skip(text, at)
        if past > at:
            at = past
            continue
        if re.compile(r"\bfn \w+").match(text, at):
            count += 1
        at += 1
    return count


# ---- Items of a source file ----


class Source:
    def __init__(self, folder, name):
        path = folder / name
        if not path.is_file():
            fail(f"{path} is not there")
        data = path.read_bytes()
        if hashlib.sha256(data).hexdigest() != KNOWN[name]:
            fail(f"{path} is not the {name} of syn 3.0.9")
        self.name = name
        self.text = data.decode("utf-8")
        self.lines = lines_of(self.text)
        self.starts = [0]
        for line in self.lines:
            self.starts.append(self.starts[-1] + len(line))

    def part(self, first, last):
        """Lines `first` to `last`, counted from 1."""
        return self.text[self.starts[first - 1] : self.starts[last]]

    def line_at(self, at):
        """The number, from 1, of the line that holds character `at`."""
        return self.text.count("\n", 0, at) + 1

    def item(self, begins, indent):
        """First and last line of the item whose first line begins so, after `indent`."""
        around = begins.startswith("around ")
        begins = begins.removeprefix("around ")
        starts = re.compile(r"\s*" + re.escape(begins) + (r"\b" if begins[-1].isalnum() else ""))
        found = []
        for number, line in enumerate(self.lines, 1):
            if not starts.match(line):
                continue
            if around:
                while not re.match(r" *\w+! \{$", self.lines[number - 1]):
                    number -= 1
            if re.match(" *", self.lines[number - 1]).group() != indent:
                continue
            last = self.line_at(item_end(self.text, self.starts[number - 1]) - 1)
            first = number
            while re.match(r"\s*(#\[|//)", self.lines[first - 2]):
                first -= 1
            if all(holds(c) for c in conditions(self.part(first, number - 1))):
                found.append((first, last))
        if len(found) != 1:
            fail(f"{self.name}: `{begins}` begins {len(found)} items, not one")
        return found[0]


# ---- Assembling, and the check ----


class Tally:
    def __init__(self):
        self.pieces = self.functions = self.lines = 0

    def add(self, text):
        self.pieces += 1
        self.functions += functions(text)
        self.lines += text.count("\n")


def assembled(text, sources):
    """Our text with the crate's put in where it is asked for."""
    out = []
    for line in lines_of(text):
        asked = ASKS.match(line.rstrip("\n"))
        if not asked:
            out.append(line)
            continue
        indent, how, name, begins = asked.groups()
        source = sources[name]
        if how == "whole":
            first, last = 1, len(source.lines)
        else:
            first, last = source.item(begins, indent)
        out.append(f"// ---- verbatim: {source.name}, lines {first} to {last} ----\n")
        out.append(source.part(first, last))
        out.append(ENDS + "\n")
    return "".join(out)


def checked(path, folder, tally):
    """Reads `path` back and compares each piece in it with the file of `folder` that it names."""
    name = None
    for line in lines_of(path.read_bytes().decode("utf-8")):
        begun = BEGINS.match(line.rstrip("\n"))
        if begun:
            name, first, last = begun.group(1), int(begun.group(2)), int(begun.group(3))
            piece = []
        elif line.rstrip("\n") == ENDS:
            piece = "".join(piece)
            given = (folder / name).read_bytes().split(b"\n")
            if b"\n".join(given[first - 1 : last]) + b"\n" != piece.encode("utf-8"):
                fail(f"{path}: a piece is not lines {first} to {last} of {name}")
            tally.setdefault(name, Tally()).add(piece)
            name = None
        elif name:
            piece.append(line)


def main():
    if len(sys.argv) != 3:
        fail("usage: assemble.py SRC OUT")
    here = pathlib.Path(__file__).resolve().parent
    folder, out = pathlib.Path(sys.argv[1]), pathlib.Path(sys.argv[2])
    sources = {name: Source(folder, name) for name in KNOWN}

    written = []
    for ours in [here / "Cargo.toml", *sorted((here / "src").rglob("*.rs"))]:
        target = out / ours.relative_to(here)
        data = assembled(ours.read_bytes().decode("utf-8"), sources).encode("utf-8")
        target.parent.mkdir(parents=True, exist_ok=True)
        if not target.is_file() or target.read_bytes() != data:
            target.write_bytes(data)
        written.append(target)

    tally = {}
    for target in written:
        checked(target, folder, tally)
    total = Tally()
    print(f"{'file':<15}{'pieces':>8}{'functions':>11}{'lines':>8}")
    for name, t in sorted(tally.items()):
        print(f"{name:<15}{t.pieces:>8}{t.functions:>11}{t.lines:>8}")
        total.pieces += t.pieces
        total.functions += t.functions
        total.lines += t.lines
    print(f"{'all':<15}{total.pieces:>8}{total.functions:>11}{total.lines:>8}")
    print("every piece is byte for byte a part of its file")


if __name__ == "__main__":
    main()
