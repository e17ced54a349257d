#!/usr/bin/env python3
"""Lists the places in src/ that an older form of the language may have shaped: `tools/places.py [FOLDER]`.

A place is a line, a function or a type. What it prints are candidates, point by point, with their number; docs/DESIGN-PASS.md
says which of them were changed and why the others stay.
"""

import collections
import itertools
import pathlib
import re
import sys

root = pathlib.Path(sys.argv[1] if len(sys.argv) > 1 else pathlib.Path(__file__).parent.parent)
files = {p.relative_to(root / "crates"): p.read_text() for p in sorted(root.glob("crates/*/src/**/*.rt"))}


def is_clause(line):
    return re.match(r"\s*(ghost|requires|ensures|//)", line)


def lines(pattern, comments=False):
    """The lines outside clauses (and comments, if not asked for) that a pattern is found in."""
    for path, text in files.items():
        for number, line in enumerate(text.splitlines(), 1):
            if re.search(pattern, line) and (not is_clause(line) or comments and line.lstrip().startswith("//")):
                yield f"{path}:{number}: {line.strip()}"


def across(pattern):
    """The matches of a pattern that may go over lines."""
    for path, text in files.items():
        for found in re.finditer(pattern, text):
            number = text.count("\n", 0, found.start()) + 1
            yield f"{path}:{number}: {' '.join(found.group().split())}"


def functions():
    """Each function: its file, its name, its parameters, its clauses and its body."""
    for path, text in files.items():
        for found in re.finditer(r"^( *)(?:pub )?fn (\w+)((?:.|\n)*?)\n\1\}", text, re.M):
            head, _, body = found.group(3).partition("\n" + found.group(1) + "{\n")
            if not body:
                head, _, body = found.group(3).partition("{\n")
            inside = re.match(r"(?:<[^(]*>)?\(((?:[^()]|\([^()]*\))*)\)", head)
            parameters = re.findall(r"(\w+): ([^,]+(?:<[^>]*>)?)", inside.group(1)) if inside else []
            yield path, found.group(2), parameters, re.findall(r"(?:requires|ensures)[^{]*\{ (.*) \}", head), body


def alike():
    """Functions whose bodies are the same but for names, numbers and texts."""
    groups = collections.defaultdict(list)
    for path, name, _, _, body in functions():
        body = re.sub(r"//.*", "", body)
        for pattern, mark in [(r"b?'(\\.|[^'])'", "C"), (r'b?"[^"]*"', "S"), (r"\b\d+\b", "N"), (r"\b[A-Za-z_]\w*\b", "v"), (r"\s+", "")]:
            body = re.sub(pattern, mark, body)
        groups[body].append(f"{path} {name}")
    return [", ".join(group) for group in groups.values() if len(group) > 1]


def facts():
    """Clauses, by the order of their variables, in three contracts or more."""
    groups = collections.defaultdict(list)
    for path, name, parameters, clauses, _ in functions():
        for clause in clauses:
            for parameter, _ in parameters:
                clause = re.sub(rf"\b{parameter}\b", "_", clause)
            groups[clause].append(f"{path.parts[0]} {name}")
    return [f"{clause}: {', '.join(group)}" for clause, group in groups.items() if len(group) > 2]


def together():
    """Parameters that stand together in three functions or more of a crate."""
    groups = collections.defaultdict(list)
    for path, name, parameters, _, _ in functions():
        for pair in itertools.combinations(parameters, 2):
            groups[path.parts[0], *sorted(f"{n}: {' '.join(t.split())}" for n, t in pair)].append(name)
    return [f"{key[0]} ({key[1]}, {key[2]}): {', '.join(group)}" for key, group in groups.items() if len(group) > 2]


NONE = r"^\s+(Nothing|NoHead\(Refusal\)|NoTail\(Refusal\)|Stop|Refuse\(Refusal\)|Done|Back\(Refusal\)|Plain|Other),"
points = {
    "1 a variant for none or for a refusal": lines(NONE),
    "1 a number for a kind": lines(r"Binary\((u8|code|op as u8)\)|binary\([0-9]+, |_compound\(next, [0-9]|kind: u8|code: u8|-> u8|: u8,"),
    "1 a value that stands for none": lines(
        r"'\\0'|0 where|\(0: no|or 0\.|(place|byte) itself|else \{ at \}|=> (0|at),|(length|back|left) == 0", comments=True
    ),
    "1 an Option or a Result taken apart by hand": lines(r"(None|Err\(\w+\)) => |Some\(\w+\) => (Ok|Some)|Ok\(\w+\) => Ok"),
    "2 bodies that are alike": alike(),
    "3 loops": lines(r"^\s*(while|loop|for) .*\{$|^\s*loop \{$"),
    "3 a function that calls itself along an index": [f"{p} {n}" for p, n, _, _, b in functions() if re.search(rf"(?<![\w.]){n}\(", b)],
    "4 a yes or no by a match": across(r"=> (true|false),\s+_ => (true|false),"),
    "4 a conversion by a match or a cast": lines(r" as (u8|u32|usize)\b|fn (number|tag_of|digit)\("),
    "4 a copy field by field, or a record of nothing": across(r"\b(\w+): \w+\.\1,|(first|last|next): None,\s|start: 0,|nodes: 0,"),
    "4 a method of the library by hand": across(r"if (\S+) [<>]=? (\S+) \{\s*(\1|\2)( - \S+)?\s*\} else \{\s*\S+\s*\}|if \w+ < \*self.count \{|start >= page.len\(\)"),
    "4 equality or printing by hand": lines(r"fn (same_delimiter|same|spells|put_\w+|word_number)\("),
    "5 a fact in three contracts": facts(),
    "5 parameters that travel together": together(),
    "6 a buffer and a length or a place": lines(r"&mut \[u8\], at: usize|count: &'c mut usize|\blen: usize,|(first|next|last): Option<usize>,"),
    "6 a search by hand": lines(r"^\s+(\} else )?if spells\(|fn has_column"),
    "7 a switch on which step to run": across(r"match (\w+\.)?(part|job|step) \{"),
    "7 a table of functions": lines(r"\bfn\(|\bdyn\b|: \[?fn"),
}

for name, found in points.items():
    found = list(found)
    print(f"== {name}: {len(found)}")
    for place in found:
        print(f"   {place}")
