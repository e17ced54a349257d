#!/usr/bin/env python3
# Writes the cases of the program `limits` and the answers that the rules of the page, the sheet and the reading demand.
# The answers come from the model below, which is written from the rules; nothing here looks at the program.
#
#   limits_cases.py DIR     writes DIR/stdin and DIR/stdout
import random
import re
import sys

sys.setrecursionlimit(100000)

# ---------------------------------------------------------------------------------------------- the page

NAME, MARK, INTEGER, FLOAT, LITERAL, LIFETIME, OPENER, CLOSER = range(1, 9)
LENGTHS = {
    NAME: (1, 64), MARK: (2, 2), INTEGER: (1, 20), FLOAT: (2, 40),
    LITERAL: (1, 1024), LIFETIME: (1, 64), OPENER: (1, 1), CLOSER: (1, 1),
}
MARKS = b"+-*/%^!&|=<>.,;:?#@$~"
OPENERS = b"([{"
CLOSERS = b")]}"
MOST_TOKENS = 4096
MOST_NODES = 4096
MOST_RULES = 256


class Refused(Exception):
    def __init__(self, number, place, host=0, part=0, code=0):
        self.line = "refused %d %d %d %d %d" % (number, place, host, part, code)


class NotModelled(Exception):
    """A reading that the model does not know."""


def spelled(tag, value):
    if tag in (NAME, LIFETIME):
        return re.fullmatch(rb"[A-Za-z_][A-Za-z0-9_]*", value) is not None
    if tag == MARK:
        return value[0] in MARKS and value[1] in (0, 1)
    if tag == INTEGER:
        return re.fullmatch(rb"[0-9]+(?:[ac-df-np-wy-zA-DF-Z][A-Za-z0-9_]*)?", value) is not None
    if tag == FLOAT:
        return re.fullmatch(rb"[0-9]+\.[0-9]*", value) is not None
    if tag == LITERAL:
        return True
    if tag == OPENER:
        return value[0] in OPENERS
    return value[0] in CLOSERS


def fields(page, room):
    """The tokens of a page, as (tag, value, tokens of the group), or the first refusal."""
    tokens = []
    pending = []  # openers: place among the tokens, byte
    at = 0
    while at < len(page):
        if len(page) - at < 3:
            raise Refused(1, at)
        tag, length = page[at], 256 * page[at + 1] + page[at + 2]
        if tag not in LENGTHS:
            raise Refused(2, at)
        least, most = LENGTHS[tag]
        if not least <= length <= most:
            raise Refused(2, at)
        if at + 3 + length > len(page):
            raise Refused(1, at)
        value = page[at + 3:at + 3 + length]
        if not spelled(tag, value):
            raise Refused(2, at)
        if tag == CLOSER:
            if not pending or OPENERS.index(tokens[pending[-1][0]][1]) != CLOSERS.index(value):
                raise Refused(3, at)
        if len(tokens) >= min(room, MOST_TOKENS):
            raise Refused(4, at)
        if tag == OPENER:
            pending.append((len(tokens), at))
        if tag == CLOSER:
            opener, _ = pending.pop()
            tokens[opener] = (OPENER, tokens[opener][1], len(tokens) + 1 - opener)
        tokens.append((tag, value, 0))
        at += 3 + length
    if pending:
        raise Refused(3, pending[-1][1])
    return tokens


# ---------------------------------------------------------------------------------------------- the reading

# Keywords that begin no expression, in any form of the grammar.
NO_EXPRESSION = """abstract as box do dyn else enum extern final fn impl in macro mod mut override priv pub ref
struct trait type typeof unsized use virtual where""".split()
# Keywords that begin forms which the model does not know.
OTHER_KEYWORDS = """async await become break const continue for if let loop match move return static try unsafe
while yield""".split()
RANK = {ord("+"): 10, ord("-"): 10, ord("*"): 11, ord("/"): 11, ord("%"): 11}
BINARY = {ord("+"): 1, ord("-"): 2, ord("*"): 3, ord("/"): 4, ord("%"): 5}
UNARY = {ord("*"): 1, ord("!"): 2, ord("-"): 3}
PATH, LITERAL_NODE, UNDERSCORE, PAREN, TUPLE, UNARY_NODE, BINARY_NODE = 1, 2, 3, 7, 8, 17, 20


class Reading:
    """Reads operands, `+ - * / %`, `- * !`, parentheses and tuples. A node is (kind, op, from, to)."""

    def __init__(self, tokens):
        self.tokens = tokens
        self.nodes = []

    def mark(self, at, end):
        """The mark at a place, where it is joined to no other mark, and None where no mark stands."""
        if at >= end or self.tokens[at][0] != MARK:
            return None
        value = self.tokens[at][1]
        if value[1] == 1 and at + 1 < end and self.tokens[at + 1][0] == MARK:
            raise NotModelled
        return value[0]

    def node(self, kind, op, start, stop):
        self.nodes.append((kind, op, start, stop))
        return stop

    def group(self, at):
        closer = at + self.tokens[at][2] - 1
        if closer == at + 1:
            return self.node(TUPLE, 0, at, at + 2)
        stop = self.expression(at + 1, closer, 0)
        if stop == closer:
            return self.node(PAREN, 0, at, closer + 1)
        while stop < closer:
            if self.mark(stop, closer) != ord(","):
                self.left_over(stop)
                raise Refused(7, stop)
            stop += 1
            if stop < closer:
                stop = self.expression(stop, closer, 0)
        return self.node(TUPLE, 0, at, closer + 1)

    def left_over(self, at):
        """Only tokens that go on with an expression in no form of the grammar are left over for the model."""
        tag, value, _ = self.tokens[at]
        if tag in (OPENER, LIFETIME) or (tag == MARK and value[0] not in b",;@$~"):
            raise NotModelled
        if tag == NAME and value.decode() in OTHER_KEYWORDS + NO_EXPRESSION:
            raise NotModelled

    def operand(self, at, end):
        if at == end:
            raise Refused(6, end)
        tag, value, _ = self.tokens[at]
        if tag == NAME:
            word = value.decode()
            if word == "_":
                return self.node(UNDERSCORE, 0, at, at + 1)
            if word in ("true", "false"):
                return self.node(LITERAL_NODE, 0, at, at + 1)
            if word in NO_EXPRESSION:
                raise Refused(6, at)
            if word in OTHER_KEYWORDS:
                raise NotModelled
            return self.node(PATH, 0, at, at + 1)
        if tag in (INTEGER, FLOAT, LITERAL):
            return self.node(LITERAL_NODE, 0, at, at + 1)
        if tag == OPENER and value == b"(":
            return self.group(at)
        if tag in (OPENER, LIFETIME):
            raise NotModelled
        mark = self.mark(at, end)
        if mark in UNARY:
            stop = self.operand(at + 1, end)
            return self.node(UNARY_NODE, UNARY[mark], at, stop)
        if mark in b"+/%^=>,;:.?@$~":
            raise Refused(6, at)
        raise NotModelled

    def expression(self, at, end, least):
        stop = self.operand(at, end)
        while True:
            mark = self.mark(stop, end)
            if mark not in RANK:
                if stop < end and mark is not None and mark not in b",;@$~":
                    raise NotModelled
                return stop
            if RANK[mark] < least:
                return stop
            right = self.expression(stop + 1, end, RANK[mark] + 1)
            stop = self.node(BINARY_NODE, BINARY[mark], at, right)


def entered(nodes, rules, space, page):
    tokens = fields(page, space)
    if min(nodes, MOST_NODES) < len(tokens) or min(rules, MOST_RULES) == 0:
        raise Refused(5, 0)
    reading = Reading(tokens)
    stop = reading.expression(0, len(tokens), 0)
    if stop != len(tokens):
        reading.left_over(stop)
        raise Refused(15, stop)
    lines = ["%d %d %d %d %d" % ((i,) + node) for i, node in enumerate(reading.nodes)]
    shown = lines if len(lines) <= 40 else lines[-1:]
    return "ok 0 %d %s" % (len(lines), ";".join(shown))


def text(place, page):
    tokens = fields(page, MOST_TOKENS)
    if place >= len(tokens):
        raise Refused(17, 0)
    return "text " + tokens[place][1].hex()


# ---------------------------------------------------------------------------------------------- the cases

# The bytes at the edges of the classes, and some others.
EDGES = bytes.fromhex("00010a1f2021222728292a2b2c2e2f30393a4041424546 4f585a5b5c5d5e5f6061626566 6f7078797a7b7c7d7e7f80c3ff".replace(" ", ""))
CASES = []
KNOWN = set()
SENTINEL = bytes.fromhex("08000129")  # a closer of nothing


def heading(words):
    CASES.append(("# " + words, "# " + words))


def add(case, answer):
    if case not in KNOWN:
        KNOWN.add(case)
        CASES.append((case, answer))


def written(pieces):
    """A page is bytes, or a list of pieces, each bytes or (count, bytes). Long runs of one byte are written as a count."""
    if isinstance(pieces, bytes):
        pieces = [(len(run.group()), run.group(1)) if run.group(1) else run.group()
                  for run in re.finditer(rb"(?s)(.)\1{11,}|(?:(?!(.)\2{11}).)+", pieces)]
    shown = ["*%d:%s" % (p[0], p[1].hex()) if isinstance(p, tuple) else p.hex() for p in pieces]
    return ",".join(p for p in shown if p) or "-"


def joined(pieces):
    if isinstance(pieces, bytes):
        return pieces
    return b"".join(p[0] * p[1] if isinstance(p, tuple) else p for p in pieces)


def expected(answer, *arguments):
    try:
        return answer(*arguments)
    except Refused as refused:
        return refused.line


def enter(pieces, nodes=4096, rules=256, space=4096, is_=None):
    """Adds a case; `is_` is an answer that is also known by hand."""
    answer = expected(entered, nodes, rules, space, joined(pieces))
    assert is_ is None or answer == is_, (written(pieces), answer, is_)
    add("%d %d %d %s" % (nodes, rules, space, written(pieces)), answer)


def spell(pieces, nodes=4096, rules=256, space=4096):
    """Adds a case that ends in the page: where the page would be accepted, a closer of nothing follows it."""
    pieces = [pieces] if isinstance(pieces, bytes) else list(pieces)
    try:
        fields(joined(pieces), space)
        pieces = pieces + [SENTINEL]
    except Refused:
        pass
    if all(isinstance(p, bytes) for p in pieces):
        pieces = b"".join(pieces)
    enter(pieces, nodes, rules, space)


def ask(place, pieces, is_=None):
    answer = expected(text, place, joined(pieces))
    assert is_ is None or answer == is_, (written(pieces), answer, is_)
    add("text %d %s" % (place, written(pieces)), answer)


def field(tag, value, length=None):
    length = len(value) if length is None else length
    return bytes([tag, length // 256, length % 256]) + value


def name(word):
    return field(NAME, word.encode())


def mark(c, joint=0):
    return field(MARK, bytes([ord(c), joint]))


def group(c):
    return field(OPENER if c in "([{" else CLOSER, c.encode())


def page_of(words):
    """A page of words with spaces between, all marks alone."""
    page = b""
    for word in words.split():
        if word in ("(", ")", "[", "]", "{", "}"):
            page += group(word)
        elif word[0].isdigit():
            page += field(FLOAT if "." in word else INTEGER, word.encode())
        elif word[0] == '"':
            page += field(LITERAL, word.encode())
        elif word[0] == "'":
            page += field(LIFETIME, word[1:].encode())
        elif word[0].isalpha() or word[0] == "_":
            page += name(word)
        else:
            assert len(word) == 1
            page += mark(word)
    return page


def refused(number, place, host=0, part=0, code=0):
    return "refused %d %d %d %d %d" % (number, place, host, part, code)


def lengths():
    heading("the lengths of a value: the last allowed and the first refused")
    one = "ok 0 1 0 1 0 0 1"
    literal = "ok 0 1 0 2 0 0 1"
    bad = refused(2, 0)
    for n, is_ in ((0, bad), (1, one), (63, one), (64, one), (65, bad), (66, bad), (256, bad), (257, bad)):
        enter(field(NAME, b"n" * n), is_=is_)
    for n, is_ in ((0, bad), (1, bad), (2, refused(6, 0)), (3, bad), (4, bad), (258, bad)):
        enter(field(MARK, (b",\0" * 129)[:n]), is_=is_)
    for n, is_ in ((0, bad), (1, literal), (19, literal), (20, literal), (21, bad), (22, bad), (257, bad), (276, bad)):
        enter(field(INTEGER, b"7" * n), is_=is_)
        enter(field(INTEGER, (b"7" + b"u" * n)[:n]), is_=is_)
    for n, is_ in ((0, bad), (1, bad), (2, literal), (3, literal), (39, literal), (40, literal), (41, bad), (258, bad)):
        enter(field(FLOAT, (b"7." + b"5" * n)[:n]), is_=is_)
        if n > 0:
            enter(field(FLOAT, b"7" * (n - 1) + b"."), is_=is_)
    for n, is_ in ((0, bad), (1, literal), (255, literal), (256, literal), (257, literal), (1023, literal),
                   (1024, literal), (1025, bad), (1026, bad), (2048, bad)):
        enter([field(LITERAL, b"", n), (n, b"\"")] if n > 99 else field(LITERAL, b"\"" * n), is_=is_)
    for n in (0, 1, 63, 64, 65, 66, 256, 257):
        spell(field(LIFETIME, b"l" * n))
    for tag, c in ((OPENER, b"("), (CLOSER, b")")):
        for n in (0, 1, 2, 3, 257):
            enter(field(tag, c * n))
    enter(group("(") + field(CLOSER, b"))"), is_=refused(2, 4))


def tags():
    heading("tag bytes, with the value `a`")
    for tag in sorted(set(range(16)) | set(EDGES)):
        enter(field(tag, b"a")) if tag != LIFETIME else spell(field(tag, b"a"))
    heading("every tag from 0 to 9 with a value of its kind, with no value, and where the page breaks off in its head")
    values = [b"a", b"a", b",\0", b"1", b"1.", b"\"", b"a", b"(", b")", b"a"]
    for tag in range(10):
        spell(field(tag, values[tag]))
        enter(field(tag, b""), is_=refused(2, 0))
        enter(bytes([tag, 0]), is_=refused(1, 0))
        enter(bytes([tag]), is_=refused(1, 0))


def all_bytes():
    every = range(256)

    def each(words, among, make, adding=enter):
        heading(words)
        for b in among:
            adding(make(bytes([b])))

    each("every byte as a name", every, lambda b: field(NAME, b))
    each("bytes as the second of a name", EDGES, lambda b: field(NAME, b"a" + b))
    each("bytes as the last of a name of 64", EDGES, lambda b: field(NAME, b"a" * 63 + b))
    each("every byte as a mark, not joined", every, lambda b: field(MARK, b + b"\0"), spell)
    each("bytes as a mark, joined", EDGES, lambda b: field(MARK, b + b"\1"), spell)
    each("bytes as the joint of a mark", sorted(set(EDGES) | {2}), lambda b: field(MARK, b"+" + b), spell)
    each("bytes as an integer", EDGES, lambda b: field(INTEGER, b))
    each("every byte as the second of an integer", every, lambda b: field(INTEGER, b"1" + b))
    each("every byte as the first of an integer's suffix, more behind it", every, lambda b: field(INTEGER, b"90" + b + b"_8z"))
    each("bytes as the second of an integer's suffix", EDGES, lambda b: field(INTEGER, b"0u" + b))
    each("bytes as the last of an integer of 20", EDGES, lambda b: field(INTEGER, b"5" * 19 + b))
    each("bytes as the first of a float", EDGES, lambda b: field(FLOAT, b + b"."))
    each("bytes as the second of a float", EDGES, lambda b: field(FLOAT, b"1" + b))
    each("bytes as the third of a float", EDGES, lambda b: field(FLOAT, b"1." + b))
    each("bytes as the last of a float of 40", EDGES, lambda b: field(FLOAT, b"3" * 38 + b"." + b))
    each("bytes as a literal", EDGES, lambda b: field(LITERAL, b))
    each("bytes as a lifetime", EDGES, lambda b: field(LIFETIME, b), spell)
    each("bytes as the second of a lifetime", EDGES, lambda b: field(LIFETIME, b"l" + b), spell)
    each("every byte as an opener", every, lambda b: field(OPENER, b))
    each("every byte as a closer", every, lambda b: field(CLOSER, b))
    each("bytes as the closer of `(`", EDGES, lambda b: group("(") + field(CLOSER, b))
    each("bytes as the closer of `[`", EDGES, lambda b: group("[") + field(CLOSER, b), spell)
    each("bytes as the closer of `{`", EDGES, lambda b: group("{") + field(CLOSER, b), spell)
    heading("values in full")
    for value in (b"1", b"0", b"007", b"1u8", b"1B", b"1b", b"1O", b"1o", b"1X", b"1x", b"1e", b"1E", b"1e5", b"0x1f", b"0b1", b"0o7",
                  b"1_0", b"1_u8", b"1u_", b"1u8_", b"12345678901234567890", b"u8", b"_1", b"-1", b"1.", b"1 ", b" 1",
                  b"1a1", b"1z.", b"1Z9_9", b"1uu", b"1ub", b"1u-"):
        enter(field(INTEGER, value))
    for value in (b"1.", b"1.5", b".5", b"1.5f", b"1..", b"1.5.", b"..", b"0.0", b"00.00", b"1e5", b"1.e5", b"1._5", b"10", b"1,5", b"1. ", b" 1.",
                  b"-1.", b"1.-5", b"12345678901234567890.1234567890123456789"):
        enter(field(FLOAT, value))
    for value in (b"a", b"_", b"__", b"_a", b"a1", b"1a", b"a-b", b"a b", b"a ", b" a", b"A_9z", b"r#a", b"a'", b"\xc3\xa4", b"a\0", b"a\n"):
        enter(field(NAME, value))
    heading("what names spell")
    for word in NO_EXPRESSION:
        enter(name(word), is_=refused(6, 0))
        enter(name(word + "x"), is_="ok 0 1 0 1 0 0 1")
        enter(name("x" + word), is_="ok 0 1 0 1 0 0 1")
        enter(name(word.upper()), is_="ok 0 1 0 1 0 0 1")
        spell(field(LIFETIME, word.encode()))
    for word in OTHER_KEYWORDS:
        enter(name(word[:-1] + "_"), is_="ok 0 1 0 1 0 0 1")
        enter(name(word + word), is_="ok 0 1 0 1 0 0 1")
    for word in "union auto default safe macro_rules gen raw self Self super crate True False tru fals true_ SELF".split():
        enter(name(word), is_="ok 0 1 0 1 0 0 1")
    enter(name("true"), is_="ok 0 1 0 2 0 0 1")
    enter(name("false"), is_="ok 0 1 0 2 0 0 1")
    enter(name("_"), is_="ok 0 1 0 3 0 0 1")


def many_tokens():
    a, plus, minus = name("a"), mark("+"), mark("-")
    heading("as many tokens as there is room for, and one more")
    for n in (4095, 4096, 4097, 4098):
        for space in (4096, 4200, 4097, 4095, 100):
            enter([(n, a)], space=space)
    enter([(4096, a)], is_=refused(15, 1))
    enter([(4097, a)], is_=refused(4, 16384))
    enter([(4097, a)], space=4200, is_=refused(4, 16384))
    enter([(4097, a)], space=100, is_=refused(4, 400))
    for space in (0, 1, 2, 3, 99, 100, 101, 255, 256, 257):
        for n in (space, space + 1):
            enter([(n, a)], space=space)
    enter(b"", space=0, is_=refused(6, 0))
    enter(a, space=0, is_=refused(4, 0))
    heading("the longest rules")
    long_sum = [(2047, a + plus), a]
    enter(long_sum, is_="ok 0 4095 4094 20 1 0 4095")
    enter(long_sum, space=4095, nodes=4095, is_="ok 0 4095 4094 20 1 0 4095")
    enter(long_sum, space=4094, is_=refused(4, 2047 * 9))
    enter(long_sum, nodes=4094, is_=refused(5, 0))
    enter([minus] + long_sum, is_="ok 0 4096 4095 20 1 0 4096")
    enter([minus] + long_sum, nodes=4200, rules=300, space=4200, is_="ok 0 4096 4095 20 1 0 4096")
    enter([minus] + long_sum, nodes=4095, is_=refused(5, 0))
    enter([minus] + long_sum, space=4095, is_=refused(4, 5 + 2047 * 9))
    enter([minus, minus] + long_sum, space=4200, is_=refused(4, 10 + 2047 * 9))
    enter([(2048, a + plus)], is_=refused(6, 4096))
    enter([(4095, minus), a], is_="ok 0 4096 4095 17 3 0 4096")
    enter([(4096, minus), a], is_=refused(4, 4096 * 5))
    enter([(4096, minus)], is_=refused(6, 4096))
    enter([a, (2047, mark("*") + a)])
    enter([(1023, a + mark("*") + a + plus), a + mark("*") + a])
    heading("sums of 1 to 22 operands, with room for exactly so many tokens and nodes, and one short")
    for n in range(1, 23):
        page = a + (plus + a) * (n - 1)
        count = 2 * n - 1
        enter(page, nodes=count, space=count)
        enter(page, nodes=count, space=count - 1, is_=refused(4, len(page) - 4))
        enter(page, nodes=count - 1, space=count, is_=refused(5, 0))
    heading("the deepest groups")
    for c, d in ("()", "[]", "{}"):
        enter([(4096, group(c))], is_=refused(3, 4095 * 4))
        enter([(4097, group(c))], is_=refused(4, 4096 * 4))
        enter([(100, group(c))], space=100, is_=refused(3, 99 * 4))
        enter([(4095, group(c)), group(d)], is_=refused(3, 4093 * 4))
        enter([(2048, group(c)), (2048, group(d)), SENTINEL], is_=refused(3, 4096 * 4))
        enter([(2048, group(c)), (2049, group(d))], is_=refused(3, 4096 * 4))
        enter([(2048, group(c)), (2047, group(d))], is_=refused(3, 0))
        enter([(2048, group(c)), (2046, group(d))], is_=refused(3, 4))
    enter([(1365, group("(") + group("[") + group("{")), group("(")], is_=refused(3, 4095 * 4))
    enter([(682, group("(") + group("[") + group("{")), (682, group("}") + group("]") + group(")")), SENTINEL], is_=refused(3, 4092 * 4))
    enter([(682, group("(") + group("[") + group("{")), (681, group("}") + group("]") + group(")")), group("}"), group("]")], is_=refused(3, 0))
    enter([(2047, group("(")), a, (2047, group(")"))], is_="ok 0 2048 2047 7 0 0 4095")
    enter([(2048, group("(")), (2048, group(")"))], is_="ok 0 2048 2047 7 0 0 4096")
    enter([(2047, group("(")), a, (2046, group(")")), group("]")], is_=refused(3, 4094 * 4))
    enter([(2047, group("(")), a, group("]"), (2046, group(")"))], is_=refused(3, 2048 * 4))
    enter([group("("), (2046, a + mark(",")), a, group(")")], is_="ok 0 2048 2047 8 0 0 4095")
    enter([group("("), (2047, a + mark(",")), group(")")], is_="ok 0 2048 2047 8 0 0 4096")
    enter([(1023, group("(") + a + plus), a, (1023, group(")"))])
    heading("the 4,097th field")
    for field_ in (a, mark("+"), page_of("1"), page_of("1.5"), page_of('"'), page_of("'l"), group("("), group(")"), group("]"), group("}"),
                   field(9, b"a"), field(NAME, b""), field(NAME, b"1"), field(MARK, b"+"), field(NAME, b"ab")[:-1], b"\1\0", b"\1", b"\x09\0", b""):
        enter([(4096, a), field_])
    enter([group("("), (4095, a), group(")")], is_=refused(4, 4096 * 4))
    enter([group("("), (4095, a), group("]")], is_=refused(3, 4096 * 4))
    enter([group("("), (4095, a)], is_=refused(3, 0))
    enter([group("("), (4096, a)], is_=refused(4, 4096 * 4))
    enter([(4095, a), group("(")], is_=refused(3, 4095 * 4))
    enter([(4095, a), group("("), group(")")], is_=refused(4, 4096 * 4))
    enter([group("("), (4094, a), group(")")], nodes=4095, is_=refused(5, 0))


def cuts():
    page = page_of("a + ( _ , 1u8 , 2.5 , \"xy\" ) * - true ; 'life")
    heading("a page cut at every byte")
    for n in range(len(page) + 1):
        spell(page[:n]) if n == len(page) else enter(page[:n])
    heading("a page that begins at every byte")
    for n in range(1, len(page)):
        try:
            enter(page[n:])
        except NotModelled:
            spell(page[n:])
    heading("a page with a space of every size, and with nodes of every number")
    whole = page_of("( a + b ) * ( c - ( 1 , 2.0 ) ) + _")
    for n in range(20):
        enter(whole, space=n)
        enter(whole, nodes=n)
    heading("a page with each of its bytes changed")
    page = page_of("( a1 + 7u , 2.5 ) * xyz")
    for n in range(len(page)):
        for change in (0, 2, 0x5D, 0xFF):
            changed = page[:n] + bytes([change]) + page[n + 1:]
            try:
                enter(changed)
            except NotModelled:
                spell(changed)


def groups():
    heading("rows of one to three openers and closers of all kinds")
    shapes = "([{)]}"
    rows = [x for x in shapes] + [x + y for x in shapes for y in shapes] + [x + y + z for x in shapes for y in shapes for z in shapes]
    for row in rows:
        spell(b"".join(group(c) for c in row))
    heading("rows of four with one opener open, closed well or closed by another kind")
    for x in "([{":
        for y in "([{":
            for u in ")]}":
                for v in ")]}":
                    spell(group(x) + name("a") + group(y) + group(u) + name("b") + group(v))
    heading("closers of another kind at some depth")
    for depth in (1, 2, 3, 10):
        for c, d in ("()", "[]", "{}"):
            for wrong in ")]}":
                spell(group(c) * depth + group(d) * (depth - 1) + group(wrong))
    heading("groups that are read")
    known = {
        "( )": "ok 0 1 0 8 0 0 2",
        "( a )": "ok 0 2 0 1 0 1 2;1 7 0 0 3",
        "( ( ( a ) ) )": "ok 0 4 0 1 0 3 4;1 7 0 2 5;2 7 0 1 6;3 7 0 0 7",
        "( ( ) )": "ok 0 2 0 8 0 1 3;1 7 0 0 4",
        "( a , )": "ok 0 2 0 1 0 1 2;1 8 0 0 4",
        "( a , b )": "ok 0 3 0 1 0 1 2;1 1 0 3 4;2 8 0 0 5",
        "( a , b , )": "ok 0 3 0 1 0 1 2;1 1 0 3 4;2 8 0 0 6",
        "( ( ) , )": "ok 0 2 0 8 0 1 3;1 8 0 0 5",
        "( a + b ) + c": "ok 0 6 0 1 0 1 2;1 1 0 3 4;2 20 1 1 4;3 7 0 0 5;4 1 0 6 7;5 20 1 0 7",
        "a + ( b + c )": "ok 0 6 0 1 0 0 1;1 1 0 3 4;2 1 0 5 6;3 20 1 3 6;4 7 0 2 7;5 20 1 0 7",
        "( a b )": refused(7, 2),
        "( a , b c )": refused(7, 4),
        "( a ; )": refused(7, 2),
        "( , )": refused(6, 1),
        "( a , , )": refused(6, 3),
        "( a + )": refused(6, 3),
        "( a , b + )": refused(6, 5),
        "( ( a + ) )": refused(6, 4),
        "( a )  b": refused(15, 3),
        "( ) ,": refused(15, 2),
    }
    for words, is_ in known.items():
        enter(page_of(words), is_=is_)


def readings():
    heading("short rules")
    known = {
        "a": "ok 0 1 0 1 0 0 1",
        "_": "ok 0 1 0 3 0 0 1",
        "true": "ok 0 1 0 2 0 0 1",
        "1": "ok 0 1 0 2 0 0 1",
        "2.5": "ok 0 1 0 2 0 0 1",
        '"': "ok 0 1 0 2 0 0 1",
        "a + b": "ok 0 3 0 1 0 0 1;1 1 0 2 3;2 20 1 0 3",
        "a + b + c": "ok 0 5 0 1 0 0 1;1 1 0 2 3;2 20 1 0 3;3 1 0 4 5;4 20 1 0 5",
        "a + b * c": "ok 0 5 0 1 0 0 1;1 1 0 2 3;2 1 0 4 5;3 20 3 2 5;4 20 1 0 5",
        "- a": "ok 0 2 0 1 0 1 2;1 17 3 0 2",
        "a b": refused(15, 1),
        "a + b c": refused(15, 3),
        "a ,": refused(15, 1),
        "a +": refused(6, 2),
        "+ a": refused(6, 0),
        ",": refused(6, 0),
        ", a": refused(6, 0),
        "fn": refused(6, 0),
        "a + fn": refused(6, 2),
        "fn a": refused(6, 0),
        "a + ,": refused(6, 2),
        "-": refused(6, 1),
        "- -": refused(6, 2),
        "1 2": refused(15, 1),
        "1 a": refused(15, 1),
        '" "': refused(15, 1),
        "_ _": refused(15, 1),
    }
    for words, is_ in known.items():
        enter(page_of(words), is_=is_)
    heading("a joint that no mark follows")
    enter(name("a") + mark("+", 1) + name("b"), is_="ok 0 3 0 1 0 0 1;1 1 0 2 3;2 20 1 0 3")
    enter(name("a") + mark("+", 1), is_=refused(6, 2))
    enter(mark("-", 1) + name("b"), is_="ok 0 2 0 1 0 1 2;1 17 3 0 2")
    enter(mark(",", 1), is_=refused(6, 0))
    heading("the empty page")
    enter(b"", is_=refused(6, 0))
    enter(b"", nodes=0, rules=1, space=0, is_=refused(6, 0))
    enter(b"", nodes=0, rules=0, space=0, is_=refused(5, 0))
    enter(b"", rules=0, is_=refused(5, 0))


def orders():
    heading("the order of the checks within a field")
    enter(bytes([9]), is_=refused(1, 0))
    enter(bytes([9, 0]), is_=refused(1, 0))
    enter(bytes([9, 0, 0]), is_=refused(2, 0))
    enter(bytes([9, 0, 1]), is_=refused(2, 0))
    enter(bytes([0, 0, 1]), is_=refused(2, 0))
    enter(bytes([2, 0, 3]), is_=refused(2, 0))
    enter(bytes([2, 0, 1]), is_=refused(2, 0))
    enter(bytes([1, 0, 65]), is_=refused(2, 0))
    enter(bytes([1, 0, 64]), is_=refused(1, 0))
    enter(bytes([1, 1, 0]), is_=refused(2, 0))
    enter(bytes([5, 4, 1]), is_=refused(2, 0))
    enter(bytes([5, 4, 0]), is_=refused(1, 0))
    enter(bytes([5, 255, 255]), is_=refused(2, 0))
    enter(bytes([3, 0, 21]), is_=refused(2, 0))
    enter(bytes([3, 0, 20]), is_=refused(1, 0))
    enter(bytes([4, 0, 41]), is_=refused(2, 0))
    enter(bytes([4, 0, 40]), is_=refused(1, 0))
    enter(bytes([4, 0, 1]), is_=refused(2, 0))
    enter(bytes([7, 0, 2]), is_=refused(2, 0))
    enter(bytes([8, 0, 1]), is_=refused(1, 0))
    enter(field(NAME, b"1", 2), is_=refused(1, 0))
    enter(field(MARK, b"a", 2), is_=refused(1, 0))
    enter(field(NAME, b"1" * 64, 64), is_=refused(2, 0))
    enter(field(INTEGER, b"a" * 19, 20), is_=refused(1, 0))
    enter(field(CLOSER, b"("), is_=refused(2, 0))
    enter(field(OPENER, b")"), is_=refused(2, 0))
    enter(group(")"), is_=refused(3, 0))
    heading("the order of the checks with little room")
    enter(field(9, b"a"), space=0, is_=refused(2, 0))
    enter(field(NAME, b"1"), space=0, is_=refused(2, 0))
    enter(b"\1\0", space=0, is_=refused(1, 0))
    enter(group(")"), space=0, is_=refused(3, 0))
    enter(group("("), space=0, is_=refused(4, 0))
    enter(group("(") + group(")"), space=1, is_=refused(4, 4))
    enter(group("(") + group("]"), space=1, is_=refused(3, 4))
    enter(group("("), space=1, is_=refused(3, 0))
    enter(name("a") + group("("), space=1, is_=refused(4, 4))
    heading("the order of fields: the first one that is refused decides")
    enter(group("(") + field(9, b"a"), is_=refused(2, 4))
    enter(group("(") + b"\1\0", is_=refused(1, 4))
    enter(group("(") + name("a") + field(NAME, b""), is_=refused(2, 8))
    enter(name("a") + b"\1\0", is_=refused(1, 4))
    enter(name("a") + field(9, b"a") + group(")"), is_=refused(2, 4))
    enter(name("a") + group(")") + field(9, b"a"), is_=refused(3, 4))
    enter(field(NAME, b"1") + group(")"), is_=refused(2, 0))
    enter(group("(") + group("[") + group("]"), is_=refused(3, 0))
    enter(group("(") + group(")") + group("["), is_=refused(3, 8))
    enter(group("(") + group("[") + name("a") + group("{"), is_=refused(3, 12))
    heading("the page before the room on the sheet, and that before the reading")
    for nodes, rules in ((0, 0), (0, 1), (1, 0), (4096, 0)):
        enter(field(9, b"a"), nodes, rules, is_=refused(2, 0))
        enter(b"\1", nodes, rules, is_=refused(1, 0))
        enter(group("("), nodes, rules, is_=refused(3, 0))
        enter(group(")"), nodes, rules, is_=refused(3, 0))
        enter(name("a"), nodes, rules, space=0, is_=refused(4, 0))
        enter(name("a"), nodes, rules, is_=refused(5, 0))
        enter(mark(","), nodes, rules, is_=refused(5, 0))
        enter(name("a") + name("b"), nodes, rules, is_=refused(5, 0))


def sheets():
    heading("room on the sheet: exactly enough, and one short")
    for words in ("a", "- a", "a b", "( a )", "( )", "a + b", "( a , )", "( a b )", "( ( a ) )", "a +", ",", "fn", "a + b * c - 1"):
        page = page_of(words)
        count = len(fields(page, 4096))
        for nodes in (count - 1, count, count + 1):
            for rules in (0, 1):
                enter(page, nodes, rules)
    heading("rule spaces of every kind")
    for rules in (0, 1, 2, 255, 256, 257, 300):
        enter(page_of("a + b"), rules=rules)
    heading("node spaces of every kind")
    for nodes in (0, 1, 2, 3, 4, 4095, 4096, 4097, 4200):
        enter(page_of("a + b"), nodes=nodes)
        enter([(4095, mark("-")), name("a")], nodes=nodes)
    heading("forty nodes, and more")
    for n in (38, 39, 40, 41):
        enter([(n, mark("-")), name("a")])


def texts():
    heading("the text of every token, and past the end")
    for words in ("a", "a + b", "( amount + 12u8 ) * 2.5 - \"two-words\" , 'life ; [ { _ } ]"):
        page = page_of(words)
        count = len(fields(page, 4096))
        for place in list(range(count + 3)) + [4095, 4096, 2 ** 64 - 1]:
            ask(place, page)
    page = page_of("a + b")
    ask(0, page, "text 61")
    ask(1, page, "text 2b00")
    ask(2, page, "text 62")
    ask(3, page, refused(17, 0))
    ask(0, b"", refused(17, 0))
    ask(2 ** 64 - 1, b"", refused(17, 0))
    heading("the text of pages that no rule is")
    for words in ("fn", ", ,", "a b", "a +", "[ ]"):
        for place in range(4):
            ask(place, page_of(words))
    heading("the longest texts")
    for tag, value in ((NAME, b"n" * 64), (LIFETIME, b"l" * 64), (INTEGER, b"1" * 20), (FLOAT, b"1" * 39 + b".")):
        ask(0, field(tag, value), "text " + value.hex())
        ask(1, field(tag, value), refused(17, 0))
        ask(0, field(tag, value + value[:1]), refused(2, 0))
    sixteen = bytes(range(0, 256, 17))
    for place in (0, 1):
        ask(place, [field(LITERAL, b"", 1024), (64, sixteen)])
    ask(0, [field(LITERAL, b"", 1025), (64, sixteen), b"."], refused(2, 0))
    heading("the text of many tokens")
    a = name("a")
    for place in (0, 4094, 4095, 4096, 4097):
        ask(place, [(4095, a), name("b")])
        ask(place, [(4095, a)])
        ask(place, [(4097, a)], refused(4, 16384))
    ask(4096, [(4096, a), group(")")], refused(3, 16384))
    ask(4095, [(2048, group("(")), (2048, group(")"))], "text 29")
    ask(4096, [(2048, group("(")), (2048, group(")"))], refused(17, 0))
    heading("the text of a page that is refused, before and behind the place that is refused")
    good = name("a") + mark("+")
    for bad in (b"\1", b"\1\0", field(9, b"a"), field(NAME, b""), field(NAME, b"x" * 65), field(NAME, b"-"), field(NAME, b"ab")[:-1],
                group(")"), group("("), group("(") + group("]"), group("{") + name("b")):
        for place in (0, 1, 2, 3, 99):
            ask(place, good + bad)
        ask(0, bad + good)
    heading("the text of a page cut at every byte")
    page = page_of("( a1 , 2.5 ) + x")
    for n in range(len(page) + 1):
        ask(n % 3, page[:n])


def random_page(rng):
    page = b""
    for _ in range(rng.randrange(1, 9)):
        tag = rng.choice((1, 1, 1, 2, 2, 2, 3, 4, 5, 6, 7, 7, 8, 8))
        least, most = LENGTHS[tag]
        n = rng.randrange(least, min(most, least + 5) + 1)
        letters = rng.choice((b"ab_Zx", b"019", b"1.", b"1ueb_", bytes(range(256))))
        value = bytes(rng.choice(letters) for _ in range(n))
        if tag in (NAME, LIFETIME) and rng.random() < 0.9:
            value = bytes(rng.choice(b"abcxyz_AZ019"[:12 if i else 9]) for i in range(n))
        if tag == MARK and rng.random() < 0.9:
            value = bytes([rng.choice(MARKS), rng.choice((0, 0, 1))])
        if tag == FLOAT and rng.random() < 0.9:
            value = b"1" * (n - 1) + b"."
        if tag == OPENER and rng.random() < 0.9:
            value = bytes([rng.choice(OPENERS)])
        if tag == CLOSER and rng.random() < 0.9:
            value = bytes([rng.choice(CLOSERS)])
        page += field(tag, value)
    for _ in range(rng.choice((0, 0, 1, 1, 2))):
        at = rng.randrange(len(page) + 1)
        way = rng.randrange(3)
        if way == 0:
            page = page[:at]
        elif way == 1:
            page = page[:at] + bytes([rng.randrange(256)]) + page[at + 1:]
        else:
            page = page[:at] + bytes([rng.randrange(10)]) + page[at:]
    return page


def random_rule(rng, depth):
    """Words of a rule that the model reads, now and then with one too many or one too few."""
    kind = rng.randrange(8 if depth else 3)
    if kind < 3:
        words = [rng.choice(("a", "b1", "_", "true", "7", "3u8", "2.5", '"x'))]
    elif kind < 6:
        words = random_rule(rng, depth - 1) + [rng.choice("++-*/%")] + random_rule(rng, depth - 1)
    elif kind == 6:
        words = [rng.choice("-!*")] + random_rule(rng, depth - 1)
    else:
        items = [random_rule(rng, depth - 1) for _ in range(rng.randrange(4))]
        inner = [w for item in items for w in item + [","]]
        words = ["("] + (inner[:-1] if rng.random() < 0.7 else inner) + [")"]
    if rng.random() < 0.03:
        del words[rng.randrange(len(words))]
    if rng.random() < 0.03:
        words.insert(rng.randrange(len(words) + 1), rng.choice(("a", ",", "+", "fn", ";")))
    return words


def random_cases():
    rng = random.Random(20240917)
    heading("bytes at random")
    for _ in range(100):
        page = bytes(rng.randrange(10) if rng.random() < 0.7 else rng.randrange(256) for _ in range(rng.randrange(14)))
        try:
            enter(page)
        except NotModelled:
            spell(page)
    heading("fields at random, with some bytes changed, in spaces of some sizes")
    for _ in range(300):
        page = random_page(rng)
        space = rng.choice((4096, 4096, 4096, 4200, 3, 5, 8))
        nodes = rng.choice((4096, 4096, 4096, 4200, 3, 5, 8))
        rules = rng.choice((256, 256, 1, 300, 0))
        try:
            enter(page, nodes, rules, space)
        except NotModelled:
            spell(page, nodes, rules, space)
    heading("texts of such pages")
    for _ in range(120):
        ask(rng.randrange(9), random_page(rng))
    heading("rules at random, some with a word too many or too few")
    added = 0
    while added < 200:
        page = page_of(" ".join(random_rule(rng, 4)))
        if len(page) > 300:
            continue
        try:
            enter(page)
            added += 1
        except NotModelled:
            pass


def main():
    for part in (readings, groups, lengths, tags, all_bytes, many_tokens, cuts, orders, sheets, texts, random_cases):
        part()
    with open(sys.argv[1] + "/stdin", "w") as f:
        f.write("".join(case + "\n" for case, _ in CASES))
    with open(sys.argv[1] + "/stdout", "w") as f:
        f.write("".join(answer + "\n" for _, answer in CASES))
    print(len(CASES), "lines")


if __name__ == "__main__":
    main()
