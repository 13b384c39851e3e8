"""Finds the functions of a Rattle source file and the small edits that can be made in their bodies.

Comments, texts, contracts, ghost members and tests are passed over. An edit replaces one stretch of the text.
"""

import re
from dataclasses import dataclass

TOKEN = re.compile(
    r"""(?P<comment>//[^\n]*|/\*.*?\*/)
      | (?P<text>b?"(?:\\.|[^"\\])*")
      | (?P<char>b?'(?:\\.[^']*|[^'\\])')
      | (?P<lifetime>'\w+)
      | (?P<number>\d[\d_]*(?:\.\d+)?(?:[iu](?:8|16|32|64|128|size))?)
      | (?P<word>[^\W\d]\w*)
      | (?P<sign><=|>=|==|!=|&&|\|\||\+=|-=|\*=|/=|%=|->|=>|::|\.\.=|\.\.|[^\s\w])""",
    re.VERBOSE | re.DOTALL,
)
OPEN, CLOSE = "([{", ")]}"
OTHER_SIGN = {
    "<": "<=", "<=": "<", ">": ">=", ">=": ">", "==": "!=", "!=": "==", "&&": "||", "||": "&&",
    "+": "-", "-": "+", "*": "+", "/": "*", "%": "/", "+=": "-=", "-=": "+=", "..": "..=", "..=": "..",
}
OTHER_WORD = {"true": "false", "false": "true", "min": "max", "max": "min"}
CLAUSES = ("requires", "ensures", "ghost", "decreases")
KEYWORDS = ("if", "while", "match", "for", "return", "in", "let", "fn", "else", "loop", "as", "mut", "ref")


@dataclass(frozen=True)
class Token:
    kind: str
    text: str
    start: int
    end: int


@dataclass(frozen=True)
class Edit:
    function: str
    what: str
    start: int
    end: int
    new: str


class Source:
    """The text of one file as tokens, with the partner of each bracket."""

    def __init__(self, text):
        self.text = text
        found = (Token(m.lastgroup, m.group(), m.start(), m.end()) for m in TOKEN.finditer(text))
        self.tokens = [token for token in found if token.kind != "comment"]
        self.partner = {}
        waiting = []
        for at, token in enumerate(self.tokens):
            if token.kind != "sign":
                continue
            if token.text in OPEN:
                waiting.append(at)
            elif token.text in CLOSE and waiting:
                opened = waiting.pop()
                self.partner[opened], self.partner[at] = at, opened

    def word(self, at):
        return self.tokens[at].text if 0 <= at < len(self.tokens) else ""

    def between(self, first, end):
        """The text of the tokens from first to end - 1."""
        return self.text[self.tokens[first].start:self.tokens[end - 1].end] if first < end else ""

    def parts(self, opened):
        """The parts between commas of what a bracket holds, as pairs of first token and end."""
        parts, first, at = [], opened + 1, opened + 1
        while at < self.partner[opened]:
            if self.word(at) in OPEN and at in self.partner:
                at = self.partner[at]
            elif self.word(at) == ",":
                parts.append((first, at))
                first = at + 1
            at += 1
        if first < self.partner[opened]:
            parts.append((first, self.partner[opened]))
        return parts

    def functions(self):
        """The name and the brackets of each body, but not of tests."""
        found, at = [], 0
        while at < len(self.tokens):
            if self.word(at) == "#" and self.word(at + 1) == "[":
                close = self.partner[at + 1]
                if self.between(at + 2, close) in ("test", "cfg(test)"):
                    at = self.end_of_item(close + 1)
                    continue
                at = close + 1
                continue
            if self.word(at) == "fn" and self.tokens[at + 1].kind == "word":
                opened = self.body(at + 2)
                if opened is not None:
                    found.append((self.word(at + 1), opened))
                    at = self.partner[opened]
            at += 1
        return found

    def end_of_item(self, at):
        """The place behind a `mod x;`, or behind the body of a function or module."""
        while at < len(self.tokens) and self.word(at) not in (";", "{"):
            if self.word(at) in "([" and at in self.partner:
                at = self.partner[at]
            elif self.word(at) in CLAUSES:
                at = self.clause_end(at)
            at += 1
        return at + 1 if self.word(at) == ";" else self.partner.get(at, at) + 1

    def clause_end(self, at):
        while self.word(at) != "{":
            at += 1
        return self.partner[at]

    def body(self, at):
        """The bracket that opens a function's body; none where a `;` ends its signature."""
        while at < len(self.tokens):
            if self.word(at) == ";":
                return None
            if self.word(at) == "{":
                return at
            if self.word(at) in CLAUSES:
                at = self.clause_end(at)
            elif self.word(at) in ("(", "[") and at in self.partner:
                at = self.partner[at]
            at += 1
        return None


def edits_of(text):
    """All edits of a file."""
    source = Source(text)
    edits = []
    for name, opened in source.functions():
        here = range(opened + 1, source.partner[opened])
        for at in here:
            edits += token_edits(source, name, at)
            edits += call_edits(source, name, at)
            edits += arm_edits(source, name, at)
        edits += condition_edits(source, name, here)
        edits += statement_edits(source, name, opened)
    return edits + constant_edits(source)


def constant_edits(source):
    """One more or one less in a `const`."""
    edits = []
    for at, token in enumerate(source.tokens):
        if token.text == "const" and source.word(at + 2) == ":":
            name, at = source.word(at + 1), at + 3
            while source.word(at) not in ("=", ";", ""):
                at = source.partner.get(at, at) + 1
            if source.tokens[at + 1].kind == "number" and source.word(at + 2) == ";":
                edits += number_edits(source.tokens[at + 1], "const " + name)
    return edits


def number_edits(token, name):
    digits = re.match(r"[\d_]+", token.text).group()
    tail, value = token.text[len(digits):], int(digits.replace("_", ""))
    near = [value + 1] + ([value - 1] if value > 0 else [])
    return [Edit(name, "constant one off", token.start, token.end, f"{other}{tail}") for other in near]


def token_edits(source, name, at):
    token = source.tokens[at]
    spaced = source.text[token.start - 1].isspace() and source.text[token.end].isspace()
    if token.kind == "number" and source.word(at - 1) != ".":
        return number_edits(token, name)
    if token.text in ("..", "..=") or token.text in OTHER_SIGN and token.kind == "sign" and spaced:
        return [Edit(name, "another sign", token.start, token.end, OTHER_SIGN[token.text])]
    if token.kind == "word" and token.text in OTHER_WORD:
        return [Edit(name, "another word", token.start, token.end, OTHER_WORD[token.text])]
    if token.text == "!" and source.text[token.end] not in "=([{ ":
        return [Edit(name, "condition turned", token.start, token.end, "")]
    return []


def swapped(source, name, what, first, second):
    """Two stretches of tokens in each other's place."""
    a, b = source.between(*first), source.between(*second)
    if not a or not b or a == b:
        return []
    start, end = source.tokens[first[0]].start, source.tokens[second[1] - 1].end
    middle = source.text[source.tokens[first[1] - 1].end:source.tokens[second[0]].start]
    return [Edit(name, what, start, end, b + middle + a)]


def call_edits(source, name, at):
    """Neighbours among the arguments of a call, or the values of a struct's fields, swapped."""
    if at not in source.partner or source.tokens[at - 1].kind != "word" or source.word(at - 1) in KEYWORDS:
        return []
    parts = source.parts(at) if source.word(at) in ("(", "{") else []
    if source.word(at) == "{":
        if not source.word(at - 1)[0].isupper() or source.word(at - 2) in ("match", "if", "in"):
            return []
        parts = [(first + 2, end) for first, end in parts if source.word(first + 1) == ":"]
    pairs = zip(parts, parts[1:])
    return [edit for one, two in pairs for edit in swapped(source, name, "arguments swapped", one, two)]


def arm_edits(source, name, at):
    """The results of neighbouring arms of a `match` exchanged."""
    if source.word(at) != "{" or at not in source.partner:
        return []
    first = at
    while source.word(first - 1) not in (";", "{", "}", "=>", "") and source.word(first) != "match":
        first -= 1
    if source.word(first) != "match":
        return []
    arms, place = [], at + 1
    while place < source.partner[at]:
        if source.word(place) in OPEN and place in source.partner:
            place = source.partner[place]
        elif source.word(place) == "=>":
            start = place + 1
            if source.word(start) == "{":
                end = source.partner[start] + 1
            else:
                end = start
                while end < source.partner[at] and source.word(end) != ",":
                    end = source.partner.get(end, end) + 1 if source.word(end) in OPEN else end + 1
            arms.append((start, end))
            place = end
        place += 1
    pairs = zip(arms, arms[1:])
    return [edit for one, two in pairs for edit in swapped(source, name, "arms exchanged", one, two)]


def condition_edits(source, name, here):
    edits = []
    for at in here:
        if source.word(at) in ("if", "while") and source.word(at + 1) != "let":
            end = at + 1
            while source.word(end) not in ("{", "=>"):
                end = source.partner.get(end, end) + 1 if source.word(end) in "([" else end + 1
            start, stop = source.tokens[at + 1].start, source.tokens[end - 1].end
            edits.append(Edit(name, "condition turned", start, stop, f"!({source.text[start:stop]})"))
    return edits


def statement_edits(source, name, opened):
    """A write, a call or an early return left out."""
    edits, first, at = [], opened + 1, opened + 1
    while at < source.partner[opened]:
        word = source.word(at)
        if word == "{" and at in source.partner:
            edits += statement_edits(source, name, at)
            at = source.partner[at]
            if source.word(at + 1) != "else" and source.word(at + 1) not in (".", "?", ";", ")", ","):
                first = at + 1
        elif word in "([" and at in source.partner:
            at = source.partner[at]
        elif word == ";":
            begins = source.word(first)
            if begins not in ("let", "use", "break", "continue", "loop", "while", "for", "if", "match"):
                what = "early return left out" if begins == "return" else "write or call left out"
                edits.append(Edit(name, what, source.tokens[first].start, source.tokens[at].end, ""))
            first = at + 1
        at += 1
    return edits
