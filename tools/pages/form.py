"""Why a line of a schema, or a formula, is `BadForm`: the first token that fits no form, its column, and what is usual
there.

This reads lines as docs/FORMATS.md says, "Schema text", and judges nothing but their form. The program has judged
before; if this finds no cause, it says nothing.
"""

from __future__ import annotations

import re
from dataclasses import dataclass
from typing import Iterator, Optional

TOKEN = re.compile(r'[A-Za-z0-9_.]+|<->|->|<=|[(),:=!&|^<]|-[0-9][A-Za-z0-9_.]*|"(?:[^"\\]|\\["\\])*"', re.S)
NAME = re.compile(r"(?!(?:true|false|one|all)\Z)[A-Za-z][A-Za-z0-9]*\Z")
PATH = re.compile(r"[A-Za-z][A-Za-z0-9]*(?:(?:_[A-Za-z][A-Za-z0-9]*)+|(?:\.[A-Za-z][A-Za-z0-9]*){1,2})?\Z")
BINARY = ("<->", "->", "^", "|", "&")
OTHERS = {"and": "&", "or": "|", "not": "!"}
VERSION = "the first line that is neither blank nor a comment is `schema 1` or `schema 2`"


@dataclass(frozen=True)
class Token:
    text: str
    column: int  # from 1


class Bad(Exception):
    """The first place that fits no form."""

    def __init__(self, column: int, why: str):
        super().__init__(why)
        self.column, self.why = column, why


def why_no_token(line: str, place: int) -> str:
    one = line[place]
    if one == "'":
        return "names stand in double quotes"
    if one == '"':
        return 'this quote isn\'t closed, or has a \\ before another character than " and \\'
    if one == ";":
        return "nothing stands at a line's end, and parts are separated by commas"
    if one in "“”„«»‘’":
        return 'quotes are plain ones, "'
    if one == "\ufeff":
        return "this is a byte order mark, which a schema doesn't have: save it as UTF-8 without one"
    return f"no token begins with {one!r}: there is no > and no >= (write !c <= n), and names have ASCII letters and digits alone"


def tokens_of(line: str) -> Iterator[Token]:
    place = 0
    while place < len(line):
        if line[place] in " \t":
            place += 1
            continue
        found = TOKEN.match(line, place)
        if not found:
            raise Bad(place + 1, why_no_token(line, place))
        yield Token(found[0], place + 1)
        place = found.end()


class Reader:
    """Reads the tokens of a line one after the other."""

    def __init__(self, line: str, version: int):
        self.tokens, self.version, self.place = list(tokens_of(line)), version, 0
        self.end = Token("", len(line) + 1)

    @property
    def next(self) -> Token:
        return self.tokens[self.place] if self.place < len(self.tokens) else self.end

    def take(self, *texts: str) -> bool:
        """Takes the next token if it is one of these."""
        if self.next.text in texts:
            self.place += 1
            return True
        return False

    def bad(self, why: str, token: Optional[Token] = None) -> Bad:
        return Bad((token or self.next).column, why)

    def name(self, what: str) -> None:
        token = self.next
        if token.text in ("true", "false", "one"):
            raise self.bad(f"{token.text} is taken, and no category's name")
        if token.text == "all":
            raise self.bad("it is `All` in schemas, and `all` in instances")
        if not NAME.match(token.text):
            no_name = "a name is a letter and then letters and digits, without _ and ."
            raise self.bad(f"{what} is missing" if token is self.end else no_name)
        self.place += 1

    def finished(self, why: str) -> None:
        if self.next is not self.end:
            raise self.bad(why)

    def line(self) -> None:
        """A line after the version line."""
        first = self.next
        self.place += 1
        if first.text == "category":
            self.name("the category's name")
            if self.next.text == "number" and self.version == 1:
                raise self.bad("categories of numbers need `schema 2` as the first line")
            self.take("number")
            self.finished("nothing stands after a category's name but `number`, and a name has no space")
        elif first.text == "edge":
            self.name("the child")
            self.name("the parent")
            self.finished("an edge has one child and one parent: write a line for each")
        elif first.text == "constraint":
            self.name("the root")
            if not self.take(":"):
                raise self.bad("a colon stands after the root")
            self.formula()
            self.finished(self.why_not_on())
        elif first.text == "schema":
            raise self.bad("the version line comes once, before all else", first)
        else:
            same = [word for word in ("category", "edge", "constraint") if word == first.text.lower()]
            known = "a line begins with category, edge or constraint"
            raise self.bad(f"it is `{same[0]}`, in small letters" if same else known, first)

    def formula(self) -> None:
        self.operand()
        while self.take(*BINARY):
            self.operand()

    def operand(self) -> None:
        while self.take("!"):
            pass
        token = self.next
        if self.take("("):
            self.formula()
            self.closed(token)
        elif self.take("one"):
            if not self.take("("):
                raise self.bad("brackets stand after `one`")
            if not self.take(")"):
                self.formula()
                while self.take(","):
                    self.formula()
                self.closed(token)
        elif not self.take("true", "false"):
            self.atom()

    def closed(self, opened: Token) -> None:
        if not self.take(")"):
            is_open = f"the bracket of column {opened.column} isn't closed here"
            raise self.bad(is_open if self.next is self.end else self.why_not_on())

    def atom(self) -> None:
        token = self.next
        if token is self.end:
            raise self.bad("something is missing at the end of the line")
        if token.text in OTHERS:
            raise self.bad(f"it is `{OTHERS[token.text]}`, not `{token.text}`")
        if token.text in BINARY:
            raise self.bad(f"`{token.text}` stands between two formulas, and once: there is no && and no ||")
        if not PATH.match(token.text):
            if token.text.startswith('"'):
                raise self.bad("a string stands after `=` alone")
            raise self.bad("here begins no formula: steps are joined by `_`, and c.d.e has three names at most")
        self.place += 1
        if self.next.text in ("=", "<", "<="):
            sign = self.next.text
            self.place += 1
            if self.next.text == "=":
                raise self.bad("there is no `==`: equality of truths is `<->`")
            self.constant(sign)
        elif NAME.match(token.text) or "_" not in token.text and "." not in token.text:
            raise self.bad("a category alone says nothing: write c_d, c.d or c = \"k\"", self.next)

    def constant(self, sign: str) -> None:
        text = self.next.text
        is_number = re.match(r"-?[0-9]", text) is not None
        if text.startswith('"') and sign != "=":
            raise self.bad(f"`{sign}` compares with a number")
        if is_number and self.version == 1:
            raise self.bad("numbers are of the second version: `schema 2`, and `category NAME number`")
        if not is_number and not text.startswith('"'):
            raise self.bad("a name stands in double quotes")
        self.place += 1

    def why_not_on(self) -> str:
        text = self.next.text
        after = self.tokens[self.place + 1].text if self.place + 1 < len(self.tokens) else ""
        if text == "!" and after == "=":
            return 'there is no `!=`: exclusive or is `^`, and of a name write `!(c = "k")`'
        if text in OTHERS:
            return f"it is `{OTHERS[text]}`, not `{text}`"
        if text in ("=", "<", "<="):
            return "a comparison has a category on its left: c = \"k\" or c.d = \"k\""
        if text == ")":
            return "this bracket wasn't opened"
        return "a connective is missing before this: one of & | ^ -> <->"


def version_of(lines: list[str]) -> int:
    """The version that the lines say; 1 where they say none."""
    for line in lines:
        if line.strip(" \t\r") and not line.lstrip(" \t").startswith("#"):
            return 2 if line.split() == ["schema", "2"] else 1
    return 1


def why_bad(lines: list[str], number: int) -> Optional[Bad]:
    """Why the line of that number, from 1, has no form; the lines are split at line feeds."""
    line = lines[number - 1][:-1] if lines[number - 1].endswith("\r") else lines[number - 1]
    before = [each for each in lines[: number - 1] if each.strip(" \t\r") and not each.lstrip(" \t").startswith("#")]
    try:
        if not before:
            for token in tokens_of(line):
                raise Bad(token.column, VERSION)
            return Bad(1, VERSION)
        Reader(line, version_of(lines)).line()
    except Bad as bad:
        return bad
    return None


def why_bad_formula(text: str) -> Optional[Bad]:
    """Why a formula of a question has no form; it is read by the second version."""
    try:
        reader = Reader(text, 2)
        reader.formula()
        reader.finished(reader.why_not_on())
    except Bad as bad:
        return bad
    return None
