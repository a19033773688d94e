"""What is wrong with a relation, and what may stand there: found in Python for the message alone. Whether a relation is wrong, and
where, the library decides."""
from __future__ import annotations

import re
from typing import NamedTuple, NoReturn, Sequence

from . import checks
from .price_lines import looks_like_utf_8

WRONG, DEEP = 14, 15
DEEPEST = 16
MOST_DIGITS = 18
MOST_NAMES = 32
_MOST_SHOWN = 40

WORD = "[A-Za-z_][A-Za-z0-9_]*"
RESERVED = frozenset("AND BAN EQ GE GT IF IN LE LT NE NOT OR SET_PCKG_FACTOR SET_PRICING_FACTOR SPECIFIED".split())
SIGNS = ("<", "LT", "<=", "LE", "=", "EQ", "<>", "NE", "=>", ">=", "GE", ">", "GT")

_BLANKS = re.compile("[ \t\n\r]*")
# A token reaches as far as bytes of its sort go; a byte of no sort stands alone.
_TOKEN = re.compile(rf"(?P<word>{WORD})|(?P<number>-?[0-9]+|-)|(?P<string>'[^']*'?)|\$[A-Za-z0-9_]*|[<=>]+|.", re.DOTALL)
_ASSIGNED = re.compile(r"\$VARCOND[ \t\n\r]*=[ \t\n\r]*'([^']*)'", re.IGNORECASE)

# What may stand at a place, for a sentence.
CONDITION = "a condition (a name, a string, a number, NOT, SPECIFIED or a parenthesis)"
OPERAND = "a name, a string or a number"
CONSTANT = "a string or a number"
SIGN = "a sign, as = or <>,"
NAME = "name"


class Fault(NamedTuple):
    """The number of the refusal, the place of the byte, from 1, and what is wrong there."""

    number: int
    place: int
    wrong: str


class _Stop(Exception):
    """Nothing is read behind a fault."""


def fault(text: bytes) -> Fault | None:
    """The first fault of a relation, or None where it is one. Which names it derives is not looked at."""
    try:
        _Reader(text.decode("latin-1")).relation()
    except _Stop as stop:
        number, place, wrong = stop.args
        return Fault(number, place, wrong + ("; it looks like UTF-8, and is to be in Latin-1" if looks_like_utf_8(text) else ""))
    return None


def unfit_name(text: bytes, place: int) -> str:
    """What is wrong with the name that is assigned at a place."""
    found = _ASSIGNED.match(text.decode("latin-1"), place - 1)
    if not found:
        return ""
    name = f"the name {found[1]!r}" if len(found[1]) <= _MOST_SHOWN else f"a name of {len(found[1]):,} characters"
    try:
        checks.name("", found[1], 1, 20)
    except ValueError as error:
        return f"{name} can't be granted{error}"
    return f"{name} is one too many: at most {MOST_NAMES} can be granted"


def line_and_column(text: bytes, place: int) -> tuple[int, int]:
    """Both from 1. A line ends with its line feed."""
    before = text[:place - 1]
    return before.count(b"\n") + 1, len(before) - before.rfind(b"\n")


def _shown(token: str) -> str:
    return repr(token) if len(token) <= _MOST_SHOWN else f"a text of {len(token):,} characters"


class _Reader:
    """Reads a relation token by token."""

    def __init__(self, text: str) -> None:
        self.text, self.at = text, 0

    def relation(self) -> None:
        while self.assignment():
            pass

    def assignment(self) -> str:
        """What stands behind it: a comma, or nothing."""
        self.take("$VARCOND", ("$VARCOND",))
        self.take("=", ("=",))
        self.take("a string, as 'OAK',", string=True)
        behind = self.take_or_end("IF, a comma or the end", ("IF", ","))
        return self.condition(0) if behind == "IF" else behind

    def condition(self, depth: int) -> str:
        """What stands behind it: a comma or nothing, or, inside parentheses, the closing one."""
        while True:
            self.single(depth)
            behind = (self.take("AND, OR or )", ("AND", "OR", ")")) if depth else
                      self.take_or_end("AND, OR, a comma or the end", ("AND", "OR", ",")))
            if behind not in ("AND", "OR"):
                return behind

    def single(self, depth: int) -> None:
        first = "NOT"
        while first == "NOT":
            first = self.take(CONDITION, ("NOT", "SPECIFIED", "("), name=True, string=True, number=True)
        if first == "(":
            if depth == DEEPEST:
                self.stop(self.at - 1, f"parentheses stand at most {DEEPEST} deep, and this one is deeper", DEEP)
            self.condition(depth + 1)
        elif first == "SPECIFIED":
            self.take("the name of a property", name=True)
        else:
            self.comparison(first == NAME)

    def comparison(self, named: bool) -> None:
        """Behind its first operand."""
        sign = self.take(f"{SIGN} or IN", (*SIGNS, "IN")) if named else self.take(SIGN, SIGNS)
        if sign != "IN":
            self.take(OPERAND, name=True, string=True, number=True)
            return
        self.take("(", ("(",))
        self.take(CONSTANT, string=True, number=True)
        while self.take("a comma or )", (",", ")")) == ",":
            self.take(CONSTANT, string=True, number=True)

    def take_or_end(self, wanted: str, words: Sequence[str]) -> str:
        self.skip_blanks()
        return self.take(wanted, words) if self.at < len(self.text) else ""

    def take(self, wanted: str, words: Sequence[str] = (), name: bool = False, string: bool = False, number: bool = False) -> str:
        """The next token, if it is one of those that may come: one of the words, in capitals, or its sort."""
        self.skip_blanks()
        found = _TOKEN.match(self.text, self.at)
        if not found:
            self.stop(self.at, f"{wanted} is wanted, not the end")
        start, self.at = self.at, found.end()
        token, sort = found[0], found.lastgroup
        if sort == "word" and name and token.upper() not in words:
            if token.upper() in RESERVED:
                self.stop(self.at, f"{token!r} is a reserved word, and {wanted} is wanted")
            return NAME
        if sort == "string" and string:
            return self.closed(token, start)
        if sort == "number" and number:
            return self.short_enough(token, start)
        for end in range(1, len(token) + 1):
            if not any(word.startswith(token[:end].upper()) for word in words):
                self.stop(start + end - 1, f"{wanted} is wanted, not {_shown(token)}")
        if token.upper() not in words:
            self.stop(self.at, f"{wanted} is wanted, not {_shown(token)}")
        return token.upper()

    def closed(self, token: str, start: int) -> str:
        if len(token) == 1 or not token.endswith("'"):
            line, column = line_and_column(self.text.encode("latin-1"), start + 1)
            self.stop(self.at, f"the string that begins in line {line}, column {column} does not end")
        return "string"

    def short_enough(self, token: str, start: int) -> str:
        digits = token.lstrip("-")
        if not digits:
            self.stop(self.at, "a digit is wanted behind -")
        if len(digits) > MOST_DIGITS:
            self.stop(start + len(token) - len(digits) + MOST_DIGITS, f"a number has at most {MOST_DIGITS} digits")
        return "number"

    def skip_blanks(self) -> None:
        self.at = _BLANKS.match(self.text, self.at).end()

    def stop(self, at: int, wrong: str, number: int = WRONG) -> NoReturn:
        raise _Stop(number, at + 1, wrong)
