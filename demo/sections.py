"""The sections of a sheet: which columns each has, what their cells hold, what is made of a row. demo/desk.rows has it in words."""
from __future__ import annotations

import re
from dataclasses import dataclass, field
from datetime import date
from typing import Any, Callable, Iterator, Mapping, Optional

from cells import (Reader, chosen_of, condition_of, currency_of, day_of, file_of, if_given, name_of, parts_of, property_of, several,
                   value_of, whole_of, word_of, yes_or_no)
from makers import MakersFile
from rafttwine import (Article, Factor, Granted, Held, Level, PackagingRow, Percent, PriceRow, Property, Question, Rounding, Rule,
                       Scheme, Way)
from relations import Related

Values = Mapping[str, Any]
# The longest period of a price calendar.
MOST_DAYS = 1096
MOST_LISTED = 32
MOST_OFFERED = 200
MOST_CHOSEN = 64
LONGEST_TEXT = 65_535
MOST_FIRST_TEXT = 1_000_000


@dataclass(frozen=True)
class Column:
    """What its cells hold, and as which field that is handed over; with no field it is there for the reader alone."""

    field: str
    read: Reader


@dataclass(frozen=True)
class Kind:
    """What the rows of a section are. Two rows with the same `key` are one too many; `refers` says of which section a cell names
    a row; `fits` tells what is wrong between the cells of a row, by column and sentence; `language` reads the texts of one."""

    make: Callable[..., Any]
    columns: Mapping[str, Column]
    least: int = 0
    most: Optional[int] = None
    key: tuple[str, ...] = ()
    refers: Mapping[str, str] = field(default_factory=dict)
    language: Optional[Reader] = None
    fits: Callable[[Values], Iterator[tuple[str, str]]] = lambda values: iter(())

    def columns_of(self, named: list[str]) -> Mapping[str, Column]:
        """Its columns, with those of the languages among the names."""
        languages = [name for name in named if is_language(name)] if self.language else []
        return {**self.columns, **{name: Column(name, self.language) for name in languages}}


@dataclass(frozen=True)
class Asked:
    """What a customer asks."""

    article: str
    quantity: int
    granted: list[Granted]
    days: list[date]
    first_day: date
    last_day: date


@dataclass(frozen=True)
class Offered:
    """A position of an offer."""

    article: str
    quantity: int
    granted: list[Granted]
    day: date


def asked(article: str, quantity: int, granted: list[tuple[str, Factor]], days: list[date], **rest: date) -> Asked:
    return Asked(article, quantity, conditions(article, days[0], granted), days, **rest)


def offered(article: str, quantity: int, granted: list[tuple[str, Factor]], day: date) -> Offered:
    return Offered(article, quantity, conditions(article, day, granted), day)


def conditions(article: str, day: date, granted: list[tuple[str, Factor]]) -> list[Granted]:
    """The granted conditions. What the package finds doubtful about them, in a question too, it says here."""
    made = [Granted(name, factor) for name, factor in granted]
    Question(article, day, granted=made)
    return made


def text(number: int, **languages: str) -> tuple[int, dict[str, str]]:
    return number, languages


def is_language(column: str) -> bool:
    return bool(re.fullmatch("[a-z]{2}", column))


def fits_price(values: Values) -> Iterator[tuple[str, str]]:
    if values["level"] is Level.BASE and isinstance(values["value"], Percent):
        yield "value", "a base price is an amount, as 459.00; a percentage would never count"
    if values["to"] < values["from"]:
        yield "to", f"{values['from']} or later, the day in from"


def fits_question(values: Values) -> Iterator[tuple[str, str]]:
    first, last = values["calendar from"], values["calendar to"]
    if last < first:
        yield "calendar to", f"{first} or later, the day in calendar from"
    elif (last - first).days >= MOST_DAYS:
        yield "calendar to", f"at most {MOST_DAYS} days from {first} on, the day in calendar from"


def named(least: int, most: int, *columns: str) -> dict[str, Column]:
    return {column: Column(column, name_of(least, most)) for column in columns}


def units(**known: str) -> dict[str, Column]:
    """The columns of units: `length="CMT FOT"` for `length unit`."""
    return {f"{what} unit": Column(f"{what}_unit", word_of({**{word: word for word in words.split()}, "": None}))
            for what, words in known.items()}


TEXT = name_of(0, LONGEST_TEXT)
MEASURE = if_given(parts_of(3, -10_000_000, 10_000_000))
COUNT = if_given(whole_of(-10_000, 10_000))
PIECES = {
    **named(1, 40, "article"),
    "quantity": Column("quantity", whole_of(1, 100_000)),
}
ASKED_FOR = {
    **PIECES,
    "granted": Column("granted", several(condition_of, 0, MOST_LISTED, "names")),
}

SECTIONS: Mapping[str, Kind] = {
    "article": Kind(Article, {
        **named(1, 40, "number"), **named(0, 20, "scheme"),
    }, least=1, key=("number",), refers={"scheme": "scheme"}),
    "price": Kind(PriceRow, {
        **named(1, 40, "article"),
        "level": Column("level", word_of({"base": Level.BASE, "surcharge": Level.SURCHARGE, "discount": Level.DISCOUNT})),
        **named(0, 20, "condition"),
        "value": Column("value", value_of),
        "of": Column("rule", word_of({"base": Rule.OF_BASE, "total so far": Rule.OF_TOTAL_SO_FAR, "": Rule.OF_BASE})),
        "currency": Column("currency", currency_of),
        "from": Column("first", day_of),
        "to": Column("last", day_of),
        "rounding": Column("rounding", whole_of(1, 65_535, empty=0)),
        "text": Column("text", whole_of(0, 4_294_967_295, empty=0)),
    }, least=1, refers={"article": "article", "rounding": "rounding"}, fits=fits_price),
    "rounding": Kind(Rounding, {
        "number": Column("number", whole_of(1, 65_535)),
        "way": Column("way", word_of({"down": Way.DOWN, "up": Way.UP, "commercial": Way.COMMERCIAL})),
        "step": Column("step", parts_of(2, 1, 1_000_000)),
    }, key=("number",)),
    "packaging": Kind(PackagingRow, {
        **named(1, 40, "article"), **named(0, 20, "condition"),
        **{column: Column(column, MEASURE) for column in ("width", "height", "depth", "volume", "tare", "net")},
        **{column: Column(column, COUNT) for column in ("items", "packs")},
        **units(length="CMT FOT INH MMT MTR", volume="INQ LTR MTQ", weight="KGM LBR MGM"),
    }, key=("article", "condition"), refers={"article": "article"}),
    "scheme": Kind(Scheme, {
        **named(1, 20, "id"),
        "between values": Column("between_values", name_of(0, 8)),
        "trim": Column("trim", yes_or_no),
    }, key=("id",)),
    "text": Kind(text, {"number": Column("number", whole_of(1, 4_294_967_295))}, key=("number",), language=TEXT),
    "question": Kind(asked, {
        **ASKED_FOR,
        "days": Column("days", several(day_of, 1, MOST_DAYS, "days as 2026-06-30")),
        "calendar from": Column("first_day", day_of),
        "calendar to": Column("last_day", day_of),
    }, least=1, most=1, refers={"article": "article"}, fits=fits_question),
    "property": Kind(Property, {
        "of": Column("", TEXT),
        "width": Column("width", whole_of(1, 30)),
        "value": Column("value", if_given(name_of(0, 30))),
        "hidden": Column("hidden", yes_or_no),
    }, most=MOST_LISTED),
    "offer": Kind(offered, {
        **ASKED_FOR,
        "day": Column("day", day_of),
    }, most=MOST_OFFERED, refers={"article": "article"}),
    "file": Kind(MakersFile, {
        "name": Column("name", file_of("ocd_price.csv")),
        "first text": Column("first_text", whole_of(1, MOST_FIRST_TEXT, empty=0)),
    }, most=1),
    "relation": Kind(Related, {
        "name": Column("name", file_of("desk.relation")),
        **PIECES,
        "day": Column("day", day_of),
    }, most=1, refers={"article": "article"}),
    "chosen": Kind(Held, {
        "property": Column("name", property_of),
        "value": Column("value", chosen_of),
    }, most=MOST_CHOSEN, key=("property",)),
}
