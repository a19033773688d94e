"""Every field of every builder, and every argument of every call, gets a value of each wrong type: a TypeError that names it."""
from __future__ import annotations

import inspect
import pathlib
import unittest
from datetime import date, datetime
from decimal import Decimal
from typing import Any, Callable

import rafttwine
from rafttwine import (Article, Cents, Factor, Granted, Held, Level, NoDay, PackagingRow, Percent, PriceRow, Property, Rounding,
                       Rule, Scheme, Sort, TextRow, Way, basket, book, calendar, calendar_list, derive, final_number, packaging,
                       price, price_derived, property_list, question, read_book, read_prices, read_property_list, read_question,
                       read_text_book, text, text_book, text_names, write_prices)
from samples import ASKED, BOOK, CHOSEN, FALLBACK, PROPERTY_LIST, QUESTIONS, RELATION, TABLE, YEAR_END

# One value of each type that somebody could come with.
VALUES: dict[str, Any] = {
    "text": "oak", "number": 1, "float": 1.0, "decimal": Decimal(1), "bool": True, "none": None, "bytes": b"oak", "list": ["oak"],
    "tuple": ("oak",), "set": {"oak"}, "dict": {1: b"oak"}, "generator": (one for one in "oak"), "day": date(2024, 1, 1),
    "moment": datetime(2024, 1, 1), "no day": NoDay(0), "cents": Cents(1), "percent": Percent(1), "level": Level.BASE,
    "sort": Sort.SALE, "rule": Rule.OF_BASE, "way": Way.UP, "path": pathlib.Path("book"), "class": Article, "object": object(),
    "numbers": memoryview(b"oaks").cast("I"), "factor": Factor(1),
}
TEXT, NUMBER, DAY, BUFFER = ("text",), ("number", "rule", "way"), ("day",), ("bytes",)
MAYBE_TEXT, MAYBE_NUMBER = (*TEXT, "none"), (*NUMBER, "none")
ROW_DAY, SEVERAL = (*DAY, "no day"), ("list", "tuple")
BY_NAME = ("dict", *SEVERAL)
RELATED = {"question": BUFFER, "properties": (*BY_NAME, *BUFFER), "relation": (*TEXT, *BUFFER), "name": TEXT}

# What makes each, from good values, and the types that each field takes.
TABLE_OF_TYPES: list[tuple[Callable[..., object], dict[str, Any], dict[str, tuple[str, ...]]]] = [
    (Cents, {"amount": 1}, {"amount": NUMBER}),
    (Percent, {"share": 1}, {"share": (*TEXT, *NUMBER, "decimal")}),
    (Factor, {"times": 1}, {"times": (*TEXT, *NUMBER, "decimal")}),
    (NoDay, {"number": 0}, {"number": NUMBER}),
    (Article, {"number": "A1"}, {"number": TEXT, "scheme": TEXT}),
    (PriceRow, {"article": "A1", "level": Level.BASE, "value": Cents(1)}, {
        "article": TEXT, "level": ("level",), "value": ("cents", "percent"), "condition": TEXT, "rule": ("rule",),
        "sort": ("sort",), "currency": TEXT, "first": ROW_DAY, "last": ROW_DAY, "up_to": NUMBER, "rounding": NUMBER,
        "text": NUMBER}),
    (Rounding, {"number": 1, "way": Way.UP, "step": 1}, {
        "number": NUMBER, "way": ("way",), "step": NUMBER, "before": NUMBER, "after": NUMBER}),
    (PackagingRow, {"article": "A1", "length_unit": "CMT", "volume_unit": "LTR", "weight_unit": "KGM"}, {
        "article": TEXT, "condition": TEXT, "width": MAYBE_NUMBER, "height": MAYBE_NUMBER, "depth": MAYBE_NUMBER,
        "volume": MAYBE_NUMBER, "tare": MAYBE_NUMBER, "net": MAYBE_NUMBER, "items": MAYBE_NUMBER, "packs": MAYBE_NUMBER,
        "length_unit": MAYBE_TEXT, "volume_unit": MAYBE_TEXT, "weight_unit": MAYBE_TEXT}),
    (Scheme, {"id": "S"}, {
        "id": TEXT, "before_values": TEXT, "between_values": TEXT, "hidden_shown": ("bool",), "hidden": MAYBE_TEXT,
        "unselected": MAYBE_TEXT, "trim": ("bool",)}),
    (Granted, {"name": "oak"}, {"name": TEXT, "factor": ("factor",)}),
    (Property, {"width": 3}, {"width": NUMBER, "value": MAYBE_TEXT, "hidden": ("bool",)}),
    (TextRow, {"number": 1, "content": b""}, {"number": NUMBER, "content": BUFFER}),
    (text_book, {"texts": {}}, {"texts": ("dict", *SEVERAL)}),
    (question, {"article": "A1", "day": date.max}, {
        "article": TEXT, "day": DAY, "quantity": NUMBER, "granted": SEVERAL, "properties": SEVERAL, "sort": ("sort",),
        "currency": MAYBE_TEXT}),
    *((call, {"book": BOOK, "question": QUESTIONS[name]}, {"book": BUFFER, "question": BUFFER})
      for call, name in ((price, "june"), (final_number, "june"), (packaging, "carton"))),
    *((call, {"book": BOOK, "question": QUESTIONS["june"], "end": YEAR_END}, {"book": BUFFER, "question": BUFFER, "end": DAY})
      for call in (calendar, calendar_list)),
    (basket, {"book": BOOK, "questions": [QUESTIONS["june"]]}, {"book": BUFFER, "questions": SEVERAL}),
    (text, {"asked": ASKED, "fallback": FALLBACK, "number": TABLE}, {"asked": BUFFER, "fallback": BUFFER, "number": NUMBER}),
    *((read, {"file": b""}, {"file": BUFFER, "name": TEXT}) for read in (read_prices, text_names)),
    (write_prices, {"book": book()}, {"book": BUFFER}),
    (Held, {"name": "TOP"}, {"name": TEXT, "value": (*MAYBE_TEXT, *NUMBER)}),
    (property_list, {"values": CHOSEN}, {"values": BY_NAME}),
    (derive, {"question": QUESTIONS["june"], "properties": CHOSEN, "relation": RELATION}, RELATED),
    (price_derived, {"book": BOOK, "question": QUESTIONS["june"], "properties": CHOSEN, "relation": RELATION},
     {"book": BUFFER, **RELATED}),
    *((read, {"data": data}, {"data": BUFFER})
      for read, data in ((read_book, BOOK), (read_question, QUESTIONS["june"]), (read_text_book, ASKED),
                         (read_property_list, PROPERTY_LIST))),
]
# What has no argument of its own to be wrong, or is answered and not made by the caller.
LEFT_OUT = {"Asked", "BadLine", "BadRecord", "BadRelation", "Basket", "BrokenBytes", "DayPrice", "Level", "Line", "Packaging",
            "Price", "Question", "Refusal", "Refused", "RowWarning", "Rule", "Sort", "Source", "Stretch", "Text", "Way",
            "__version__", "version"}


class WrongTypesTest(unittest.TestCase):
    def test_each_argument_with_each_type(self) -> None:
        for make, good, taken in TABLE_OF_TYPES:
            for field, right in taken.items():
                for kind in VALUES.keys() - right:
                    with self.subTest(make.__name__, field=field, kind=kind):
                        with self.assertRaises(TypeError) as caught:
                            make(**{**good, field: VALUES[kind]})
                        self.assertRegex(str(caught.exception), rf"^{make.__name__}\.{field}: .+ (is|are) wanted\b.*, (not|and) .")

    def test_the_table_has_every_name_and_every_argument(self) -> None:
        self.assertEqual({make.__name__ for make, _, _ in TABLE_OF_TYPES} | LEFT_OUT | {"book"}, set(rafttwine.__all__))
        for make, _, taken in TABLE_OF_TYPES:
            self.assertEqual(set(inspect.signature(make).parameters), taken.keys(), make.__name__)

    def test_each_good_value_is_taken(self) -> None:
        for make, good, _ in TABLE_OF_TYPES:
            with self.subTest(make.__name__):
                make(**good)

    def test_granted_names_of_a_question(self) -> None:
        for kind in VALUES.keys() - TEXT:
            sentence = r"^question\.granted: name 2: a text or Granted is wanted, not "
            with self.subTest(kind), self.assertRaisesRegex(TypeError, sentence):
                question("A1", date.max, granted=["oak", VALUES[kind]])

    def test_records_of_a_book(self) -> None:
        for kind in VALUES:
            sentence = r"^book\.records: record 2: Article, .* or Scheme is wanted, not "
            with self.subTest(kind), self.assertRaisesRegex(TypeError, sentence):
                book(Article("A1"), VALUES[kind])
