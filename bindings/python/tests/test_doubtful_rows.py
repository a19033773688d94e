"""Rows and granted conditions that are right by the layout and hardly meant: making one warns, at the line of whoever makes it."""
from __future__ import annotations

import dataclasses
import inspect
import unittest
import warnings
from datetime import date
from typing import Callable

from rafttwine import (Article, Cents, Factor, Granted, Held, Level, PackagingRow, Percent, PriceRow, RowWarning, book, derive,
                       price, property_list, question, read_book, read_property_list, read_question)

TWICE_AND_A_HALF = Granted("oak", Factor("2.5"))
RAISES = "raises the price; what lowers it is below zero"
UNNAMED = "a name has letters, digits and _, and is no reserved word"
NEVER = "is never granted: granted names are raised to capitals, so write"
DOUBTFUL: list[tuple[list[str], Callable[[], object]]] = [
    ([f"PriceRow.condition: 'oak' {NEVER} 'OAK'"], lambda: PriceRow("A1", Level.BASE, Cents(1), condition="oak")),
    ([f"PriceRow.condition: 'OAk' {NEVER} 'OAK'"], lambda: PriceRow("A1", Level.BASE, Cents(1), condition="OAk")),
    ([f"PackagingRow.condition: 'oak' {NEVER} 'OAK'"], lambda: PackagingRow("A1", "oak")),
    ([f"PriceRow.condition: 'GRüN' {NEVER} 'GRÜN'"], lambda: PriceRow("A1", Level.BASE, Cents(1), condition="GRüN")),
    ([f"PackagingRow.condition: 'àöøþß÷ÿ' {NEVER} 'ÀÖØÞß÷ÿ'"], lambda: PackagingRow("A1", "àöøþß÷ÿ")),
    ([f"PriceRow.value: a discount of 5.00 {RAISES}"], lambda: PriceRow("A1", Level.DISCOUNT, Cents(500))),
    ([f"PriceRow.value: a discount of 0.01 % {RAISES}"], lambda: PriceRow("A1", Level.DISCOUNT, Percent("0.01"))),
    ([f"PriceRow.condition: 'z' {NEVER} 'Z'", f"PriceRow.value: a discount of 10.00 % {RAISES}"],
     lambda: PriceRow("A1", Level.DISCOUNT, Percent(10), condition="z")),
    (["PriceRow.value: a base price in percent never counts; a base price is an amount"],
     lambda: PriceRow("A1", Level.BASE, Percent(10))),
    (["PriceRow.last: 2024-06-30 is before 2024-07-01, the first day, so the row never holds"],
     lambda: PriceRow("A1", Level.BASE, Cents(1), first=date(2024, 7, 1), last=date(2024, 6, 30))),
    (["Granted.factor: with 0 its lines are there, and of nothing; what is not to count is not granted"],
     lambda: Granted("oak", Factor(0))),
    (["question.granted: name 3: 'Oak' repeats name 1, so that its factor is 2.5 and not 4",
      "question.granted: name 4: 'oak' repeats name 1, so that its factor is 2.5 and not 1"],
     lambda: question("A1", date.max, granted=[TWICE_AND_A_HALF, "ash", Granted("Oak", Factor(4)), "oak"])),
    ([f"Held.name: no relation can name 'Seat height': {UNNAMED}"], lambda: Held("Seat height", 45)),
    ([f"Held.name: no relation can name 'Höhe': {UNNAMED}"], lambda: property_list({"Höhe": 45})),
    ([f"Held.name: no relation can name 'in': {UNNAMED}"], lambda: Held("in", "oak")),
    ([f"Held.name: no relation can name '': {UNNAMED}"], lambda: Held("")),
    (["property_list.values: property 3: 'Top' repeats property 1, whose value counts"],
     lambda: property_list({"TOP": None, "WIDTH": 1, "Top": "oak"})),
    (["derive.properties: property 2: 'TOP' repeats property 1, whose value counts"],
     lambda: derive(question("A1", date.max), [Held("TOP"), Held("TOP", "oak")], "$VARCOND='A'")),
    ([], lambda: property_list([Held("_", 1), Held("Seat_2", "no word of it"), Held("INS")])),
    ([], lambda: question("A1", date.max, granted=[TWICE_AND_A_HALF, TWICE_AND_A_HALF, "ash", "ASH", Granted("ash")])),
    ([], lambda: PriceRow("A1", Level.BASE, Cents(1), first=date(2024, 7, 1), last=date(2024, 7, 1))),
    ([], lambda: PriceRow("a1", Level.BASE, Cents(1), condition="OAK 2")),
    ([], lambda: PriceRow("A1", Level.BASE, Cents(1), condition="GRÜN")),
    ([], lambda: PackagingRow("A1", "¿µß×÷ÿ")),
    ([], lambda: PriceRow("A1", Level.DISCOUNT, Cents(0))),
    ([], lambda: PriceRow("A1", Level.DISCOUNT, Percent(-10))),
    ([], lambda: PriceRow("A1", Level.SURCHARGE, Percent(10))),
]


class DoubtfulRowsTest(unittest.TestCase):
    def test_each_gets_its_sentence_at_its_line(self) -> None:
        for sentences, make in DOUBTFUL:
            with self.subTest(sentences), warnings.catch_warnings(record=True) as caught:
                warnings.simplefilter("always")
                make()
            self.assertEqual([str(one.message) for one in caught], sentences)
            lines, first = inspect.getsourcelines(make)
            for one in caught:
                self.assertIs(one.category, RowWarning)
                self.assertEqual(one.filename, __file__)
                self.assertIn(one.lineno, range(first, first + len(lines)))

    def test_the_line_of_a_replacement(self) -> None:
        row = PriceRow("A1", Level.BASE, Cents(1))
        with self.assertWarns(RowWarning) as caught:
            dataclasses.replace(row, condition="oak")
        self.assertEqual(caught.filename, __file__)

    def test_both_are_true_of_the_library(self) -> None:
        with warnings.catch_warnings():
            warnings.simplefilter("ignore", RowWarning)
            rows = (Article("A1"), PriceRow("A1", Level.BASE, Cents(1000)), PriceRow("A1", Level.DISCOUNT, Cents(10)),
                    PriceRow("A1", Level.SURCHARGE, Cents(100), condition="oak"))
        answer = price(book(*rows), question("A1", date(2024, 1, 1), granted=["oak", "OAK"]))
        self.assertEqual(([line.amount for line in answer.lines], answer.unused), ([1000, 10], (1,)))

    def test_the_library_raises_the_same_letters(self) -> None:
        for letter in map(chr, [*range(32, 127), *range(160, 256)]):
            with warnings.catch_warnings(record=True) as caught:
                warnings.simplefilter("always")
                row = PriceRow("A1", Level.SURCHARGE, Cents(1), condition=letter)
            plain = (Article("A1"), PriceRow("A1", Level.BASE, Cents(1)))
            answer = price(book(*plain, row), question("A1", date(2024, 1, 1), granted=[letter]))
            self.assertEqual(answer.unit, 1 if caught else 2, letter)

    def test_what_is_said_of_factors_is_true_of_the_library(self) -> None:
        rows = Article("A1"), PriceRow("A1", Level.BASE, Cents(1000)), PriceRow("A1", Level.SURCHARGE, Cents(100), condition="OAK")
        with warnings.catch_warnings():
            warnings.simplefilter("ignore", RowWarning)
            nothing = question("A1", date(2024, 1, 1), granted=[Granted("oak", Factor(0))])
            repeated = question("A1", date(2024, 1, 1), granted=[TWICE_AND_A_HALF, Granted("OAK", Factor(4))])
        for asked, amounts in ((nothing, [1000, 0]), (repeated, [1000, 250])):
            answer = price(book(*rows), asked)
            self.assertEqual(([line.amount for line in answer.lines], answer.unused), (amounts, ()))

    def test_reading_does_not_warn(self) -> None:
        with warnings.catch_warnings():
            warnings.simplefilter("ignore", RowWarning)
            rows = (PriceRow("A1", Level.DISCOUNT, Cents(10), condition="oak"), PackagingRow("A1", "oak"))
            asked = question("A1", date.max, granted=["oak", Granted("oak", Factor(0))])
            held = Held("Seat height", 45), Held("TOP"), Held("top", "oak")
            listed = property_list(held)
        with warnings.catch_warnings():
            warnings.simplefilter("error")
            self.assertEqual(read_book(book(*rows)), rows)
            self.assertEqual(read_question(asked).packed(), asked)
            self.assertEqual(read_property_list(listed), held)
