"""The document of the formats: its examples have the sizes that it says, are what the package packs, and get the answers shown."""
from __future__ import annotations

import pathlib
import re
import unittest
import warnings
from ctypes import c_uint8
from datetime import date

from rafttwine import (Article, BadLine, Cents, Factor, Granted, Held, Level, PackagingRow, PriceRow, Property, Rounding, RowWarning,
                       Scheme, Way, book, derive, packaging, property_list, question, read_prices, text, text_book, write_prices)
from rafttwine.calls import LINE_BYTES
from rafttwine.library import call
from rafttwine.price_lines import FIELDS

DOCUMENT = pathlib.Path("docs/FORMAT.md")
RECORDS = ("Article, kind 1", "Price row, kind 2", "Rounding, kind 3", "Packaging, kind 4", "Scheme, kind 5")
EXAMPLE, NEXT = 3, 4

BOOK = book(
    Article("T1", "S"),
    PriceRow("T1", Level.BASE, Cents(12_345), condition="OAK", first=date(2026, 1, 1), last=date(2026, 6, 30), rounding=1, text=7),
    Rounding(1, Way.COMMERCIAL, 10, after=-1),
    PackagingRow("T1", tare=500, net=2000, items=2, weight_unit="KGM"),
    Scheme("S", between_values="/", trim=True),
)
QUESTION = question("T1", date(2026, 6, 29), 2, ["oak"], [Property(4, "ASH")], currency="EUR")
WITH_FACTOR = question("T1", date(2026, 6, 29), 2, [Granted("oak", Factor("2.5"))], [Property(4, "ASH")], currency="EUR")
PROPERTIES = [Held("TOP", "oak"), Held("WIDTH", -1), Held("SHELF")]
RELATION = "$VARCOND='oak' IF TOP='OAK' AND WIDTH<0 AND NOT SPECIFIED SHELF"
NEXT_QUESTION = question("T1", date(2026, 7, 1))
TEXTS = text_book({7: b"Table"})
CALENDAR_END = 20260701


def tables() -> dict[str, list[list[str]]]:
    """The rows of the table of fields below each heading: field, size, meaning, and the examples without their ticks."""
    found: dict[str, list[list[str]]] = {}
    rows: list[list[str]] = []
    for line in DOCUMENT.read_text().splitlines():
        if line.startswith("#"):
            rows = found.setdefault(line.lstrip("# "), [])
        elif line.startswith("| ") and not line.startswith(("| Field |", "| Word |")):
            cells = [cell.strip() for cell in line.strip("|").split("|")]
            rows.append(cells[:EXAMPLE] + [cell.strip("`") for cell in cells[EXAMPLE:]])
    return {heading: rows for heading, rows in found.items() if rows and len(rows[0]) > EXAMPLE}


TABLES = tables()


def example(*headings: str, column: int = EXAMPLE) -> bytes:
    return b"".join(bytes.fromhex(row[column]) for heading in headings for row in TABLES[heading])


def written(name: str, size: int, *words: object, asked: bytes = QUESTION) -> bytes:
    """What a call writes, read from the lent output up to the size that is due, and one byte behind it that must have stayed."""
    out = (c_uint8 * (size + 1))(*[0xEE] * (size + 1))
    answer = call(name, BOOK, asked, *words, out)
    assert (answer.number, out[size]) == (0, 0xEE), f"{name}: refused, or wrote too much"
    return bytes(out)[:size]


class FormatTest(unittest.TestCase):
    def test_each_example_has_the_size_of_its_row(self) -> None:
        self.assertEqual(len(TABLES), 14)
        for heading, rows in TABLES.items():
            for field, size, _, *examples in rows:
                for one in map(bytes.fromhex, examples):
                    with self.subTest(heading, field=field):
                        self.fits(size, one)

    def fits(self, size: str, one: bytes) -> None:
        fixed, named = re.fullmatch(r"(\d+)(, signed)?", size), re.fullmatch(r"name, (\d+) to (\d+)", size)
        if fixed:
            self.assertEqual(len(one), int(fixed[1]))
        elif named:
            self.assertEqual(len(one), 1 + one[0])
            self.assertTrue(int(named[1]) <= one[0] <= int(named[2]))
        else:
            self.assertIn(size, ("the rest", "as said"))

    def test_the_package_packs_the_examples(self) -> None:
        self.assertEqual(example("Price book", *RECORDS), BOOK)
        self.assertEqual(example("Question"), QUESTION)
        self.assertEqual(example("Question of version 2"), WITH_FACTOR)
        self.assertEqual(example("Text book"), TEXTS)
        self.assertEqual(example("Property list"), property_list(PROPERTIES))

    def test_the_library_writes_the_examples(self) -> None:
        self.assertEqual(written("price", LINE_BYTES), example("Line of a price"))
        self.assertEqual(written("price", LINE_BYTES, asked=WITH_FACTOR), example("Line of a price", column=NEXT))
        answers = example("Answer of a basket") + example("Answer of a basket", column=NEXT)
        basket = answers + example("Line of a price")
        self.assertEqual(written("basket", len(basket), asked=QUESTION + NEXT_QUESTION), basket)
        stretches = example("Stretch of a calendar") + example("Stretch of a calendar", column=NEXT)
        self.assertEqual(written("calendar", 40, CALENDAR_END), stretches)
        number = example("Final number")
        self.assertEqual(written("final_number", len(number)), number)

    def test_the_library_accepts_the_cartons_and_the_text(self) -> None:
        self.assertEqual(packaging(BOOK, QUESTION).gross, 500 + 2 * 2000)
        self.assertEqual(bytes(text(TEXTS, TEXTS, 7).part), b"Table")

    def test_the_library_derives_the_question(self) -> None:
        asked = question("T1", date(2026, 6, 29), 2, [], [Property(4, "ASH")], currency="EUR")
        self.assertEqual(derive(asked, example("Property list"), RELATION).packed(), QUESTION)


def price_file() -> list[list[str]]:
    """The rows of the tables that say what a price file holds, and the lines of the file shown below them, a cell each."""
    section = DOCUMENT.read_text().split("\n## Price file\n")[1].split("\n## ")[0].splitlines()
    cells = [[cell.strip() for cell in line.strip("|").split(" | ")] for line in section if line.startswith("| ")]
    return [*cells, *([line[4:]] for line in section if line.startswith("    "))]


def makes(line: str) -> str:
    try:
        return "a row" if read_prices(line.encode("latin-1")) else "nothing"
    except BadLine:
        return "bad"


class PriceFileTest(unittest.TestCase):
    def setUp(self) -> None:
        holder = warnings.catch_warnings()
        holder.__enter__()
        self.addCleanup(holder.__exit__, None, None, None)
        warnings.simplefilter("ignore", RowWarning)

    def test_the_fields(self) -> None:
        self.assertEqual([row[0] for row in price_file()[1:1 + len(FIELDS)]], list(FIELDS))

    def test_each_line_makes_what_the_page_says(self) -> None:
        lines = [row for row in price_file() if row[0].startswith("`")]
        self.assertGreater(len(lines), 10)
        for line, made, _ in lines:
            with self.subTest(line):
                self.assertEqual(makes(line.strip("`")), made)

    def test_the_file_that_is_written(self) -> None:
        rows = price_file()
        read = "\n".join([row[0].strip("`") for row in rows if row[0].startswith("`")][:4]).encode("latin-1")
        shown = "".join(f"{row[0]}\n" for row in rows if len(row) == 1).encode("latin-1")
        self.assertEqual(write_prices(book(*read_prices(read))), shown)
