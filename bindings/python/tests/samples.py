"""A price book, text books and questions for the tests: the sums worked by hand, and a smallest input for some refusals.

As a program it writes each to a file of the folder given, for the tests in other languages:  samples.py FOLDER
"""
from __future__ import annotations

import pathlib
import sys
from datetime import date

from rafttwine import (Article, Cents, Factor, Granted, Level, PackagingRow, Percent, PriceRow, Property, Question, Rounding, Rule,
                       Scheme, Way, book, property_list, question, text_book)

JANUARY, JUNE, JULY, DECEMBER = date(2024, 1, 1), date(2024, 6, 30), date(2024, 7, 1), date(2024, 12, 31)
YEAR_END = date(2025, 1, 2)

# Lines' texts.
TABLE, OAK, DISCOUNT, NOWHERE = 100, 200, 300, 400

A1 = (
    Article("A1"),
    PriceRow("A1", Level.BASE, Cents(10_000), first=JANUARY, last=JUNE, text=TABLE),
    PriceRow("A1", Level.BASE, Cents(10_500), first=JULY, last=DECEMBER, text=TABLE),
    PriceRow("A1", Level.SURCHARGE, Percent("12.50"), condition="OAK", first=JANUARY, last=DECEMBER, text=OAK),
    PriceRow("A1", Level.DISCOUNT, Percent("-3.33"), rule=Rule.OF_TOTAL_SO_FAR, first=JANUARY, last=DECEMBER, text=DISCOUNT),
)
# An eighth of 10500 is 1312.50: rounded to fives, and up to whole euros.
ROUNDED = (
    Article("R5"), PriceRow("R5", Level.BASE, Cents(10_500)), PriceRow("R5", Level.SURCHARGE, Percent("12.5"), rounding=1),
    Article("R100"), PriceRow("R100", Level.BASE, Cents(10_500)), PriceRow("R100", Level.SURCHARGE, Percent("12.5"), rounding=2),
    Rounding(1, Way.COMMERCIAL, 5), Rounding(2, Way.UP, 100),
)
REFUSED = (
    Article("MIXED"), PriceRow("MIXED", Level.BASE, Cents(100)), PriceRow("MIXED", Level.DISCOUNT, Cents(-10), currency="USD"),
    Article("HUGE"), PriceRow("HUGE", Level.BASE, Cents(100_000_000)), PriceRow("HUGE", Level.SURCHARGE, Percent(1000)),
)
NUMBERED = (
    Article("T100", "PADDED"), Scheme("PADDED", between_values="_", hidden_shown=True),
    Article("T200", "TRIMMED"), Scheme("TRIMMED", between_values="_", hidden_shown=True, trim=True),
)
PACKED = (
    PackagingRow("T100", width=800, height=720, depth=45, volume=26, tare=2000, net=15_000, items=2, packs=1,
                 length_unit="MMT", volume_unit="LTR", weight_unit="KGM"),
    PackagingRow("*", "OAK", net=3000, weight_unit="KGM"),
    PackagingRow("*", "POUNDS", net=1, weight_unit="LBR"),
    PackagingRow("T200", width=-1, length_unit="CMT"),
    PackagingRow("T200", "WIDE", width=3, length_unit="CMT"),
)

BOOK = book(*A1, *ROUNDED, *REFUSED, *NUMBERED, *PACKED)
ASKED = text_book({TABLE: b"table", OAK: b""})
FALLBACK = text_book({TABLE: b"Tisch", DISCOUNT: b"Nachlass"})

TWICE_AND_A_HALF = Granted("oak", Factor("2.5"))
PROPERTIES = (Property(4, "OAK"), Property(2, hidden=True), Property(3))
QUESTIONS = {
    "june_oak": question("A1", JUNE, quantity=3, granted=("oak", "ash"), currency="EUR"),
    "june_factors": question("A1", JUNE, granted=("ash", TWICE_AND_A_HALF)),
    "july_oak": question("A1", JULY, granted=("oak",), currency="EUR"),
    "june": question("A1", JUNE),
    "june_version_2": Question("A1", JUNE, version=2).packed(),
    "next_year": question("A1", YEAR_END),
    "calendar": question("A1", date(2024, 6, 29), granted=("oak",), currency="EUR"),
    "calendar_factors": question("A1", date(2024, 6, 29), granted=(TWICE_AND_A_HALF,)),
    "missing": question("NONE", JUNE),
    "fives": question("R5", JUNE),
    "euros": question("R100", JUNE),
    "mixed": question("MIXED", JUNE),
    "huge": question("HUGE", JUNE),
    "padded": question("T100", JUNE, properties=PROPERTIES),
    "trimmed": question("T200", JUNE, properties=PROPERTIES),
    "carton": question("T100", JUNE),
    "carton_oak": question("T100", JUNE, granted=("oak",)),
    "carton_factor": question("T100", JUNE, granted=(TWICE_AND_A_HALF,)),
    "carton_pounds": question("T100", JUNE, granted=("pounds",)),
    "carton_below": question("T200", JUNE),
    "carton_wide": question("T200", JUNE, granted=("wide",)),
}

# What was chosen, and a relation that derives oak and ash from it.
CHOSEN = {"top": "OAK", "Width": 900, "FINISH": None}
PROPERTY_LIST = property_list(CHOSEN)
RELATION = b"""$VARCOND = 'oak' IF TOP = 'Oak' AND NOT WIDTH < 800,
$VARCOND = 'beech' IF TOP IN ('beech', 'birch') OR FINISH = 'oil',
$varcond = 'ash' if not specified FINISH
"""


def write(folder: pathlib.Path) -> None:
    folder.mkdir(parents=True, exist_ok=True)
    files = {"sample.book": BOOK, "asked.texts": ASKED, "fallback.texts": FALLBACK, "chosen.properties": PROPERTY_LIST,
             "sample.relation": RELATION}
    files.update((f"{name}.question", asked) for name, asked in QUESTIONS.items())
    for name, content in files.items():
        (folder / name).write_bytes(content)


if __name__ == "__main__":
    write(pathlib.Path(sys.argv[1]))
