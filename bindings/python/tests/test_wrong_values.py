"""What each builder and call says of a wrong value, to the letter, and that the bound itself is taken."""
from __future__ import annotations

import unittest
from datetime import date, datetime
from decimal import Decimal
from typing import Callable

from rafttwine import (Article, Cents, Factor, Granted, Held, Level, NoDay, PackagingRow, Percent, PriceRow, Property, Question,
                       Rounding, Scheme, TextRow, Way, basket, book, calendar, derive, price, price_derived, property_list, question,
                       text, text_book)
from samples import ASKED, BOOK, FALLBACK, QUESTIONS
from sizes import MOST_BYTES, articles_of, texts_of

DAY = date(2024, 1, 2)
LATIN_1 = "only the printable characters of Latin-1 are allowed"


def asked(**words: object) -> Callable[[], object]:
    return lambda: question(**{"article": "A1", "day": DAY, **words})


def row(**words: object) -> Callable[[], object]:
    return lambda: PriceRow(**{"article": "A1", "level": Level.BASE, "value": Cents(1), **words})


def derived(**words: object) -> Callable[[], object]:
    return lambda: derive(**{"question": question("A1", DAY), "properties": {}, "relation": "$VARCOND='OAK'", **words})


def carton(**words: object) -> Callable[[], object]:
    return lambda: PackagingRow(**{"article": "A1", **words})


WRONG: list[tuple[type[Exception], str, Callable[[], object]]] = [
    # Types that people come with, each with what is wanted in its place.
    (TypeError, "question.granted: a list of names is wanted, not the text 'oak'", asked(granted="oak")),
    (TypeError, "question.granted: a list of names is wanted, not bytes", asked(granted=b"oak")),
    (TypeError, "question.granted: a list of names is wanted, not a set", asked(granted={"oak"})),
    (TypeError, "question.granted: name 2: a text or Granted is wanted, not the number 7", asked(granted=["oak", 7])),
    (TypeError, "question.granted: name 1: a text or Granted is wanted, not a tuple", asked(granted=[("oak", 2)])),
    (TypeError, "Granted.factor: Factor is wanted, not the number 2.5", lambda: Granted("oak", 2.5)),
    (TypeError, "Granted.factor: Factor is wanted, not the text '2.5'", lambda: Granted("oak", "2.5")),
    (TypeError, "Granted.name: a text is wanted, not bytes", lambda: Granted(b"oak")),
    (TypeError, "Factor.times: a whole number, a Decimal, or a text as '2.5' is wanted, not the number 2.5", lambda: Factor(2.5)),
    (TypeError, "question.properties: a list of properties is wanted, not the text 'oak'", asked(properties="oak")),
    (TypeError, "question.properties: property 1: Property is wanted, not the text 'oak'", asked(properties=["oak"])),
    (TypeError, "question.quantity: a whole number is wanted, not the number 1.5", asked(quantity=1.5)),
    (TypeError, "question.quantity: a whole number is wanted, not True", asked(quantity=True)),
    (TypeError, "question.day: a day is wanted, as datetime.date has it, not the text '2024-01-02'", asked(day="2024-01-02")),
    (TypeError, "question.day: a day is wanted, as datetime.date has it, not the moment 2024-01-02 10:30:00",
     asked(day=datetime(2024, 1, 2, 10, 30))),
    (TypeError, "PriceRow.value: Cents or Percent is wanted, not the number 10000", row(value=10_000)),
    (TypeError, "PriceRow.up_to: a whole number is wanted, not the number 9.0", row(up_to=9.0)),
    (TypeError, "PriceRow.first: a day is wanted, as datetime.date has it, not the text '2024-01-02'", row(first="2024-01-02")),
    (TypeError, "PriceRow.last: a day is wanted, as datetime.date has it, not the number 20240102", row(last=20240102)),
    (TypeError, "PriceRow.level: Level.BASE, Level.SURCHARGE or Level.DISCOUNT is wanted, not the text 'base'", row(level="base")),
    (TypeError, "PriceRow.rule: Rule.OF_BASE or Rule.OF_TOTAL_SO_FAR is wanted, not Level.BASE", row(rule=Level.BASE)),
    (TypeError, "PriceRow.article: a text is wanted, not None", row(article=None)),
    (TypeError, "Scheme.trim: True or False is wanted, not the text 'no'", lambda: Scheme("S", trim="no")),
    (TypeError, "Percent.share: a whole number, a Decimal, or a text as '12.50' is wanted, not the number 12.5",
     lambda: Percent(12.5)),
    (TypeError, "calendar.end: a day is wanted, as datetime.date has it, not the text '20240101'",
     lambda: calendar(BOOK, QUESTIONS["june"], "20240101")),
    (TypeError, "calendar.end: a day is wanted, as datetime.date has it, not the number 20240101",
     lambda: calendar(BOOK, QUESTIONS["june"], 20240101)),
    (TypeError, "basket.questions: a list of questions is wanted, not bytes", lambda: basket(BOOK, QUESTIONS["june"])),
    (TypeError, "basket.questions: a list of questions is wanted, not a dict", lambda: basket(BOOK, QUESTIONS)),
    (TypeError, "basket.questions: question 2: bytes are wanted, or another contiguous buffer of bytes, not the text 'A1'",
     lambda: basket(BOOK, [QUESTIONS["june"], "A1"])),
    (TypeError, "text.number: a whole number is wanted, not the text '7'", lambda: text(ASKED, FALLBACK, "7")),
    (TypeError, "price.book: bytes are wanted, or another contiguous buffer of bytes, not the text 'desk.book'",
     lambda: price("desk.book", b"")),
    (TypeError, "text_book.texts: a whole number is wanted, not the text '7'", lambda: text_book({"7": b"Table"})),
    (TypeError, "text_book.texts: text 7: bytes are wanted, not the text 'Table'", lambda: text_book({7: "Table"})),
    (TypeError, "text_book.texts: text 2: TextRow is wanted, not bytes", lambda: text_book([TextRow(7, b"Table"), b"Table"])),
    (TypeError, "book.records: record 1: Article, PriceRow, Rounding, PackagingRow or Scheme is wanted, not a list",
     lambda: book([Article("A1")])),
    (TypeError, "Held.value: a text, a whole number or None is wanted, not the number 1.5", lambda: Held("WIDTH", 1.5)),
    (TypeError, "property_list.values: a dictionary of names and values, or a list of Held is wanted, not the text 'TOP'",
     lambda: property_list("TOP")),
    (TypeError, "property_list.values: 'WIDTH': a text, a whole number or None is wanted, not True",
     lambda: property_list({"WIDTH": True})),
    (TypeError, "property_list.values: a text is wanted, not the number 7", lambda: property_list({7: "oak"})),
    (TypeError, "property_list.values: property 2: Held is wanted, not a tuple",
     lambda: property_list([Held("TOP"), ("WIDTH", 900)])),
    (TypeError, "derive.properties: 'TOP': a text, a whole number or None is wanted, not bytes",
     derived(properties={"TOP": b"oak"})),
    (TypeError, "derive.properties: bytes are wanted, or another contiguous buffer of bytes, not the text 'TOP'",
     derived(properties="TOP")),
    (TypeError, "derive.relation: bytes are wanted, or another contiguous buffer of bytes, not a list",
     derived(relation=["$VARCOND='OAK'"])),
    (TypeError, "derive.question: bytes are wanted, or another contiguous buffer of bytes, not a Question",
     derived(question=Question("A1", DAY))),
    (TypeError, "price_derived.properties: 'TOP': a text, a whole number or None is wanted, not a list",
     lambda: price_derived(BOOK, QUESTIONS["june"], {"TOP": ["oak"]}, "$VARCOND='OAK'")),
    # Numbers out of range.
    (ValueError, "text.number: 4,294,967,303 is out of range, 0 to 4,294,967,295 is allowed",
     lambda: text(ASKED, FALLBACK, 2**32 + 7)),
    (ValueError, "text.number: -1 is out of range, 0 to 4,294,967,295 is allowed", lambda: text(ASKED, FALLBACK, -1)),
    (ValueError, "text.number: a number of over 40 digits is out of range, 0 to 4,294,967,295 is allowed",
     lambda: text(ASKED, FALLBACK, 10**9999)),
    (ValueError, "question.quantity: 0 is out of range, 1 to 100,000 is allowed", asked(quantity=0)),
    (ValueError, "question.quantity: 100,001 is out of range, 1 to 100,000 is allowed", asked(quantity=100_001)),
    (ValueError, "PriceRow.up_to: 4,294,967,296 is out of range, 0 to 4,294,967,295 is allowed", row(up_to=1 << 32)),
    (ValueError, "PriceRow.text: -1 is out of range, 0 to 4,294,967,295 is allowed", row(text=-1)),
    (ValueError, "PriceRow.rounding: 65,536 is out of range, 0 to 65,535 is allowed", row(rounding=65_536)),
    (ValueError, "Cents.amount: 100,000,001 is out of range, -100,000,000 to 100,000,000 is allowed", lambda: Cents(100_000_001)),
    (ValueError, "Percent.share: the text '1000.01' is out of range, -1,000 to 1,000 is allowed", lambda: Percent("1000.01")),
    (ValueError, "Percent.share: the number 1E+999999 is out of range, -1,000 to 1,000 is allowed",
     lambda: Percent(Decimal("1e999999"))),
    (ValueError, "Percent.share: the text '0.001' has more than two decimals", lambda: Percent("0.001")),
    (ValueError, "Percent.share: a text of 43 characters has more than two decimals", lambda: Percent(f"1.5{'0' * 39}1")),
    (ValueError, "Percent.share: the text '12,5' is no percentage; digits are wanted, with a point before the decimals",
     lambda: Percent("12,5")),
    (ValueError, "Percent.share: NaN is no number", lambda: Percent(Decimal("nan"))),
    (ValueError, "Factor.times: the text '10.001' is out of range, 0 to 10 is allowed", lambda: Factor("10.001")),
    (ValueError, "Factor.times: the number 2500 is out of range, 0 to 10 is allowed", lambda: Factor(2500)),
    (ValueError, "Factor.times: the text '-0.5' is out of range, 0 to 10 is allowed", lambda: Factor("-0.5")),
    (ValueError, "Factor.times: the text '0.0005' has more than three decimals", lambda: Factor("0.0005")),
    (ValueError, "Factor.times: the text '2,5' is no factor; digits are wanted, with a point before the decimals",
     lambda: Factor("2,5")),
    (ValueError, "Factor.times: Infinity is no number", lambda: Factor(Decimal("inf"))),
    (ValueError, "Factor.thousandths: 10,001 is out of range, 0 to 10,000 is allowed", lambda: Factor.of_thousandths(10_001)),
    (ValueError, "question.version: 3 is out of range, 1 to 2 is allowed", lambda: Question("A1", DAY, version=3)),
    (ValueError, "Rounding.number: 0 is out of range, 1 to 65,535 is allowed", lambda: Rounding(0, Way.UP, 1)),
    (ValueError, "Rounding.step: 0 is out of range, 1 to 1,000,000 is allowed", lambda: Rounding(1, Way.UP, 0)),
    (ValueError, "Rounding.before: -1,000,001 is out of range, -1,000,000 to 1,000,000 is allowed",
     lambda: Rounding(1, Way.UP, 1, before=-1_000_001)),
    (ValueError, "Rounding.after: 1,000,001 is out of range, -1,000,000 to 1,000,000 is allowed",
     lambda: Rounding(1, Way.UP, 1, after=1_000_001)),
    (ValueError, "PackagingRow.width: 10,000,001 is out of range, -10,000,000 to 10,000,000 is allowed",
     carton(width=10_000_001, length_unit="CMT")),
    (ValueError, "PackagingRow.items: 10,001 is out of range, -10,000 to 10,000 is allowed", carton(items=10_001)),
    (ValueError, "Property.width: 31 is out of range, 1 to 30 is allowed", lambda: Property(31)),
    (ValueError, "NoDay.number: 20240102 is a day, which is given as datetime.date(2024, 1, 2)", lambda: NoDay(20240102)),
    (ValueError, "Held.value: 9,223,372,036,854,775,808 is out of range, -9,223,372,036,854,775,808 to 9,223,372,036,854,775,807 is "
     "allowed", lambda: Held("WIDTH", 1 << 63)),
    (ValueError, "derive.properties: 65 properties, and at most 64 are allowed",
     derived(properties={f"P{place}": place for place in range(65)})),
    # Names.
    (ValueError, "PriceRow.article: 41 bytes, and at most 40 are allowed", row(article="A" * 41)),
    (ValueError, "Article.number: it is empty, and 1 to 40 bytes are allowed", lambda: Article("")),
    (ValueError, "Article.scheme: 21 bytes, and at most 20 are allowed", lambda: Article("A1", "S" * 21)),
    (ValueError, "PriceRow.condition: 21 bytes, and at most 20 are allowed", row(condition="C" * 21)),
    (ValueError, f"PackagingRow.article: character 3 is '\u20ac' (U+20AC), and {LATIN_1}",
     carton(article="A1\u20ac")),
    (ValueError, f"Article.number: character 2 is '\\n' (U+000A), and {LATIN_1}",
     lambda: Article("A\n")),
    (ValueError, f"Article.number: character 1 is '\\x80' (U+0080), and {LATIN_1}",
     lambda: Article("\x80")),
    (ValueError, "Scheme.id: it is empty, and 1 to 20 bytes are allowed", lambda: Scheme("")),
    (ValueError, "Scheme.before_values: 9 bytes, and at most 8 are allowed", lambda: Scheme("S", before_values="-" * 9)),
    (ValueError, "Scheme.hidden: 2 bytes, and at most 1 are allowed", lambda: Scheme("S", hidden="--")),
    (ValueError, "question.granted: name 2: it is empty, and 1 to 20 bytes are allowed", asked(granted=["oak", ""])),
    (ValueError, "Granted.name: 21 bytes, and at most 20 are allowed", lambda: Granted("O" * 21, Factor(2))),
    (ValueError, "Granted.name: it is empty, and 1 to 20 bytes are allowed", lambda: Granted("")),
    (ValueError, "question.granted: 33 names, and at most 32 are allowed", asked(granted=["oak"] * 33)),
    (ValueError, "question.properties: 33 properties, and at most 32 are allowed", asked(properties=[Property(1)] * 33)),
    (ValueError, "question.currency: a currency of three capitals, or None for any is wanted, not the text 'eur'",
     asked(currency="eur")),
    (ValueError, "PriceRow.currency: a currency of three capitals is wanted, not the text 'EURO'", row(currency="EURO")),
    (ValueError, "basket.questions: 201 questions, and at most 200 are allowed", lambda: basket(BOOK, [QUESTIONS["june"]] * 201)),
    (ValueError, "Held.name: 256 bytes, and at most 255 are allowed", lambda: Held("N" * 256)),
    (ValueError, f"property_list.values: 'TOP': character 4 is '\u20ac' (U+20AC), and {LATIN_1}",
     lambda: property_list({"TOP": "oak\u20ac"})),
    (ValueError, "derive.relation: line 1, column 11: '\u20ac' (U+20AC) is not in Latin-1", derived(relation="$VARCOND='\u20ac'")),
    # What does not go together.
    (ValueError, "question.version: 1 has no factors, and 'oak' has 2.5; None is for the version that fits",
     lambda: Question("A1", DAY, granted=["ash", Granted("oak", Factor("2.5"))], version=1)),
    (ValueError, "Property.value: a hidden property has none, and the text 'OAK' is given",
     lambda: Property(3, "OAK", hidden=True)),
    (ValueError, "Property.value: 4 bytes, and its width is 3", lambda: Property(3, "OAKS")),
    (ValueError, "Property.value: it is empty, and None is for no value", lambda: Property(3, "")),
    (ValueError, "Property.value: character 2 is ' ' (U+0020), and a value has no spaces and no backslashes",
     lambda: Property(3, "O K")),
    (ValueError, "PackagingRow.length_unit: it is missing, and depth is given", carton(depth=1)),
    (ValueError, "PackagingRow.volume_unit: it is missing, and volume is given", carton(volume=0)),
    (ValueError, "PackagingRow.weight_unit: it is missing, and net is given", carton(net=1, items=1)),
    (ValueError, "PackagingRow.length_unit: CMT, FOT, INH, MMT or MTR is wanted, not the text 'cm'", carton(length_unit="cm")),
    (ValueError, "PackagingRow.weight_unit: KGM, LBR or MGM is wanted, not the text 'CMT'", carton(weight_unit="CMT")),
    (ValueError, "PackagingRow.condition: it is empty, and the article '*' needs one", carton(article="*")),
    (ValueError, "Scheme.between_values: it is empty, and with trim values need something between them",
     lambda: Scheme("S", trim=True)),
    (ValueError, "Scheme.between_values: with trim it may not be '-', the character for hidden properties",
     lambda: Scheme("S", between_values="-", trim=True)),
    (ValueError, "Scheme.between_values: with trim it may not be '+', the character for unselected properties",
     lambda: Scheme("S", between_values="+", unselected="+", trim=True)),
    # Sizes.
    (ValueError, "basket.questions: question 2: 22 bytes, and it says 24",
     lambda: basket(BOOK, [QUESTIONS["june"], QUESTIONS["missing"][:-2]])),
    (ValueError, "basket.questions: question 1: 44 bytes, and it says 22", lambda: basket(BOOK, [QUESTIONS["june"] * 2])),
    (ValueError, "basket.questions: question 1: 0 bytes, and a question begins with its length in four",
     lambda: basket(BOOK, [b"", QUESTIONS["june"]])),
    (ValueError, "TextRow.content: 65,536 bytes, and at most 65,535 are allowed", lambda: TextRow(7, bytes(65_536))),
    (ValueError, "text_book.texts: text 7: 65,536 bytes, and at most 65,535 are allowed", lambda: text_book({7: bytes(65_536)})),
    (ValueError, "text_book.texts: 4,194,305 bytes, and at most 4,194,304 are allowed",
     lambda: text_book(texts_of(MOST_BYTES + 1))),
    (ValueError, "book.records: 4,194,305 bytes, and at most 4,194,304 are allowed", lambda: book(*articles_of(MOST_BYTES + 1))),
]


RIGHT: list[Callable[[], object]] = [
    lambda: (basket(BOOK, [QUESTIONS["june"]] * 200), basket(BOOK, ())),
    asked(granted=[Granted("O" * 20, Factor(10))] * 32),
    lambda: (Factor(10), Factor("0.001"), Factor(Decimal("2.5000")), Factor.of_thousandths(0)),
    asked(quantity=100_000, granted=["oak"] * 32, properties=[Property(30, "V" * 30)] * 32, currency="EUR"),
    row(article="A" * 40, condition="\xc4" * 20, up_to=2**32 - 1, rounding=65_535, text=2**32 - 1, first=NoDay(20240230)),
    lambda: (Cents(-100_000_000), Percent(Decimal("-1000.00")), Percent("+12.500"), NoDay(0)),
    lambda: (Rounding(65_535, Way.UP, 1_000_000, -1_000_000, 1_000_000), Article("\xa0")),
    carton(width=-10_000_000, items=-10_000, length_unit="CMT", volume_unit="LTR"),
    lambda: (Scheme("S", between_values="--", trim=True), Scheme("S", between_values="-")),
    lambda: Scheme("S", hidden="+", between_values="-", trim=True),
    lambda: (Held("N" * 255, "\xff" * 255), Held("WIDTH", -1 << 63), Held("WIDTH", (1 << 63) - 1), Held("TOP", "")),
    derived(properties={f"P{place}": place for place in range(64)}),
    lambda: text(ASKED, text_book({2**32 - 1: bytes(65_535)}), 2**32 - 1),
]


class WrongValuesTest(unittest.TestCase):
    maxDiff = None

    def test_each_gets_its_sentence(self) -> None:
        for kind, sentence, make in WRONG:
            with self.subTest(sentence):
                with self.assertRaises(kind) as caught:
                    make()
                self.assertEqual((str(caught.exception), type(caught.exception)), (sentence, kind))

    def test_the_bounds_are_taken(self) -> None:
        for place, make in enumerate(RIGHT):
            with self.subTest(place):
                make()

    def test_the_largest_books(self) -> None:
        largest = book(*articles_of(MOST_BYTES))
        self.assertEqual((len(largest), len(text_book(texts_of(MOST_BYTES)))), (MOST_BYTES, MOST_BYTES))
