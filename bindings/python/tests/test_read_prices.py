"""The call that reads a price file: rows as objects, the names of texts, bad lines told with their field, and doubtful rows."""
from __future__ import annotations

import copy
import pickle
import unittest
import warnings
from datetime import date

from rafttwine import (Article, BadLine, Cents, Level, NoDay, Percent, PriceRow, Refusal, Refused, RowWarning, Rule, Sort, book,
                       price, question, read_prices, text_names)

JANUARY, JUNE, DECEMBER = date(2024, 1, 1), date(2024, 6, 30), date(2024, 12, 31)
GOOD = "A1;;S;B;1;table;100.00;1;EUR;20240101;20241231;0;"
FILE = f"""# the maker's prices; of 2024

{GOOD}
"A;""1"  ;OAK;P;X;2;oak;12.5;0;USD;20240101;20240630;0;
A1;;S;D;1;;-.05000;1;EUR;20240101;20241231;0;
\t
A1;B\xdcRO;S;X;1;table;0;1;EUR;20240101;20241231;0;""".encode("latin-1")
ROWS = (
    PriceRow("A1", Level.BASE, Cents(10_000), first=JANUARY, last=DECEMBER, text=1),
    PriceRow('A;"1', Level.SURCHARGE, Percent("12.50"), condition="OAK", rule=Rule.OF_TOTAL_SO_FAR, sort=Sort.PURCHASE,
             currency="USD", first=JANUARY, last=JUNE, text=2),
    PriceRow("A1", Level.DISCOUNT, Cents(-5), first=JANUARY, last=DECEMBER),
    PriceRow("A1", Level.SURCHARGE, Cents(0), condition="B\xdcRO", first=JANUARY, last=DECEMBER, text=1),
)
# A plain line with one field changed: the field, what it is changed to, and what is said of it.
WRONG = [
    ("ArticleID", "", "it is empty, and 1 to 40 bytes are allowed"),
    ("ArticleID", "A" * 41, "41 bytes, and at most 40 are allowed"),
    ("Variantcondition", "O\tK", "character 2 is '\\t' (U+0009), and only the printable characters of Latin-1 are allowed"),
    ("Type", "s", "'s' is no type: S for sale or P for purchase"),
    ("Level", "", "it is empty, and a level is needed: B for base, X for surcharge or D for discount"),
    ("Rule", "", "it is empty, and a rule is needed: 1 of the base price or 2 of the total so far"),
    ("TextID", "\x85", "character 1 is '\\x85' (U+0085), and only the printable characters of Latin-1 are allowed"),
    ("PriceValue", "12,50", "'12,50' is no amount: digits with a point, at most two decimals"),
    ("PriceValue", "", "it is empty, and an amount is needed: digits with a point, at most two decimals"),
    ("PriceValue", "12.505", "'12.505' is no amount: at most two decimals"),
    ("PriceValue", "-1000000.01", "at most 1,000,000.00 either side of zero is allowed"),
    ("PriceValue", "9" * 5000, "at most 1,000,000.00 either side of zero is allowed"),
    ("PriceValue", "x" * 50, "a text of 50 characters is no amount: digits with a point, at most two decimals"),
    ("FixValue", "yes", "'yes' is no yes or no: 1 for an amount or 0 for a percentage"),
    ("Currency", "", "it is empty, and a currency is needed: three capitals, as EUR"),
    ("Currency", "Eur", "'Eur' is no currency: three capitals, as EUR"),
    ("DateFrom", "01.01.2024", "'01.01.2024' is no date: eight digits, as 20240630, or nothing"),
    ("DateTo", " ", "' ' is no date: eight digits, as 20240630, or nothing"),
    ("ScaleQuantity", "1.0", "'1.0' is no quantity: digits alone"),
    ("ScaleQuantity", "4294967296", "at most 4,294,967,295 is allowed"),
    ("RoundingID", "R1", "a rounding can't be named here: the field has to be empty"),
]
FIELDS = ("ArticleID;Variantcondition;Type;Level;Rule;TextID;PriceValue;FixValue;Currency;DateFrom;DateTo;ScaleQuantity;"
          "RoundingID").split(";")


def changed(field: str, to: str) -> str:
    fields = GOOD.split(";")
    fields[FIELDS.index(field)] = to
    return ";".join(fields)


class ReadPricesTest(unittest.TestCase):
    def test_rows(self) -> None:
        self.assertEqual(read_prices(FILE), ROWS)
        self.assertEqual(read_prices(memoryview(FILE)), ROWS)
        self.assertEqual(read_prices(b""), ())
        self.assertEqual(read_prices(b"#\n\n \t\n"), ())

    def test_a_book_of_a_file(self) -> None:
        made = book(Article("A1"), *read_prices(FILE))
        self.assertEqual(made, book(Article("A1"), *ROWS))
        self.assertEqual(price(made, question("A1", JUNE, 3)).total, 3 * 9_995)

    def test_more_rows_than_a_book_holds(self) -> None:
        line = f"{'A' * 40};{'C' * 20};S;B;1;;1;1;EUR;20240101;20241231;0;\n".encode()
        rows = read_prices(line * 45_000)
        self.assertEqual((len(rows), len(set(rows))), (45_000, 1))
        with self.assertRaisesRegex(ValueError, r"^book\.records: 4,230,005 bytes, and at most 4,194,304 are allowed$"):
            book(*rows)

    def test_names_of_texts(self) -> None:
        self.assertEqual(text_names(FILE), {1: "table", 2: "oak"})
        self.assertEqual(text_names(b"#\n"), {})
        with self.assertRaisesRegex(BadLine, "^chairs.csv, line 1: "):
            text_names(b"x", "chairs.csv")


class BadLinesTest(unittest.TestCase):
    def bad(self, line: str) -> BadLine:
        with self.assertRaises(BadLine) as caught:
            read_prices(f"#\n\n{GOOD}\n{line}\nx\n".encode("latin-1"))
        self.assertEqual((caught.exception.file, caught.exception.line), ("ocd_price.csv", 4))
        return caught.exception

    def test_a_wrong_field_is_named(self) -> None:
        for field, to, wrong in WRONG:
            with self.subTest(field, to=to[:60]):
                bad = self.bad(changed(field, to))
                self.assertEqual((bad.field, bad.wrong), (field, wrong))
                self.assertEqual(str(bad), f"ocd_price.csv, line 4, {field}: {wrong}")

    def test_percentages(self) -> None:
        bad = self.bad("A1;;S;X;1;;1000.01;0;EUR;;;0;")
        self.assertEqual((bad.field, bad.wrong), ("PriceValue", "at most 1,000.00 % either side of zero is allowed"))

    def test_a_wrong_line(self) -> None:
        for line, wrong in (
            ("x", "1 field, and 13 are needed, with a semicolon between two"),
            (f"{GOOD};", "14 fields, and 13 are needed, with a semicolon between two"),
            (f"{GOOD}\r", "it ends in CR and LF; save the file with LF alone at the ends of lines"),
            (changed("TextID", '"oak'), "the quotes of TextID do not close before a semicolon or the line's end"),
            (changed("ArticleID", '"A1"x'), "the quotes of ArticleID do not close before a semicolon or the line's end"),
            ("\xef\xbb\xbf# prices",
             "1 field, and 13 are needed, with a semicolon between two; it looks like UTF-8, and is to be in Latin-1"),
            (f'{GOOD};"', "the quotes of field 14 do not close before a semicolon or the line's end"),
        ):
            with self.subTest(line):
                bad = self.bad(line)
                self.assertEqual((bad.field, bad.wrong, str(bad)), ("", wrong, f"ocd_price.csv, line 4: {wrong}"))

    def test_it_is_a_refusal_that_can_be_copied(self) -> None:
        bad = self.bad(changed("Type", "s"))
        for again in (bad, copy.deepcopy(bad), pickle.loads(pickle.dumps(bad))):
            self.assertIsInstance(again, Refused)
            self.assertIs(again.refusal, Refusal.BAD_ROW)
            self.assertEqual((str(again), again.line), (str(bad), 4))
        self.assertEqual(str(BadLine("prices", 7)), "prices, line 7: it makes no price row")


class DoubtfulRowsTest(unittest.TestCase):
    def told(self, *lines: str) -> list[str]:
        with warnings.catch_warnings(record=True) as caught:
            warnings.simplefilter("always")
            read_prices("\n".join(lines).encode("latin-1"), "chairs.csv")
        self.assertTrue(all(one.category is RowWarning and one.filename == __file__ for one in caught))
        return [str(one.message) for one in caught]

    def test_nothing_to_say(self) -> None:
        self.assertEqual(self.told(GOOD, "#"), [])

    def test_quantities(self) -> None:
        from_there = "and not from there on; 0 is for any number"
        self.assertEqual(self.told(changed("ScaleQuantity", "1")),
                         [f"chairs.csv, line 1, ScaleQuantity: the row counts up to 1 piece, {from_there}"])
        told = self.told("#", GOOD, changed("ScaleQuantity", "10"), changed("ScaleQuantity", "1"))
        ten = f"chairs.csv, line 3, ScaleQuantity: the row counts up to 10 pieces, {from_there}"
        self.assertEqual(told, [f"{ten}; and 1 more line alike"])

    def test_days(self) -> None:
        self.assertEqual(self.told(changed("DateFrom", ""), *[changed("DateTo", "20230229")] * 3), [
            "chairs.csv, line 1, DateFrom: blank is no day, so the row never counts",
            "chairs.csv, line 2, DateTo: 20230229 is no day, so the row never counts; and 2 more lines alike"])
        with warnings.catch_warnings():
            warnings.simplefilter("ignore", RowWarning)
            self.assertEqual(read_prices(changed("DateFrom", "").encode())[0].first, NoDay(0))

    def test_what_making_such_a_row_warns_of(self) -> None:
        told = self.told(changed("Variantcondition", "Oak"), changed("Level", "D"), changed("DateTo", "20230101"))
        self.assertEqual([one.split(":")[0] for one in told],
                         ["chairs.csv, line 1, Variantcondition", "chairs.csv, line 2, PriceValue", "chairs.csv, line 3, DateTo"])

    def test_a_file_in_utf_8(self) -> None:
        told = ("chairs.csv: it looks like UTF-8 and is read as Latin-1, so that letters beyond ASCII become others; save it in "
                "Latin-1")
        self.assertEqual(self.told("\xef\xbb\xbf" + GOOD), [told])
        self.assertEqual(self.told(changed("TextID", "gr\xc3\xbcn")), [told])
        self.assertEqual(self.told(changed("TextID", "gr\xfcn")), [])
