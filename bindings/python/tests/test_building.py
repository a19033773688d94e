"""Books and questions of readable values, and the example that the package shows first."""
import doctest
import unittest
from datetime import date
from decimal import Decimal, localcontext

import rafttwine
from rafttwine import Article, Factor, Granted, Level, Percent, PriceRow, Property, Question, Rule, Sort, book, question, text_book


class BuildingTest(unittest.TestCase):
    def test_bytes_of_a_book(self) -> None:
        row = PriceRow("A1", Level.DISCOUNT, Percent("-3.33"), condition="ASH", rule=Rule.OF_TOTAL_SO_FAR, sort=Sort.PURCHASE,
                       currency="USD", first=date(2024, 1, 2), last=date(9999, 12, 31), up_to=258, rounding=772, text=16909060)
        self.assertEqual(book(Article("A1", "S"), row), b"\0\0\0\x34\x01"
                         b"\0\x06\x01\x02A1\x01S"
                         b"\0\x25\x02\x02A1\x03ASHPD\x02\x01\x02\x03\x04\0\xff\xff\xfe\xb3USD"
                         b"\x01\x34\xd6\xe6\x05\xf5\xbe\xbf\0\0\x01\x02\x03\x04")

    def test_bytes_of_a_question_and_of_a_text_book(self) -> None:
        asked = question("A1", date(2024, 1, 2), 9, ["ash"], [Property(2, "W"), Property(3, hidden=True), Property(4)])
        self.assertEqual(asked, b"\0\0\0\x24\x01\x02A1S\0\0\0\x01\x34\xd6\xe6\0\0\0\x09\x01\x03ash"
                         b"\x03\x02\0\x01W\x03\x01\0\x04\x02\0")
        self.assertEqual(text_book({1: b"a\0"}), b"\0\0\0\x0d\x01\0\0\0\x01\0\x02a\0")

    def test_bytes_of_a_question_with_factors(self) -> None:
        day, front = date(2024, 1, 2), b"\x02A1S\0\0\0\x01\x34\xd6\xe6\0\0\0\x01"
        both = [Granted("edge", Factor("2.5")), "oak"]
        self.assertEqual(question("A1", day, granted=both),
                         b"\0\0\0\x23\x02" + front + b"\x02\x04edge\x09\xc4\x03oak\x03\xe8\0")
        once = b"\0\0\0\x1a\x01" + front + b"\x01\x03oak\0"
        self.assertEqual(question("A1", day, granted=["oak"]), once)
        self.assertEqual(question("A1", day, granted=[Granted("oak")]), once)
        self.assertEqual(Question("A1", day, granted=["oak"], version=2).packed(),
                         b"\0\0\0\x1c\x02" + front + b"\x01\x03oak\x03\xe8\0")
        self.assertEqual(Question("A1", day, version=2).packed(), b"\0\0\0\x16\x02" + front + b"\0\0")

    def test_a_granted_condition_is_what_its_version_says(self) -> None:
        asked = Question("A1", date.max, granted=["oak", Granted("ash", Factor(1))])
        self.assertEqual((asked.version, asked.granted), (1, ("oak", "ash")))
        asked = Question("A1", date.max, granted=["oak", Granted("ash", Factor(3))])
        self.assertEqual((asked.version, asked.granted), (2, (Granted("oak"), Granted("ash", Factor(3)))))
        self.assertEqual(asked, Question("A1", date.max, granted=asked.granted, version=2))

    def test_a_factor_is_exact_in_every_decimal_context(self) -> None:
        for written, thousandths in (("2.5", 2500), ("0.001", 1), (10, 10_000), ("-0", 0), (Decimal("1.2340"), 1234), ("+4.8", 4800)):
            with self.subTest(written), localcontext() as context:
                context.prec = 1
                self.assertEqual(Factor(written).thousandths(), thousandths)
                self.assertEqual(Factor.of_thousandths(thousandths), Factor(written))
                self.assertRaises(ValueError, Factor, "10.001")
        self.assertEqual([str(Factor(one)) for one in ("2.500", "10", "0.05", "-0.0")], ["2.5", "10", "0.05", "0"])
        self.assertEqual(repr(Factor("1.250")), "Factor('1.25')")

    def test_a_percentage_is_exact_in_every_decimal_context(self) -> None:
        for written, hundredths in (("123.45", 12_345), ("-0.01", -1), ("1000", 100_000), (-3, -300), (Decimal("12.5"), 1250)):
            with self.subTest(written), localcontext() as context:
                context.prec = 1
                self.assertEqual(Percent(written).hundredths(), hundredths)
                self.assertEqual(Percent.of_hundredths(hundredths), Percent(written))
                self.assertRaises(ValueError, Percent, "1000.01")
        self.assertEqual((repr(Percent("12.5")), str(Percent(-3))), ("Percent('12.50')", "-3.00 %"))

    def test_first_example(self) -> None:
        self.assertEqual(doctest.testmod(rafttwine), (0, 26))
