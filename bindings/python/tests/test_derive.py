"""The call that derives conditions: the question with their names, whatever form its properties and its relation come in, and
relations that are wrong, told with line and column."""
from __future__ import annotations

import copy
import pickle
import unittest
import warnings

from checks import CallTest
from samples import BOOK, CHOSEN, JUNE, PROPERTIES, PROPERTY_LIST, QUESTIONS, RELATION
from rafttwine import (BadRelation, Granted, Held, Question, Refusal, Refused, RowWarning, Sort, calendar, derive, price,
                       question)

HELD = [Held("top", "OAK"), Held("Width", 900), Held("FINISH")]
SIXTEEN = "(" * 16
CONDITION = "a condition (a name, a string, a number, NOT, SPECIFIED or a parenthesis)"
# A relation, the number and the place of its refusal, line and column, and what is said.
WRONG = [
    ("", 14, 1, 1, 1, "$VARCOND is wanted, not the end"),
    (" VARCOND='A'", 14, 2, 1, 2, "$VARCOND is wanted, not 'VARCOND'"),
    ("$VARCONDS='A'", 14, 9, 1, 9, "$VARCOND is wanted, not '$VARCONDS'"),
    ("$VARCOND EQ 'A'", 14, 10, 1, 10, "= is wanted, not 'EQ'"),
    ("$VARCOND=7", 14, 10, 1, 10, "a string, as 'OAK', is wanted, not '7'"),
    ("$VARCOND='A' IFTOP='A'", 14, 16, 1, 16, "IF, a comma or the end is wanted, not 'IFTOP'"),
    ("$VARCOND='A',\n", 14, 15, 2, 1, "$VARCOND is wanted, not the end"),
    ("$VARCOND='A\n", 14, 13, 2, 1, "the string that begins in line 1, column 10 does not end"),
    ("$VARCOND='A' IF\n\n  AND B=1", 14, 23, 3, 6, f"'AND' is a reserved word, and {CONDITION} is wanted"),
    ("$VARCOND='A' IF B 'C'", 14, 19, 1, 19, "a sign, as = or <>, or IN is wanted, not \"'C'\""),
    ("$VARCOND='A' IF 1 IN (1)", 14, 19, 1, 19, "a sign, as = or <>, is wanted, not 'IN'"),
    ("$VARCOND='A' IF B =< 1", 14, 20, 1, 20, "a sign, as = or <>, or IN is wanted, not '=<'"),
    ("$VARCOND='A' IF B = NOT", 14, 24, 1, 24, "'NOT' is a reserved word, and a name, a string or a number is wanted"),
    ("$VARCOND='A' IF SPECIFIED (B)", 14, 27, 1, 27, "the name of a property is wanted, not '('"),
    ("$VARCOND='A' IF B IN 'A'", 14, 22, 1, 22, "( is wanted, not \"'A'\""),
    ("$VARCOND='A' IF B IN ('A', C)", 14, 28, 1, 28, "a string or a number is wanted, not 'C'"),
    ("$VARCOND='A' IF B IN ('A' 'C')", 14, 27, 1, 27, "a comma or ) is wanted, not \"'C'\""),
    ("$VARCOND='A' IF B = 1)", 14, 22, 1, 22, "AND, OR, a comma or the end is wanted, not ')'"),
    ("$VARCOND='A' IF (B = 1", 14, 23, 1, 23, "AND, OR or ) is wanted, not the end"),
    ("$VARCOND='A' IF B = 1 ANB C = 2", 14, 25, 1, 25, "AND, OR, a comma or the end is wanted, not 'ANB'"),
    ("$VARCOND='A' IF B = - 1", 14, 22, 1, 22, "a digit is wanted behind -"),
    ("$VARCOND='A' IF B = 1234567890123456789", 14, 39, 1, 39, "a number has at most 18 digits"),
    ("$VARCOND='A' IF B = 1.5", 14, 22, 1, 22, "AND, OR, a comma or the end is wanted, not '.'"),
    (f"$VARCOND='A' IF\n{SIXTEEN}(", 15, 33, 2, 17, "parentheses stand at most 16 deep, and this one is deeper"),
    ("$VARCOND='A',\n $VARCOND=''", 16, 16, 2, 2, "the name '' can't be granted: it is empty, and 1 to 20 bytes are allowed"),
    (f"$VARCOND = '{'A' * 21}'", 16, 1, 1, 1, f"the name '{'A' * 21}' can't be granted: 21 bytes, and at most 20 are allowed"),
    ("$VARCOND='A\tB'", 16, 1, 1, 1, "the name 'A\\tB' can't be granted: character 2 is '\\t' (U+0009), and only the printable "
     "characters of Latin-1 are allowed"),
    (f"$VARCOND='{'A' * 41}'", 16, 1, 1, 1, "a name of 41 characters can't be granted: 41 bytes, and at most 20 are allowed"),
    (",\n".join(["$VARCOND='A'"] * 33), 16, 449, 33, 1, "the name 'A' is one too many: at most 32 can be granted"),
]


class DeriveTest(CallTest):
    def test_the_question_with_the_names(self) -> None:
        asked = derive(QUESTIONS["june"], CHOSEN, RELATION)
        self.assertEqual(asked, Question("A1", JUNE, granted=("oak", "ash"), version=1))
        self.assertEqual(asked.packed(), question("A1", JUNE, granted=("oak", "ash")))
        self.assertEqual(price(BOOK, asked.packed()).unit, 10_875)

    def test_in_version_2_each_name_counts_once(self) -> None:
        asked = derive(QUESTIONS["june_version_2"], CHOSEN, RELATION)
        self.assertEqual((asked.version, asked.granted), (2, (Granted("oak"), Granted("ash"))))

    def test_all_else_of_the_question_stays(self) -> None:
        words = {"quantity": 7, "properties": PROPERTIES, "sort": Sort.PURCHASE, "currency": "USD"}
        asked = derive(question("A1", JUNE, **words), CHOSEN, RELATION)
        self.assertEqual(asked, Question("A1", JUNE, granted=["oak", "ash"], **words))

    def test_each_form(self) -> None:
        due = derive(QUESTIONS["june"], CHOSEN, RELATION)
        for properties in (HELD, tuple(HELD), PROPERTY_LIST, memoryview(PROPERTY_LIST), bytearray(PROPERTY_LIST)):
            for relation in (RELATION, RELATION.decode(), memoryview(RELATION), bytearray(RELATION)):
                self.assertEqual(derive(memoryview(QUESTIONS["june"]), properties, relation), due)

    def test_nothing_is_derived(self) -> None:
        asked = derive(QUESTIONS["june"], {}, "$VARCOND = 'oak' IF TOP = 'oak'")
        self.assertEqual((asked.granted, asked.packed()), ((), QUESTIONS["june"]))

    def test_the_most_names(self) -> None:
        names = [f"{place:020}" for place in range(32)]
        for name in ("june", "june_version_2"):
            asked = derive(QUESTIONS[name], {}, ",".join(f"$VARCOND='{name}'" for name in names))
            self.assertEqual([getattr(one, "name", one) for one in asked.granted], names)

    def test_letters_of_latin_1(self) -> None:
        relation = "$VARCOND = 'gr\xfcn' IF COLOUR = 'GR\xfcN'"
        for lent in (relation, relation.encode("latin-1")):
            self.assertEqual(derive(QUESTIONS["june"], {"colour": "gr\xfcn"}, lent).granted, ("gr\xfcn",))
        with self.assertRaises(ValueError) as caught:
            derive(QUESTIONS["june"], {}, "$VARCOND='A'\n  IF PRICE='1 \u20ac'")
        self.assertEqual(str(caught.exception), "derive.relation: line 2, column 15: '\u20ac' (U+20AC) is not in Latin-1")
        with self.assertWarnsRegex(RowWarning, "^desk.relation: it looks like UTF-8 and is read as Latin-1, ") as warned:
            derive(QUESTIONS["june"], {}, relation.encode("utf-8"), "desk.relation")
        self.assertEqual(warned.filename, __file__)

    def test_for_other_calls(self) -> None:
        asked = derive(QUESTIONS["june"], CHOSEN, RELATION).packed()
        stretch, = calendar(BOOK, asked, JUNE)
        self.assertEqual(stretch.outcome.unit, 10_875)

    def test_refusals(self) -> None:
        self.refuses(derive, (
            (Refusal.BROKEN_QUESTION, (b"", CHOSEN, RELATION)),
            (Refusal.BROKEN_QUESTION, (QUESTIONS["june_oak"], CHOSEN, RELATION)),
            (Refusal.BROKEN_QUESTION, (QUESTIONS["june_factors"], CHOSEN, b"")),
            (Refusal.BROKEN_QUESTION, (QUESTIONS["june"], b"", b"")),
            (Refusal.BROKEN_QUESTION, (QUESTIONS["june"], PROPERTY_LIST[:-1], RELATION)),
        ))


class BadRelationsTest(unittest.TestCase):
    maxDiff = None

    def bad(self, relation: str) -> BadRelation:
        with self.assertRaises(BadRelation) as caught:
            derive(QUESTIONS["june"], {}, relation, "desk.relation")
        return caught.exception

    def test_each_gets_its_place_and_its_sentence(self) -> None:
        for relation, number, place, line, column, wrong in WRONG:
            with self.subTest(relation[:60]):
                bad = self.bad(relation)
                self.assertEqual((bad.refusal, bad.place, bad.line, bad.column, bad.wrong), (number, place, line, column, wrong))
                self.assertEqual(str(bad), f"desk.relation, line {line}, column {column}: {wrong}")

    def test_a_relation_in_utf_8(self) -> None:
        with warnings.catch_warnings():
            warnings.simplefilter("ignore", RowWarning)
            bad = self.bad("\xef\xbb\xbf$VARCOND='A'")
        self.assertEqual(bad.wrong, "$VARCOND is wanted, not '\xef'; it looks like UTF-8, and is to be in Latin-1")

    def test_it_is_a_refusal_that_can_be_copied(self) -> None:
        bad = self.bad("$VARCOND='A' IF\nTOP")
        for again in (bad, copy.deepcopy(bad), pickle.loads(pickle.dumps(bad))):
            self.assertIsInstance(again, Refused)
            self.assertIs(again.refusal, Refusal.BAD_RELATION)
            self.assertEqual((str(again), again.place, again.column), (str(bad), 20, 4))
        unknown = BadRelation(Refusal.DEEP_RELATION, "relation", 7, 1, 7)
        self.assertEqual(str(unknown), f"relation, line 1, column 7: {Refusal.DEEP_RELATION.reason}")

    def test_a_long_text_is_read_in_a_moment(self) -> None:
        """A hundred thousand NOT, and as many assignments of which none grants a name."""
        nots = derive(QUESTIONS["june"], CHOSEN, f"$VARCOND='A' IF {'NOT ' * 100_000}TOP='oak'")
        self.assertEqual(nots.granted, ("A",))
        none = ",\n".join(["$VARCOND='A' IF 1=2"] * 100_000)
        self.assertEqual(derive(QUESTIONS["june"], CHOSEN, none).granted, ())
        self.assertEqual(self.bad(f"{none},").line, 100_000)
