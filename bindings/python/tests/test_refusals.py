"""Refusals: their words, their way from one process to another, and numbers that only a later library knows."""
import copy
import multiprocessing
import pickle
import unittest
from unittest import mock

from samples import BOOK, JUNE, QUESTIONS
from rafttwine import Refusal, Refused, Stretch, calls, price
from rafttwine.library import CalendarAnswer, PriceAnswer

LATER = 200
LONGEST_WAIT = 60


def refused_price(name: str) -> int:
    return price(BOOK, QUESTIONS[name]).unit


def raise_refused(number: int) -> None:
    raise Refused(number)


class RefusalTest(unittest.TestCase):
    def test_each_has_its_number_and_words(self) -> None:
        self.assertEqual([refusal.value for refusal in Refusal], list(range(1, 17)))
        for refusal in Refusal:
            self.assertEqual(str(Refused(refusal)), f"{refusal.reason} (refusal {refusal.value})")

    def test_no_price_in_words(self) -> None:
        self.assertEqual(str(Refusal.NO_BASE_LINE), "no price: the article has no base price on that day, in that quantity")
        self.assertEqual(f"{Refusal.NO_TEXT}", "neither text book has the number")

    def test_what_is_no_refusal(self) -> None:
        for value in (0, -1, 256, 1.5, "4", None):
            with self.subTest(value), self.assertRaises(ValueError):
                Refusal(value)

    def test_a_number_of_a_later_library_is_kept(self) -> None:
        later = Refusal(LATER)
        self.assertEqual((later, later.value, later.name), (LATER, LATER, "REFUSAL_200"))
        self.assertEqual(str(later), "the reason 200 of a later library, which this package does not know")
        self.assertEqual(str(Refused(LATER)), f"{later} (refusal 200)")
        self.assertIs(Refusal(LATER), later)
        self.assertNotIn(later, list(Refusal))

    def test_a_later_library_refuses_a_call_and_a_day(self) -> None:
        with mock.patch.object(calls, "call", lambda *words: PriceAnswer(number=LATER)), self.assertRaises(Refused) as caught:
            price(BOOK, QUESTIONS["june"])
        self.assertEqual(caught.exception.refusal.value, LATER)
        with mock.patch.object(calls, "call", a_day_refused):
            stretch, = calls.calendar(BOOK, QUESTIONS["june"], JUNE)
        self.assertEqual(stretch, Stretch(JUNE, JUNE, Refusal(LATER)))

    def test_copies_are_alike(self) -> None:
        for number in (*Refusal, LATER):
            for one in (Refusal(number), Stretch(JUNE, JUNE, Refusal(number))):
                for protocol in range(pickle.HIGHEST_PROTOCOL + 1):
                    self.assertEqual(pickle.loads(pickle.dumps(one, protocol)), one)
            refused = Refused(number)
            for again in (copy.copy(refused), copy.deepcopy(refused), pickle.loads(pickle.dumps(refused))):
                self.assertIs(again.refusal, refused.refusal)
                self.assertEqual(str(again), str(refused))


def a_day_refused(name: str, book: bytes, question: bytes, end: int, out: "object") -> CalendarAnswer:
    """What a calendar of one refused day would be."""
    written = end.to_bytes(4, "big") * 2 + bytes([LATER]) + bytes(11)
    out[:len(written)] = written
    return CalendarAnswer(len(written), 0)


class ProcessesTest(unittest.TestCase):
    """A refusal in a worker comes out in the process that asked; one that cannot be read there would leave it waiting for good."""

    def test_pool(self) -> None:
        with multiprocessing.get_context("fork").Pool(1) as pool:
            self.assertEqual(pool.map_async(refused_price, ["june"]).get(LONGEST_WAIT), [9667])
            self.refused_as(Refusal.NO_BASE_LINE, pool.map_async(refused_price, ["june", "next_year"]))
            self.refused_as(Refusal(LATER), pool.map_async(raise_refused, [LATER]))

    def refused_as(self, refusal: Refusal, asked: "multiprocessing.pool.AsyncResult") -> None:
        with self.assertRaises(Refused) as caught:
            asked.get(LONGEST_WAIT)
        self.assertIs(caught.exception.refusal, refusal)
