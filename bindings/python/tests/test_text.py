"""The text call."""
from checks import CallTest
from samples import ASKED, DISCOUNT, FALLBACK, NOWHERE, OAK, TABLE
from rafttwine import Refusal, Source, text


class TextTest(CallTest):
    def test_asked_book_first_then_fallback(self) -> None:
        for number, source, book, content in (
            (TABLE, Source.ASKED, ASKED, b"table"),
            (OAK, Source.ASKED, ASKED, b""),
            (DISCOUNT, Source.FALLBACK, FALLBACK, b"Nachlass"),
        ):
            with self.subTest(number):
                answer = text(ASKED, FALLBACK, number)
                self.assertEqual((answer.source, answer.part), (source, content))
                self.assertEqual(book[answer.place:answer.place + len(content)], content)
                self.assertIs(answer.part.obj, book)

    def test_refusals(self) -> None:
        self.refuses(text, (
            (Refusal.BROKEN_BOOK, (b"", FALLBACK, TABLE)),
            (Refusal.BROKEN_BOOK, (ASKED, FALLBACK[:-1], TABLE)),
            (Refusal.NO_TEXT, (ASKED, FALLBACK, NOWHERE)),
        ))
