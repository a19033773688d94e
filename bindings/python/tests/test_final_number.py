"""The call for the final article number."""
from checks import CallTest
from samples import BOOK, QUESTIONS
from rafttwine import Refusal, final_number


class FinalNumberTest(CallTest):
    def test_values_behind_the_base_number(self) -> None:
        for name, number in {"padded": "T100 OAK _--_XXX", "trimmed": "T200 OAK_--_XXX", "june": "A1", "june_factors": "A1"}.items():
            with self.subTest(name):
                self.assertEqual(final_number(BOOK, QUESTIONS[name]), number)

    def test_refusals(self) -> None:
        self.refuses(final_number, (
            (Refusal.BROKEN_BOOK, (b"", QUESTIONS["padded"])),
            (Refusal.BROKEN_QUESTION, (BOOK, b"")),
            (Refusal.NO_ARTICLE, (BOOK, QUESTIONS["missing"])),
        ))
