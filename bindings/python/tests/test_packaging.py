"""The packaging call."""
from dataclasses import replace

from checks import CallTest
from samples import BOOK, QUESTIONS
from rafttwine import Packaging, Refusal, packaging

PLAIN = Packaging(width=800, height=720, depth=45, volume=26, tare=2000, net=15_000, items=2, packs=1, gross=32_000,
                  length_unit="MMT", volume_unit="LTR", weight_unit="KGM")
NOTHING = Packaging(*(None,) * 12)


class PackagingTest(CallTest):
    def test_plain_article_and_what_conditions_add(self) -> None:
        """A factor is for prices: a carton weighs what it weighs."""
        for name, answer in {
            "carton": PLAIN,
            "carton_oak": replace(PLAIN, net=18_000, gross=38_000),
            "carton_factor": replace(PLAIN, net=18_000, gross=38_000),
            "carton_wide": replace(NOTHING, width=2, length_unit="CMT"),
        }.items():
            with self.subTest(name):
                self.assertEqual(packaging(BOOK, QUESTIONS[name]), answer)

    def test_refusals(self) -> None:
        self.refuses(packaging, (
            (Refusal.BROKEN_BOOK, (b"", QUESTIONS["carton"])),
            (Refusal.BROKEN_QUESTION, (BOOK, b"")),
            (Refusal.NO_ARTICLE, (BOOK, QUESTIONS["missing"])),
            (Refusal.NO_PACKAGING, (BOOK, QUESTIONS["june"])),
            (Refusal.UNFIT_PACKAGING, (BOOK, QUESTIONS["carton_pounds"])),
            (Refusal.UNFIT_PACKAGING, (BOOK, QUESTIONS["carton_below"])),
        ))
