"""What a sheet of rows stands for: a price book, two text books, and the questions of a customer."""
from __future__ import annotations

import warnings
from datetime import date
from typing import Any, Mapping

import rafttwine
from checks import Checked
from rows import Sheet, Wrong
from sections import is_language

RECORDS = ("article", "price", "rounding", "packaging", "scheme")


class Desk:
    """The bytes that are lent to the library, what the customer asks about, and the warnings about the sheet."""

    def __init__(self, sheet: Sheet, language: str) -> None:
        checked = Checked(sheet)
        made, self.warnings, self.file = checked.made, checked.warnings, sheet.file
        others = other_languages(sheet, language)
        self._price_files, self._records = checked.price_files, [record for section in RECORDS for record in made[section]]
        try:
            self.book = rafttwine.book(*self._records)
            self.texts = text_book(made["text"], [language]), text_book(made["text"], others)
        except ValueError as error:
            raise Wrong([f"{sheet.file}: {error}"]) from None
        self.asked, self.properties, self.offer = made["question"][0], made["property"], made["offer"]
        self.relations, self.chosen = checked.relations, made["chosen"]

    def read_price_files(self) -> None:
        """Puts the rows of the maker's price file into the book. The library reads them, so that this comes after the checks."""
        for file in self._price_files:
            rows, told = file.read()
            self.warnings += told
            try:
                self.book = rafttwine.book(*self._records, *rows)
            except ValueError as error:
                raise Wrong([f"{file.path}: {error}"]) from None

    def question(self, day: date) -> bytes:
        return question(self.asked, day, self.properties)

    def offered(self) -> list[bytes]:
        return [question(one, one.day, ()) for one in self.offer]


def question(asked: Any, day: date, properties: Any) -> bytes:
    """What is doubtful about it was told when the sheet was checked."""
    with warnings.catch_warnings():
        warnings.simplefilter("ignore", rafttwine.RowWarning)
        return rafttwine.question(asked.article, day, asked.quantity, asked.granted, properties)


def other_languages(sheet: Sheet, language: str) -> list[str]:
    """The languages that a text may come in which is not there in the one asked for. With no texts at all any language will do."""
    languages = [column for column in sheet.sections["text"].columns if is_language(column)] if "text" in sheet.sections else []
    if languages and language not in languages:
        raise Wrong([f'{sheet.file}: there are no texts in "{language}": {" or ".join(languages)}'], status=2)
    return [one for one in languages if one != language]


def text_book(texts: list[tuple[int, Mapping[str, str]]], languages: list[str]) -> bytes:
    """Every text in the first of the languages that has it. A text that was translated to none of them is not in the book."""
    translated = {number: [words[one] for one in languages if words[one]] for number, words in texts}
    return rafttwine.text_book({number: found[0].encode("latin-1") for number, found in translated.items() if found})
