"""The calls: bytes in, an answer out, or `Refused` with the reason. What is lent may be any contiguous buffer of bytes."""
from __future__ import annotations

from ctypes import c_uint8
from datetime import date
from struct import iter_unpack
from typing import Any, Optional, Sequence, Union

from . import checks
from .answers import Basket, DayPrice, Line, Packaging, Price, Source, Stretch, Text
from .finding import version_of
from .lending import Lent, part
from .library import StretchRecord, call, library
from .questions import asked_for, asked_in, end_to_end
from .refusals import Refusal, Refused
from .words import Factor, Level, day_number, day_of

# A line, an answer of a basket and a stretch as they are written, and the most that there can be of each.
LINE = ">IcBqH"
LINE_BYTES = 16
MOST_LINES = 99
ANSWER = ">Bqq3sQIB"
ANSWER_BYTES = 33
STRETCH = ">IIB3sq"
STRETCH_BYTES = 20
MOST_STRETCHES = 1096
MOST_NUMBER_BYTES = 1256

# Room for each, to be written by the library.
LinesRoom = c_uint8 * (MOST_LINES * LINE_BYTES)
StretchesRoom = c_uint8 * (MOST_STRETCHES * STRETCH_BYTES)
ListRoom = StretchRecord * MOST_STRETCHES
NumberRoom = c_uint8 * MOST_NUMBER_BYTES


def _accepted(answer: Any) -> Any:
    if answer.number != 0:
        raise Refused(Refusal(answer.number))
    return answer


def price(book: Lent, question: Lent) -> Price:
    """The itemised price of the article asked for."""
    lines = LinesRoom()
    answer = _accepted(call("price", book, question, lines))
    written = bytes(lines)[:answer.lines * LINE_BYTES]
    return priced(question, answer.unit, answer.total, answer.currency, answer.unused, written)


def basket(book: Lent, questions: Sequence[Lent]) -> Basket:
    """The itemised prices of up to 200 questions, in their order, each as `price` gives it. A question that has no price has its
    refusal in that place, which is not raised; what is raised is about all of them: a broken book, or a broken question."""
    asked = end_to_end("basket.questions", questions)
    out = (c_uint8 * (len(asked) * (ANSWER_BYTES + MOST_LINES * LINE_BYTES)))()
    answer = _accepted(call("basket", book, b"".join(asked), out))
    answers, lines = _split(bytes(out)[:answer.length], len(asked) * ANSWER_BYTES)
    entries: list[Union[Price, Refusal]] = []
    for one, (number, unit, total, currency, count, unused, _) in zip(asked, iter_unpack(ANSWER, answers)):
        own, lines = _split(lines, count * LINE_BYTES)
        entries.append(Refusal(number) if number else priced(one, unit, total, currency, unused, own))
    return Basket(tuple(entries), tuple(map(asked_for, asked)))


def calendar(book: Lent, question: Lent, end: date) -> tuple[Stretch, ...]:
    """The price calendar from the question's day to `end`: every longest stretch of days with one outcome, in the order of days."""
    out = StretchesRoom()
    answer = _accepted(call("calendar", book, question, _end("calendar", end), out))
    return tuple(_stretch(*fields) for fields in iter_unpack(STRETCH, bytes(out)[:answer.length]))


def calendar_list(book: Lent, question: Lent, end: date) -> tuple[Stretch, ...]:
    """The same calendar, handed over by the library as a list of records and not as bytes."""
    out = ListRoom()
    answer = _accepted(call("calendar_list", book, question, _end("calendar_list", end), out))
    return tuple(_stretch(one.first, one.last, one.refusal, bytes(one.currency), one.unit) for one in out[:answer.length])


def final_number(book: Lent, question: Lent) -> str:
    """The final article number: the base number with the properties' values."""
    out = NumberRoom()
    answer = _accepted(call("final_number", book, question, out))
    return _letters(out[:answer.length])


def packaging(book: Lent, question: Lent) -> Packaging:
    """The packaging data of the plain article, with what the granted conditions add."""
    answer = _accepted(call("packaging", book, question))
    values = [value if answer.present >> bit & 1 else None for bit, value in enumerate(answer.values)]
    tare, net, items = values[4:7]
    gross = None if tare is None or net is None or items is None else answer.gross
    units = [_unit(answer.units[at:at + 3]) for at in (0, 3, 6)]
    return Packaging(*(*values, gross, *units))


def text(asked: Lent, fallback: Lent, number: int) -> Text:
    """The text of a line, from the asked text book or else from the fallback."""
    checks.whole_number("text.number", number, 0, checks.TOP_32)
    answer = _accepted(call("text", asked, fallback, number))
    source = Source(answer.book)
    return Text(source, answer.place, part(asked if source is Source.ASKED else fallback, answer.place, answer.length))


def version() -> str:
    """The version of the library that is loaded, as 2.0.0. That of the package is `__version__`."""
    return version_of(library())


def priced(question: Lent, unit: int, total: int, currency: Any, unused: int, lines: bytes) -> Price:
    """A price by its parts, with the names that its question grants."""
    quantity, names = asked_in(question)
    places = tuple(place for place in names if place and unused >> place - 1 & 1)
    return Price(
        unit=unit, total=total, currency=_letters(currency),
        lines=tuple(Line(text, Level(level), place, amount, names[place], Factor.of_thousandths(factor))
                    for text, level, place, amount, factor in iter_unpack(LINE, lines)),
        unused=places, quantity=quantity, unused_names=tuple(names[place] for place in places),
    )


def _split(written: bytes, place: int) -> tuple[bytes, bytes]:
    return written[:place], written[place:]


def _end(called: str, end: date) -> int:
    checks.day(f"{called}.end", end)
    return day_number(end)


def _stretch(first: int, last: int, refusal: int, currency: bytes, unit: int) -> Stretch:
    outcome: Union[DayPrice, Refusal] = Refusal(refusal) if refusal else DayPrice(unit, _letters(currency))
    return Stretch(day_of(first), day_of(last), outcome)


def _unit(letters: Any) -> Optional[str]:
    return _letters(letters) if any(letters) else None


def _letters(numbers: Any) -> str:
    return bytes(numbers).decode("latin-1")
