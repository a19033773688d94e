"""Questions of readable values, and back."""
from __future__ import annotations

from dataclasses import dataclass
from datetime import date
from typing import Any, ClassVar, Optional, Sequence, Union

from .answers import Asked
from .checks import counted, unfit, whole_number
from .fields import Day, Letters, Number, Word
from .granting import FACTOR_BYTES, Condition, Granted
from .laid import Clash, Laid, Layout
from .lending import Lent, whole_bytes
from .packing import Cursor, Field, unsigned
from .properties import Property
from .records import ARTICLE, CURRENCY
from .wholes import opened, whole
from .words import ONCE, Factor, Sort, raised

# What the versions of a question say: names alone, and each name with a factor.
NAMES, FACTORS = VERSIONS = 1, 2
MOST_LISTED = 32
MOST_QUESTIONS = 200
# In a question's bytes: how many tell its length, where its article stands, and how many bytes lie between that and the quantity.
LENGTH, AT_ARTICLE, BEFORE_QUANTITY = 4, 5, 8


class Part:
    """A property as a field of a question."""

    def check(self, where: str, value: object) -> None:
        if not isinstance(value, Property):
            raise unfit(where, "Property is wanted", value)

    def packed(self, value: Property) -> bytes:
        return value.body()

    def read(self, where: str, cursor: Cursor) -> Property:
        found: Property = Property.read(cursor)
        return found


class Several:
    """At most 32 of a kind, with their count in a byte in front."""

    def __init__(self, word: str, words: str, kind: Field) -> None:
        self.word, self.words, self.kind = word, words, kind

    def check(self, where: str, value: object) -> None:
        if not isinstance(value, (list, tuple)):
            raise unfit(where, f"a list of {self.words} is wanted", value)
        if len(value) > MOST_LISTED:
            raise ValueError(f"{where}: {len(value):,} {self.words}, and at most {MOST_LISTED} are allowed")
        for place, one in enumerate(value, 1):
            self.kind.check(f"{where}: {self.word} {place}", one)

    def packed(self, value: Sequence[Any]) -> bytes:
        return unsigned(len(value), 1) + b"".join(map(self.kind.packed, value))

    def read(self, where: str, cursor: Cursor) -> tuple[Any, ...]:
        return tuple(cursor.field(f"{where}: {self.word} {place}", self.kind) for place in range(1, cursor.unsigned(1) + 1))


@dataclass(frozen=True)
class Question(Laid):
    """A question by its values: what `read_question` reads. A granted condition's place is its position in `granted`, from 1. In
    version 1 these are names, in version 2 each is `Granted`; if none is told, the version is 1 where every factor is 1."""

    article: str
    day: date
    quantity: int = 1
    granted: Sequence[Union[str, Granted]] = ()
    properties: Sequence[Property] = ()
    sort: Sort = Sort.SALE
    currency: Optional[str] = None
    version: Optional[int] = None

    LAYOUT: ClassVar[Layout] = (
        ("article", ARTICLE), ("sort", Word(Sort)), ("currency", Letters(f"{CURRENCY}, or None for any")), ("day", Day()),
        ("quantity", Number(4, 1, 100_000)), ("granted", Several("name", "names", Condition())),
        ("properties", Several("property", "properties", Part())),
    )

    def __post_init__(self) -> None:
        if self.version is not None:
            whole_number("question.version", self.version, *VERSIONS)
        super().__post_init__()
        version = self.version or (FACTORS if self._multiplied() else NAMES)
        in_version = _name if version == NAMES else _with_factor
        object.__setattr__(self, "granted", tuple(map(in_version, self.granted)))
        object.__setattr__(self, "properties", tuple(self.properties))
        object.__setattr__(self, "version", version)

    def _multiplied(self) -> list[tuple[str, Factor]]:
        """The granted names that have another factor than 1."""
        return [(_name(one), _factor(one)) for one in self.granted if _factor(one) != ONCE]

    def clash(self) -> Clash:
        if self.version == NAMES and self._multiplied():
            name, factor = self._multiplied()[0]
            return "version", f"1 has no factors, and {name!r} has {factor}; None is for the version that fits"
        return None

    def doubts(self) -> list[tuple[str, str]]:
        found: list[tuple[str, str]] = []
        first: dict[str, tuple[int, Factor]] = {}
        for place, one in enumerate(self.granted if self._multiplied() else (), 1):
            there, counts = first.setdefault(raised(_name(one)), (place, _factor(one)))
            if _factor(one) != counts:
                sentence = f"{_name(one)!r} repeats name {there}, so that its factor is {counts} and not {_factor(one)}"
                found.append(("granted", f"name {place}: {sentence}"))
        return found

    @classmethod
    def called(cls) -> str:
        """By the function that makes most of them."""
        return "question"

    def packed(self) -> bytes:
        """The bytes that are lent to a call."""
        return whole("question", (self.body(),), self.version)

    @classmethod
    def read(cls, cursor: Cursor) -> Any:
        found = super().read(cursor)
        object.__setattr__(found, "version", cursor.version)
        return found


def _name(one: Union[str, Granted]) -> str:
    return one if isinstance(one, str) else one.name


def _factor(one: Union[str, Granted]) -> Factor:
    return ONCE if isinstance(one, str) else one.factor


def _with_factor(one: Union[str, Granted]) -> Granted:
    return Granted(one) if isinstance(one, str) else one


def question(article: str, day: date, quantity: int = 1, granted: Sequence[Union[str, Granted]] = (),
             properties: Sequence[Property] = (), sort: Sort = Sort.SALE, currency: Optional[str] = None) -> bytes:
    """Asks about an article on a day. A granted condition is a name, or `Granted` with a factor; its place is its position in
    `granted`, from 1, and small letters count as capitals."""
    return Question(article, day, quantity, granted, properties, sort, currency).packed()


def read_question(data: Lent) -> Question:
    """A question by its values; its `packed` gives the same bytes again. What is no question is BrokenBytes."""
    cursor = opened("question", whole_bytes("read_question.data", data), most=None, versions=VERSIONS)
    found: Question = Question.read(cursor)
    cursor.filled("question")
    return found


def asked_in(data: Lent) -> tuple[int, dict[int, str]]:
    """The quantity and the granted names by their places, of a question that the library has accepted; the place 0 is no name.
    Only what stands before them is passed over, so this is quick. In a question of a later version only places are known."""
    data = whole_bytes("question", data)
    at = AT_ARTICLE + 1 + data[AT_ARTICLE] + BEFORE_QUANTITY
    quantity, names = int.from_bytes(data[at:at + 4], "big"), {0: ""}
    version = data[AT_ARTICLE - 1]
    if version not in VERSIONS:
        return quantity, {**names, **{place: f"place {place}" for place in range(1, MOST_LISTED + 1)}}
    at += 5
    for place in range(1, data[at - 1] + 1):
        names[place] = data[at + 1:at + 1 + data[at]].decode("latin-1")
        at += 1 + data[at] + (FACTOR_BYTES if version == FACTORS else 0)
    return quantity, names


def asked_for(data: bytes) -> Asked:
    """The article and the quantity of a question that the library has accepted."""
    return Asked(data[AT_ARTICLE + 1:AT_ARTICLE + 1 + data[AT_ARTICLE]].decode("latin-1"), asked_in(data)[0])


def end_to_end(where: str, questions: Sequence[Lent]) -> list[bytes]:
    """The questions of a basket, each as long as it says: another length would shift those behind it."""
    if not isinstance(questions, (list, tuple)):
        raise unfit(where, "a list of questions is wanted", questions)
    if len(questions) > MOST_QUESTIONS:
        raise ValueError(f"{where}: {len(questions):,} questions, and at most {MOST_QUESTIONS} are allowed")
    asked = []
    for place, question in enumerate(questions, 1):
        one = whole_bytes(f"{where}: question {place}", question)
        says = int.from_bytes(one[:LENGTH], "big")
        if len(one) < LENGTH or says != len(one):
            told = f"it says {says:,}" if len(one) >= LENGTH else "a question begins with its length in four"
            raise ValueError(f"{where}: question {place}: {counted(len(one))}, and {told}")
        asked.append(one)
    return asked
