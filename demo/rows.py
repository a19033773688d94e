"""The form of a sheet: headings in brackets, below each a line that names the columns, then rows, with `|` between cells.

Lines keep their numbers. What is not in this form is a fault, told with its place, and reading goes on behind it."""
from __future__ import annotations

from dataclasses import dataclass, field
from typing import Optional, Sequence


class Wrong(Exception):
    """Nothing can be shown: what is wrong, a line each, and the exit status: 1 if the sheet is wrong, 2 if the command is."""

    def __init__(self, lines: Sequence[str], status: int = 1) -> None:
        super().__init__("\n".join(lines))
        self.status = status


@dataclass(frozen=True)
class Fault:
    """What is allowed in a place that holds something else. Of section, column and cell those are named that there are."""

    line: int
    sentence: str
    section: str = ""
    column: str = ""
    cell: Optional[str] = None

    def told(self, file: str) -> str:
        section = [f"[{self.section}]"] if self.section else []
        column = [self.column] if self.column else []
        cell = [f'"{printable(self.cell)}"'] if self.cell is not None else []
        where = " ".join(section + column + cell)
        return f"{file}:{self.line}: {where}: {self.sentence}" if where else f"{file}:{self.line}: {self.sentence}"


@dataclass(frozen=True)
class Row:
    line: int
    cells: dict[str, str]


@dataclass
class Section:
    name: str
    line: int
    columns_line: int = 0
    columns: list[str] = field(default_factory=list)
    rows: list[Row] = field(default_factory=list)


class Sheet:
    """The sections of a file by their names, and what is wrong with its form."""

    def __init__(self, file: str) -> None:
        self.file = file
        self.sections: dict[str, Section] = {}
        self.faults: list[Fault] = []
        self._section: Optional[Section] = None
        lines = _lines(file)
        self.last_line = len(lines)
        for number, line in enumerate(lines, 1):
            if line.strip() and not line.startswith("#"):
                self._take(number, line.strip())

    def _take(self, number: int, line: str) -> None:
        if line.startswith("["):
            self._heading(number, line)
        elif self._section is None:
            self.faults.append(Fault(number, "a heading in brackets comes first", column="row", cell=line))
        elif not self._section.columns:
            self._columns(self._section, number, _cells(line))
        else:
            self._row(self._section, number, _cells(line))

    def _heading(self, number: int, line: str) -> None:
        name = line.strip("[] ")
        if line != f"[{name}]":
            self.faults.append(Fault(number, "a heading is one word in brackets, as [price]", name, "heading", line))
        self._section = Section(name, number)
        first = self.sections.setdefault(name, self._section)
        if first is not self._section:
            self.faults.append(Fault(number, f"the section is there already, on line {first.line}", name))

    def _columns(self, section: Section, number: int, columns: list[str]) -> None:
        section.columns, section.columns_line = columns, number
        for place, column in enumerate(columns):
            if column in columns[:place]:
                self.faults.append(Fault(number, "the column is there already", section.name, "column", column))

    def _row(self, section: Section, number: int, cells: list[str]) -> None:
        wanted, given = len(section.columns), len(cells)
        counted = f"{given} {'cell' if given == 1 else 'cells'} in a row of {wanted}"
        if given < wanted:
            self.faults.append(Fault(number, counted, section.name, section.columns[given], ""))
        elif given > wanted:
            self.faults.append(Fault(number, counted, section.name, f"cell {wanted + 1}", cells[wanted]))
        else:
            named = zip(section.columns, cells)
            section.rows.append(Row(number, {column: cell for column, cell in named if section.columns.count(column) == 1}))


def printable(cell: str) -> str:
    """A cell as a message can show it, on one line."""
    return "".join(letter if letter.isprintable() else f"\\x{ord(letter):02x}" for letter in cell)


class Unreadable(Exception):
    """There is no file to read, and why."""


def content_of(file: str) -> bytes:
    try:
        with open(file, "rb") as opened:
            return opened.read()
    except FileNotFoundError:
        raise Unreadable("there is no such file") from None
    except IsADirectoryError:
        raise Unreadable("a folder, and a file is wanted") from None
    except (OSError, ValueError) as error:
        raise Unreadable(f"can't be read: {getattr(error, 'strerror', None) or error}") from None


def _lines(file: str) -> list[str]:
    """The lines of a file in UTF-8, with or without a byte order mark, as an editor counts them."""
    try:
        text = content_of(file).decode("utf-8-sig")
    except Unreadable as unreadable:
        raise Wrong([f"{file}: {unreadable}"], status=2) from None
    except UnicodeDecodeError as error:
        line = error.object.count(b"\n", 0, error.start) + 1
        raise Wrong([f"{file}:{line}: byte {error.object[error.start]:02x}: the file is not in UTF-8; save it as such"]) from None
    return text.removesuffix("\n").split("\n")


def _cells(line: str) -> list[str]:
    return [cell.strip() for cell in line.split("|")]
