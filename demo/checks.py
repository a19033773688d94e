"""The rows of a sheet, checked by the table of sections, and made into what they stand for. All faults are told, in file order."""
from __future__ import annotations

import os
import re
import warnings
from typing import Any, Iterable, Mapping, NamedTuple, Optional

import rafttwine
from cells import Unfit
from makers import PriceFile
from relations import Relation
from rows import Fault, Row, Section, Sheet, Unreadable, Wrong, content_of
from sections import SECTIONS, Kind

ANY_ARTICLE = "*"


class Read(NamedTuple):
    """A row whose cells are in order: their values by column."""

    row: Row
    values: Mapping[str, Any]


class Checked:
    """What the rows of each section stand for, and warnings about them; `Wrong`, with every fault, if there is one."""

    def __init__(self, sheet: Sheet) -> None:
        self._faults, self._warnings = list(sheet.faults), list[Fault]()
        self._unknown_sections(sheet)
        read = {name: self._section(sheet, name, kind) for name, kind in SECTIONS.items()}
        self._references(read)
        self.made = {name: [self._made(name, one) for one in rows] for name, rows in read.items()}
        self.price_files = [PriceFile(*found, one.values["first text"]) for one in read["file"]
                            if (found := self._file(sheet, "file", one))]
        self.relations = [Relation(*found, made) for one, made in zip(read["relation"], self.made["relation"])
                          if (found := self._file(sheet, "relation", one))]
        self._chosen_for_nothing(sheet, read)
        wrong = told(sheet.file, self._faults)
        articles = None if "article" in faulty(self._faults) else {one.values["number"] for one in read["article"]}
        for file in self.price_files:
            wrong += told(file.path, file.faults(articles))
        for relation in self.relations:
            wrong += told(relation.path, relation.faults())
        if wrong:
            raise Wrong(wrong)
        self.warnings = told(sheet.file, self._warnings) + [one for relation in self.relations for one in relation.warnings()]

    def _fault(self, section: str, row: Row, column: str, sentence: str) -> None:
        self._faults.append(Fault(row.line, sentence, section, column, row.cells[column]))

    def _unknown_sections(self, sheet: Sheet) -> None:
        for name, section in sheet.sections.items():
            if name not in SECTIONS:
                self._faults.append(Fault(section.line, f"the sections are {', '.join(SECTIONS)}", name))

    def _section(self, sheet: Sheet, name: str, kind: Kind) -> list[Read]:
        """The rows of a section that are in order by themselves."""
        section = sheet.sections.get(name)
        if section is None:
            if kind.least:
                self._faults.append(Fault(sheet.last_line, "the section is missing", name))
            return []
        self._columns(section, kind)
        self._count(section, kind)
        read = [one for row in section.rows if (one := self._row(section, kind, row))]
        self._twice(name, kind, read)
        return read

    def _columns(self, section: Section, kind: Kind) -> None:
        known = kind.columns_of(section.columns)
        allowed = ", ".join([*kind.columns, *(["languages of two small letters, as en"] if kind.language else [])])
        for column in kind.columns:
            if column not in section.columns:
                self._faults.append(Fault(section.line, "the column is missing", section.name, column))
        if kind.language and len(known) == len(kind.columns):
            self._faults.append(Fault(section.line, "the column of a language is missing, as en", section.name))
        for column in section.columns:
            if column not in known:
                self._faults.append(Fault(section.columns_line, f"the columns are {allowed}", section.name, "column", column))

    def _count(self, section: Section, kind: Kind) -> None:
        if not section.rows and kind.least and section.name not in faulty(self._faults):
            self._faults.append(Fault(section.line, "a row is missing", section.name))
        if kind.most is not None:
            for row in section.rows[kind.most:]:
                allowed = "one row is" if kind.most == 1 else f"{kind.most} rows are"
                self._faults.append(Fault(row.line, f"a row too many: at most {allowed} allowed", section.name))

    def _row(self, section: Section, kind: Kind, row: Row) -> Optional[Read]:
        columns = kind.columns_of(section.columns)
        values = {}
        for column, cell in row.cells.items():
            try:
                if column in columns:
                    values[column] = columns[column].read(cell)
            except Unfit as unfit:
                self._fault(section.name, row, column, str(unfit))
        if values.keys() != columns.keys():
            return None
        misfits = list(kind.fits(values))
        for column, sentence in misfits:
            self._fault(section.name, row, column, sentence)
        return None if misfits else Read(row, values)

    def _twice(self, name: str, kind: Kind, read: list[Read]) -> None:
        """Of rows alike the library takes the first, and the second would be lost without a word."""
        lines: dict[tuple[Any, ...], int] = {}
        for row, values in read:
            key = tuple(values[column] for column in kind.key)
            if key and lines.setdefault(key, row.line) != row.line:
                self._fault(name, row, kind.key[0], f"line {lines[key]} is for the same")

    def _references(self, read: Mapping[str, list[Read]]) -> None:
        """A name that nothing has would leave a price, a rounding or a scheme out without a word."""
        broken = faulty(self._faults)
        for name, kind in SECTIONS.items():
            for column, target in kind.refers.items():
                there = {one.values[SECTIONS[target].key[0]] for one in read[target]}
                for row, values in read[name] if target not in broken else ():
                    wildcard = name == "packaging" and values[column] == ANY_ARTICLE
                    if values[column] and not wildcard and values[column] not in there:
                        self._fault(name, row, column, f"not in [{target}]")

    def _file(self, sheet: Sheet, section: str, read: Read) -> Optional[tuple[str, bytes]]:
        """Path and content of the file that a row names, in the folder of the sheet; None if it cannot be read."""
        path = os.path.join(os.path.dirname(sheet.file), read.values["name"])
        try:
            return path, content_of(path)
        except Unreadable as unreadable:
            self._fault(section, read.row, "name", str(unreadable))
            return None

    def _chosen_for_nothing(self, sheet: Sheet, read: Mapping[str, list[Read]]) -> None:
        """What was chosen says nothing without a relation."""
        if read["chosen"] and "relation" not in sheet.sections:
            self._faults.append(Fault(sheet.sections["chosen"].line, "there is no [relation] that looks at it", "chosen"))

    def _made(self, name: str, read: Read) -> Any:
        """What the row stands for; None if its builder finds a fault that no cell has by itself."""
        columns = SECTIONS[name].columns_of(list(read.values))
        fields = {columns[column].field: value for column, value in read.values.items() if columns[column].field}
        with warnings.catch_warnings(record=True) as caught:
            warnings.simplefilter("always", rafttwine.RowWarning)
            try:
                return SECTIONS[name].make(**fields)
            except (TypeError, ValueError) as error:
                self._faults.append(said(name, read.row, str(error)))
                return None
            finally:
                self._warnings += [said(name, read.row, str(one.message), "warning: ") for one in caught]


def said(name: str, row: Row, message: str, kind: str = "") -> Fault:
    """What a builder says about a field (`PriceRow.first: sentence`) is said about the field's column. All that makes a granted
    condition stands in one."""
    about = re.fullmatch(r"\w+\.(\w+): (.*)", message, re.DOTALL)
    field = "granted" if message.startswith("Granted.") else about and about[1]
    columns = SECTIONS[name].columns_of(list(row.cells))
    column = next((column for column, one in columns.items() if about and one.field == field), None)
    if about is None or column is None:
        return Fault(row.line, kind + message, name)
    return Fault(row.line, kind + about[2], name, column, row.cells[column])


def faulty(faults: Iterable[Fault]) -> set[str]:
    return {fault.section for fault in faults}


def told(file: str, faults: Iterable[Fault]) -> list[str]:
    return [fault.told(file) for fault in sorted(faults, key=lambda fault: fault.line)]
