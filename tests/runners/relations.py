"""What tests/rules makes of the tables about relations: lists of properties, relations and what they derive, conditions and their
truth."""
import pathlib
import re
from datetime import date

import rafttwine

# The grammar, as the definitions have it and as the page shows it: lines that are set in behind what stands here.
GRAMMAR = {"crates/relation_rules/specs/Grammar.antt": "--     ", "docs/RELATIONS.md": "    "}

ASKED = rafttwine.question("DESK", date(2026, 6, 15))
WORDS = {14: "wrong", 15: "too deep", 16: "unfit name"}
# Conditions that are so, whatever the properties; no list of the page has NOWHERE.
TRUE, FALSE, UNDEFINED = TRUTHS = ("true", "false", "undefined")
CONDITIONS = {TRUE: "1=1", FALSE: "1=2", UNDEFINED: "NOWHERE=1"}
BEFORE_CONDITION = "$VARCOND='X' IF "


def grammar_in(file):
    """The lines from the one about the text to the one about strings."""
    before = GRAMMAR[file]
    found = re.search(rf"^{before}text .*?^{before}string [^\n]*$", pathlib.Path(file).read_text(encoding="utf-8"), re.M | re.S)
    return [line.removeprefix(before) for line in found[0].splitlines()] if found else []


def wrong_grammar():
    """What is wrong with the grammar that the page shows."""
    defined, shown = map(grammar_in, GRAMMAR)
    return [] if defined and defined == shown else [f"{' and '.join(GRAMMAR)} have different grammars"]


def quoted(cell):
    """What stands between ticks; a word stands for nothing, which has no ticks."""
    if cell in ("empty", "nothing"):
        return ""
    found = re.fullmatch("`(.+)`", cell)
    if not found:
        raise ValueError(f"{cell!r} is not in ticks")
    return found[1]


def held(name, cell):
    """A property with a value as a relation writes it, or with none."""
    text, number = re.fullmatch("'(.*)'", cell), re.fullmatch("-?[0-9]+", cell)
    if not (text or number or cell == "none"):
        raise ValueError(f"{cell!r} is no value of a property")
    return rafttwine.Held(name, text[1] if text else int(cell) if number else None)


def chosen(cell):
    """Properties in one cell, as `TOP 'oak', WIDTH 1800`."""
    return [held(*one.split(" ", 1)) for one in cell.split(", ")] if cell else []


def properties(rows):
    """The list of a table of properties, each of which has the bytes that the table says."""
    listed = [held(row["Property"], row["Value"]) for row in rows]
    for row, one in zip(rows, listed):
        if row["In bytes"] and quoted(row["In bytes"]) != one.body().hex():
            raise ValueError(f"{row['Property']} is {one.body().hex()} in bytes")
    return rafttwine.property_list(listed)


def derived(listed, relation, before=0):
    """The names, or why there are none, with the place behind so many bytes."""
    try:
        return ", ".join(rafttwine.derive(ASKED, listed, relation).granted) or "nothing"
    except rafttwine.BadRelation as bad:
        return f"{WORDS[bad.refusal]} ({int(bad.refusal)}) at {bad.place - before}"


def relation(listed, row):
    return {"Derived": derived(listed, quoted(row["Relation"]))}


def truth(listed, condition):
    """A condition is true if it grants a name, and false if its opposite does; a wrong one is told by its place in the condition."""
    found = derived(listed, BEFORE_CONDITION + condition, len(BEFORE_CONDITION))
    if found != "nothing":
        return TRUE if found == "X" else found
    names = rafttwine.derive(ASKED, listed, f"{BEFORE_CONDITION}{opposite(condition)}").granted
    return FALSE if names else UNDEFINED


def opposite(condition):
    """Joined by AND and OR, it stands in parentheses."""
    return f"NOT ({condition})"


def condition(listed, row):
    return {"Truth": truth(listed, quoted(row["Condition"]))}


def joined(word):
    """The table of AND or of OR: a row for each truth on the left, a column for each on the right."""
    def answers(listed, rows):
        if [row[word] for row in rows] != list(TRUTHS):
            raise ValueError(f"the rows are not {', '.join(TRUTHS)}")
        for row in rows:
            yield {other: truth(listed, f"{CONDITIONS[row[word]]} {word} {CONDITIONS[other]}") for other in TRUTHS}
    return answers


def turned(listed, rows):
    """The table of NOT."""
    return ({"Truth": truth(listed, f"NOT {CONDITIONS[row['NOT']]}")} for row in rows)


def changed(listed, lines, rows):
    """A relation of several lines, changed in one place for each row; a fault has its line and its column."""
    text = "\n".join(quoted(line["Line of the relation"]) for line in lines)
    for row in rows:
        old, new = quoted(row["Instead of"]), quoted(row["Stands"])
        if old and text.count(old) != 1:
            raise ValueError(f"{old!r} is not there once")
        yield at_line_and_column(listed, text.replace(old, new) if old else text)


def at_line_and_column(listed, text):
    answer = {"Answer": derived(listed, text), "Line": "", "Column": ""}
    try:
        rafttwine.derive(ASKED, listed, text)
    except rafttwine.BadRelation as bad:
        answer.update({"Line": str(bad.line), "Column": str(bad.column)})
    return answer
