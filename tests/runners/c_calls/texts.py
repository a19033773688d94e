"""texts.py HEADER RUST: holds the refusal texts that the program HEADER (texts.c) prints of the header to those of the binding for
Python, and to those of the binding for Rust, which the program RUST (texts.rs) prints."""
import subprocess
import sys

sys.dont_write_bytecode = True
sys.path.insert(0, "bindings/python")
from rafttwine import Refusal  # noqa: E402

UNKNOWN = "unknown refusal"
MOST_SHOWN = 12


def printed(*command):
    said = subprocess.run(command, capture_output=True, text=True, check=True).stdout
    return {int(number): text for number, text in (line.split(" ", 1) for line in said.splitlines())}


def main(header_program, rust_program):
    header = printed(header_program)
    known = {number: text for number, text in header.items() if number and text != UNKNOWN}
    python = {one.value: one.reason for one in Refusal}
    rust = printed(rust_program, *map(str, python))
    wrong = [f"{number}: {known.get(number)!r} in the header, {other.get(number)!r} in {where}"
             for where, other in (("Python", python), ("Rust", rust)) for number in sorted({*known, *other})
             if known.get(number) != other.get(number)]
    if header.get(0) != "done" or len(header) != 256 or not known:
        wrong.append(f"the header has texts for {len(header)} numbers, {len(known)} of them refusals, and 0 is {header.get(0)!r}")
    print(*wrong[:MOST_SHOWN] or [f"{len(known)} are the same in the header, in Python and in Rust"], sep="\n")
    return bool(wrong)


sys.exit(main(*sys.argv[1:]))
