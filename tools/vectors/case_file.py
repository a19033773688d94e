"""The file of cases that tests/bad_input runs: what its lines mean, and how they are written.

Numbers are decimal, bytes hexadecimal; a SET is a list of numbers and ranges (`32-126,160-255`), or `none`. A LAYOUT is `book`,
`question` or `text_book`.

    sort WORDS                      the cases that follow are of this sort
    bytes NAME PARTS                a name for bytes. PARTS is HEX or HEX*COUNT, several joined by +, or `empty`
    case LAYOUT yes|no PARTS WORDS  whether these bytes are a LAYOUT; the words say what is tried
    byte LAYOUT NAME I SET          byte I in turn has each of its 256 values; SET: the values with which the bytes are a LAYOUT
    cut LAYOUT NAME MEND SET        each start of the bytes, from none of them to all; SET: the lengths that are accepted
    without LAYOUT NAME MEND SET    the bytes without byte i, for each i; SET: each i that is accepted
    twice LAYOUT NAME MEND SET      the bytes with byte i twice, for each i
    text ASKED FALLBACK ID NUMBER BOOK PLACE LENGTH WORDS      a text call over two named byte strings for text ID, and its answer

MEND is `-`, or length fields to be put right after the change: `4@0-0,2@5-7` puts the length of the whole, less 0, into the 4 bytes
at 0, and that length less 7 into the 2 bytes at 5, as far as the bytes reach.
"""
import layouts


def parts(pieces):
    """Pieces are bytes or (bytes, count). Gives how they are written, and the bytes."""
    pairs = [piece if isinstance(piece, tuple) else (piece, 1) for piece in pieces]
    pairs = [(data, count) for data, count in pairs if data and count]
    written = "+".join(data.hex() + (f"*{count}" if count > 1 else "") for data, count in pairs)
    return written or "empty", b"".join(data * count for data, count in pairs)


def set_of(numbers):
    ranges = []
    for n in sorted(numbers):
        if ranges and ranges[-1][1] == n - 1:
            ranges[-1][1] = n
        else:
            ranges.append([n, n])
    return ",".join(f"{a}" if a == b else f"{a}-{b}" for a, b in ranges) or "none"


def mended(data, fields):
    data = bytearray(data)
    for width, place, less in fields:
        if place + width <= len(data):
            data[place:place + width] = (len(data) - less).to_bytes(width, "big")
    return bytes(data)


CHANGES = {
    "cut": lambda data: [data[:n] for n in range(len(data) + 1)],
    "without": lambda data: [data[:i] + data[i + 1:] for i in range(len(data))],
    "twice": lambda data: [data[:i + 1] + data[i:] for i in range(len(data))],
}


class CaseFile:
    """Collects lines. Every answer is that of layouts.py; where the caller has one of its own, the two must agree."""

    def __init__(self):
        self.lines = []
        self.strings = {}
        self.tried = set()

    def sort(self, words):
        self.lines.append(f"sort {words}")

    def string(self, name, *pieces):
        assert name not in self.strings and " " not in name, name
        written, self.strings[name] = parts(pieces)
        self.lines.append(f"bytes {name} {written}")

    def case(self, layout, good, words, *pieces):
        assert (layout, words) not in self.tried, f"two cases of {layout}: {words}"
        self.tried.add((layout, words))
        written, data = parts(pieces)
        stopped = layouts.why_not(layouts.LAYOUTS[layout], data)
        assert (stopped is None) == good, f"{layout}, {words}: by hand {good}, by the layout: {stopped or 'good'}"
        self.lines.append(f"case {layout} {'yes' if good else 'no'} {written} {words}")

    def byte(self, layout, name, place, by_hand=None):
        data = self.strings[name]
        good = {value for value in range(256)
                if layouts.accepts(layouts.LAYOUTS[layout], data[:place] + bytes([value]) + data[place + 1:])}
        assert by_hand is None or good == set(by_hand), f"{layout}, {name}: by the layout {set_of(good)}"
        self.lines.append(f"byte {layout} {name} {place} {set_of(good)}")

    def each_byte(self, layout, name):
        for place in range(len(self.strings[name])):
            self.byte(layout, name, place)

    def choice(self, layout, words, good, make):
        """A byte that may have some values: `make` gives the whole for a value. The answers by hand are `good`."""
        name = words.replace(" ", "-")
        low, high = make(0), make(255)
        places = [i for i in range(len(low)) if low[i] != high[i]]
        assert len(places) == 1 and len(low) == len(high), words
        self.string(name, low)
        self.byte(layout, name, places[0], good)

    def change(self, kind, layout, name, fields=()):
        good = [i for i, data in enumerate(CHANGES[kind](self.strings[name]))
                if layouts.accepts(layouts.LAYOUTS[layout], mended(data, fields))]
        mend = ",".join(f"{width}@{place}-{less}" for width, place, less in fields) or "-"
        self.lines.append(f"{kind} {layout} {name} {mend} {set_of(good)}")

    def text(self, words, asked, fallback, wanted, number, which=0, place=0, length=0):
        answer = layouts.text(self.strings[asked], self.strings[fallback], wanted)
        assert answer == (number, which, place, length), f"text call, {words}: by the layout {answer}"
        self.lines.append(f"text {asked} {fallback} {wanted} {number} {which} {place} {length} {words}")

    def whole(self):
        head = "# Made by tools/vectors/bad_input.py; tools/vectors/case_file.py says what each line means.\n"
        return head + "".join(line + "\n" for line in self.lines)
