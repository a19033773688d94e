"""Ways to try a bound of a layout, for every place that has one. All cases go into the one `file`."""
from case_file import CaseFile
from packer import number

HEAD = (4, 0, 0)  # the length field of a whole: width, place, what it leaves out
HEAD_LENGTH = 5
TOP_32 = 2 ** 32 - 1
NAME_BYTES = {*range(32, 127), *range(160, 256)}
file = CaseFile()


def names(layout, what, least, most, make):
    """Lengths and bytes of a name; `make` gives the whole for a name."""
    for length, good in ((least - 1, False), (least, True), (most, True), (most + 1, False), (255, False)):
        if length >= 0:
            file.case(layout, good, f"{what} of {length} bytes", make(b"N" * length))
    bytes_ = {0: False, 31: False, 32: True, 126: True, 127: False, 128: False, 159: False, 160: True, 255: True}
    for byte, good in bytes_.items():
        for place, where in ((0, "first"), (most // 2, "middle"), (most - 1, "last")):
            name = b"N" * place + bytes([byte]) + b"N" * (most - place - 1)
            file.case(layout, good, f"{what} with {byte} as its {where} byte", make(name))


def numbers(layout, what, good, bad, make):
    for value in good:
        file.case(layout, True, f"{what} {value}", make(value))
    for value in bad:
        file.case(layout, False, f"{what} {value}", make(value))


def either_side(most):
    """Numbers up to a bound either side of zero, then numbers past it, to the ends of four bytes."""
    return (-most, 1 - most, -1, 0, 1, most - 1, most), (-most - 1, most + 1, -(2 ** 31), 2 ** 31 - 1)


def length_field(layout, what, good, place, width):
    """A length field with wrong numbers in it: a little off, too small for anything, huge, and in the wrong order of bytes."""
    right = int.from_bytes(good[place:place + width], "big")
    turned = int.from_bytes(good[place:place + width], "little")
    top = 256 ** width
    wrong = {right - 2, right - 1, right + 1, right + 2, right + 256, right + top // 256, right + top // 2,
             *range(8), top // 2 - 1, top // 2, top - 1, turned}
    file.case(layout, True, f"{what} {right}, as it is", good)
    for value in sorted(value for value in wrong if value != right and 0 <= value < top):
        file.case(layout, False, f"{what} {value} for {right}", good[:place] + number(value, width) + good[place + width:])


def capitals(layout, what, make):
    for place in range(3):
        for byte, good in ((0, False), (64, False), (65, True), (90, True), (91, False), (97, False), (122, False), (196, False)):
            currency = b"MMM"[:place] + bytes([byte]) + b"MMM"[place + 1:]
            file.case(layout, good, f"{what} with {byte} at {place}", make(currency))
