"""A reader of table texts, written from the description of the format alone.

A text is lines, each ended by byte 10: a heading, one entry a line, and CLOSE.
    DEFINE COMP n,#s,#t,c                a screw table of n entries
    DEFINE COMP r.c,#s,#u,#t,a,b         a plane, of (r + 1)(c + 1) - 1 entries
The first line that is wrong is named, with its refusal: 1 form, 2 range, 6 too many entries, 7 incomplete.
"""

import re

WHOLE = re.compile(rb"0|-?[1-9][0-9]*")
NUMBER = rb"(0|-?[1-9][0-9]*)"
SCREW = re.compile(rb"DEFINE COMP %s,#%s,#%s,%s" % ((NUMBER,) * 4))
PLANE = re.compile(rb"DEFINE COMP %s\.%s,#%s,#%s,#%s,%s,%s" % ((NUMBER,) * 7))

MOTORS = 8
SCREW_RANGES = (256, MOTORS, MOTORS, 16777216)
PLANE_RANGES = (16, 16, MOTORS, MOTORS, MOTORS, 262144, 262144)
LARGEST_ENTRY = 32767


class Refused(Exception):
    def __init__(self, refusal, line):
        super().__init__(refusal, line)
        self.refusal = refusal
        self.line = line


def heading(line):
    """The numbers of a heading line, and how many entries it asks for."""
    for form, ranges in ((SCREW, SCREW_RANGES), (PLANE, PLANE_RANGES)):
        found = form.fullmatch(line)
        if not found:
            continue
        numbers = [int(group) for group in found.groups()]
        if any(not 1 <= number <= high for number, high in zip(numbers, ranges)):
            raise Refused(2, 1)
        if form is SCREW:
            return numbers, numbers[0]
        return numbers, (numbers[0] + 1) * (numbers[1] + 1) - 1
    raise Refused(1, 1)


def table(text):
    """The table of a text, as the numbers of its heading and its entries."""
    at = 0
    line_number = 0
    numbers, wanted, entries = None, 0, []
    while True:
        line_number += 1
        end = text.find(b"\n", at)
        if end < 0:
            # nothing is left, or a line without its end
            unfinished = at < len(text) or line_number == 1
            raise Refused(1 if unfinished else 7, line_number)
        line, at = text[at:end], end + 1
        if line_number == 1:
            numbers, wanted = heading(line)
        elif line == b"CLOSE":
            if len(entries) < wanted:
                raise Refused(7, line_number)
            if at < len(text):
                raise Refused(1, line_number + 1)
            return numbers, entries
        else:
            entries.append(entry(line, line_number, len(entries) < wanted))


def entry(line, line_number, has_room):
    if not WHOLE.fullmatch(line):
        raise Refused(1, line_number)
    if not has_room:
        raise Refused(6, line_number)
    if abs(int(line)) > LARGEST_ENTRY:
        raise Refused(2, line_number)
    return int(line)


def write(numbers, entries):
    """The text of a table."""
    if len(numbers) == 4:
        first = "DEFINE COMP {},#{},#{},{}".format(*numbers)
    else:
        first = "DEFINE COMP {}.{},#{},#{},#{},{},{}".format(*numbers)
    return "".join(f"{line}\n" for line in [first, *entries, "CLOSE"]).encode()


def answer(text):
    """What the program `tables` is to write for a text."""
    try:
        return write(*table(text))
    except Refused as fault:
        return f"refused={fault.refusal} line={fault.line} from=text\n".encode()
