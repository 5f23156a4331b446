"""Texts of tables, with and without damage."""

from table_reader import PLANE_RANGES, SCREW_RANGES, write

ODD_LINES = [b"", b"0", b"-0", b"+1", b"01", b"1 ", b" 1", b"-", b"--1", b"1.5", b"1,2", b"32767", b"32768", b"-32767", b"-32768"]
ODD_LINES += [b"9" * 40, b"-" + b"9" * 40, b"10000000000", b"18446744073709551617", b"CLOSE", b"close", b"CLOSE ", b"DEFINE COMP 1,#1,#1,1"]
ODD_NUMBERS = ["0", "-1", "+1", "01", "-0", "", "256", "257", "16", "17", "8", "9", "262144", "262145", "16777216", "16777217", "9" * 30]
BYTES = b"0123456789-+,.#\n\r \x00\xffCLOSEclose"


def number_up_to(random, high):
    return random.choice([1, high, random.randint(1, high), random.randint(1, min(high, 4))])


def valid(random):
    """A table's text, mostly a small one."""
    if random.random() < 0.5:
        numbers = [number_up_to(random, high) for high in SCREW_RANGES]
        numbers[0] = random.choice([1, 2, 3, 256, random.randint(1, 256), random.randint(1, 9)])
        wanted = numbers[0]
    else:
        numbers = [number_up_to(random, high) for high in PLANE_RANGES]
        wanted = (numbers[0] + 1) * (numbers[1] + 1) - 1
    entries = [random.choice([0, 32767, -32767, random.randint(-32767, 32767), random.randint(-9, 9)]) for _ in range(wanted)]
    return write(numbers, entries)


def heading_number(random, text):
    """Another number somewhere in the heading."""
    head, _, rest = text.partition(b"\n")
    parts = head.replace(b".", b",").split(b",")
    old = random.choice(parts[1:] + [parts[0].split(b" ")[-1]]).lstrip(b"#")
    return head.replace(old, random.choice(ODD_NUMBERS).encode(), 1) + b"\n" + rest


def damage(random, text):
    """One thing changed in a text."""
    place = random.randint(0, len(text))
    lines = text.split(b"\n")
    line = random.randrange(len(lines))
    kind = random.randrange(13)
    if kind == 0:
        return text[:place]
    if kind == 1:
        return text[:place] + text[place + 1 :]
    if kind == 2:
        return text[:place] + bytes([random.choice(BYTES)]) + text[place:]
    if kind == 3:
        return text[:place] + bytes([random.choice(BYTES)]) + text[place + 1 :]
    if kind == 4:
        lines[line] = random.choice(ODD_LINES)
    elif kind == 5:
        lines.insert(line, random.choice(ODD_LINES))
    elif kind == 6:
        del lines[line]
    elif kind == 7:
        lines.insert(line, lines[line])
    elif kind == 8:
        other = random.randrange(len(lines))
        lines[line], lines[other] = lines[other], lines[line]
    elif kind == 9:
        return text + random.choice([b"\n", b"x", b"CLOSE\n", b"0\n", text])
    elif kind == 10:
        return text.rstrip(b"\n") if random.random() < 0.5 else text.replace(b"\n", b"\r\n", 1)
    else:
        return heading_number(random, text)
    return b"\n".join(lines)


def texts(random, count):
    """Some odd texts, and then tables with up to three changes; one in ten stays whole."""
    yield from [b"", b"\n", b"CLOSE\n", b"DEFINE COMP 1,#1,#1,1", b"DEFINE COMP 1,#1,#1,1\n"]
    for _ in range(count - 5):
        text = valid(random)
        if random.random() < 0.9:
            for _ in range(random.choice([1, 1, 1, 2, 3])):
                text = damage(random, text)
        yield text
