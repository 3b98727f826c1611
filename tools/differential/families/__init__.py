"""The families of listings: each is a function from a random generator to a text, and gives the same text for the same seed."""
import random

from . import code, lines, names, places, texts, values

EVERYDAY = code.FAMILIES + names.FAMILIES + places.FAMILIES + values.FAMILIES + texts.FAMILIES + lines.FAMILIES
LARGE = texts.LARGE + names.LARGE + lines.LARGE
BY_NAME = {family.__name__: family for family in EVERYDAY + LARGE}


def padded(rng, text):
    """C-11: one to three pads between the lines of a text, as long as none of its lines is cut and it has room for them."""
    lines = text.split(b"\n")
    if lines[-1] or len(lines) > 1000 or len(text) > 48000:
        return text
    for _ in range(rng.randint(1, 3)):
        add, multiple = rng.choice([0, 0, 0, 1, 2, 255]), rng.choice([1, 1, 2, 3, 4, 8, 16, 128, 131, 256])
        lines.insert(rng.randrange(len(lines)), b"08%02X%04X" % (add, multiple))
    return b"\n".join(lines)


def listing(seed, family, index):
    """A listing of a family; every fourth one of each has pads, and about every fourth, some of those among them, source lines (C-20)."""
    rng = random.Random("%s/%s/%s" % (seed, family, index))
    text = BY_NAME[family](rng)
    if BY_NAME[family] in lines.FAMILIES + lines.LARGE:
        return text
    text = padded(rng, text) if index % 4 == 3 else text
    return lines.lined(rng, text) if rng.random() < 0.25 else text


def sequence(seed, only=None, start=0):
    """(family, index, text) without end: every family in turn, a large one after each eight rounds."""
    index = start
    while True:
        turn = [f.__name__ for f in EVERYDAY] + ([LARGE[index // 8 % len(LARGE)].__name__] if index % 8 == 7 else [])
        for family in only or turn:
            yield family, index, listing(seed, family, index)
        index += 1
