"""Families about source lines (C-20): sound listings in the new form, marks that are none, and the limits of that form."""
from model.reading import MARK
from . import code, names, places, values
from .build import comment, instr, number, text_of

SOUND = code.FAMILIES + names.FAMILIES + places.FAMILIES + values.FAMILIES
HIGHEST = 0xFFFFFFFF


def numbers(rng, count):
    """Source lines: all 0, all the highest, a few repeated, rising, falling, any, or something of all."""
    few = [rng.choice([0, 1, 2, 0x7FFFFFFF, 0x80000000, HIGHEST, rng.randint(0, HIGHEST)]) for _ in range(3)]
    start, step = rng.choice([0, 1, 0xFE, 0xFFF0, HIGHEST - 2000]), rng.choice([1, 1, 1, 256, 65536, 0x3FFFFF])
    return rng.choice([
        lambda: [0] * count,
        lambda: [HIGHEST] * count,
        lambda: [rng.choice(few) for _ in range(count)],
        lambda: [(start + step * i) & HIGHEST for i in range(count)],
        lambda: [(start + step * i) & HIGHEST for i in range(count)],
        lambda: [HIGHEST - start - i & HIGHEST for i in range(count)],
        lambda: [rng.randint(0, HIGHEST) for _ in range(count)],
        lambda: [rng.choice(few + [i, i, rng.randint(0, HIGHEST)]) for i in range(count)],
    ])()


def lined(rng, text):
    """A text in the new form: behind each kind byte a source line. A line that has no kind byte stays as it is."""
    parts = text.split(b"\n")
    given = numbers(rng, len(parts))
    return MARK + b"\n".join(part[:2] + b"%08X" % line + part[2:] if len(part) >= 2 else part for part, line in zip(parts, given))


def lines(rng):
    """A sound listing in the new form; folds and shrinks above all."""
    return lined(rng, rng.choice(code.FAMILIES if rng.random() < 0.7 else SOUND)(rng))


def inserted(rng, text):
    """A mark, or what looks like one, before some line."""
    parts = text.split(b"\n")
    other = rng.choice([b"7D02", b"7D02", b"7D02", b"7d02", b"7D02\r", b"7D01", b"7D03", b"7D0200", b"7D0200000000", b"7D", b""])
    parts.insert(rng.choice([0, 1, len(parts) - 1, rng.randrange(len(parts))]), other)
    return b"\n".join(parts)


def one_line_otherwise(rng, text):
    """One frame without its source line, with half of it, or with two."""
    parts = text.split(b"\n")
    at = rng.randrange(len(parts))
    part = parts[at]
    parts[at] = rng.choice([part[:2] + part[10:], part[:2] + part[6:], part[:2] + part[4:], part[:10] + part[2:], part[:8], part[:10]])
    return b"\n".join(parts)


def marks(rng):
    """Forms mixed up: marks twice, in the wrong place or damaged, frames of one form in a listing of the other."""
    old = rng.choice(SOUND)(rng)
    new = lined(rng, old)
    return rng.choice([
        lambda: inserted(rng, new),
        lambda: inserted(rng, old),
        lambda: one_line_otherwise(rng, new),
        lambda: MARK + old,
        lambda: new[len(MARK):],
        lambda: old + new,
        lambda: new + MARK,
        lambda: new[:-1],
        lambda: MARK[:rng.randint(1, 4)],
        lambda: MARK,
        lambda: MARK + rng.choice([b"\n", b"\r\n", b"00\n", b"0100000000\n", b"04FFFFFFFF\n", b"0400000000\n" * 3]),
    ])()


def many_lines(rng):
    """About 28,672 frame bytes, and about 1,024 statements, in the new form."""
    if rng.random() < 0.3:
        count = rng.choice([1023, 1024, 1025])
        text = lined(rng, text_of([comment(bytes(23)) for _ in range(count)]))
        return text + rng.choice([b"", b"", MARK])
    result = [comment(bytes(119)) for _ in range(231)]
    result.append(comment(bytes(rng.choice([10, 21, 22, 23, 23, 24]))))
    result += rng.choice([[], [comment()], [instr("Nop")], [instr("Jmpf", number(0))]])
    rng.shuffle(result)
    return lined(rng, text_of(result))


FAMILIES = [lines, marks]
LARGE = [many_lines]
