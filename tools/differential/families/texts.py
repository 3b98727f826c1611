"""Families about the text itself: damage of all kinds, and the limits."""
from model.reading import put
from . import code, names, places, values
from .build import comment, data, instr, label, name, number, one_of, org, quiet, text_of, tree, variable

SOUND = code.FAMILIES + names.FAMILIES + places.FAMILIES + values.FAMILIES


def flip(rng, text):
    at = rng.randrange(len(text))
    return text[:at] + bytes([rng.choice(b"0123456789ABCDEFabcdefg \n\r=\x00\xff")]) + text[at + 1:]


def cut(rng, text):
    return text[:rng.randrange(len(text))]


def drop(rng, text):
    at = rng.randrange(len(text))
    return text[:at] + text[at + rng.randint(1, 4):]


def insert(rng, text):
    at = rng.randint(0, len(text))
    return text[:at] + rng.choice([b"\n", b"\r\n", b"0", b"00", b"FF", b"G", b" ", b"0143\n", b"\x80"]) + text[at:]


def swap_byte(rng, text):
    """Another pair of good digits."""
    lines = text.split(b"\n")
    at = rng.randrange(len(lines))
    pairs = len(lines[at]) // 2
    if pairs:
        pair = 2 * rng.randrange(pairs if rng.random() < 0.5 else min(2, pairs))
        byte = rng.choice([0, 1, 2, 3, 4, 5, 6, 7, 8, 16, 17, 32, 0x45, 0x46, 0x80, 0xFF, rng.randrange(256)])
        lines[at] = lines[at][:pair] + b"%02X" % byte + lines[at][pair + 2:]
    return b"\n".join(lines)


def again(rng, text):
    lines = text.split(b"\n")
    lines.insert(rng.randrange(len(lines)), rng.choice(lines))
    return b"\n".join(lines)


def damaged(rng):
    """A sound listing with one to three damages."""
    text = rng.choice(SOUND)(rng)
    for _ in range(rng.randint(1, 3)):
        text = rng.choice([flip, cut, drop, insert, swap_byte, swap_byte, swap_byte, again])(rng, text) if text else b"\n"
    return text


def deep(rng, size):
    """An expression of exactly so many bytes, at least 5: unary operators before a smaller one."""
    inner = tree(rng, lambda r: number(r.randint(0, 9)), rng.randint(5, size))
    for _ in range(size - len(put(inner))):
        inner = (rng.choice(["lower", "upper"]), inner)
    return inner


def long_frame(rng):
    """An expression about 32 bytes, or a frame about 120."""
    some = lambda: deep(rng, rng.randint(31, 33))
    return one_of(
        rng, lambda: data("bytes", some()), lambda: variable(5, some()), lambda: instr("Bp", some(), number(1), some()),
        lambda: comment(bytes(rng.randint(116, 121))), lambda: data("words", *[number(i) for i in range(16)]),
        lambda: data("bytes", *[deep(rng, rng.randint(5, 9)) for _ in range(16)]),
        lambda: data("words", deep(rng, 32), deep(rng, 32), deep(rng, 32), deep(rng, rng.randint(18, 23))))


def long_frames(rng):
    """Expressions about 32 bytes, frames about 120 bytes, whole and cut."""
    text = text_of([long_frame(rng) for _ in range(rng.randint(1, 3))])
    return cut(rng, text) + b"\n" if rng.random() < 0.15 else text


def many_statements(rng):
    """About 1,024 statements."""
    count = rng.choice([1000, 1023, 1024, 1025, 1026])
    result = [rng.choice([instr("Nop"), instr("Nop"), quiet(rng), comment(b"z")]) for _ in range(count)]
    for _ in range(rng.randint(0, 3)):
        other = [instr("Jmpf", number(rng.randint(0, 900))), label(0x8000 + rng.randrange(9999)), instr("Callf", number(3))]
        result[rng.randrange(count)] = rng.choice(other)
    text = text_of(result)
    return text[:-1] if rng.random() < 0.1 else text


def many_bytes(rng):
    """About 24,576 frame bytes."""
    result = [comment(bytes(119)) for _ in range(204)]
    result.append(comment(bytes(rng.choice([40, 93, 94, 95, 95, 96]))))
    result += rng.choice([[], [comment()], [instr("Nop")], [instr("Jmpf", number(0))]])
    rng.shuffle(result)
    return text_of(result)


def large(rng):
    """Some hundred statements with folds, jumps and calls among them."""
    result, here = [], 0x8000
    labels = [0x9000 + i for i in range(rng.randint(3, 12))]
    length = rng.choice([60, 150, 300, 600])
    while len(result) < length:
        here += 2
        k = name(rng.choice(labels))
        result += [quiet(rng)] if rng.random() < 0.9 else one_of(
            rng, lambda: [instr("Jmpf", k)], lambda: [instr("Callf", k)], lambda: code.inverted(rng, here, [here]),
            lambda: code.tramp(rng, here, here + 1, [here + 1]), lambda: [instr("Jmpf", number(rng.randint(0, 2 * length)))])
    for k in labels:
        result.insert(rng.randint(0, len(result)), label(k))
    return text_of([org(rng.choice([0, 0, 0xF80, 0xF000]))] + result)


FAMILIES = [damaged, long_frames]
LARGE = [many_statements, many_bytes, large]
