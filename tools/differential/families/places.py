"""Families about positions: orgs and gaps, the reach of a relative branch, pages of 4,096 bytes, the end at 65,536."""
from .build import (address, branch, comment, data, filler, instr, jump, label, name, number, one_of, org, pad, retargeted, size_of, text_of,
                    with_target)
from .code import TRANSFERS, shuffled


def orgs(rng):
    """Orgs forwards, onto the position, back, and at the end."""
    result, at = [label(0x8000)], 0
    for _ in range(rng.randint(1, 5)):
        at = max(0, at + rng.choice([0, 0, 1, 2, 10, 50, 200, rng.choice([-1, -5, 5])]))
        result.append(org(min(at, 65535)))
        result += filler(rng, rng.choice([0, 1, 5]))
        result += one_of(rng, list, lambda: [jump(rng, name(0x8000), ["Jmpf", "Jmp"])], lambda: [instr("Callf", address(rng, result))])
        at = size_of(result)
    return text_of(result + rng.choice([[], [], [org(min(65535, at + rng.randint(0, 9)))], [label(0x8001)]]))


def edge(rng, to):
    """A transfer of short reach, or one that may become so."""
    return one_of(rng, lambda: branch(rng, to), lambda: jump(rng, to), lambda: instr("Br", to), lambda: instr("Jmpf", to))


def reach(rng):
    """Distances about 127 and 128 bytes, forwards and back, with jumps in between that shrink."""
    distance = rng.randint(118, 136)
    middle = [instr(rng.choice(["Jmpf", "Callf"]), name(rng.choice([0x8000, 0x8001]))) for _ in range(rng.randint(0, 4))]
    gap = filler(rng, max(0, distance - 3 * len(middle)))
    for s in middle:
        gap.insert(rng.randint(0, len(gap)), s)
    ahead, back = edge(rng, name(0x8001)), edge(rng, name(0x8000))
    result = rng.choice([[label(0x8000), ahead] + gap + [label(0x8001)], [label(0x8000), label(0x8001)] + gap + [back],
                         [ahead, label(0x8000)] + gap + [label(0x8001), back]])
    return text_of(retargeted(rng, result, 0.5) if rng.random() < 0.2 else result)


def pages(rng):
    """Jumps and calls about an edge of 4,096 bytes: one that shrinks may push another over it."""
    page = 0x1000 * rng.randint(1, 15)
    labels = [0x8000, 0x8001, 0x8002]
    parts = [[label(k)] for k in labels]
    for _ in range(rng.randint(2, 7)):
        to = rng.choice([name(rng.choice(labels)), name(rng.choice(labels)), number(page + rng.randint(-20, 20))])
        parts.append([instr(rng.choice(["Jmp", "Call", "Jmpf", "Callf", "Jmpf", "Br"]), to)])
    parts += [filler(rng, rng.randint(1, 4)) for _ in range(rng.randint(0, 3))]
    if rng.random() < 0.4:
        parts.append(filler(rng, 130))
    return text_of([org(page - rng.randint(0, 24))] + shuffled(rng, parts))


def routine(rng, here, there):
    forms = ["Jmpf", "Callf", "Jmp", "Call", "Brf", "Callr"]
    return [label(here)] + [instr(rng.choice(forms), name(rng.choice([here, there, here]))) for _ in range(rng.randint(1, 4))]


def far_pages(rng):
    """Two places in different pages, with jumps both ways."""
    first, second = sorted(rng.sample(range(16), 2))
    return text_of([org(first * 0x1000 + rng.choice([0, 1, 0xFF0]))] + routine(rng, 1, 2)
                   + [org(second * 0x1000 + rng.choice([0x10, 0x20, 0xFF2]))] + routine(rng, 2, 1) + filler(rng, rng.randint(0, 3)))


def ends(rng):
    """About position 65,536."""
    body = [label(0x8000)]
    for _ in range(rng.randint(1, 4)):
        to = rng.choice([name(0x8000), name(0x8001), number(rng.choice([0, 0x345, 0xFFF, 0xFFFF, 65536]))])
        body.append(with_target(rng, rng.choice(TRANSFERS), to))
    body += rng.choice([[], [data("words", number(1))], [instr("Nop")], [comment()]])
    at = 65536 - size_of(body) + rng.choice([0, 0, 0, 0, 1, 2, -1, -3])
    tail = rng.choice([[], [], [org(65535)], [instr("Nop")], [label(1)]])
    return text_of([label(0x8001)] + filler(rng, rng.choice([0, 2])) + [org(min(65535, at))] + body + tail)


def pads(rng):
    """C-11: jumps that shrink before pads, numbers that point into them, branches over them at the edge of their reach."""
    result = [label(0x8000)]
    for _ in range(rng.randint(2, 7)):
        result += one_of(
            rng,
            lambda: [pad(rng.choice([1, 2, 3, 4, 8, 16, 128, 131, 132, 256]), rng.choice([0, 0, 0, 1, 2, 255]))],
            lambda: [jump(rng, name(rng.choice([0x8000, 0x8001]))), *filler(rng, rng.randint(0, 4))],
            lambda: [instr(rng.choice(["Jmpf", "Jmpf", "Callf", "Br"]), number(rng.randint(0, size_of(result) + 12)))],
            lambda: [branch(rng, name(rng.choice([0x8000, 0x8001])))],
            lambda: [org(min(65535, size_of(result) + rng.choice([0, 1, 5])))],
        )
    return text_of(result + [label(0x8001)] + filler(rng, rng.choice([0, 1])) + rng.choice([[], [], [pad(4)], [pad(1, 3)]]))


FAMILIES = [orgs, reach, pages, far_pages, ends, pads]
