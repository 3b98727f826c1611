"""Families about rules 1 to 5: folds, trampolines, change jumps, inner labels, shrinks."""
from model.forms import FORMS
from .build import (address, branch, comment, data, filler, instr, jump, label, name, number, one_of, org, quiet, retargeted, sprinkle,
                    text_of, variable, with_target)

TRANSFERS = [f.name for f in FORMS if f.is_transfer]


def somewhere(rng, names):
    """A target: mostly a name, sometimes a sum with one."""
    k = name(rng.choice(names))
    return ("plus", k, number(rng.randint(-2, 2))) if rng.random() < 0.1 else k


def between(rng):
    """What may stand within a pattern and mostly breaks it."""
    return one_of(rng, lambda: comment(b"x"), lambda: instr("Nop"), lambda: variable(0x4000 + rng.randrange(99), number(1)),
                  lambda: data("bytes", number(1)), lambda: label(0xF000 + rng.randrange(999)))


def inverted(rng, here, names):
    """A branch over a jump."""
    to = name(here) if rng.random() < 0.9 else ("plus", name(here), number(0))
    result = [branch(rng, to), jump(rng, somewhere(rng, names)), label(here)]
    if rng.random() < 0.12:
        result.insert(rng.choice([1, 2]), between(rng))
    return result


def tramp(rng, here, end, names):
    """A branch to a jump, over a jump."""
    result = [branch(rng, name(here)), jump(rng, name(end)), label(here), jump(rng, somewhere(rng, names)), label(end)]
    if rng.random() < 0.12:
        result.insert(rng.choice([1, 2, 3, 4]), between(rng))
    return result


def shuffled(rng, parts):
    rng.shuffle(parts)
    return [s for part in parts for s in part]


def folds(rng):
    """Inverted folds of all pairs, near and far."""
    locals_ = [0x8000 + i for i in range(rng.randint(1, 4))]
    end = 1 if rng.random() < 0.3 else 0x80FF
    parts = [inverted(rng, k, locals_ + [end]) for k in locals_] + [[label(end)]]
    parts += [filler(rng, rng.choice([1, 2, 5, 100])) for _ in range(rng.randint(0, 2))]
    return text_of(sprinkle(rng, retargeted(rng, shuffled(rng, parts), 0.1), 0.1))


def trampolines(rng):
    """Trampolines of all kinds, with one or more references to T."""
    count = rng.randint(1, 3)
    locals_ = [0x8000 + i for i in range(2 * count)]
    parts = [tramp(rng, locals_[2 * i], locals_[2 * i + 1], locals_ + [0x80FF]) for i in range(count)] + [[label(0x80FF)]]
    if rng.random() < 0.35:
        k = name(rng.choice(locals_))
        parts.append([rng.choice([data("words", k), data("bytes", ("lower", k)), branch(rng, k), instr("Callf", k)])])
    if rng.random() < 0.1:
        parts.append([variable(0x100, name(rng.choice(locals_)))])
    parts += [filler(rng, rng.choice([1, 3, 60])) for _ in range(rng.randint(0, 2))]
    return text_of(sprinkle(rng, retargeted(rng, shuffled(rng, parts), 0.05), 0.1))


def page_trampolines(rng):
    """Trampolines where the inverted candidate mostly fails: the last jump would leave its page, or a datum its range."""
    skip = jump(rng, name(0x8001))
    far = number(0x1000 + rng.choice([0, rng.randint(1, 0x70)]))
    last = with_target(rng, rng.choice(["Jmp", "Jmp", "Jmp", "Jmpf", "Br"]), far)
    body = [branch(rng, name(0x8000)), skip, label(0x8000), last, label(0x8001)]
    start = 0x1000 - sum(s.size for s in body) + rng.choice([0, 0, 1, skip.size - 1, skip.size, -1])
    if rng.random() < 0.15:
        body[3:4] = [jump(rng, name(0x8002)), label(0x8003)]
        distance = ("minus", name(0x8003), name(0x8000))
        body += filler(rng, 2) + [label(0x8002), data("bytes", ("minus", distance, number(rng.randint(0, 3))))]
    return text_of([org(start)] + sprinkle(rng, body, 0.1) + filler(rng, rng.choice([0, 0, 1, 3])))


def crowded(rng):
    """Folds and shrinks of which only some can be made, so that their order shows: what stands behind may not move by more."""
    end, body = name(0x80FF), []
    for i in range(rng.randint(2, 4)):
        here = 0x8000 + 2 * i
        body += one_of(rng, lambda: [branch(rng, name(here)), jump(rng, end), label(here)], lambda: [instr("Jmpf", end)],
                       lambda: [branch(rng, name(here)), jump(rng, name(here + 1)), label(here), jump(rng, end), label(here + 1)],
                       lambda: [instr("Callf", end)])
    body.append(label(0x80FF))
    last, slack = 0x1000 - 2, rng.randint(0, 7)
    tail = instr("Jmp", number(0x1000 + rng.randint(60, 900))) if rng.random() < 0.6 else \
        instr(rng.choice(["Add_i8", "Ld_d9"]), ("minus", end, number(last)))
    return text_of([org(last + slack - sum(s.size for s in body))] + sprinkle(rng, body, 0.05) + [tail])


def soup(rng):
    """Branches, jumps and labels in any order: folds upon folds."""
    labels = [0x8000 + i for i in range(rng.randint(2, 6))]
    result = [label(k) for k in labels]
    for _ in range(rng.randint(3, 16)):
        k = name(rng.choice(labels))
        result.append(one_of(rng, lambda: branch(rng, k), lambda: jump(rng, k), lambda: jump(rng, k), lambda: branch(rng, k),
                             lambda: instr("Nop"), comment, lambda: instr("Callf", k)))
    rng.shuffle(result)
    if rng.random() < 0.15:
        a, b = name(rng.choice(labels)), name(rng.choice(labels))
        result.insert(rng.randint(0, len(result)), data("bytes", ("minus", ("plus", number(rng.randint(0, 6)), a), b)))
    if rng.random() < 0.15:
        result.insert(0, org(0x1000 - rng.randint(1, 30)))
    return text_of(retargeted(rng, result, rng.choice([0, 0, 0.15])))


def skipped(rng):
    """What stands between a Not1 and its jump, skipped or not."""
    return one_of(rng, lambda: label(0x8100 + rng.randrange(500)), lambda: comment(b"c"), lambda: instr("Nop"),
                  lambda: variable(0x200 + rng.randrange(500), number(3)), lambda: org(rng.randint(0, 40)))


def change_jumps(rng):
    """Not1 10D,0 before Jmpf, its operands at times by names and positions."""
    result = [variable(0x10, number(0x10D))] + filler(rng, rng.randint(0, 4))
    for i in range(rng.randint(1, 3)):
        here = name(0x8000 + i)
        where = rng.choice([number(0x10D)] * 6 + [number(0x10C), name(0x10), ("minus", here, number(rng.randint(-300, 3)))])
        bit = rng.choice([number(0)] * 6 + [number(1), ("minus", here, here)])
        result += [label(0x8000 + i), instr("Not1", where, bit)]
        result += [skipped(rng) for _ in range(rng.choice([0, 0, 0, 1, 2]))]
        result.append(instr("Jmpf", rng.choice([address(rng, result), name(0x8000), name(0x80F0), number(0x1234)])))
        result += one_of(rng, list, lambda: filler(rng, 2), lambda: [jump(rng, name(0x8000))], lambda: [branch(rng, address(rng, result))])
    return text_of(result + [label(0x80F0)] + filler(rng, 3))


def inner_labels(rng):
    """Numeric targets on the bytes of statements, of every transfer."""
    labels = [0x8000 + i for i in range(3)]
    result = [label(k) for k in labels]
    for _ in range(rng.randint(3, 14)):
        to = rng.choice([number(0), number(0), name(rng.choice(labels))])
        result.append(one_of(rng, lambda: with_target(rng, rng.choice(TRANSFERS), to), lambda: instr("Jmpf", to), comment,
                             lambda: instr("Callf", to), lambda: data("words", number(1), number(2)), lambda: quiet(rng)))
    rng.shuffle(result)
    for i, s in enumerate(result):
        if s.kind == "instr" and s.form.is_transfer and s.args[-1] == number(0):
            result[i] = s.with_form(s.form, address(rng, result))
    return text_of(result)


def shrinks(rng):
    """Far jumps and calls to labels before and behind, some out of reach."""
    labels = [0x8000 + i for i in range(rng.randint(1, 4))]
    parts = [[label(k)] for k in labels]
    for _ in range(rng.randint(1, 6)):
        forms = ["Jmpf", "Jmpf", "Callf", "Jmp", "Call", "Brf", "Callr"]
        parts.append([instr(rng.choice(forms), name(rng.choice(labels)))])
    parts += [filler(rng, rng.choice([1, 10, 60, 120, 130])) for _ in range(rng.randint(0, 3))]
    return text_of(retargeted(rng, shuffled(rng, parts), 0.1))


def mixed(rng):
    """Routines with something of everything."""
    result, here = [], 0x8000
    for routine in range(rng.randint(1, 3)):
        result.append(label(1 + routine))
        for _ in range(rng.randint(1, 4)):
            here += 2
            result += one_of(
                rng, lambda: inverted(rng, here, [here, 1]), lambda: tramp(rng, here, here + 1, [here + 1, 1]),
                lambda: filler(rng, rng.randint(1, 20)), lambda: [instr("Callf", name(1 + rng.randrange(routine + 1)))],
                lambda: [instr("Jmpf", name(1))], lambda: [data("words", name(1)), comment(b"t")],
                lambda: [instr("Not1", number(0x10D), number(0)), instr("Jmpf", number(7))])
    return text_of(retargeted(rng, sprinkle(rng, result, 0.05), 0.08))


FAMILIES = [folds, trampolines, page_trampolines, crowded, soup, change_jumps, inner_labels, shrinks, mixed]
