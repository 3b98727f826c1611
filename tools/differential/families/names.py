"""Families about names: contexts, variables, constants as targets, names defined again, data that name labels."""
from .build import (address, branch, comment, data, filler, instr, jump, label, name, number, one_of, size_of, text_of, tree, variable,
                    with_target)
from .code import TRANSFERS, inverted, shuffled, tramp


def contexts(rng):
    """The same local names under several global labels."""
    result, locals_ = [], [0x8000, 0x8001, 0xFFFF]
    for context in range(rng.randint(1, 4)):
        if context or rng.random() < 0.5:
            result.append(label(context + 1))
        here = [k for k in locals_ if rng.random() < 0.85]
        parts = [[label(k)] for k in here] + [filler(rng, 2)]
        for _ in range(rng.randint(1, 4)):
            k = name(rng.choice((here or locals_) if rng.random() < 0.95 else locals_))
            parts.append(one_of(rng, lambda: [branch(rng, k), jump(rng, name(0x8000)), label(0x9000 + rng.randrange(900))],
                                lambda: [jump(rng, k)], lambda: [data("words", k)], lambda: [instr("Callf", k)], lambda: [branch(rng, k)]))
        result += shuffled(rng, parts)
    return text_of(result)


def seen_or_not(rng, result):
    """A name that stands above, mostly; else a number or a name that may not be there."""
    above = [s.name for s in result if s.kind in ("label", "variable")]
    if above and rng.random() < 0.8:
        return name(rng.choice(above))
    return number(rng.randint(-3, 300)) if rng.random() < 0.9 else name(rng.choice([1, 2, 3, 0x8000]))


def variables(rng):
    """Variables that name labels and variables above and below."""
    result = []
    for i in range(rng.randint(1, 7)):
        pick = lambda r: seen_or_not(r, result)
        key = 0x10 + i if rng.random() < 0.93 else 0x10
        result.append(one_of(rng, lambda: variable(key, tree(rng, pick, 12)), lambda: label(rng.choice([1 + i, 0x8000 + i])),
                             lambda: variable(0x20 + i, pick(rng)), lambda: instr("Jmpf", pick(rng)), lambda: instr("Nop")))
    for k in [name(s.name) for s in result if s.kind == "variable"][:3]:
        result.append(rng.choice([data("words", k), instr("Ld_d9", k), instr("Jmpf", k), data("bytes", ("lower", k))]))
    return text_of(result)


def to_constant(rng, keys):
    """A target that names a constant, at times in a sum, or with labels that cancel out."""
    k = name(rng.choice(keys))
    return one_of(rng, lambda: k, lambda: k, lambda: k, lambda: ("plus", k, number(rng.randint(-1, 2))), lambda: ("plus", k, name(rng.choice(keys))),
                  lambda: ("plus", k, ("minus", name(0x8000), name(0x8000))))


def constant(rng, above, code):
    """The value of a constant: mostly an address of the code, a constant above with a number, or a label after all."""
    small = number(rng.randint(0, 3))
    sums = [("plus", name(k), small) for k in above] + [("plus", ("minus", name(1), name(1)), small), ("plus", name(1), small)]
    return address(rng, code) if rng.random() < 0.7 else rng.choice(sums)


def constants(rng):
    """Variables as targets, above and below their use (C-15)."""
    keys = [0x20 + i for i in range(rng.randint(1, 4))]
    parts = [[label(0x8000)], filler(rng, rng.choice([1, 2, 5, 60, 125]))]
    for _ in range(rng.randint(1, 6)):
        parts.append([with_target(rng, rng.choice(TRANSFERS + 3 * ["Jmpf", "Callf", "Br"]), to_constant(rng, keys))])
    if rng.random() < 0.2:
        parts.append([instr("Not1", number(0x10D), number(0)), instr("Jmpf", to_constant(rng, keys))])
    if rng.random() < 0.3:
        parts.append([branch(rng, name(0x8001)), jump(rng, to_constant(rng, keys)), label(0x8001)])
    code = [label(1)] + shuffled(rng, parts)
    result, spots = list(code), sorted(rng.randint(1, len(code)) for _ in keys)
    for i in reversed(range(len(keys))):
        result.insert(spots[i], variable(keys[i], constant(rng, keys[:i], code)))
    return text_of(result)


def again(rng):
    """Names that are defined again, among labels, among variables, and across."""
    keys = rng.sample([1, 2, 3, 0x8000, 0x8001], 3)
    result = []
    for _ in range(rng.randint(2, 7)):
        k = rng.choice(keys)
        named = name(rng.choice([1, 2, 3, 9, 0x8000]))
        value = rng.choice([number(0), number(5), named, ("divide", number(1), number(0)), ("plus", name(1), number(1))])
        result.append(variable(k, value) if k < 0x8000 and rng.random() < 0.55 else label(k))
    return text_of(result + filler(rng, rng.randint(0, 2)))


def item(rng, a, b, at):
    """A datum on label a, which first stands at `at`: mostly near the end of its range, so that a rewrite may push it over."""
    d, low = rng.choice([0, 0, 1, 1, 2, 3]), -(1 << 31)
    fall = ("minus", a, number(at - d))
    deep = ("minus", ("plus", a, number(low)), number(at - d))
    steep = ("times", ("minus", a, number(at + 2 + d)), number(1 << 29))
    turned = ("negate", ("xor", a, number(low + at - d)))
    return rng.choice([
        fall, fall, a, ("minus", number(at), a), ("minus", b, a), ("lower", a), ("upper", b), ("minus", number(255 + at - d), a),
        ("divide", number(100), fall), ("lower", deep), ("upper", ("negate", deep)), ("lower", turned), ("lower", steep),
        ("and", number(255), ("divide", deep, number(-1)))])


def data_with_labels(rng):
    """Data that depend on where labels are, with jumps and folds that move them."""
    two = [0x8000, 0x8001]
    parts = [[label(k)] for k in two] + [[instr("Jmpf", name(rng.choice(two)))], [instr("Nop")]]
    for _ in range(rng.randint(1, 3)):
        parts.append([instr(rng.choice(["Jmpf", "Callf", "Br"]), name(rng.choice(two)))])
    if rng.random() < 0.3:
        parts.append([branch(rng, name(0x8002)), jump(rng, name(0x8000)), label(0x8002)])
    parts += [[data(rng.choice(["bytes", "bytes", "words"]), number(0))] for _ in range(rng.randint(1, 2))]
    result = shuffled(rng, parts)
    places = {s.name: size_of(result[:i]) for i, s in enumerate(result) if s.kind == "label"}
    for i, s in enumerate(result):
        if s.kind in ("bytes", "words"):
            k = rng.choice(sorted(places))
            result[i] = data(s.kind, item(rng, name(k), name(0x8001), places[k]))
    if rng.random() < 0.15:
        result.append(instr(rng.choice(["Add_i8", "Ld_d9"]), item(rng, name(0x8000), name(0x8001), places[0x8000])))
    return text_of(result + rng.choice([[], [comment()]]))


def many_names(rng):
    """C-14: hundreds of names in many contexts, the same locals in each; a context names its own, the globals and the variables above it."""
    result, globals_, known = [], [1 + i for i in range(rng.randint(20, 50))], []
    for g in globals_:
        here = [0x8000 + i for i in range(rng.randint(3, 7))]
        parts = [[label(k)] for k in here[2:]]
        for _ in range(rng.randint(1, 4)):
            near, far = name(rng.choice(here)), name(rng.choice(here + globals_ + known))
            parts.append(one_of(rng, lambda: [jump(rng, near)], lambda: [branch(rng, near)], lambda: [instr("Jmpf", far)], lambda: [instr("Callf", far)],
                                lambda: [data("words", far)], lambda: filler(rng, 2)))
        parts.append(one_of(rng, lambda: inverted(rng, here[0], here) + [label(here[1])], lambda: tramp(rng, here[0], here[1], here),
                            lambda: [label(here[0]), label(here[1])]))
        result += [label(g)] + shuffled(rng, parts)
        if rng.random() < 0.3:
            result.append(variable(0x5000 + g, rng.choice([name(g), number(g), ("plus", name(rng.choice(known or [g])), number(1))])))
            known.append(0x5000 + g)
    return text_of(result[:1024])


FAMILIES = [contexts, variables, constants, again, data_with_labels]
LARGE = [many_names]
