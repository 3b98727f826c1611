"""Families about values: every operator, every form with operands about their ranges, overflows."""
from model.forms import FORMS
from .build import EDGES, data, instr, label, name, number, one_of, org, text_of, tree, variable

HIGH = {"i8": 255, "d9": 511, "bit": 7, "a12": 65535, "a16": 65535, "rel8": 65535, "rel16": 65535}


def leaf(rng):
    return one_of(rng, lambda: number(rng.choice(EDGES)), lambda: number(rng.randint(-300, 300)),
                  lambda: number(rng.randint(-(1 << 31), (1 << 31) - 1)), lambda: name(rng.choice([1, 2, 0x8000])))


def small_leaf(rng):
    return one_of(rng, lambda: number(rng.randint(-9, 9)), lambda: number(rng.randint(-300, 300)), lambda: name(rng.choice([1, 2, 0x8000])))


def operators(rng):
    """Expressions of all operators, mostly cut to a byte; 2 is a variable above, 1 and 8000 are labels below."""
    leaves = rng.choice([leaf, small_leaf, small_leaf])
    result = [variable(2, number(7))]
    for _ in range(rng.randint(1, 4)):
        trees = [tree(rng, leaves, rng.choice([11, 20, 31])) for _ in range(rng.randint(1, 3))]
        if rng.random() < 0.7:
            result.append(data("bytes", *[("lower", t) for t in trees]))
        else:
            result.append(rng.choice([data("words", *trees), data("bytes", *trees), instr("Add_i8", trees[0]), instr("Jmpf", trees[0]),
                                      variable(0x77, trees[0])]))
    return text_of(result + [label(0x8000)] + ([label(1)] if rng.random() < 0.9 else []))


def overflows(rng):
    """One node at the edge of 32 bits."""
    big = number(rng.choice([(1 << 31) - 1, -(1 << 31), 1 << 30, -(1 << 30), 46341, 65536]))
    one = number(rng.choice([1, -1, 2, -2, 46341, 65536]))
    node = rng.choice([(op, big, one) for op in ("plus", "minus", "times", "divide")] + [("negate", big), ("negate", ("negate", big))])
    node = rng.choice([node, ("lower", node), ("upper", node), ("and", node, number(255)), ("lower", ("plus", node, number(1)))])
    places = [data("bytes", node), data("words", node), variable(9, node), instr("Br", node), instr("Jmp", node), instr("Ld_d9", node)]
    return text_of([rng.choice(places)] + [instr("Nop")] * rng.randint(0, 2))


def any_operand(rng, form, kind, at):
    """An operand within its range, or now and then just outside."""
    if kind == "reg":
        return rng.randrange(4)
    if form.is_transfer and kind == form.operands[-1]:
        near = [at + rng.randint(-3, 9), at, rng.randint(0, 65535), 65535, at + 127]
        return number(rng.choice(near if rng.random() < 0.93 else EDGES))
    inside = [0, 1, HIGH[kind], rng.randint(0, HIGH[kind])]
    return number(rng.choice(inside if rng.random() < 0.96 else [-1, HIGH[kind] + 1]))


def forms(rng):
    """Any form, each operand within its range or just outside."""
    at = rng.choice([0, 0, 0x100, 0x0FFE, 0x7FFD, 0xFFF0])
    result = [org(at)] if at else []
    for _ in range(rng.randint(1, 5)):
        form = rng.choice(FORMS)
        result.append(instr(form.name, *[any_operand(rng, form, kind, at) for kind in form.operands]))
    return text_of(result)


def bytes_and_words(rng):
    """Data about the ends of their ranges."""
    kind, high = rng.choice([("bytes", 255), ("words", 65535)])
    good, odd = [0, 1, high, high - 1], [-1, -128, -129, -32768, -32769, high + 1]
    def datum():
        return data(kind, *[number(rng.choice(good if rng.random() < 0.93 else odd)) for _ in range(rng.choice([1, 2, 16]))])
    return text_of([datum() for _ in range(rng.randint(1, 3))])


FAMILIES = [operators, overflows, forms, bytes_and_words]
