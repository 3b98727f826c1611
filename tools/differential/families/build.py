"""Statements and expressions made by hand or at random, for the families."""
from model.forms import BRANCHES, BY_NAME, FORMS, UNCONDITIONAL
from model.reading import Statement, line_of

EDGES = [0, 1, 2, 3, 7, 8, 127, 128, 129, 255, 256, 257, 511, 512, 0x10D, 0xFFF, 0x1000, 32767, 32768, 65535, 65536,
         -1, -2, -128, -129, -256, -32768, -32769, 2147483647, 2147483646, -2147483648, -2147483647, 1 << 16, 1 << 30]
OPERATORS = ["plus", "minus", "times", "divide", "xor", "and", "or"]
QUIET = [f.name for f in FORMS if not f.is_transfer]


def one_of(rng, *makers):
    """What one of the makers makes."""
    return rng.choice(makers)()


def number(v):
    return ("number", v)


def name(k):
    return ("name", k)


def instr(form, *args):
    return Statement("instr", form=BY_NAME[form], args=args)


def label(k):
    return Statement("label", name=k)


def variable(k, tree):
    return Statement("variable", name=k, args=[tree])


def comment(text=b""):
    return Statement("comment", comment=text)


def org(location):
    return Statement("org", location=location)


def pad(multiple, add=0):
    return Statement("pad", add=add, multiple=multiple)


def data(kind, *trees):
    return Statement(kind, args=trees)


def text_of(statements):
    return b"".join(line_of(s) for s in statements)


def size_of(statements):
    """Bytes from 0 on, orgs obeyed."""
    at = 0
    for s in statements:
        at = s.location if s.kind == "org" else at + s.size_at(at)
    return at


def operand(rng, kind):
    """An operand that is within its range."""
    if kind == "reg":
        return rng.randrange(4)
    high = {"i8": 255, "d9": 511, "bit": 7}[kind]
    v = rng.choice([0, 1, high, rng.randint(0, high)])
    if rng.random() < 0.15:
        w = rng.randint(-50, 50)
        sums = [("plus", number(v - w), number(w)), ("minus", number(v + w), number(w)), ("xor", number(v ^ 5), number(5))]
        return rng.choice(sums)
    return number(v)


def with_target(rng, form, target):
    """A transfer to a target, its other operands at random."""
    return instr(form, *[operand(rng, kind) for kind in BY_NAME[form].operands[:-1]], target)


def branch(rng, target, kind=None):
    return with_target(rng, kind or rng.choice(BRANCHES), target)


def jump(rng, target, forms=UNCONDITIONAL):
    return with_target(rng, rng.choice(forms), target)


def quiet(rng):
    """An instruction that is no transfer."""
    form = BY_NAME[rng.choice(QUIET)]
    return instr(form.name, *[operand(rng, kind) for kind in form.operands])


def filler(rng, size):
    """Statements of exactly so many bytes."""
    result = []
    while size > 0:
        if size >= 16 and rng.random() < 0.7:
            n = rng.randint(1, 16)
            result.append(data("bytes", *[number(rng.randint(0, 255)) for _ in range(n)]))
        elif size >= 3 and rng.random() < 0.5:
            result.append(quiet(rng))
        else:
            result.append(instr("Nop"))
        size -= result[-1].size
        if size < 0:
            size += result.pop().size
    return result


def sprinkle(rng, statements, chance):
    """Comments between statements."""
    result = []
    for s in statements:
        if rng.random() < chance:
            result.append(comment(bytes(rng.randrange(256) for _ in range(rng.randrange(4)))))
        result.append(s)
    return result


def tree(rng, leaves, room=32):
    """An expression of at most so many bytes (at least 5) over leaves."""
    if room < 11 or rng.random() < 0.25:
        if room >= 6 and rng.random() < 0.3:
            return (rng.choice(["negate", "upper", "lower"]), tree(rng, leaves, room - 1))
        return leaves(rng)
    if rng.random() < 0.3:
        return (rng.choice(["negate", "upper", "lower"]), tree(rng, leaves, room - 1))
    left = rng.randint(5, room - 6)
    return (rng.choice(OPERATORS), tree(rng, leaves, left), tree(rng, leaves, room - 1 - left))


def address(rng, statements, slack=3):
    """A number that mostly falls on a byte of the statements."""
    return number(rng.randint(0, max(0, size_of(statements) + slack)))


def retargeted(rng, statements, chance):
    """Some targets of transfers become numbers."""
    result = []
    for s in statements:
        if s.kind == "instr" and s.form.is_transfer and rng.random() < chance:
            s = s.with_form(s.form, address(rng, statements))
        result.append(s)
    return result
