"""What an expression is worth: "Values, names, places" of document 01, with refusals 4 and 7."""
from .reading import Panic, Refused

LOW, HIGH = -(1 << 31), (1 << 31) - 1


def divide(left, right):
    whole = abs(left) // abs(right)
    return whole if (left < 0) == (right < 0) else -whole


def wrapped(value):
    return (value + (1 << 31)) % (1 << 32) - (1 << 31)


TWO = {
    "plus": lambda a, b: a + b,
    "minus": lambda a, b: a - b,
    "times": lambda a, b: a * b,
    "divide": divide,
    "xor": lambda a, b: a ^ b,
    "and": lambda a, b: a & b,
    "or": lambda a, b: a | b,
}
ONE = {"negate": lambda a: -a, "lower": lambda a: a % 256, "upper": lambda a: (a >> 8) % 256}


class Evaluation:
    """One operand: `find` gives a name's value or None, `inner` that of an inner label."""

    def __init__(self, ways, phase, place, find, inner):
        self.ways, self.phase, self.place, self.find, self.inner = ways, phase, place, find, inner

    def overflow(self, op, value, under_lower):
        if self.phase == "candidate":
            switch = "overflow in a candidate"
        elif op == "negate" and under_lower:
            switch = "negate overflows under lower byte"
        else:
            switch = op + " overflows"
        if not self.ways.has(switch):
            raise Refused(7, self.place)
        if self.ways.build == "checked" or op == "divide":
            raise Panic()
        return wrapped(value)

    def worth(self, tree, under_lower=False):
        kind = tree[0]
        if kind == "number":
            return tree[1]
        if kind == "inner":
            return self.inner(tree)
        if kind == "name":
            value = self.find(tree[1])
            if value is None:
                raise Refused(4, self.place)
            return value
        under = under_lower or kind == "lower"
        parts = [self.worth(part, under) for part in tree[1:]]
        if kind == "divide" and parts[1] == 0:
            raise Refused(7, self.place)
        value = (ONE if len(parts) == 1 else TWO)[kind](*parts)
        return value if LOW <= value <= HIGH else self.overflow(kind, value, under_lower)


def holds_name(tree):
    return not isinstance(tree, int) and (tree[0] in ("name", "inner") or any(holds_name(t) for t in tree[1:] if isinstance(t, tuple)))


def names_in(tree):
    """The names that a tree holds."""
    if isinstance(tree, int) or tree[0] in ("number", "inner"):
        return []
    return [tree[1]] if tree[0] == "name" else [n for part in tree[1:] for n in names_in(part)]


def count_name(tree, name):
    if isinstance(tree, int) or tree[0] in ("number", "inner"):
        return 0
    return int(tree[1] == name) if tree[0] == "name" else sum(count_name(part, name) for part in tree[1:])
