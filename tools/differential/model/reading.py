"""Text to statements: "The listing" of document 01 and the form of C-20, with refusals 1 and 2. An expression is a tuple."""
from copy import copy

from .forms import FORMS

TWO = {0x10: "plus", 0x11: "minus", 0x12: "times", 0x13: "divide", 0x14: "xor", 0x15: "and", 0x16: "or"}
ONE = {0x20: "negate", 0x21: "upper", 0x22: "lower"}
TAGS = {name: tag for tag, name in list(TWO.items()) + list(ONE.items())}
MARK = b"7D02\n"  # C-20: the first line of a listing whose frames have source lines
LIMITS = (240, 49152)  # characters of a frame, and of all
LIMITS_WITH_LINES = (248, 57344)


class Refused(Exception):
    """argument and amount: for 8 to 11 the argument's place and the number at fault."""

    def __init__(self, number, place, argument=0, amount=0):
        super().__init__(number, place, argument, amount)
        self.number, self.place, self.argument, self.amount = number, place, argument, amount


class Panic(Exception):
    """An overflow that ends the Rust."""


class Statement:
    """kind: instr, label, variable, comment, org, bytes, words or pad. args: a number for a register, else an expression.
    line: its source line (C-20), 0 in the old form."""

    line = 0

    def __init__(self, kind, form=None, name=None, args=(), location=0, comment=b"", add=0, multiple=1):
        self.kind, self.form, self.name = kind, form, name
        self.args, self.location, self.comment = list(args), location, comment
        self.add, self.multiple = add, multiple
        self.size = {"instr": form.size if form else 0, "bytes": len(self.args), "words": 2 * len(self.args)}.get(kind, 0)

    def size_at(self, position):
        """A pad's bytes depend on where it comes (C-11)."""
        return -position % self.multiple + self.add if self.kind == "pad" else self.size

    def with_form(self, form, target):
        """C-20: "a replaced instruction keeps its own line"."""
        return Statement("instr", form=form, args=self.args[:-1] + [target]).with_line(self.line)

    def with_line(self, line):
        other = copy(self)
        other.line = line
        return other


class Frame:
    def __init__(self, data, place):
        self.data, self.place, self.at, self.start = data, place, 0, None

    def broken(self):
        return Refused(1, self.place)

    def byte(self):
        if self.start is not None and self.at - self.start >= 32:
            raise Refused(2, self.place)
        if self.at >= len(self.data):
            raise self.broken()
        self.at += 1
        return self.data[self.at - 1]

    def number(self, length):
        value = 0
        for _ in range(length):
            value = value * 256 + self.byte()
        return value

    def tree(self):
        tag = self.byte()
        if tag == 0:
            value = self.number(4)
            return ("number", value - (1 << 32) if value >> 31 else value)
        if tag == 1:
            return ("name", self.number(2))
        if tag in TWO:
            left = self.tree()
            return (TWO[tag], left, self.tree())
        if tag in ONE:
            return (ONE[tag], self.tree())
        raise self.broken()

    def expression(self):
        self.start = self.at
        tree = self.tree()
        self.start = None
        return tree

    def operand(self, kind):
        if kind != "reg":
            return self.expression()
        register = self.byte()
        if register > 3:
            raise self.broken()
        return register

    def instruction(self):
        number = self.byte()
        if number >= len(FORMS):
            raise self.broken()
        form = FORMS[number]
        return Statement("instr", form=form, args=[self.operand(kind) for kind in form.operands])

    def data_of(self, kind):
        count = self.byte()
        if not 1 <= count <= 16:
            raise self.broken()
        return Statement(kind, args=[self.expression() for _ in range(count)])

    def variable(self):
        name = self.number(2)
        if name >= 0x8000:
            raise self.broken()
        return Statement("variable", name=name, args=[self.expression()])

    def pad(self):
        add, multiple = self.byte(), self.number(2)
        if not 1 <= multiple <= 256:
            raise self.broken()
        return Statement("pad", add=add, multiple=multiple)

    def comment(self):
        start, self.at = self.at, len(self.data)
        return Statement("comment", comment=self.data[start:])

    def statement(self, has_line=False):
        kinds = {
            1: self.instruction,
            2: lambda: Statement("label", name=self.number(2)),
            3: self.variable,
            4: self.comment,
            5: lambda: Statement("org", location=self.number(2)),
            6: lambda: self.data_of("bytes"),
            7: lambda: self.data_of("words"),
            8: self.pad,
        }
        kind = self.byte()
        line = self.number(4) if has_line else 0
        if kind not in kinds:
            raise self.broken()
        statement = kinds[kind]().with_line(line)
        if self.at != len(self.data):
            raise self.broken()
        return statement


def frame_of(line, ended, place):
    if not ended or len(line) % 2 or not line or any(c not in b"0123456789ABCDEF" for c in line):
        raise Refused(1, place)
    return Frame(bytes.fromhex(line.decode()), place)


def lines_of(text):
    """Each line and whether a line feed ends it."""
    parts = text.split(b"\n")
    return [(line, True) for line in parts[:-1]] + ([(parts[-1], False)] if parts[-1] else [])


def is_marked(text):
    return text.startswith(MARK)


def read_listing(text):
    """The mark is no statement and counts in no limit; anywhere else it is a line like any other, and no frame."""
    marked = is_marked(text)
    longest, most = LIMITS_WITH_LINES if marked else LIMITS
    total, statements = 0, []
    for place, (line, ended) in enumerate(lines_of(text[len(MARK):] if marked else text)):
        total += len(line)
        if place >= 1024 or len(line) > longest or total > most:
            raise Refused(2, place)
        statements.append(frame_of(line, ended, place).statement(marked))
    return statements


def put(tree):
    if tree[0] == "number":
        return b"\0" + (tree[1] & 0xFFFFFFFF).to_bytes(4, "big")
    if tree[0] == "name":
        return b"\1" + tree[1].to_bytes(2, "big")
    return bytes([TAGS[tree[0]]]) + b"".join(put(part) for part in tree[1:])


def frame_bytes(s):
    if s.kind == "instr":
        return bytes([1, s.form.number]) + b"".join(bytes([a]) if isinstance(a, int) else put(a) for a in s.args)
    if s.kind == "label":
        return b"\2" + s.name.to_bytes(2, "big")
    if s.kind == "variable":
        return b"\3" + s.name.to_bytes(2, "big") + put(s.args[0])
    if s.kind == "comment":
        return b"\4" + s.comment
    if s.kind == "org":
        return b"\5" + s.location.to_bytes(2, "big")
    if s.kind == "pad":
        return bytes([8, s.add]) + s.multiple.to_bytes(2, "big")
    return bytes([6 if s.kind == "bytes" else 7, len(s.args)]) + b"".join(put(a) for a in s.args)


def line_of(statement, has_line=False):
    frame = frame_bytes(statement)
    line = statement.line.to_bytes(4, "big") if has_line else b""
    return (frame[:1] + line + frame[1:]).hex().upper().encode() + b"\n"


def text_of(statements, marked=False):
    """C-20: the output has the input's form."""
    return (MARK if marked else b"") + b"".join(line_of(s, marked) for s in statements)
