"""A program judged as it stands: document 01's refusals 3 to 11 in their order, and its image. A slot that is gone is None."""
from .forms import LIMITS, encode
from .reading import Refused
from .values import Evaluation, holds_name

GLOBAL = -2  # the context of names below 8000
DEPENDS = ("rel8", "rel16", "a12")


def depends_on_layout(s):
    """Whether a statement that assembled once may fail in another layout."""
    if not hasattr(s, "depends"):
        moving = s.kind == "instr" and any(kind in DEPENDS for kind in s.form.operands)
        s.depends = moving or any(holds_name(a) for a in s.args)
    return s.depends


class Judge:
    def __init__(self, slots, ways, phase):
        self.slots, self.ways, self.phase = slots, ways, phase
        self.contexts, self.values, self.late = [], {}, set()
        self.define()

    def define(self):
        """Contexts, and where each name is defined: the first label of that name, or the first variable."""
        labels, variables, context = {}, {}, -1
        for place, s in enumerate(self.slots):
            if s is not None and s.kind == "label" and s.name < 0x8000:
                context = place
            self.contexts.append(context)
            if s is not None and s.kind in ("label", "variable"):
                (labels if s.kind == "label" else variables).setdefault(self.key(place, s.name), []).append(place)
        self.labels, self.variables_of = labels, variables
        self.defined = {key: places[0] for key, places in list(variables.items()) + list(labels.items())}

    def key(self, place, name):
        return (self.contexts[place] if name >= 0x8000 else GLOBAL, name)

    def run(self):
        self.ways.step(len(self.slots))
        self.clashes()
        self.layout()
        self.variables()
        self.encode()
        return self

    # ---- 3

    def clashes(self):
        again = [p for ps in self.labels.values() for p in ps[1:]] + [p for ps in self.variables_of.values() for p in ps[1:]]
        both = [key for key in self.labels if key in self.variables_of]
        if not again and not both:
            return
        blamed = self.ways.has("a variable is blamed for a label below")
        for key in both:
            places = sorted(self.labels[key] + self.variables_of[key])
            again += self.variables_of[key] if blamed else places[1:]
        again = sorted(set(again))
        variables = [p for p in again if self.slots[p].kind == "variable"]
        if self.ways.has("labels are named before variables"):
            again = [p for p in again if p not in variables] + variables
        if variables and self.ways.has("a variable's name is judged with its value"):
            self.late = set(variables)
            again = [p for p in again if p not in variables]
        if again:
            self.clash(again[0])

    def clash(self, place):
        if self.slots[place].kind == "variable" and self.ways.has("a variable's value is judged before its name"):
            self.positions_alone()
            self.variable(place)
        raise Refused(3, place)

    # ---- 5 and 6

    def layout(self):
        self.positions, self.sizes, self.highest, at = [], [], 0, 0
        for place, s in enumerate(self.slots):
            if s is not None and s.kind == "org":
                if s.location < at and not self.ways.has("org goes back"):
                    raise Refused(5, place)
                at = s.location
            self.positions.append(at)
            self.sizes.append(s.size_at(at) if s is not None else 0)
            at += self.sizes[-1]
            if at > 65536 and not self.ways.has("no end at 65,536"):
                raise Refused(6, place)
            self.highest = max(self.highest, at)

    def positions_alone(self):
        """Positions with nothing refused, for a value that is asked early."""
        self.positions, at = [], 0
        for s in self.slots:
            at = s.location if s is not None and s.kind == "org" else at
            self.positions.append(at)
            at += s.size_at(at) if s is not None else 0

    # ---- 4 and 7

    def worth(self, place, tree, find=None):
        inner = lambda t: self.positions[t[1]] + t[2]
        return Evaluation(self.ways, self.phase, place, find or (lambda name: self.find(place, name)), inner).worth(tree)

    def find(self, place, name):
        at = self.defined.get(self.key(place, name))
        if at is None:
            return None
        return self.positions[at] if self.slots[at].kind == "label" else self.values.get(at)

    def seen(self, place, name):
        """What a variable sees."""
        at = self.defined.get(self.key(place, name))
        if at is None:
            return None
        if self.slots[at].kind == "variable":
            return self.values.get(at) if at < place else None
        if name >= 0x8000:
            return self.positions[at] if at < place and not self.ways.has("a variable sees no local label") else None
        return self.positions[at] if at < place or self.ways.has("a variable sees labels below") else None

    def variable(self, place):
        self.values[place] = self.worth(place, self.slots[place].args[0], lambda name: self.seen(place, name))

    def variables(self):
        for place, s in enumerate(self.slots):
            if s is None or s.kind != "variable":
                continue
            if place not in self.late:
                self.variable(place)
            else:
                self.clash(place)

    # ---- 4, 7 and 8 to 11

    def encode(self):
        for place, s in enumerate(self.slots):
            if s is not None and s.size and (self.phase == "first" or depends_on_layout(s)):
                self.code(place, s)

    def code(self, place, s):
        if s.kind == "pad":
            return bytes(self.sizes[place])
        if s.kind == "instr":
            n = self.positions[place] + s.size
            return encode(s.form, [self.field(place, j, kind, a, n) for j, (kind, a) in enumerate(zip(s.form.operands, s.args))])
        return b"".join(self.item(place, j, s.kind, a) for j, a in enumerate(s.args))

    def field(self, place, j, kind, arg, n):
        if kind == "reg":
            return arg
        v = self.worth(place, arg)
        if kind in LIMITS:
            if not 0 <= v <= LIMITS[kind]:
                raise Refused(8, place, j, v)
            if kind == "a12" and (v ^ n) & 0xF000:
                raise Refused(11, place, j, v)
            return v & 0xFFF if kind == "a12" else v
        if not 0 <= v <= 65535:
            raise Refused(9, place, j, v)
        if kind == "rel16":
            return (v - n + 1) % 65536
        if not -128 <= v - n <= 127:
            raise Refused(10, place, j, v - n)
        return v - n

    def item(self, place, j, kind, arg):
        v = self.worth(place, arg)
        low, high, length = (-128, 255, 1) if kind == "bytes" else (-32768, 65535, 2)
        where = " in a candidate" if self.phase == "candidate" else ""
        if not low <= v <= high or v < 0 and not self.ways.has("negative " + kind + where):
            raise Refused(8, place, j, v)
        return (v & (1 << 8 * length) - 1).to_bytes(length, "little")

    def image(self):
        """To the last byte of a statement that has bytes."""
        image = bytearray()
        for place, s in enumerate(self.slots):
            if s is not None and self.sizes[place]:
                at, code = self.positions[place], self.code(place, s)
                image.extend(bytes(max(0, at + len(code) - len(image))))
                if s.kind != "pad":  # the Rust's writes nothing: where an org went back, what stood there stays
                    image[at:at + len(code)] = code
        if self.ways.has("the image runs to the highest position"):
            image.extend(bytes(self.highest - len(image)))
        return bytes(image)
