"""Rules 1 to 6 of document 01 over slots: an anchored target is ("inner", place, offset), and a slot that a fold drops is None."""
from .forms import BRANCHES, BY_NAME, PAIRS, UNCONDITIONAL
from .judging import Judge
from .reading import Refused
from .values import count_name, holds_name, names_in

PATTERNS = [("inverted", a, b) for pair in PAIRS for a, b in (pair, pair[::-1])] + [("trampoline", k, k) for k in BRANCHES]
SHRINKS = {"Jmpf": ["Br", "Jmp"], "Callf": ["Call"]}


def is_form(s, names):
    return s is not None and s.kind == "instr" and s.form.name in names


def bare(tree):
    return tree[1] if tree[0] == "name" else None


class Rewriter:
    def __init__(self, slots, ways):
        self.slots, self.ways, self.count = list(slots), ways, 0
        self.judged = Judge(self.slots, ways, "first").run()
        self.anchor()
        self.own()

    # ---- rules 1 and 2

    def is_change_jump(self, at):
        if not is_form(self.slots[at], ("Jmpf",)):
            return False
        for place in range(at - 1, -1, -1):
            s = self.slots[place]
            if s is None or s.kind in ("label", "variable", "comment"):
                continue
            positions = self.judged.positions
            return (is_form(s, ("Not1",)) and positions[place] + s.size == positions[at]
                    and [self.judged.worth(place, a) for a in s.args] == [0x10D, 0])
        return False

    def holds_label(self, place, tree, moving):
        return any(self.judged.key(place, n) in moving for n in names_in(tree))

    def moving(self):
        """C-15: the names that move with the code: labels, and variables that hold one of those above them."""
        moving = set()
        for place, s in enumerate(self.slots):
            if s.kind == "label" or s.kind == "variable" and self.holds_label(place, s.args[0], moving):
                moving.add(self.judged.key(place, s.name))
        return moving

    def anchor(self):
        origins, anchored, moving = {}, {}, self.moving()
        for place, s in enumerate(self.slots):
            for offset in range(self.judged.sizes[place]):
                origins[self.judged.positions[place] + offset] = (place, offset)
        for place, s in enumerate(self.slots):
            if s.kind == "instr" and s.form.is_transfer and not self.holds_label(place, s.args[-1], moving) and not self.is_change_jump(place):
                origin = origins.get(self.judged.worth(place, s.args[-1]))
                if origin and not (holds_name(s.args[-1]) and self.ways.has("a target with a constant stays")):
                    anchored[place] = s.with_form(s.form, ("inner",) + origin)
        for place, s in anchored.items():
            self.slots[place] = s

    def own(self):
        """The offsets of the inner labels that each slot owns."""
        self.owned = {}
        for s in self.slots:
            if s is not None and s.kind == "instr" and s.args and not isinstance(s.args[-1], int) and s.args[-1][0] == "inner":
                self.owned.setdefault(s.args[-1][1], set()).add(s.args[-1][2])

    # ---- rule 3

    def following(self, at, length):
        """The next significant places, or None: an inner label is significant, and so ends a pattern."""
        found = []
        for place in range(at + 1, len(self.slots)):
            s = self.slots[place]
            if s is None or s.kind == "comment":
                continue
            if place in self.owned:
                return None
            found.append(place)
            if len(found) == length:
                return found
        return None

    def local(self, place):
        s = self.slots[place]
        return s.name if s.kind == "label" and s.name >= 0x8000 else None

    def target(self, place):
        return self.slots[place].args[-1]

    def inverted(self, at):
        places = self.following(at, 2)
        if not places or not is_form(self.slots[places[0]], UNCONDITIONAL):
            return None
        label = self.local(places[1])
        if label is None or bare(self.target(at)) != label:
            return None
        return self.target(places[0]), [places[0]]

    def references(self, place, name):
        contexts = self.judged.contexts
        same = [s for i, s in enumerate(self.slots) if s is not None and contexts[i] == contexts[place]]
        return sum(count_name(a, name) for s in same for a in s.args)

    def trampoline(self, at):
        places = self.following(at, 4)
        if not places:
            return None
        skip, to, last, end = places
        if not is_form(self.slots[skip], UNCONDITIONAL) or not is_form(self.slots[last], UNCONDITIONAL):
            return None
        true, false = self.local(to), self.local(end)
        if None in (true, false) or bare(self.target(at)) != true or bare(self.target(skip)) != false:
            return None
        if self.references(to, true) != 1:
            return None
        return self.target(last), [skip, to, last]

    def left_out(self, shape, source, at):
        """The folds that the Rust does not have."""
        switch = "no %s of %s" % (shape, source)
        if shape == "inverted" and source in ("Bp", "Bn"):
            switch += " that is a trampoline" if self.trampoline(at) else ""
        return self.ways.has(switch)

    def fold(self):
        for shape, source, other in PATTERNS:
            for at, s in enumerate(self.slots):
                if not is_form(s, (source,)):
                    continue
                found = self.inverted(at) if shape == "inverted" else self.trampoline(at)
                if not found or self.left_out(shape, source, at):
                    continue
                changes = {place: None for place in found[1]}
                changes[at] = s.with_form(BY_NAME[other], found[0])
                if self.attempt(at, changes):
                    return True
        return False

    # ---- rules 4 and 5

    def shrink(self):
        for at, s in enumerate(self.slots):
            if is_form(s, SHRINKS) and not self.is_change_jump(at):
                for name in SHRINKS[s.form.name]:
                    if self.attempt(at, {at: s.with_form(BY_NAME[name], s.args[-1])}):
                        return True
        return False

    def attempt(self, at, changes):
        """Takes a candidate if it counts, else leaves all as it was."""
        if any(offset > 0 for offset in self.owned.get(at, ())):
            return False
        before, owned = self.slots, self.owned
        self.slots = [changes.get(i, s) for i, s in enumerate(before)]
        self.own()
        try:
            judged = Judge(self.slots, self.ways, "candidate").run()
            if all(max(offsets) < judged.sizes[i] for i, offsets in self.owned.items()):
                self.judged = judged
                self.count += 1
                return True
        except Refused:
            pass
        self.slots, self.owned = before, owned
        return False

    # ---- rule 6

    def run(self):
        while self.fold() or self.shrink():
            pass
        return self

    def written(self):
        """The statements of the output."""
        result = []
        for place, s in enumerate(self.slots):
            if s is not None and s.kind == "instr" and s.args and not isinstance(s.args[-1], int) and s.args[-1][0] == "inner":
                s = s.with_form(s.form, ("number", self.judged.worth(place, s.args[-1])))
            if s is not None:
                result.append(s)
        return result
