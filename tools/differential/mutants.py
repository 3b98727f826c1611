"""Shows that the families are not blind: wrong programs, each with one error that looks right, have to answer otherwise on some listing.

    python3 tools/differential/mutants.py [--count 2000]     (needs neither the oracle nor the toolchain)
"""
import argparse
import itertools
import os
import sys
from unittest import mock

sys.path.insert(0, os.path.dirname(os.path.abspath(__file__)))

import explain
import families
from explain import modelled
from model import judging, reading, rewriting, values
from model.judging import Judge
from model.rewriting import Rewriter

patch = mock.patch.object


def wrong_field(change):
    """`Judge.field` with its operands changed."""
    right = Judge.field
    return patch(Judge, "field", lambda self, place, j, kind, arg, n: right(self, place, j, kind, arg, change(self, place, kind, n)))


def only_changed(self, at, changes):
    """A candidate of which only the changed statement is checked."""
    right, owned = judging.depends_on_layout, self.slots
    with patch(judging, "depends_on_layout", lambda s: right(s) and not any(s is old for old in owned)):
        return Rewriter.right_attempt(self, at, changes)


def offset_lost(self, place, tree, find=None):
    """An inner label worth its owner's position."""
    return Judge.right_worth(self, place, ("number", self.positions[tree[1]]) if tree[0] == "inner" else tree, find)


Rewriter.right_attempt, Judge.right_worth, Judge.right_item = Rewriter.attempt, Judge.worth, Judge.item


def shrinks_first(self):
    while self.shrink() or self.fold():
        pass
    return self


def places_first(self):
    """The first place that any pattern fits."""
    for at in range(len(self.slots)):
        for shape, source, other in rewriting.PATTERNS:
            s = self.slots[at]
            found = rewriting.is_form(s, (source,)) and (self.inverted(at) if shape == "inverted" else self.trampoline(at))
            if found and self.attempt(at, {**{p: None for p in found[1]}, at: s.with_form(rewriting.BY_NAME[other], found[0])}):
                return True
    return False


def own_only_starts(self):
    self.owned = {}
    for s in self.slots:
        if s is not None and s.kind == "instr" and s.args and not isinstance(s.args[-1], int) and s.args[-1][0] == "inner":
            self.owned.setdefault(s.args[-1][1], set()).add(0)


def short_byte(self):
    if self.start is not None and self.at - self.start >= 31:
        raise reading.Refused(2, self.place)
    self.at += 1
    if self.at > len(self.data):
        raise self.broken()
    return self.data[self.at - 1]


def comments_count(self, at, length):
    places = [p for p in range(at + 1, len(self.slots)) if self.slots[p] is not None][:length]
    return places if len(places) == length and not any(p in self.owned for p in places) else None


def labels_alone(self):
    return {self.judged.key(place, s.name) for place, s in enumerate(self.slots) if s.kind == "label"}


def any_variable_moves(self, place, tree, moving):
    return bool(values.names_in(tree))


def size_remembered(self, position):
    """The size of a pad where it first came."""
    if not hasattr(self, "first"):
        self.first = right_size(self, position)
    return self.first if self.kind == "pad" else self.size


def offsets_unasked(self, at, changes):
    """A candidate whose pads hold any offset."""
    sizes = Judge.layout
    def generous(judge):
        sizes(judge)
        judge.sizes = [max(n, 512) if s is not None and s.kind == "pad" else n for n, s in zip(judge.sizes, judge.slots)]
    with patch(Judge, "layout", generous):
        taken = Rewriter.right_attempt(self, at, changes)
    self.judged = Judge(self.slots, self.ways, "candidate").run()
    return taken


def lines_in_order(self):
    """C-20: the lines of the input one by one, whatever has gone."""
    given = [s.line for s in self.slots]
    right_run(self)
    kept = [place for place, s in enumerate(self.slots) if s is not None]
    for place, line in zip(kept, given):
        self.slots[place] = self.slots[place].with_line(line)
    return self


def line_of_the_jump(self, at, changes):
    """C-20: the folded branch has the line of the jump whose target it takes."""
    gone = [place for place, s in changes.items() if s is None]
    line = self.slots[gone[-1]].line if gone else changes[at].line
    return Rewriter.right_attempt(self, at, {**changes, at: changes[at].with_line(line)})


def line_forgotten(self, form, target):
    return right_form(self, form, target).with_line(0)


def mark_has_a_place(text):
    try:
        return right_reading(text)
    except reading.Refused as r:
        raise reading.Refused(r.number, r.place + reading.is_marked(text))


def marks_skipped(text):
    """The mark passed over wherever it stands."""
    return right_reading(text.replace(b"\n" + reading.MARK, b"\n"))


right_size, right_form = reading.Statement.size_at, reading.Statement.with_form
right_run, right_reading = Rewriter.run, reading.read_listing

MUTANTS = {
    "rel8 from the instruction's start": lambda: wrong_field(lambda j, p, kind, n: n - j.slots[p].size if kind == "rel8" else n),
    "the page of the instruction's start": lambda: wrong_field(lambda j, p, kind, n: n - j.slots[p].size if kind == "a12" else n),
    "Brf counted from the next instruction": lambda: wrong_field(lambda j, p, kind, n: n + 1 if kind == "rel16" else n),
    "Jmp tried before Br": lambda: patch(rewriting, "SHRINKS", {"Jmpf": ["Jmp", "Br"], "Callf": ["Call"]}),
    "only the changed instruction checked": lambda: patch(Rewriter, "attempt", only_changed),
    "change jumps anchored and shrunk": lambda: patch(Rewriter, "is_change_jump", lambda self, at: False),
    "shrinks before folds": lambda: patch(Rewriter, "run", shrinks_first),
    "inner label without its offset": lambda: patch(Judge, "worth", offset_lost),
    "an inner label within does not stop a shrink": lambda: patch(Rewriter, "own", own_only_starts),
    "places before patterns": lambda: patch(Rewriter, "fold", places_first),
    "division rounded down": lambda: mock.patch.dict(values.TWO, {"divide": lambda a, b: a // b}),
    "upper byte not taken modulo 256": lambda: mock.patch.dict(values.ONE, {"upper": lambda a: a >> 8}),
    "words with the high byte first": lambda: patch(Judge, "item", lambda self, p, j, k, a: Judge.right_item(self, p, j, k, a)[::-1]),
    "locals of every context": lambda: patch(Judge, "key", lambda self, place, name: (-2, name)),
    "limit of 31 bytes for an expression": lambda: patch(reading.Frame, "byte", short_byte),
    "labels looked for in the target alone": lambda: patch(Rewriter, "moving", labels_alone),
    "no variable is a constant": lambda: patch(Rewriter, "holds_label", any_variable_moves),
    "comments significant": lambda: patch(Rewriter, "following", comments_count),
    "a pad is as long as on the input": lambda: patch(reading.Statement, "size_at", size_remembered),
    "a pad may become too short for a number": lambda: patch(Rewriter, "attempt", offsets_unasked),
    "source lines by the place in the output": lambda: patch(Rewriter, "run", lines_in_order),
    "the jump's source line after a fold": lambda: patch(Rewriter, "attempt", line_of_the_jump),
    "source line 0 for a replaced instruction": lambda: patch(reading.Statement, "with_form", line_forgotten),
    "7D02 counted as a place": lambda: patch(explain, "read_listing", mark_has_a_place),
    "7D02 passed over anywhere": lambda: patch(explain, "read_listing", marks_skipped),
    "7D02 kept out of the output": lambda: patch(explain, "is_marked", lambda text: False),
    "the old limits with source lines": lambda: patch(reading, "LIMITS_WITH_LINES", reading.LIMITS),
    "source lines in no limit of all frames": lambda: patch(reading, "LIMITS_WITH_LINES", (248, 57344 + 8 * 1024)),
}


def found_after(mutant, texts):
    """How many listings it takes until the wrong program answers otherwise, and the family."""
    for number, (family, text, right) in enumerate(texts, 1):
        with mutant():
            if modelled(text, [], "checked", False) != right:
                return number, family
    return None


def main():
    p = argparse.ArgumentParser(description=__doc__, formatter_class=argparse.RawDescriptionHelpFormatter)
    p.add_argument("--seed", default="1")
    p.add_argument("--count", type=int, default=2000)
    options = p.parse_args()
    texts = [(family, text, modelled(text, [], "checked", False))
             for family, _, text in itertools.islice(families.sequence(options.seed), options.count)]
    missed = 0
    for title, mutant in MUTANTS.items():
        found = found_after(mutant, texts)
        missed += found is None
        print("%-48s %s" % (title, "found by listing %d, family %s" % found if found else "NOT FOUND in %d listings" % len(texts)))
    return 1 if missed else 0


if __name__ == "__main__":
    sys.exit(main())
