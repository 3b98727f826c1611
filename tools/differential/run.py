"""Holds our program against the Rust on generated listings. Every difference that no rule of rules.py explains is shown and made small.

    python3 tools/differential/run.py --sources FOLDER --seed 1 --count 20000     (or --seconds 600)
"""
import argparse
import itertools
import os
import sys
import time
from collections import Counter

sys.path.insert(0, os.path.dirname(os.path.abspath(__file__)))

import families
import listed
from explain import explain, modelled
from model.reading import Refused, is_marked, read_listing
from model.ways import TooLong
from programs import Model, OneByOne, ask_rust, build_oracle, comparable, ours, rusts
from reduce import reduced
from rules import RULES


class Comparison:
    def __init__(self, options):
        self.assemble, self.limit = options.assemble, options.limit
        self.ours = our_side(options)
        self.rusts = rusts(build_oracle(options.sources), self.assemble)
        self.families, self.kinds, self.rules, self.odd = Counter(), Counter(), Counter(), []
        self.equal, self.form_only, self.rust_runs, self.lines = 0, 0, 0, Counter()

    def answers(self, texts):
        """For each text ours, and each of the Rust's or None where the Rust cannot be asked."""
        mine = self.ours.ask(texts, self.limit)
        asked = [i for i, text in enumerate(texts) if comparable(text) and not beyond_limits(text)]
        theirs = [[None] * len(texts) for _ in self.rusts]
        for column, (program, _, _) in zip(theirs, self.rusts):
            for i, answer in zip(asked, ask_rust(program, [texts[i] for i in asked], self.limit)):
                column[i] = answer
        return [(mine[i], [column[i] for column in theirs]) for i in range(len(texts))]

    def judge(self, text, mine, theirs):
        """The rules that come to bear, and what no rule explains: None, or who differs."""
        found, documented = set(), None
        try:
            documented = modelled(text, [], "checked", self.assemble)
        except TooLong:
            pass
        if documented is not None and mine != documented:
            return found, "the model of document 01"
        if theirs[0] is None:
            return found, None if documented is not None else "a listing that the model gave up"
        for (program, own, build), answer in zip(self.rusts, theirs):
            if answer == mine:
                continue
            rules = explain(text, mine, answer, own, build, self.assemble)
            if rules is None and own and documented is None and self.like_document(mine, theirs):
                rules = ["1 to 12"]
            if rules is None:
                return found, program.name
            found.update(rules)
        return found, None

    def like_document(self, mine, theirs):
        """Where the model gave up: the Rust with document 01's patterns answers as we do."""
        alike = [answer == mine for (_, own, _), answer in zip(self.rusts, theirs) if not own]
        return bool(alike) and all(alike)

    def take(self, family, index, text, mine, theirs):
        self.families[family] += 1
        self.kinds[mine.kind if mine.kind != "refused" else "refused %d" % mine.number] += 1
        self.rust_runs += sum(answer is not None for answer in theirs)
        if is_marked(text):
            self.take_lines(text, mine, theirs)
        found, odd = self.judge(text, mine, theirs)
        self.rules.update(found)
        if theirs[0] is None:
            self.form_only += 1
        elif not found and not odd:
            self.equal += 1
        if odd:
            self.odd.append((family, index, text, odd))

    def take_lines(self, text, mine, theirs):
        self.lines["all"] += 1
        self.lines["asked"] += theirs[0] is not None
        self.lines["done"] += mine.kind == "done"
        self.lines["rewritten"] += mine.rewrites > 0
        self.lines["fewer"] += mine.kind == "done" and mine.lines.count(b"\n") < text.count(b"\n")

    def differs(self, text):
        mine, theirs = self.answers([text])[0]
        return self.judge(text, mine, theirs)[1] is not None


def our_side(options):
    if options.model:
        return Model(options.assemble)
    return ours(options.assemble) if options.program is None else OneByOne(options.program)


def beyond_limits(text):
    try:
        read_listing(text)
    except Refused as r:
        return r.number == 2
    return False


def show_answers(comparison, title, listing):
    """The listing, and each answer once with all who gave it."""
    mine, theirs = comparison.answers([listing])[0]
    given = {mine.show(): ["ours"]}
    for (program, _, _), answer in zip(comparison.rusts, theirs):
        given.setdefault(answer.show() if answer else "not asked\n", []).append(program.name)
    try:
        given.setdefault(modelled(listing, [], "checked", comparison.assemble).show(), []).append("the model of document 01")
    except TooLong:
        given.setdefault("gave up\n", []).append("the model of document 01")
    print("-- %s\n%s" % (title, listing.decode(errors="backslashreplace")), end="")
    for answer, who in given.items():
        print("-- %s\n%s" % ("; ".join(who), answer), end="")


def show(comparison, seed, case):
    family, index, text, who = case
    print("\nNOT EXPLAINED: --seed %s --family %s --start %s --count 1, against %s" % (seed, family, index, who))
    show_answers(comparison, "the listing", text)
    sys.stdout.flush()
    show_answers(comparison, "made small", reduced(text, comparison.differs))
    sys.stdout.flush()


def summary(c, seconds, options):
    total = sum(c.families.values())
    print("\n%d listings in %d s, %s, seed %s%s" % (total, seconds, "assembled alone" if c.assemble else "rewritten", options.seed,
                                                    ", the model in our place" if options.model else ""))
    listed_ones = total - c.equal - c.form_only - len(c.odd)
    print("the Rust was run %d times; %d listings alike in every build, %d about the text alone (the Rust is not asked), "
          "%d with listed differences, %d not explained" % (c.rust_runs, c.equal, c.form_only, listed_ones, len(c.odd)))
    print("in the form of C-20: %d listings, %d of them put to the Rust; %d accepted, %d rewritten, %d with fewer statements than before"
          % tuple(c.lines[key] for key in ("all", "asked", "done", "rewritten", "fewer")))
    print("our answers: " + ", ".join("%s %d" % (kind, n) for kind, n in sorted(c.kinds.items(), key=lambda x: (len(x[0]), x[0]))))
    print("families: " + ", ".join("%s %d" % item for item in sorted(c.families.items())))
    print("\n| Rule | Listings | |\n|---|---|---|")
    for number in sorted(RULES):
        if number in c.rules:
            print("| DIFF-%s | %d | %s |" % (number, c.rules[number], RULES[number].__doc__))
    if c.rules["1 to 12"]:
        print("| DIFF-1 to 12 | %d | not told apart: too large for the model |" % c.rules["1 to 12"])


def options_given():
    p = argparse.ArgumentParser(description=__doc__, formatter_class=argparse.RawDescriptionHelpFormatter)
    p.add_argument("--sources", help="the folder of the Rust's sources (optimize.rs, asm.rs ..); needed until the oracle is built")
    p.add_argument("--seed", default="1")
    p.add_argument("--count", type=int, help="how many listings")
    p.add_argument("--seconds", type=float, help="for how long")
    p.add_argument("--family", action="append", choices=sorted(families.BY_NAME), help="only this family (may be said again)")
    p.add_argument("--start", type=int, default=0, help="the first number within each family")
    p.add_argument("--assemble", action="store_true", help="compare `assemble` alone: image and refusals")
    p.add_argument("--model", action="store_true", help="put the model of document 01 in the place of our program")
    p.add_argument("--program", metavar="WORD", nargs="?", const="",
                   help="start the command at the top, with a WORD if one is given and else with optimize --comments, for each listing (slow, and it prints no image)")
    p.add_argument("--limit", type=float, default=60, help="seconds for a batch of listings")
    p.add_argument("--batch", type=int, default=200, help="listings in a batch")
    p.add_argument("--show", type=int, default=5, help="how many unexplained differences are made small")
    p.add_argument("--print", action="store_true", help="print the listings, parted by ==, and run nothing")
    return p.parse_args()


def cases_of(options):
    made = families.sequence(options.seed, options.family, options.start)
    return itertools.islice(made, options.count) if options.count is not None else made


def main():
    options = options_given()
    if options.print:
        for _, _, text in itertools.islice(cases_of(options), options.count or 10):
            sys.stdout.buffer.write(text + b"==\n")
        return 0
    if options.count is None and options.seconds is None:
        options.count = 1000
    comparison = Comparison(options)
    failed = listed.check(comparison)
    began, cases = time.time(), cases_of(options)
    while options.seconds is None or time.time() - began < options.seconds:
        batch = list(itertools.islice(cases, options.batch))
        if not batch:
            break
        for (family, index, text), (mine, theirs) in zip(batch, comparison.answers([text for _, _, text in batch])):
            comparison.take(family, index, text, mine, theirs)
    for case in comparison.odd[:options.show]:
        show(comparison, options.seed, case)
    summary(comparison, time.time() - began, options)
    return 1 if comparison.odd or failed else 0


if __name__ == "__main__":
    sys.exit(main())
