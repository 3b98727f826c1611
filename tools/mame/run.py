"""Holds Mortarbee against MAME's LC8670: bytes, texts, single instructions, and long and short images side by side. `run.sh` starts it."""
import argparse
import os
import sys
import tempfile
import time
import traceback
from collections import Counter

HERE = os.path.dirname(os.path.abspath(__file__))
sys.path[:0] = [HERE, os.path.join(os.path.dirname(HERE), "differential")]

import bee
import mame
import packs
import routines
import singles
import spelling
import tray
from reduce import reduced
from walks import START, Pair, Run

SHORT = ["back", "edges", "pairs", "routines", "tray", "mutants", "memory", "random"]
LONG = ["listings", "go-on", "routine-mutants"]


def summary(counts):
    """The counts of walks in words; forms and rules of what was run."""
    plain = ["%s: %d" % (key, n) for key, n in sorted((k, n) for k, n in counts.items() if isinstance(k, str))]
    forms = {key[1] for key in counts if key[0] == "form"}
    rules = Counter()
    kinds = {1: set(), 2: set()}
    for key, n in counts.items():
        if isinstance(key, tuple) and key[0].startswith("rewritten"):
            rules[key[0]] += n
            kinds.get(int(key[0].split()[3][:-1]), set()).add(key[1])
    plain += ["%s: %d" % pair for pair in sorted(rules.items())]
    plain.append("kinds of inverted folds and of trampolines run: %d, %d" % (len(kinds[1]), len(kinds[2])))
    never = [form.name for form in bee.FORMS if form.number not in forms]
    plain.append("forms run: %d%s" % (len(forms), "; not " + " ".join(never) if 0 < len(never) < 20 else ""))
    plain.append("deepest call: %d" % max([key[1] for key in counts if key[0] == "deepest"] + [0]))
    return "\n    ".join(plain)


def small(listing, flags, state, folder, tries):
    """The smallest listing that was found in which a walk from this state still differs."""
    def differs(text):
        try:
            here = Run(folder)
            here.add(Pair(text.decode(), flags), [state])
            return bool(here.go(Counter()))
        except (bee.Refused, UnicodeDecodeError):
            return False
    text = listing.encode()
    return reduced(text, differs, tries).decode() if differs(text) else listing


class Judge:
    """Runs the parts and keeps what differs."""

    def __init__(self, options):
        self.options, self.failed = options, 0
        self.until = options.seconds and time.time() + options.seconds

    def walked(self, name, differences, counts, lacks=()):
        self.put(name, summary(counts), ["from %s: %s" % (state, what) for _, _, state, what in differences] + list(lacks))
        if differences:
            listing, flags, state, _ = differences[0]
            print("  made small (%s, from %s):" % (" ".join(flags) or "no switch", state), flush=True)
            listing = small(listing, flags, state, self.folder, self.options.tries)
            print(listing + Pair(listing, flags).show(), flush=True)

    def say(self, differences, counts):
        """Now and then in a long run, so that what was done is known also where it is broken off."""
        if self.options.count > 500:
            shown = ("programs", "walks", "steps", "writes", "rewrites", "cycles, long", "cycles, short")
            done = ["%s %d" % (what, counts[what]) for what in shown]
            print("  %s, differences %d (%.0f s)" % (", ".join(done), len(differences), time.time() - self.began), flush=True)

    def put(self, name, said, differences):
        self.failed += len(differences)
        print("%s: %s: %d differences (%.0f s)" % (name, said, len(differences), time.time() - self.began), flush=True)
        for one in differences[:10]:
            print("  DIFFERENCE " + one, flush=True)

    def go(self, part):
        self.began, counts = time.time(), Counter()
        self.folder = os.path.join(self.options.folder, part)
        os.makedirs(self.folder, exist_ok=True)
        if part == "random":
            for seed in self.options.seeds:
                self.began, counts = time.time(), Counter()
                found = packs.run(seed, self.options.count, self.folder, counts, self.until, lambda found: self.say(found, counts))
                self.walked("random, seed %s" % seed, found, counts)
        elif part == "tray":
            self.walked(part, tray.run(self.folder, counts), counts)
        elif part == "routines":
            differences, lacks = routines.run(self.folder, counts)
            self.walked(part, differences, counts, lacks)
        else:
            self.put(part, *PLAIN[part](self.folder))


PLAIN = {"back": lambda folder: spelling.back(folder), "edges": spelling.edges, "pairs": singles.pairs, "listings": spelling.listings,
         "go-on": singles.go_on, "mutants": tray.mutants, "routine-mutants": tray.routine_mutants, "memory": tray.memory}


def one_listing(path, words, options):
    """One listing, called from the preamble or begun where pc= says."""
    with open(path) as file:
        pair = Pair(file.read(), tuple(options.switch))
    if not any(word.startswith("pc=") for word in words):
        words = ["pc=%x" % START] + words
    here, walks = Run(options.folder), []
    here.add(pair, ["20 " + " ".join(words)])
    found = here.go(Counter(), lambda _, __, both: walks.extend(both))
    for side, walk in zip(("long", "short"), walks):
        print(side + "\n" + "\n".join("  " + step.show() for step in walk.steps[:40]))
    print("DIFFERENCE " + found[0][2] if found else "the same")
    return 1 if found else 0


def parse():
    parser = argparse.ArgumentParser(prog="run.sh", description=__doc__)
    parser.add_argument("--long", action="store_true", help="all parts, and 1,000 random programs")
    parser.add_argument("--part", action="append", choices=SHORT + LONG, help="this part alone")
    parser.add_argument("--seeds", nargs="+", default=["1"], help="of the random programs")
    parser.add_argument("--count", type=int, help="random programs for each seed")
    parser.add_argument("--seconds", type=int, help="no random programs are begun after so many")
    parser.add_argument("--tries", type=int, default=150, help="runs that are spent on making a listing small")
    parser.add_argument("--folder", help="for scratch files")
    parser.add_argument("--switch", action="append", default=[], help="for --listing: comments, no-callf, no-folds")
    parser.add_argument("--listing", nargs="+", metavar=("FILE", "WORD"), help="one listing, and its first state: a=1 20=ff reads=12:1,0")
    options = parser.parse_args()
    options.switch = ["--" + switch for switch in options.switch]
    options.count = options.count or (1000 if options.long else 50)
    return options


def main():
    options = parse()
    if not mame.is_there():
        print("run.sh: MAME is not installed (Debian: apt-get install --no-install-recommends mame); nothing was compared", file=sys.stderr)
        return 3
    with tempfile.TemporaryDirectory() as scratch:
        options.folder = os.path.abspath(options.folder or scratch)
        if options.listing:
            return one_listing(options.listing[0], options.listing[1:], options)
        print("MAME %s, mortarbee %s" % (mame.version(), bee.PROGRAM), flush=True)
        judge = Judge(options)
        for part in options.part or SHORT + LONG * options.long:
            judge.go(part)
    print("run.sh: %d differences" % judge.failed)
    return 1 if judge.failed else 0


if __name__ == "__main__":
    try:
        sys.exit(main())
    except Exception:           # a difference is 1, what fails is 2
        traceback.print_exc()
        sys.exit(2)
