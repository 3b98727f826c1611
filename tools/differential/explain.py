"""Says which listed differences stand between our answer and the Rust's: the smallest set of rules that turns the one into the other."""
from answers import Answer, done, refused
from model.judging import Judge
from model.reading import Panic, Refused, is_marked, read_listing, text_of
from model.rewriting import Rewriter
from model.ways import TooLong, Ways
from rules import ANCHORS, CANDIDATES, PATTERNS, RULES, SWITCHES

FIRST = [n for n in RULES if n not in PATTERNS and n not in CANDIDATES and n not in ANCHORS]


def modelled(text, rules, build, assemble, asked=None):
    """The model's answer with some rules turned to the Rust's way; `asked` takes the rules that came to bear."""
    ways = Ways(build)
    for number in rules:
        RULES[number](ways)
    try:
        slots = read_listing(text)
        if assemble:
            return done(text, 0, Judge(slots, ways, "first").run().image())
        end = Rewriter(slots, ways).run()
        return done(text_of(end.written(), is_marked(text)), end.count, end.judged.image())
    except Refused as r:
        return refused(r.number, r.place, (r.argument, r.amount))
    except Panic:
        return Answer("panic")
    finally:
        if asked is not None:
            asked.update(SWITCHES[switch] for switch in ways.asked)


def smallest(text, rules, build, assemble, wanted):
    """Rules are left out one by one, as long as the answer stays."""
    asked = set()
    if modelled(text, rules, build, assemble, asked) != wanted:
        return None
    kept = sorted(asked)
    if modelled(text, kept, build, assemble) != wanted:
        kept = sorted(rules)
    for number in sorted(kept, reverse=True):
        fewer = [n for n in kept if n != number]
        if modelled(text, fewer, build, assemble) == wanted:
            kept = fewer
    return kept


def of_refused(text, theirs, rules, build, assemble):
    """We refuse. The Rust refuses elsewhere, or takes the listing as it stands and goes on."""
    first_rules = [n for n in rules if n in FIRST]
    first = modelled(text, first_rules, build, True)
    if first.kind != "done" or assemble:
        return smallest(text, first_rules, build, True, theirs)
    if modelled(text, rules, build, False) != theirs:
        return None
    return smallest(text, first_rules, build, True, first) + ([15] if theirs.kind == "panic" else [])


def explain(text, ours, theirs, patterns, build, assemble):
    """The numbers of the rules, or None if the difference is not a listed one. `patterns`: the Rust has its own pattern list."""
    rules = [n for n in RULES if patterns or n not in PATTERNS]
    try:
        if modelled(text, [], build, assemble) != ours:
            return None
        if ours.kind == "refused":
            return of_refused(text, theirs, rules, build, assemble)
        return smallest(text, rules, build, assemble, theirs)
    except TooLong:
        return None
