"""Random programs, many in one listing, each behind an org of its own: few runs of the program, and one of MAME, serve them all."""
import random
import time

import bee
from programs import TABLE, Names, Random, Unreachable
from walks import Pair, Run

SWITCHES = ("--comments", "--no-callf", "--no-folds")
SETS = [0, 1, 2, 4, 3, 5, 6, 7]  # of the switches, as bits: each alone comes first
MOST = 1000, 20000, 0xF000      # statements, frame bytes and addresses of a listing
TIME = 12                       # milliseconds of a walk: some 600 cycles
CHUNK = 8                       # listings in one run of MAME


class Pack:
    """A listing of random programs. The seed and its number make it, the number its switches and whether it has source lines."""

    def __init__(self, seed, number):
        self.seed, self.number, self.drawn = seed, number, 0
        self.has_lines = (number >> 3 ^ number) & 1
        self.flags = tuple(switch for i, switch in enumerate(SWITCHES) if SETS[number % 8] >> i & 1)
        self.rng = random.Random("%s/%d" % (seed, number))
        table = [self.rng.randrange(256) for _ in TABLE]
        self.head = [bee.data(*table[i:i + 16]) for i in range(0, len(table), 16)]
        self.programs = []      # (start, frames)
        self.fill()

    def fill(self):
        names, edge, end = Names(), self.rng.choice([.2, .6]), len(TABLE)
        statements, size = len(self.head), sum(map(len, self.head))
        while True:
            start = self.start(end)
            try:
                program = Random(self.rng, names, start, edge)
                frames = program.frames()
            except Unreachable:
                self.drawn += 1
                continue
            statements, size, end = statements + len(frames), size + sum(map(len, frames)), program.end
            if statements > MOST[0] or size > MOST[1] or end > MOST[2]:
                return
            self.programs.append((start, frames))

    def start(self, end):
        """A little behind the last program, or at the edge of a page."""
        if self.rng.random() < .2:
            end = max(end, (end // 4096 + 1) * 4096 - self.rng.randrange(100))
        return end + self.rng.randrange(40)

    def listing(self, only=None):
        frames = self.head + [f for i, (_, fs) in enumerate(self.programs) if only in (None, i) for f in fs]
        rng = random.Random("%s/%d/lines" % (self.seed, self.number))
        lines = [rng.choice([0, 1, 7, i, 0xFFFFFFFF]) for i in range(len(frames))] if self.has_lines else None
        return bee.listing_of(frames, lines)

    def states(self):
        """Three for each program: all zero, and two random ones."""
        return [state for start, _ in self.programs for state in self.states_from(start)]

    def states_from(self, start):
        rng = random.Random("%s/%d/%d" % (self.seed, self.number, start))
        states = ["%d pc=%x" % (TIME, start)]
        for _ in range(2):
            cells = ["%x=%x" % (0x20 + i, rng.choice([0, 1, 2, 255, rng.randrange(256)])) for i in range(16)]
            states.append("%d pc=%x a=%x psw=%x %s" % (TIME, start, rng.randrange(256), rng.choice([0, 0x80, 0x40, 0xC0]), " ".join(cells)))
        return states

    def program_of(self, state):
        starts = [start for start, _ in self.programs]
        return starts.index(int(state.split()[1][3:], 16))


def paired(packs):
    """Each pack with its pair: the listings of one set of switches are answered together."""
    texts, answers = [pack.listing() for pack in packs], {}
    for flags in {pack.flags for pack in packs}:
        mine = [i for i, pack in enumerate(packs) if pack.flags == flags]
        answers.update(zip(mine, bee.batch([texts[i] for i in mine], flags)))
    return [(pack, Pair(texts[i], pack.flags, answers[i])) for i, pack in enumerate(packs)]


def run(seed, count, folder, counts, until=None, say=lambda _: None):
    """So many programs or a few more, or fewer where the time is up. What differs: [(listing of the program alone, switches, state,
    what)]."""
    differences, number = [], 0
    while counts["programs"] < count and (until is None or time.time() < until):
        packs, wanted = [], count - counts["programs"]
        while len(packs) < CHUNK and sum(len(pack.programs) for pack in packs) < wanted:
            packs.append(Pack(seed, number))
            number += 1
        differences += run_chunk(packs, folder, counts)
        say(differences)
    return differences


def run_chunk(packs, folder, counts):
    here, owners = Run(folder), {}
    for pack, pair in paired(packs):
        owners[id(pair)] = pack
        here.add(pair, pack.states())
        counts.update({"programs": len(pack.programs), "listings": 1, "statements": len(pair.sides[0].listing.split()),
                       "rewrites": pair.rewrites, "drawn again": pack.drawn, "listings with source lines": pack.has_lines})
        counts.update({"listings under " + flag: 1 for flag in pack.flags})
        for rule in pair.rules.values():
            counts["rewritten by rule %d" % rule] += 1
    found = here.go(counts)
    return [(owners[id(pair)].listing(owners[id(pair)].program_of(state)), pair.flags, state, what) for pair, state, what in found]
