"""A listing and what it shrinks to, run side by side on MAME's CPU: the same statements in the same order, the same state before each, the
same writes; and cycles. A walk is compared until it leaves the listing, or the memory, or its time is up."""
import os
from collections import Counter

import bee
import mame

CALLS, RETURNS = {0x3B, 0x3C, 0x3D}, {0x3E, 0x3F}
START = 0xFE00                  # where a listing that ends before it is called from, with the stack set
PREAMBLE = bytes.fromhex("23067F 200000 01FE")      # mov #127,262 (SP); callf 0; br to itself
AROUND, BACK = object(), (None, "came back", "br")


class Side:
    """A listing with its image, and what stands at each address: place, offset and word. The zeros of a pad have no word, nor those of the
    gap before an org, which no statement owns: there the offset is 0 at the first, else the address."""

    def __init__(self, listing, image, stems=None):
        self.listing, self.at = listing, [None] * 65536
        self.image = image if len(image) > START else image + bytes(START - len(image)) + PREAMBLE
        if len(image) <= START:
            self.at[START:START + len(PREAMBLE)] = [AROUND] * 6 + [BACK] * 2
        frames, rows = bee.frames_of(listing), bee.addresses(listing)
        ends = [row[0] for row in rows[1:]] + [len(image)]
        for i, (frame, (address, _, text)) in enumerate(zip(frames, rows)):
            place = i if stems is None else stems[i]
            if frame[0] == 1:
                for k in range(bee.FORMS[frame[1]].size):
                    self.at[address + k] = (place, k, text.split()[0])
            elif frame[0] in (5, 8):
                for a in range(address, ends[i]):
                    self.at[a] = (place, a if frame[0] == 5 and a > address else a - address, None)


class Pair:
    """A listing, long, and what `optimize` makes of it under the switches, short."""

    def __init__(self, listing, flags=(), answer=None):
        answer = answer or bee.batch([listing], flags)[0]
        if isinstance(answer, bee.Refused):
            raise answer
        text, self.rewrites, image = answer
        self.flags, self.forms = flags, {i: f[1] for i, f in enumerate(bee.frames_of(listing)) if f[0] == 1}
        self.stems, self.rules = bee.stems(listing, flags), bee.rules(listing, flags)
        self.kept = set(self.stems)
        self.sides = [Side(listing, bee.image(listing)), Side(text, image, self.stems)]

    def show(self):
        texts = [bee.ask("text", side.listing, "--addresses").decode() for side in self.sides]
        return "long:\n%sshort (%s):\n%s" % (texts[0], " ".join(self.flags) or "no switch", texts[1])


class Walk:
    """One side of a walk: its rows up to where it ends, and what was skipped before each."""

    def __init__(self, side, kept, lines, writes):
        self.rows, self.steps, self.skipped, self.next = [], [], [], Counter()
        last = None
        for line in lines:
            step = mame.Step(line)
            spot = side.at[step.pc]
            if spot is AROUND:
                continue
            if spot and spot[2] is None:
                self.pass_zero(spot, step, step.pc - 1 == last)
                last = step.pc
            elif spot and spot[0] is not None and spot[0] not in kept:
                self.next["dropped"] += 1
            else:
                self.put(spot, step)
                if self.rows[-1][0] is None:
                    break
        self.writes = self.within(side, writes)

    def pass_zero(self, spot, step, is_next):
        """A zero is a nop. How many are run through may differ, but not where they are entered, if that is behind the first."""
        if spot[1] and not is_next:
            self.put((spot[0], "zero %d" % spot[1]), step)
        self.next["zeros"] += 1

    def put(self, spot, step):
        """Where another memory was changed to, what is there is no listing's."""
        place, k = spot[:2] if spot else (None, "left the listing")
        if k == 0 and step.said[0].lower() != spot[2]:
            place, k = None, "left the memory"
        self.rows.append((place, k, step.state))
        self.steps.append(step)
        self.skipped.append(self.next)
        self.next = Counter()

    def within(self, side, lines):
        """What the listing's own instructions wrote and were given, up to the first that is not its own."""
        found = []
        for what, pc, address, value in map(str.split, lines):
            spot = side.at[int(pc, 16)]
            if spot is None:
                break
            if spot is not AROUND:
                found.append((what, spot[:2], address, value))
        return found

    def cycles(self, n):
        return self.steps[n - 1].cycles - self.steps[0].cycles

    def passed(self, n, what):
        """How many were skipped behind the first of n rows and before the last."""
        return sum(skipped[what] for skipped in self.skipped[1:n])


def compared(long, short, counts):
    """None, or what differs first. `counts` gets what was compared."""
    n = min(len(long.rows), len(short.rows))
    for i in range(n):
        if long.rows[i] != short.rows[i]:
            return "step %d:\n  long  %s\n  short %s" % (i, long.steps[i].show(), short.steps[i].show())
    for i, (left, right) in enumerate(zip(long.writes, short.writes)):
        if left != right:
            return "write %d: long %s, short %s" % (i, left, right)
    if n == 0:
        return "nothing was run"
    saved = long.cycles(n) - short.cycles(n)
    dropped, zeros = long.passed(n, "dropped"), [walk.passed(n, "zeros") for walk in (long, short)]
    if saved != 2 * dropped + zeros[0] - zeros[1]:
        return "cycles: %d saved, with %d jumps dropped and %d and %d zeros passed" % (saved, dropped, *zeros)
    writes = min(len(long.writes), len(short.writes))
    counts.update({"walks": 1, "steps": n, "writes": writes, "dropped jumps run in the long one": dropped})
    for side, walk, passed in (("long", long, zeros[0]), ("short", short, zeros[1])):
        counts.update({"zeros run, " + side: passed, "cycles, " + side: walk.cycles(n)})
    return None


def cover(pair, walk, n, counts):
    """What was run, by form, rule, place in a statement and depth of calls."""
    depth = deepest = 0
    for place, k, _ in walk.rows[:n]:
        if place is None:
            counts[k] += 1
        elif k:
            counts["entered inside a statement" if isinstance(k, int) else "entered inside zeros"] += 1
        else:
            form = pair.forms[place]
            counts["form", form] += 1
            depth += (form in CALLS) - (form in RETURNS)
            deepest = max(deepest, depth)
            if place in pair.rules:
                counts["rewritten by rule %d, run" % pair.rules[place], form] += 1
    counts["deepest", deepest] += 1


class Run:
    """Pairs and the states that each is run from, in one MAME process."""

    def __init__(self, folder):
        self.folder, self.entries = folder, []          # (pair, [milliseconds and words])
        os.makedirs(folder, exist_ok=True)

    def add(self, pair, states, images=None):
        self.entries.append((pair, states, images or [side.image for side in pair.sides]))

    def path(self, i, k):
        return "%s/%d-%s" % (self.folder, i, ("long", "short")[k])

    def go(self, counts, found=None):
        """[(pair, state, what differs)]; `found` is called with each pair, state and its two walks."""
        self.start()
        return [one for i in range(len(self.entries)) for one in self.judge(i, counts, found)]

    def start(self):
        """One run of MAME for all."""
        lines = []
        for i, (_, states, images) in enumerate(self.entries):
            for k in (0, 1):
                path = self.path(i, k)
                with open(path + ".bin", "wb") as out:
                    out.write(images[k])
                with open(path + ".st", "w") as out:
                    out.write("".join(state + "\n" for state in states))
                lines.append("walks %s.bin %s.tr %s.st" % (path, path, path))
        mame.jobs(lines, self.folder)

    def judge(self, i, counts, found):
        pair, states, _ = self.entries[i]
        paths = [self.path(i, k) for k in (0, 1)]
        sides = [zip(mame.parted(path + ".tr"), mame.parted(path + ".tr.w")) for path in paths]
        differences, seen = [], 0
        for state, left, right in zip(states, *sides):
            seen += 1
            walks = [Walk(side, pair.kept, *lines) for side, lines in zip(pair.sides, (left, right))]
            what = compared(*walks, counts)
            if what:
                differences.append((pair, state, what))
            else:
                cover(pair, walks[0], min(len(walk.rows) for walk in walks), counts)
            if found:
                found(pair, state, walks)
        if seen != len(states):
            raise RuntimeError("mame: %d walks of %d" % (seen, len(states)))
        for path in paths:
            for end in (".bin", ".st", ".tr", ".tr.w"):
                os.remove(path + end)
        return differences
