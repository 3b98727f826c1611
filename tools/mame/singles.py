"""Single instructions on MAME's CPU: where each of the seventy forms goes on, and what both forms of a pair leave."""
import itertools
import random
from collections import Counter

import bee
import mame
from bee import BY, FORMS
from conditions import cell, state_for, words

BEFORE = [0x80, 4, 3, 2, 1, 0]  # how far before the end of a page an instruction begins
LAST = [0xFFF0, 0xFFFC, 0xFFFD]  # before the end of the memory
CELLS = [0x20, 0x2F, 0x102, 0x103]
ALWAYS = ("Br", "Jmp", "Jmpf", "Brf", "Call", "Callf", "Callr")
TIME = .3                       # milliseconds: some fifteen cycles; Mul and Div take seven


def targets_at(form, behind):
    """Addresses that a transfer may name, both ends of its reach among them."""
    page = behind & 0xF000
    found = {"rel8": [behind + d for d in (-128, -127, -2, -1, 0, 1, 126, 127)],
             "a12": [page | low for low in (0, 0xFFF, 0x7FF, 0x800, 0x345)],
             "a16": [0, 0xFFFF, 0x1234, 0xFF, 0x8000],
             "rel16": [0, 1, 0xFFFF, 0x8000, 0x7FFF] + [behind + d for d in (0, -1, -2, 1, -256)]}
    return [t for t in found[form.operands[-1]] if 0 <= t < 65536]


def pages():
    """The ends of the pages but the last, one after the other, again and again, so that a listing holds many."""
    return itertools.cycle(range(0x1000, 0x10000, 0x1000))


def single_steps(rng):
    """(form, place, arguments, where it goes on, words)"""
    ends = pages()
    for form in FORMS:
        for before in BEFORE:
            for i in range(8):
                yield from outcomes(form, next(ends) - before, i, rng)
        for place in LAST:
            for i in (0, 7) if form.is_transfer and place + form.size < 65536 else ():
                yield from outcomes(form, place, i, rng)


def outcomes(form, place, i, rng):
    """With the i-th of its targets and other arguments."""
    behind, target = place + form.size, None
    args = [{"reg": i & 1, "bit": i & 7, "d9": CELLS[i % 4]}.get(kind, rng.randrange(256)) for kind in form.operands]
    if form.is_transfer:
        target = targets_at(form, behind)[i % len(targets_at(form, behind))]
        args[-1] = target
    if form.name in ("Ret", "Reti"):
        yield form, place, args, 0x3412, {"sp": 0x81, "80": 0x12, "81": 0x34}
    elif target is None:
        yield form, place, args, behind, {}
    elif form.name in ALWAYS:
        yield form, place, args, target, {}
    else:
        for taken in (True, False):
            yield form, place, args, target if taken else behind, state_for(form, args, taken, rng)


def packed(tests):
    """Listings with many tests each. An org only rises, so they are taken by their places, each into the first listing that ends before."""
    packs = []
    for test in sorted(tests, key=lambda test: test[1]):
        form, place = test[:2]
        fitting = next((pack for pack in packs if pack[0] <= place), None)
        if not fitting:
            fitting = [0, []]
            packs.append(fitting)
        fitting[0] = place + form.size
        fitting[1].append(test)
    return [tests for _, tests in packs]


def run_all(images, folder):
    """The steps of each state: images are (bytes, [words])."""
    lines = []
    for i, (image, states) in enumerate(images):
        path = "%s/s%d" % (folder, i)
        with open(path + ".bin", "wb") as out:
            out.write(image)
        with open(path + ".st", "w") as out:
            out.write("".join("%g %s\n" % (TIME, state) for state in states))
        lines.append("walks %s.bin %s.tr %s.st" % (path, path, path))
    mame.jobs(lines, folder)
    return [[[mame.Step(line) for line in walk[:2]] for walk in mame.parted("%s/s%d.tr" % (folder, i))] for i in range(len(images))]


def go_on(folder):
    """Each transfer, taken and not, comes to the address that the listing names; every other form to the next one."""
    packs = packed(single_steps(random.Random(4)))
    images = []
    for tests in packs:
        frames = [f for form, place, args, _, _ in tests for f in (bee.org(place), bee.instruction(form, args))]
        images.append((bee.image(bee.listing_of(frames)), ["pc=%x %s" % (test[1], words(test[4])) for test in tests]))
    differences, forms = [], Counter()
    for tests, runs in zip(packs, run_all(images, folder)):
        for (form, place, args, wanted, state), steps in zip(tests, runs):
            if [step.pc for step in steps] == [place, wanted]:
                forms[form.name] += 1
            else:
                said = [step.show() for step in steps]
                differences.append("%s at %04X %s, %s: wanted %04X, MAME %s" % (form.name, place, args, words(state), wanted, said))
    return "%d single steps of %d forms in %d listings go on where they must" % (sum(forms.values()), len(forms), len(packs)), differences


# ---- both forms of a pair

VALUES = [0, 1, 2, 0x7F, 0x80, 0x81, 0xFE, 0xFF]
FLAGS = [0, 0x80, 0x40, 0xC0]
FOLDED = [("Bz", "Bnz"), ("Bp", "Bn"), ("Be_i8", "Bne_i8"), ("Be_d9", "Bne_d9"), ("Be_Rj", "Bne_Rj")]
SHRUNK = [("Jmpf", "Br"), ("Jmpf", "Jmp"), ("Callf", "Call")]


def operand_states(form, rng):
    """(arguments, words): edges against edges, and random bytes."""
    pairs = [(x, y) for x in VALUES for y in VALUES] + [(x, y) for x in range(1, 256, 4) for y in (x, rng.randrange(256))]
    for x, y in pairs if form.name not in ("Bz", "Bp") else [(x, x & 7) for x in range(256)]:
        given = {"d9": 0x21, "bit": y & 7, "reg": rng.randrange(2), "i8": y}
        state = {"a": x, "21": y if form.name == "Be_d9" else x}
        if "reg" in form.operands:
            state.update({cell(given["reg"]): 0x22, "22": x, "a": rng.randrange(256)})
        yield [given[kind] for kind in form.operands[:-1]], state


def pair_tests(rng):
    """(both forms, their arguments but the target, the state, PSW)"""
    for left, right in FOLDED:
        for args, state in operand_states(BY[left], rng):
            for flags in FLAGS:
                yield left, right, args, state, flags
    for left, right in SHRUNK:
        for x in range(64):
            state = {"a": rng.randrange(256), "21": x, "sp": rng.randrange(0x1F, 0x2E)}     # what is pushed is seen: 20 to 2F
            yield left, right, [], state, rng.choice(FLAGS)


def pairs(folder):
    """Exactly one of a folded pair is taken, both of a shrunk one go to one place; both leave the same state after the same cycles."""
    rng, tests, at = random.Random(1), [], 0x100
    sides = [[], []]
    for left, right, args, state, flags in pair_tests(rng):
        if (at + 3) % 4096 >= 4096 - 16:
            at = (at // 4096 + 1) * 4096
        behind = at + 3
        for side, form in zip(sides, (BY[left], BY[right])):
            place = behind - form.size
            side += [bee.org(place), bee.instruction(form, args + [behind + 16])]
        tests.append((left, right, behind, "%s psw=%x" % (words(state), flags)))
        at += 4
    return pairs_judged(tests, sides, folder)


def pairs_judged(tests, sides, folder):
    counts, differences = Counter(), []
    size = 480
    parts = [tests[i:i + size] for i in range(0, len(tests), size)]
    images = [image_of(side[2 * size * i:2 * size * (i + 1)], part, k) for i, part in enumerate(parts) for k, side in enumerate(sides)]
    runs = run_all(images, folder)
    for i, part in enumerate(parts):
        for (left, right, behind, state), first, second in zip(part, runs[2 * i], runs[2 * i + 1]):
            went = [steps[1].pc for steps in (first, second)]
            wanted = {behind, behind + 16} if (left, right) in FOLDED else {behind + 16}
            cycles = [steps[1].cycles - steps[0].cycles for steps in (first, second)]
            counts[left, right, went[0] != behind, cycles[0]] += 1
            if set(went) != wanted or first[1].state != second[1].state or cycles[0] != cycles[1]:
                differences.append("%s and %s, %s: %s" % (left, right, state, [step.show() for step in (first[1], second[1])]))
    rows = ["%s, %s: %d runs, %s, %d cycles each" % (left, right, n, "taken by the first" if taken else "by the second", cycles)
            for (left, right, taken, cycles), n in sorted(counts.items())]
    return "%d pairs of runs leave the same\n    %s" % (sum(counts.values()), "\n    ".join(rows)), differences


def image_of(frames, part, k):
    """One side's image and the states that each of its instructions is run from."""
    sizes = [(BY[test[0]], BY[test[1]])[k].size for test in part]
    return bee.image(bee.listing_of(frames)), ["pc=%x %s" % (behind - size, state) for (_, _, behind, state), size in zip(part, sizes)]
