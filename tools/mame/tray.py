"""examples/tray long and short under scripted trays; and wrong images, each of which must be found out."""
import random
from collections import Counter

import bee
import routines
from walks import START, Pair, Run

# What the tray answers, read at 18.
SCRIPTS = ["1,0,1,ff", "0,0,1,0,1,0", "1,5", "1,0," + "1,0," * 8 + "1,0", "1,0," + "1,0," * 8 + "1,3"]
# The bits in which the first bytes of a pair differ.
INVERSE = {"Bz": 0x10, "Bnz": 0x10, "Bp": 0xE0, "Bn": 0xE0, "Be": 0x70, "Bne": 0x70}
TIME = 20


def tray():
    with open(bee.TOP + "/examples/tray/tray.lst") as file:
        return Pair(file.read())


def state_of(script, rng):
    """Called with the stack set; R0 points to nine blocks."""
    blocks = ["%x=%x" % (0x40 + i, rng.randrange(256)) for i in range(9)]
    return "%d pc=%x 000=40 reads=12:%s %s" % (TIME, START, script, " ".join(blocks))


def run(folder, counts, count=60):
    pair, rng, scripts = tray(), random.Random(7), list(SCRIPTS)
    while len(scripts) < count:
        answers = [rng.choice([0, 0, 1, 1, 1, 0xFF, 0x81, rng.randrange(256)]) for _ in range(rng.randrange(2, 60))]
        scripts.append(",".join("%x" % answer for answer in answers))
    here = Run(folder)
    here.add(pair, [state_of(script, rng) for script in scripts])
    return [(pair.sides[0].listing, (), state, what) for _, state, what in here.go(counts)]


# ---- wrong images

def wrong_images(side):
    """(what, address, image) for each transfer: its last byte one more and one less, and the other branch of its pair."""
    for (address, digits, text), frame in zip(bee.addresses(side.listing), bee.frames_of(side.listing)):
        if frame[0] != 1 or not bee.FORMS[frame[1]].is_transfer:
            continue
        last, kind = address + len(digits) - 1, bee.FORMS[frame[1]].name.split("_")[0]
        changes = [(last, (side.image[last] + d) & 255) for d in (1, 255)]
        if kind in INVERSE:
            changes.append((address, digits[0] ^ INVERSE[kind]))
        for at, value in changes:
            yield "%04X %s, byte %d is %02X" % (address, text, at - address, value), address, altered(side.image, at, value)


def altered(image, at, value):
    return image[:at] + bytes([value]) + image[at + 1:]


def found_out(folder, pair, cases):
    """Of (what, image, states) the whats in which no walk differs. One run of MAME."""
    here, order = Run(folder), []
    for what, image, states in cases:
        here.add(pair, states, [pair.sides[0].image, image])
        order.append(what)
    left = []
    here.start()
    for i, what in enumerate(order):
        if not here.judge(i, Counter(), None):
            left.append("not found out: " + what)
    return left


def mutants(folder):
    pair, rng = tray(), random.Random(7)
    states = [state_of(script, rng) for script in SCRIPTS]
    cases = [(what, image, states) for what, _, image in wrong_images(pair.sides[1])]
    return "%d wrong bytes in the tray's short image found out" % len(cases), found_out(folder, pair, cases)


def routine_mutants(folder):
    """The same of the written routines; a transfer that no state runs is left out."""
    made = routines.written()
    pair = routines.pair_of(made)
    cases = []
    for what, address, image in wrong_images(pair.sides[1]):
        own = [routine for routine, _ in made if routine.start <= address < routine.end][0]
        cases.append((what, image, ["%d pc=%x %s" % (routines.TIME, own.start, state) for state in own.states]))
    return "%d wrong bytes in the routines' short image found out" % len(cases), found_out(folder, pair, cases)


# ---- jumps that leave the memory (register EXT, 10D)

NOT1, SET1, MOV, JMPF = "0142000000010D0000000000", "0141000000010D0000000000", "01230000000009000000010D", "012B0000000000"
AS_RULE_1 = [NOT1, JMPF]
OTHERWISE = [[SET1, JMPF], [NOT1, "0143", JMPF], [NOT1, "012E018001", JMPF, "028001", "0143"], [NOT1, "050002", JMPF], [MOV, JMPF]]


def memory(folder):
    """Rule 1 keeps the jump right behind Not1 10D,0. Other ways to change the memory it does not know: the long one leaves, the short one
    stays."""
    here, listings = Run(folder), [AS_RULE_1] + OTHERWISE
    for lines in listings:
        here.add(Pair("".join(line + "\n" for line in lines)), ["2 pc=0 a=1"])
    here.start()
    differs = [bool(here.judge(i, Counter(), None)) for i, _ in enumerate(listings)]
    wrong = ["not so: " + " ".join(lines) for lines, found in zip(listings, differs) if found == (lines is AS_RULE_1)]
    return "1 jump by rule 1 leaves the memory long and short, %d written otherwise only long, as the pages say" % len(OTHERWISE), wrong
