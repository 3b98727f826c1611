"""Written programs: every pattern that folds, both ways; calls nested and returned; Ldc, Ldf, Stf and Reti; entries in the middle of a
statement; pads and gaps that are run through; a jump that leaves the memory."""
import random

import bee
from conditions import state_for, words
from programs import A, CONDITIONAL, TABLE, TRH, TRL, Names, Program
from walks import Pair, Run

INVERSE = ["Bz", "Bnz", "Bp", "Bn", "Be_i8", "Bne_i8", "Be_d9", "Bne_d9", "Be_Rj", "Bne_Rj"]
MARK = 0x2E                     # where a program writes which way it went
NEEDED = ["Ldc", "Ldf", "Stf", "Reti", "Ret", "Call", "Callf", "Callr", "Brf"]
DEEPEST = 6
PREAMBLE = 15                   # the bytes of Program.preamble
TIME = 10


class Routine(Program):
    """A program with its first states and the marks that it has to set, all states together."""

    def __init__(self, names, start):
        super().__init__(names, start)
        self.states, self.marks = [""], {1}
        self.label(names.new_global())
        self.preamble()

    def mark(self, value):
        self.ins("Mov_d9", value, MARK)

    def branch(self, kind, target):
        form = bee.BY[kind]
        args = [{"d9": 0x20, "bit": 3, "reg": 1, "i8": 0x54}[operand] for operand in form.operands[:-1]]
        rng = random.Random(kind)
        self.states = [words(state_for(form, args, taken, rng)) for taken in (True, False)]
        self.marks = {1, 2}
        self.ins(kind, *args, target)

    def end_both(self, here, away):
        self.label(here)
        self.mark(1)
        self.stop()
        self.label(away)
        self.mark(2)
        self.stop()


def inverted(p, kind):
    over, away = p.names.new_local(), p.names.new_local()
    p.branch(kind, p.to(over))
    p.ins("Jmpf", p.to(away))
    p.end_both(over, away)


def trampoline(p, kind):
    there, over, away = [p.names.new_local() for _ in range(3)]
    p.branch(kind, p.to(there))
    p.ins("Jmpf", p.to(over))
    p.label(there)
    p.ins("Jmpf", p.to(away))
    p.end_both(over, away)


def trampoline_at_edge(p, kind):
    """A branch that has an opposite folds as a trampoline only where the inverted fold does not assemble: three bytes less take the Jmp,
    and not what it names, over the edge of a page; six take both."""
    there, over, away, beyond = [p.names.new_local() for _ in range(4)]
    p.branch(kind, p.to(there))
    p.ins("Jmpf", p.to(over))
    p.label(there)
    p.ins("Jmpf", p.to(away))
    p.label(over)
    p.ins("Jmp", p.to(beyond))
    p.ins("Mov_d9", 0, 0x2D)
    p.end_both(beyond, away)


def start_before(page, kind):
    """Where such a routine begins, so that its Jmp ends a byte behind the edge."""
    return page + 1 - (PREAMBLE + bee.BY[kind].size + 3 + 3 + 2)


def nested(p):
    """Six calls deep, each by another form, and back."""
    routines = [p.names.new_global() for _ in range(DEEPEST)]
    for form in ("Callf", "Call", "Callr"):
        p.ins(form, p.to(routines[0]))
    p.mark(1)
    p.stop()
    for i, n in enumerate(routines):
        p.label(n)
        p.ins("Inc_d9", 0x20 + i)
        if i + 1 < DEEPEST:
            p.ins(("Callf", "Call", "Callr")[i % 3], p.to_number(routines[i + 1]))
            p.ins("Inc_d9", 0x28 + i)
        p.ins("Reti" if i % 2 else "Ret")


def memories(p):
    """Ldc over the table, Ldf and Stf of the flash, with jumps between that shrink."""
    for i, form in enumerate(["Ldc", "Ldf", "Stf", "Ldf", "Ldc"]):
        p.ins("Mov_d9", 8 * i, TRL)
        p.ins("Mov_d9", 0 if form == "Ldc" else 0x30 + i, TRH)
        p.ins("Mov_d9", 3 * i + 1, A)
        p.ins(form)
        p.ins("St_d9", 0x20 + i)
        n = p.names.new_local()
        p.ins("Jmpf", p.to(n))
        p.label(n)
    p.mark(1)
    p.stop()


def inner(p):
    """The second and third bytes of a mov, and those of a Jmpf, which stays for their sake: 00 is nop and C0 ror."""
    n = p.names.new_local()
    move = p.ins("Mov_d9", 0, 0x24)
    far = p.names.new_global()
    jump = p.ins("Jmpf", p.to(far))
    for k in (1, 2):
        p.ins("Dbnz_d9", 0x20 + k, p.to(n))
        p.ins("Jmpf", p.to_byte(move, k))
        p.label(n)
        n = p.names.new_local()
    p.ins("Brf", p.to_byte(jump, 1))
    p.gap(0xC0 - p.lay_out())
    p.label(far)
    p.branch("Dbnz_d9", p.to_byte(jump, 2))
    p.mark(1)
    p.stop()
    p.states, p.marks = ["20=3 21=1 22=1", "20=2 21=2 22=1", "20=2 21=2 22=2"], {1}


def zeros(p):
    """Jumps that shrink before a pad, a gap and a pad that is entered in its middle: the zeros are run."""
    n = p.names.new_local()
    for put in (lambda: p.pad(2, 16), lambda: p.gap(9), lambda: p.pad(0, 32)):
        over = p.names.new_local()
        p.ins("Jmpf", p.to(over))
        p.label(over)
        p.ins("Inc_d9", 0x20)
        last = put()
    p.ins("Dbnz_d9", 0x21, p.to(n))
    p.mark(1)
    p.stop()
    p.label(n)
    p.ins("Jmpf", p.to_byte(last, 1))
    p.states = ["21=1", "21=2", "21=3"]


def leaving(p):
    """Rule 1: the memory is changed right behind Not1 10D,0. Both walks leave it."""
    n = p.names.new_local()
    p.ins("Jmpf", p.to(n))
    p.label(n)
    p.mark(1)
    p.ins("Not1", 0x10D, 0)
    p.ins("Jmpf", p.start)


def written():
    """The routines one behind the other; `inner` first, where addresses begin with 00."""
    makers = [(inner, None), (nested, None), (memories, None), (zeros, None), (leaving, None)] + [(inverted, kind) for kind in INVERSE]
    makers += [(trampoline, kind) for kind in CONDITIONAL if kind not in INVERSE] + [(trampoline_at_edge, kind) for kind in INVERSE]
    names, end, made = Names(), len(TABLE), []
    for maker, kind in makers:
        start = start_before((end // 4096 + 1) * 4096, kind) if maker is trampoline_at_edge else end
        routine = Routine(names, start)
        maker(routine, *([kind] if kind else []))
        made.append((routine, routine.frames()))
        end = routine.end + 3
    return made


def pair_of(made):
    table = [(i * 37 + 11) % 256 for i in TABLE]
    head = [bee.data(*table[i:i + 16]) for i in range(0, len(table), 16)]
    return Pair(bee.listing_of(head + [frame for _, frames in made for frame in frames]))


def states_of(made):
    return ["%d pc=%x %s" % (TIME, routine.start, state) for routine, _ in made for state in routine.states]


def start_of(state):
    return int(state.split()[1][3:], 16)


def run(folder, counts):
    """What differs, as packs.run has it, and what was wanted and not met."""
    made = written()
    pair, marks = pair_of(made), {}

    def found(_, state, walks):
        for walk in walks:
            seen = {int(value, 16) for what, _, address, value in walk.writes if what == "W" and address == "%03X" % MARK}
            marks.setdefault(start_of(state), []).append(seen)
    here = Run(folder)
    here.add(pair, states_of(made))
    differences = [(pair.sides[0].listing, pair.flags, state, what) for _, state, what in here.go(counts, found)]
    return differences, missing(pair, made, marks, counts)


def missing(pair, made, marks, counts):
    lacks = ["%04X: marks %s instead of %s" % (routine.start, sorted(set().union(*marks[routine.start])), sorted(routine.marks))
             for routine, _ in made if set().union(*marks[routine.start]) != routine.marks]
    folds = {(rule, bee.FORMS[pair.forms[place]].name) for place, rule in pair.rules.items() if rule < 3}
    wanted = {(1, kind) for kind in INVERSE} | {(2, kind) for kind in CONDITIONAL}
    lacks += ["no fold by rule %d of %s" % one for one in sorted(wanted - folds)]
    lacks += ["%s was not run" % kind for kind in NEEDED if not counts["form", bee.BY[kind].number]]
    if not counts["deepest", DEEPEST]:
        lacks.append("no call was %d deep" % DEEPEST)
    met = ("left the memory", "entered inside a statement", "entered inside zeros", "zeros run, long")
    return lacks + ["never: " + what for what in met if not counts[what]]
