"""Programs for the controller, as statements whose frames are made once the layout is known; and random ones: work on a few bytes of
memory, branches, patterns that fold, calls and returns, a table, pads and gaps."""
import bee
from bee import BY, FORMS, instruction, name, number

CONDITIONAL = ["Bz", "Bnz", "Bp", "Bpc", "Bn", "Dbnz_d9", "Dbnz_Ri", "Be_i8", "Be_d9", "Be_Rj", "Bne_i8", "Bne_d9", "Bne_Rj"]
DIRECT = [f.name for f in FORMS if f.operands == ["d9"] and f.name not in ("Push", "Pop")]
IMMEDIATE = [f.name for f in FORMS if f.operands == ["i8"]]
INDIRECT = [f.name for f in FORMS if f.operands == ["reg"]]
PLAIN = ["Rol", "Rolc", "Ror", "Rorc", "Mul", "Div", "Nop"]
A, B, C, TRL, TRH, SP = 0x100, 0x102, 0x103, 0x104, 0x105, 0x106
STACK = 0x7F                    # below the bytes that the stack takes
TABLE = range(64)               # what Ldc reads: it stands first in every listing, so that nothing moves it


class Unreachable(Exception):
    """A branch is too far from its target, a jump in another page, or the program goes past the end of the memory."""


class Target:
    """An expression and what it comes to, both known once the layout is."""

    def __init__(self, value, frame=None):
        self.value = value
        self.frame = frame or (lambda: number(value()))


class Statement:
    def __init__(self, size, frame, free=False, inner=False, defines=None):
        self.size, self.frame, self.at = size, frame, None      # a size may be a function from the position to the one behind
        self.free, self.inner = free, inner     # whether a number may name its first byte; its second, where it reads as mov #byte,@R0
        self.defines = defines                  # the name of a label


class Names:
    """Numbers for names, each handed out once in a listing."""

    def __init__(self):
        self.globals, self.locals = 0, 0x8000

    def new_global(self):
        self.globals += 1
        return self.globals

    def new_local(self):
        self.locals += 1
        return self.locals


class Program:
    """Statements from an org on."""

    def __init__(self, names, start):
        self.names, self.start, self.statements, self.transfers = names, start, [], []
        self.at, self.variables = {}, {}
        self.put(bee.org(start), lambda _: start)

    def put(self, frame, size=0, **marks):
        statement = Statement(size, frame if callable(frame) else lambda: frame, **marks)
        self.statements.append(statement)
        return statement

    def ins(self, form, *args, free=True, inner=False):
        form = BY[form]

        def frame():
            return instruction(form, [a.frame() if isinstance(a, Target) else a for a in args])
        made = self.put(frame, form.size, free=free, inner=inner)
        self.transfers += [(made, form, a) for a in args if isinstance(a, Target)]
        return made

    def label(self, n):
        return self.put(bee.label(n), defines=n)

    def new_label(self):
        n = self.names.new_local()
        self.label(n)
        return n

    def pad(self, add, multiple):
        return self.put(bee.pad(add, multiple), lambda position: -(-position // multiple) * multiple + add)

    def gap(self, ahead):
        """An org so far ahead of the position."""
        def frame():
            return bee.org(made.at + ahead)
        made = self.put(frame, lambda position: position + ahead)
        return made

    def comment(self, text):
        return self.put(b"\x04" + text)

    def preamble(self):
        """The stack below what is compared, and the four registers that point."""
        self.ins("Mov_d9", STACK, SP, free=False)
        for register, value in enumerate((0x21, 0x25, B & 0xFF, C & 0xFF)):
            self.ins("Mov_d9", value, register, free=False)

    def stop(self):
        self.ins("Br", self.to(self.new_label()), free=False)

    # ---- targets

    def to(self, n):
        return Target(lambda: self.at[n], lambda: name(n))

    def to_number(self, n):
        return Target(lambda: self.at[n])

    def to_variable(self, n):
        if n not in self.variables:
            self.variables[n] = self.names.new_global()
        return Target(lambda: self.at[n], lambda: name(self.variables[n]))

    def to_byte(self, statement, k=0):
        return Target(lambda: statement.at + k)

    # ---- the layout

    def lay_out(self):
        """The position behind the last statement."""
        position = self.start
        for statement in self.statements:
            statement.at = position
            if statement.defines is not None:
                self.at[statement.defines] = position
            position = statement.size(position) if callable(statement.size) else position + statement.size
        return position

    def check_reach(self):
        for statement, form, target in self.transfers:
            behind, value = statement.at + form.size, target.value()
            if form.operands[-1] == "rel8" and not -128 <= value - behind <= 127:
                raise Unreachable
            if form.operands[-1] == "a12" and value >> 12 != behind >> 12:
                raise Unreachable

    def frames(self):
        """Variables first: each is the number of its label, as people write entry addresses (C-15)."""
        self.end = self.lay_out()
        if self.end > 65535:
            raise Unreachable
        self.check_reach()
        return [bee.variable(v, number(self.at[n])) for n, v in self.variables.items()] + [s.frame() for s in self.statements]


class Random(Program):
    """One to three blocks that are walked through, and up to three routines that they call."""

    def __init__(self, rng, names, start, edge):
        super().__init__(names, start)
        self.rng, self.edge, self.ends = rng, edge, {}
        self.mains = [names.new_global() for _ in range(rng.randrange(1, 4))]
        self.routines = [names.new_global() for _ in range(rng.randrange(4))]
        self.label(names.new_global())
        self.preamble()
        if rng.random() < .5:
            self.ins("Jmpf", self.to(self.mains[0]), free=False)
            self.gap(rng.randrange(1, 8))
        for i, _ in enumerate(self.mains):
            self.block(self.mains, i, rng.randrange(3, 12), self.routines)
            self.part(i + 1)
        for i, n in enumerate(self.routines):
            self.before_routine(n)
            self.block(self.routines, i, rng.randrange(2, 8), self.routines[i + 1:])
            self.ins("Reti" if rng.random() < .2 else "Ret", free=False)

    def chance(self, p):
        return self.rng.random() < p

    def part(self, following):
        """Behind a block: the end, a way to the next one out of a Br's reach, zeros that are run through, or nothing."""
        if following == len(self.mains):
            stay = self.new_label()
            self.ins(self.rng.choice(["Br", "Jmpf", "Jmp"]), self.to(stay))
        elif self.chance(.5):
            self.ins("Jmpf", self.to(self.mains[following]), free=False)
            self.pad(0, 256)
            for _ in range(self.rng.randrange(3)):
                self.pad(128, 1)
        elif self.chance(.5):
            self.pad(self.rng.randrange(3), self.rng.choice([4, 16, 32]))
        elif self.chance(.5):
            self.gap(self.rng.randrange(1, 12))

    def before_routine(self, n):
        if self.chance(.3):
            self.put(bee.data(1, 0xFF, 0x21), 3)
        if self.chance(.3):
            self.put(b"\x07\x02" + name(n) + name(self.mains[0]), 4)
        if self.chance(.35):
            self.pad(0, self.rng.choice([16, 64, 128, 256]))
        if self.chance(self.edge):
            self.next_page()

    def next_page(self):
        """An org a little before the next page, or in it."""
        near = self.rng.choice([-64, -32, -16, -8, 0]) + self.rng.randrange(16)

        def behind(position):
            return max(position, (position // 4096 + 1) * 4096 + near)
        made = self.put(lambda: bee.org(behind(made.at)), behind)

    # ---- operands

    def byte(self):
        return self.rng.choice([0, 1, 2, 3, 0x7F, 0x80, 0xFF, self.rng.randrange(256)])

    def cell(self):
        return 0x20 + self.rng.randrange(16)

    def cell_or_register(self):
        return self.rng.choice([self.cell()] * 6 + [A, B, C])

    # ---- work

    def work(self):
        self.rng.choice(self.WORK)(self)

    def move(self):
        self.ins("Mov_d9", self.byte(), self.rng.choice([self.cell(), A, B, C]))

    def move_inner(self):
        """Entered at its second byte it is mov #byte,@R0."""
        self.ins("Mov_d9", self.byte(), 0x24, inner=True)

    def move_pointer(self):
        self.ins("Mov_d9", self.cell(), self.rng.randrange(2), free=False)

    def push_and_pop(self):
        self.ins("Push", self.cell_or_register(), free=False)
        self.ins("Pop", self.cell(), free=False)

    def point(self, address):
        self.ins("Mov_d9", address & 0xFF, TRL, free=False)
        self.ins("Mov_d9", address >> 8, TRH, free=False)

    def load_code(self):
        """A byte of the table, which stays where it is."""
        self.ins("Mov_d9", self.rng.randrange(32), A, free=False)
        self.point(self.rng.randrange(33))
        self.ins("Ldc", free=False)

    def flash(self):
        self.point(self.rng.randrange(0xF000))
        self.ins(self.rng.choice(["Ldf", "Ldf", "Stf"]), free=False)

    WORK = [
        lambda p: p.ins("Nop"), lambda p: p.ins(p.rng.choice(PLAIN)), move, move, move_inner, move_pointer, push_and_pop, load_code, flash,
        lambda p: p.ins("Mov_Rj", p.byte(), p.rng.randrange(2)),
        lambda p: p.ins(p.rng.choice(DIRECT), p.cell_or_register()),
        lambda p: p.ins(p.rng.choice(DIRECT), p.cell_or_register()),
        lambda p: p.ins(p.rng.choice(IMMEDIATE), p.byte()),
        lambda p: p.ins(p.rng.choice(INDIRECT), p.rng.randrange(4)),
        lambda p: p.ins(p.rng.choice(["Clr1", "Set1", "Not1"]), p.cell(), p.rng.randrange(8)),
    ]

    # ---- transfers

    def branch(self, target, kind=None):
        kind, args = kind or self.rng.choice(CONDITIONAL), []
        for operand in BY[kind].operands[:-1]:
            if operand == "d9":
                args.append(self.rng.choice([self.cell()] * 5 + [A] * ("Dbnz" not in kind)))
            else:
                args.append(self.rng.randrange({"bit": 8, "reg": 2}[operand]) if operand != "i8" else self.byte())
        self.ins(kind, *args, target)

    def jump(self, target, far):
        self.ins(self.rng.choice(["Jmpf", "Jmpf", "Jmpf", "Jmp", "Brf"] if far else ["Br", "Jmp", "Jmpf", "Jmpf", "Jmpf"]), target)

    def call(self, routines):
        n = self.rng.choice(routines)
        self.ins(self.rng.choice(["Callf", "Callf", "Call", "Callr"]), self.rng.choice([self.to, self.to_number])(n))

    def away(self, blocks, i):
        """Another block, most often a later one; a routine goes only to later ones."""
        later, all_ = blocks[i + 1:], blocks if blocks is self.mains else blocks[i + 1:]
        if not all_:
            return None
        n = self.rng.choice(later if later and self.chance(.8) else all_)
        return self.rng.choice([self.to, self.to, self.to, self.to_variable, self.to_number])(n)

    def inside(self, labels, first):
        """This block: a label of it, or the number of a byte."""
        if self.chance(.5):
            return self.to(self.rng.choice(labels))
        seed, chosen = self.rng.random(), []

        def value():
            if not chosen:
                chosen.append(self.some_byte(first, seed))
            statement, k = chosen[0]
            return statement.at + k
        return Target(value)

    def some_byte(self, first, seed):
        """A byte of the block that begins at a place, chosen once all of it is there; two thirds are second bytes where there are any."""
        block = [s for s in self.statements[first:self.ends[first]] if s.free]
        inner = [s for s in block if s.inner]
        if inner and seed * 7919 % 1 < .6:
            return inner[int(seed * len(inner))], 1
        return block[int(seed * len(block))], 0

    def inverted(self, target):
        over = self.names.new_local()
        self.branch(self.to(over))
        self.jump(target, True)
        if self.chance(.2):
            self.comment(b"between")
        if self.chance(.1):
            self.new_label()
        self.label(over)

    def trampoline(self, target):
        there, over = self.names.new_local(), self.names.new_local()
        self.branch(self.to(there))
        self.jump(self.to(over), False)
        self.label(there)
        self.jump(target, True)
        self.label(over)

    # ---- blocks

    def block(self, blocks, i, size, routines):
        """A context: a global label, local labels, work and transfers."""
        first = len(self.statements)
        self.label(blocks[i])
        labels = [self.names.new_local() for _ in range(self.rng.randrange(1, 4))]
        spots = [self.rng.randrange(size) for _ in labels]
        self.work()
        for at in range(size):
            for n in (n for n, spot in zip(labels, spots) if spot == at):
                self.label(n)
            self.item(blocks, i, labels, first, routines)
        self.ins("Mov_d9", self.byte(), self.cell())
        self.ends[first] = len(self.statements)

    def item(self, blocks, i, labels, first, routines):
        away, k = self.away(blocks, i) or self.inside(labels, first), self.rng.randrange(20)
        if k < 9:
            self.work()
        elif k < 11:
            self.branch(self.inside(labels, first))
        elif k < 13:
            self.inverted(away if k == 11 else self.inside(labels, first))
        elif k < 15:
            self.trampoline(away if self.chance(.6) else self.inside(labels, first))
        elif k < 18 and routines:
            self.call(routines)
        elif k < 19:
            self.jump(self.inside(labels, first), False)
        else:
            self.jump(away, True)
