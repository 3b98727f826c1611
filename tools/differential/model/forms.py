"""The seventy forms by number: name, first byte, operands in the order of the arguments."""

TABLE = """
Add_i8 81 i8, Add_d9 82 d9, Add_Ri 84 reg, Addc_i8 91 i8, Addc_d9 92 d9, Addc_Ri 94 reg, Sub_i8 A1 i8, Sub_d9 A2 d9,
Sub_Ri A4 reg, Subc_i8 B1 i8, Subc_d9 B2 d9, Subc_Ri B4 reg, Inc_d9 62 d9, Inc_Ri 64 reg, Dec_d9 72 d9, Dec_Ri 74 reg,
Mul 30, Div 40, And_i8 E1 i8, And_d9 E2 d9, And_Ri E4 reg, Or_i8 D1 i8, Or_d9 D2 d9, Or_Ri D4 reg, Xor_i8 F1 i8,
Xor_d9 F2 d9, Xor_Ri F4 reg, Rol E0, Rolc F0, Ror C0, Rorc D0, Ld_d9 02 d9, Ld_Ri 04 reg, St_d9 12 d9, St_Ri 14 reg,
Mov_d9 22 i8 d9, Mov_Rj 24 i8 reg, Ldc C1, Push 60 d9, Pop 70 d9, Xch_d9 C2 d9, Xch_Ri C4 reg, Jmp 28 a12, Jmpf 21 a16,
Br 01 rel8, Brf 11 rel16, Bz 80 rel8, Bnz 90 rel8, Bp 68 d9 bit rel8, Bpc 48 d9 bit rel8, Bn 88 d9 bit rel8,
Dbnz_d9 52 d9 rel8, Dbnz_Ri 54 reg rel8, Be_i8 31 i8 rel8, Be_d9 32 d9 rel8, Be_Rj 34 reg i8 rel8, Bne_i8 41 i8 rel8,
Bne_d9 42 d9 rel8, Bne_Rj 44 reg i8 rel8, Call 08 a12, Callf 20 a16, Callr 10 rel16, Ret A0, Reti B0, Clr1 C8 d9 bit,
Set1 E8 d9 bit, Not1 A8 d9 bit, Nop 00, Ldf 50, Stf 51
"""

LENGTHS = {"i8": 1, "d9": 1, "rel8": 1, "a12": 1, "a16": 2, "rel16": 2, "reg": 0, "bit": 0}
LIMITS = {"i8": 255, "d9": 511, "bit": 7, "a12": 65535, "a16": 65535}


class Form:
    def __init__(self, number, row):
        words = row.split()
        self.number, self.name = number, words[0]
        self.lead, self.operands = int(words[1], 16), words[2:]
        self.size = 1 + sum(LENGTHS[kind] for kind in self.operands)
        self.is_transfer = bool(self.operands) and self.operands[-1] in ("rel8", "rel16", "a12", "a16")


FORMS = [Form(number, row) for number, row in enumerate(TABLE.replace("\n", " ").split(","))]
BY_NAME = {form.name: form for form in FORMS}

BRANCHES = ["Bz", "Bnz", "Bp", "Bpc", "Bn", "Dbnz_d9", "Dbnz_Ri", "Be_i8", "Be_d9", "Be_Rj", "Bne_i8", "Bne_d9", "Bne_Rj"]
UNCONDITIONAL = ["Br", "Jmp", "Jmpf"]
PAIRS = [("Bz", "Bnz"), ("Bp", "Bn"), ("Be_i8", "Bne_i8"), ("Be_d9", "Bne_d9"), ("Be_Rj", "Bne_Rj")]


def encode(form, fields):
    """The bytes of a form, each operand given as the number that its field holds."""
    lead, rest = form.lead, []
    for kind, v in zip(form.operands, fields):
        if kind in ("reg", "bit"):
            lead |= v
        elif kind == "d9":
            lead |= (v >> 8) << (4 if "bit" in form.operands else 0)
            rest.append([v & 255])
        elif kind == "a12":
            lead |= (v >> 11 & 1) << 4 | (v >> 8 & 7)
            rest.append([v & 255])
        elif kind == "a16":
            rest.append([v >> 8 & 255, v & 255])
        elif kind == "rel16":
            rest.append([v & 255, v >> 8 & 255])
        else:
            rest.append([v & 255])
    if form.name == "Mov_d9":
        rest.reverse()
    return bytes([lead] + [b for part in rest for b in part])
