#!/usr/bin/env python3
"""C-19 once more, written apart from the proved reader: a line of the people's text to its frame, or 15 with the column.

It goes along the line once and stops at the first byte that no good line could have there, or at the line's end. Operands and operators are read in
order and grouped by level afterwards, where the proved reader goes by levels.
    second.py            reads lines from standard input, writes one answer a line: the frame, 2, or 15 and the column
    second.py SEED N     N random statements written as C-16 says and read back, and as many mutated lines
"""
import random
import sys

FORMS = """Add_i8:I Add_d9:D Add_Ri:R Addc_i8:I Addc_d9:D Addc_Ri:R Sub_i8:I Sub_d9:D Sub_Ri:R Subc_i8:I Subc_d9:D Subc_Ri:R Inc_d9:D Inc_Ri:R
Dec_d9:D Dec_Ri:R Mul: Div: And_i8:I And_d9:D And_Ri:R Or_i8:I Or_d9:D Or_Ri:R Xor_i8:I Xor_d9:D Xor_Ri:R Rol: Rolc: Ror: Rorc: Ld_d9:D Ld_Ri:R
St_d9:D St_Ri:R Mov_d9:ID Mov_Rj:IR Ldc: Push:D Pop:D Xch_d9:D Xch_Ri:R Jmp:T Jmpf:T Br:T Brf:T Bz:T Bnz:T Bp:DBT Bpc:DBT Bn:DBT Dbnz_d9:DT
Dbnz_Ri:RT Be_i8:IT Be_d9:DT Be_Rj:RIT Bne_i8:IT Bne_d9:DT Bne_Rj:RIT Call:T Callf:T Callr:T Ret: Reti: Clr1:DB Set1:DB Not1:DB Nop: Ldf: Stf:"""
FORMS = [(f.split(':')[0].split('_')[0].lower(), f.split(':')[1]) for f in FORMS.split()]
assert len(FORMS) == 70
LEVEL = {'*': 1, '/': 1, '+': 2, '-': 2, '&': 3, '^': 4, '|': 5}
CODE2 = {'+': 0x10, '-': 0x11, '*': 0x12, '/': 0x13, '^': 0x14, '&': 0x15, '|': 0x16}
CODE1 = {'-': 0x20, '>': 0x21, '<': 0x22}


class Stuck(Exception):
    """Raised with the column."""


class Text:
    def __init__(self, s):
        self.s, self.i = s, 0

    def look(self):
        return self.s[self.i] if self.i < len(self.s) else ''

    def stop(self):
        raise Stuck(self.i)

    def take(self, chars):
        if self.look() == '' or self.look() not in chars:
            self.stop()
        self.i += 1
        return self.s[self.i - 1]

    def end(self):
        if self.look() != '':
            self.stop()


def number(t, most):
    """Digits, at least one; stuck at the digit that passes the range."""
    v = int(t.take('0123456789'))
    while t.look() and t.look() in '0123456789':
        w = 10 * v + int(t.look())
        if w > most:
            t.stop()
        v = w
        t.i += 1
    return v


def five(t):
    """Five digits of at most 32767; stuck at the digit with which none can go on."""
    v = 0
    for k in range(5):
        if t.look() == '' or t.look() not in '0123456789' or (10 * v + int(t.look())) * 10 ** (4 - k) > 32767:
            t.stop()
        v = 10 * v + int(t.take('0123456789'))
    return v


def operand(t):
    c = t.look()
    if c == '-' and t.i + 1 < len(t.s) and t.s[t.i + 1] in '0123456789':
        t.i += 1
        v = -number(t, 2147483648)
        return bytes([0]) + (v & 0xFFFFFFFF).to_bytes(4, 'big')
    if c and c in '0123456789':
        return bytes([0]) + number(t, 2147483647).to_bytes(4, 'big')
    if c and c in CODE1:
        t.i += 1
        while t.look() == ' ':
            t.i += 1
        return bytes([CODE1[c]]) + operand(t)
    if c == '(':
        t.i += 1
        e = expression(t)
        t.take(')')
        return e
    if c == 'g':
        t.i += 1
        return bytes([1]) + five(t).to_bytes(2, 'big')
    t.take('.')
    t.take('l')
    return bytes([1]) + (0x8000 + five(t)).to_bytes(2, 'big')


def lead(t):
    """Spaces where an expression begins: a prefix operator follows, and a minus that touches a digit is none."""
    while t.look() == ' ':
        t.i += 1
    sign = t.take(''.join(CODE1))
    if sign == '-' and t.look() and t.look() in '0123456789':
        t.stop()
    t.i -= 1


def expression(t):
    """Operands and operators in order, then grouped by level to the left: another way than the proved one, which goes by levels."""
    if t.look() == ' ':
        lead(t)
    items = [operand(t)]
    while True:
        start = t.i
        while t.look() == ' ':
            t.i += 1
        if t.look() == '' or t.look() not in LEVEL:
            if t.i > start:
                t.stop()
            break
        items.append(t.take(''.join(LEVEL)))
        while t.look() == ' ':
            t.i += 1
        items.append(operand(t))
    for level in range(1, 6):
        k = 1
        while k < len(items):
            if LEVEL[items[k]] == level:
                items[k - 1:k + 2] = [bytes([CODE2[items[k]]]) + items[k - 1] + items[k + 1]]
            else:
                k += 2
    return items[0]


def arguments(t, family):
    """The forms of a mnemonic, fewer with each argument; the frame and the expressions."""
    parts, j = [], 0
    while True:
        c = t.look()
        mark = 'I' if c == '#' else 'R' if c == '@' else ''
        left = [f for f in family if (FORMS[f][1][j] == mark if mark else FORMS[f][1][j] not in 'IR')]
        if not left:
            t.stop()
        if mark == 'R':
            t.i += 1
            t.take('R')
            parts.append(bytes([int(t.take('0123'))]))
        else:
            if mark:
                t.i += 1
            parts.append(expression(t))
        family, j = left, j + 1
        if len(family) == 1 and len(FORMS[family[0]][1]) == j:
            t.end()
            return bytes([1, family[0]]) + b''.join(parts), [p for p in parts if len(p) > 1]
        t.take(',')


def after_word(t, word):
    if word == 'g':
        n = five(t)
        if t.take(':=') == ':':
            t.end()
            return bytes([2]) + n.to_bytes(2, 'big'), []
        e = expression(t)
        t.end()
        return bytes([3]) + n.to_bytes(2, 'big') + e, [e]
    if word == '.l':
        n = 0x8000 + five(t)
        t.take(':')
        t.end()
        return bytes([2]) + n.to_bytes(2, 'big'), []
    if word == '.org ':
        n = number(t, 65535)
        t.end()
        return bytes([5]) + n.to_bytes(2, 'big'), []
    if word == '.align ':
        add = number(t, 255)
        t.take(',')
        m = number(t, 256)
        t.end()
        if m == 0:
            t.stop()
        return bytes([8, add]) + m.to_bytes(2, 'big'), []
    if word == '.comment ':
        out = b''
        while True:
            pair = t.take('0123456789ABCDEF') + t.take('0123456789ABCDEF')
            out += bytes([int(pair, 16)])
            if t.look() == '':
                return bytes([4]) + out, []
    if word in ('.byte ', '.word '):
        es = [expression(t)]
        while t.look() != '':
            if len(es) == 16:
                t.stop()
            t.take(',')
            es.append(expression(t))
        return bytes([6 if word == '.byte ' else 7, len(es)]) + b''.join(es), es
    return arguments(t, [f for f in range(70) if FORMS[f][0] + ' ' == word])


OPENING = ['g', '.l', '.org ', '.byte ', '.word ', '.align ', '.comment '] + sorted({m + ' ' for m, k in FORMS if k})
WHOLE = {'.comment': bytes([4]), **{m: bytes([1, f]) for f, (m, k) in enumerate(FORMS) if not k}}


def read(s):
    """('frame', bytes), ('15', column) or ('2',)."""
    if len(s) > 1024:
        return ('2',)
    if s in WHOLE:
        return ('frame', WHOLE[s])
    t = Text(s)
    try:
        for word in OPENING:
            if s.startswith(word):
                t.i = len(word)
                frame, exprs = after_word(t, word)
                return ('2',) if len(frame) > 120 or any(len(e) > 32 for e in exprs) else ('frame', frame)
        common = lambda w: next((i for i in range(min(len(w), len(s))) if w[i] != s[i]), min(len(w), len(s)))
        raise Stuck(max(common(w) for w in OPENING + list(WHOLE)))
    except Stuck as e:
        return ('15', e.args[0])


# ---- the other way, for tests: frames to lines as C-16 writes them

def tree(e, at):
    """(text, end, compound) of the expression at e[at]."""
    c = e[at]
    if c == 0:
        return str(int.from_bytes(e[at + 1:at + 5], 'big', signed=True)), at + 5, False
    if c == 1:
        n = int.from_bytes(e[at + 1:at + 3], 'big')
        return ('g%05d' % n if n < 0x8000 else '.l%05d' % (n - 0x8000)), at + 3, False
    if c in CODE1.values():
        x, end, _ = tree(e, at + 1)
        return {v: k for k, v in CODE1.items()}[c] + '(' + x + ')', end, True
    a, mid, ca = tree(e, at + 1)
    b, end, cb = tree(e, mid)
    shut = lambda x, compound: '(' + x + ')' if compound else x
    return shut(a, ca) + {v: k for k, v in CODE2.items()}[c] + shut(b, cb), end, True


def random_tree(r, depth):
    k = r.randrange(6 if depth else 2)
    if k == 0:
        return bytes([0]) + r.choice([0, 1, 5, 255, 2 ** 31 - 1, 2 ** 31, 2 ** 32 - 1, r.randrange(2 ** 32)]).to_bytes(4, 'big')
    if k == 1:
        return bytes([1]) + r.randrange(65536).to_bytes(2, 'big')
    if k == 2:
        return bytes([r.choice(list(CODE1.values()))]) + random_tree(r, depth - 1)
    return bytes([r.choice(list(CODE2.values()))]) + random_tree(r, depth - 1) + random_tree(r, depth - 1)


def random_line(r):
    k = r.randrange(8)
    if k < 4:
        f = r.randrange(70)
        parts, texts = [], []
        for kind in FORMS[f][1]:
            if kind == 'R':
                parts.append(bytes([r.randrange(4)]))
                texts.append('@R%d' % parts[-1][0])
            else:
                parts.append(random_tree(r, 2))
                texts.append(('#' if kind == 'I' else '') + tree(parts[-1], 0)[0])
        return bytes([1, f]) + b''.join(parts), FORMS[f][0] + (' ' + ','.join(texts) if texts else '')
    if k == 4:
        es = [random_tree(r, 1) for _ in range(r.randrange(1, 17))]
        kind = r.randrange(6, 8)
        return bytes([kind, len(es)]) + b''.join(es), ['.byte ', '.word '][kind - 6] + ','.join(tree(e, 0)[0] for e in es)
    if k == 5:
        n, e = r.randrange(0x8000), random_tree(r, 3)
        return bytes([3]) + n.to_bytes(2, 'big') + e, 'g%05d=' % n + tree(e, 0)[0]
    if k == 6:
        x = bytes(r.randrange(256) for _ in range(r.randrange(5)))
        return bytes([4]) + x, '.comment' + (' ' + x.hex().upper() if x else '')
    add, m = r.randrange(256), r.randrange(1, 257)
    return bytes([8, add]) + m.to_bytes(2, 'big'), '.align %d,%d' % (add, m)


def main():
    if len(sys.argv) == 3:
        r = random.Random(int(sys.argv[1]))
        for _ in range(int(sys.argv[2])):
            frame, line = random_line(r)
            got = read(line)
            # a frame with an expression of over 32 bytes has over 34
            assert got == ('frame', frame) or got == ('2',) and len(frame) > 34, (line, frame.hex(), got)
            p = r.randrange(len(line) + 1)
            other = line[:p] + r.choice([' ', '(', ')', '-', '9', 'x', '#', '@', ',', '']) + line[p + r.randrange(2):]
            x = read(other)
            if x[0] == '15':
                # what comes before the column some good line has: the same prefix is never stuck earlier
                y = read(other[:x[1]])
                assert y[0] != '15' or y[1] == x[1], (other, x, y)
        print('ok')
        return
    for line in sys.stdin.buffer.read().decode('latin-1').split('\n')[:-1]:
        x = read(line)
        print(x[0] if x[0] == '2' else x[1].hex().upper() if x[0] == 'frame' else '15 %d' % x[1])


if __name__ == '__main__':
    main()
