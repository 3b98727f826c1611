#!/usr/bin/env python3
"""Holds the proved reader of C-19 against the second one (second.py), line by line: frame, 2, or 15 and the column.

    run.py [--seed N] [--count N]     three lines a count: a good one, spaced and with parentheses; a good one mutated; a random one
It needs target/bindings/lines (bindings/build.sh). Where the two differ it prints the line and both answers, and ends with status 1.
"""
import argparse
import os
import random
import subprocess
import sys

import second

HERE = os.path.dirname(os.path.abspath(__file__))
BINDINGS = os.path.join(HERE, '..', '..', 'bindings')
LINES = os.path.join(HERE, '..', '..', 'target', 'bindings', 'lines')
CHIPS = [' ', '  ', '(', ')', '-', '+', '*', '/', '&', '^', '|', '<', '>', '#', '@', '@R', ',', '.', '.l', ':', '=', 'g', 'x', '\r', '\x00', '\xff', '',
         '0', '00', '9', '32767', '32768', '99999', '2147483647', '2147483648', '-2147483648', '4294967295', '65535', '65536', '255', '256', '257', 'A', 'f']
WORDS = sorted(second.OPENING) + sorted(second.WHOLE)


def loosened(r, line):
    """Spaces beside operators and more parentheses: many of these are good lines, and some are not."""
    out = ''
    for c in line:
        out += ' ' * r.choice([0, 0, 0, 1, 3]) + c + ' ' * r.choice([0, 0, 0, 1]) if c in '+-*/&^|<>' else c
    if r.randrange(3) == 0 and '=' in out:
        k = out.index('=') + 1
        out = out[:k] + '(' * 2 + out[k:] + ')' * 2
    return out


def mutated(r, line):
    for _ in range(r.choice([1, 1, 1, 2, 4])):
        p = r.randrange(len(line) + 1)
        line = line[:p] + r.choice(CHIPS) + line[p + r.randrange(3):]
    return line


def at_random(r):
    k = r.randrange(20)
    if k == 0:
        return 'g%05d=' % r.randrange(32768) + '(' * r.randrange(300) + '5' + ')' * r.randrange(300)
    if k == 1:
        return '.byte ' + ','.join(['1'] * r.randrange(14, 19)) + r.choice(['', ',', ' ', ' ,'])
    if k == 2:
        return 'g00001=' + '0' * r.randrange(1010, 1020) + '1'
    if k == 3:
        return '.comment ' + 'AB' * r.randrange(115, 125)
    if k == 4:
        return 'g00002=' + '+'.join(['1'] * r.randrange(1, 9))
    return r.choice(WORDS) + ''.join(r.choice(CHIPS) for _ in range(r.randrange(9)))


def lines(seed, count):
    r = random.Random(seed)
    for _ in range(count):
        good = second.random_line(r)[1]
        yield loosened(r, good)
        yield mutated(r, loosened(r, good))
        yield at_random(r)


def answer(line):
    x = second.read(line)
    return x[0] if x[0] == '2' else x[1].hex().upper() if x[0] == 'frame' else '15 %d' % x[1]


def main():
    parser = argparse.ArgumentParser()
    parser.add_argument('--seed', type=int, default=1)
    parser.add_argument('--count', type=int, default=10000)
    asked = parser.parse_args()
    given = [line.replace('\n', '') for line in lines(asked.seed, asked.count)]
    text = ''.join(line + '\n' for line in given).encode('latin-1')
    run = subprocess.run([os.path.join(BINDINGS, 'run.sh'), LINES], input=text, stdout=subprocess.PIPE, check=True)
    got = run.stdout.decode('ascii').split('\n')[:-1]
    if len(got) != len(given):
        sys.exit('run.py: %d lines, %d answers' % (len(given), len(got)))
    kinds = {'frame': 0, '15': 0, '2': 0}
    faults = 0
    for line, one in zip(given, got):
        two = answer(line)
        kinds['15' if two.startswith('15 ') else two if two == '2' else 'frame'] += 1
        if one != two:
            faults += 1
            print('%r: proved %s, second %s' % (line, one, two))
    print('seed %d: %d lines, %d frames, %d refused 15, %d refused 2; %d differ'
          % (asked.seed, len(given), kinds['frame'], kinds['15'], kinds['2'], faults))
    sys.exit(1 if faults else 0)


if __name__ == '__main__':
    main()
