#!/usr/bin/env python3
"""Tries `stress` on lines against a second implementation of the laws and of the line format, written here in Python.

  tools/try_stress.py [ROUNDS] [SEED]
  tools/try_stress.py - < TEXT

Build the program first: `rt run < stdin` in crates/stress. Each round makes a text of lines: every law on both sides of each of its
edges, in compression and in tension, every refusal, lines that ask nothing, and blank ones; and checks each line of the
output. With `-` it runs no program, and prints what should be printed for the text of standard input.
"""
import math
import random
import re
import subprocess
import sys
from fractions import Fraction

from built import program as built

GREATEST_I64 = 2 ** 63 - 1


class Refused(Exception):
    pass


def concrete(fc):
    if fc % 100 or not 3_000 <= fc <= 10_000:
        raise Refused(1)


def beta(fc):
    """How much of the neutral axis depth the block takes, in thousandths."""
    return max(650, 850 - 5 * max(0, (fc - 4_000) // 100))


def block(fc):
    concrete(fc)
    return lambda q: Fraction(85 * fc, 100) if q >= Fraction(1_000 - beta(fc), 1_000) else Fraction(0)


def trapezoid(fc):
    concrete(fc)
    return lambda q: Fraction(85 * fc, 100) * min(max(2 * q, Fraction(0)), Fraction(1))


def yielding(fy):
    if fy % 100 or not 40_000 <= fy <= 75_000:
        raise Refused(1)
    return lambda q: max(-fy, min(fy, 87_000 * q))


def mill(*numbers):
    points = list(zip(numbers[::2], numbers[1::2]))
    pairs = list(zip(points, points[1:]))
    if not 2 <= len(points) <= 8 or points[0] != (0, 0):
        raise Refused(2)
    if any(r >= s or a > b for (r, a), (s, b) in pairs):
        raise Refused(2)
    if points[-1][0] > 100_000 or points[-1][1] > 100_000:
        raise Refused(2)

    def stress(q):
        if q < 0:
            return -stress(-q)
        x = 1_000 * q
        for (r, a), (s, b) in pairs:
            if x <= s:
                return a + (x - r) * Fraction(b - a, s - r)
        return Fraction(points[-1][1])

    return stress


LAWS = {b'block': block, b'trapezoid': trapezoid, b'yield': yielding, b'mill': mill}


def number(piece):
    """The number that a piece writes in figures, or None."""
    if not re.fullmatch(rb'[+-]?[0-9]+', piece):
        return None
    value = int(piece)
    return value if -GREATEST_I64 - 1 <= value <= GREATEST_I64 else None


def question(pieces):
    """The law, its numbers, n and m, or None."""
    if len(pieces) < 4 or pieces[0] not in LAWS or pieces[-3] != b'at':
        return None
    numbers = [number(p) for p in pieces[1:-3] + pieces[-2:]]
    if None in numbers:
        return None
    *given, n, m = numbers
    if len(given) % 2 if pieces[0] == b'mill' else len(given) != 1:
        return None
    return LAWS[pieces[0]], given, n, m


def reply(line):
    """What is printed for a line, without its line feed, or None."""
    pieces = [p for p in re.split(rb'[ \t\r]', line) if p]
    if not pieces:
        return None
    asked = question(pieces)
    if asked is None:
        return b'unreadable'
    law, given, n, m = asked
    try:
        stress = law(*given)
        if not 1 <= m <= 120_000 or n < -12_000 or n > m:
            raise Refused(3)
    except Refused as refused:
        return b'refused %d' % refused.args
    value = stress(Fraction(n, m))
    return b'%d %d' % (math.floor(value), math.ceil(value))


def replies(text):
    lines = text.split(b'\n')
    return [said for said in map(reply, lines) if said is not None]


def near(rand, edges):
    """A ratio n / m that a law answers for, at an edge or next to it."""
    m = rand.choice([1, 2, 7, 200, 1_000, 1_001, 2_150, 12_000, 119_999, 120_000, rand.randint(1, 120_000)])
    n = math.floor(rand.choice(edges) * m) + rand.choice([-1, 0, 0, 1])
    return max(-12_000, min(m, n)), m


def any_ratio(rand):
    m = rand.choice([1, 3, 120_000, rand.randint(1, 120_000), rand.randint(1, 200)])
    return rand.randint(-12_000, m), m


def refused_ratio(rand):
    far = rand.choice([0, -1, 120_001, -GREATEST_I64 - 1, GREATEST_I64, rand.randint(120_001, 10 ** 12)])
    m = rand.randint(1, 120_000)
    return rand.choice([(0, far), (1, far), (-12_001, m), (m + 1, m), (-GREATEST_I64 - 1, m), (GREATEST_I64, m)])


def strength(rand, low, high):
    return 100 * rand.randint(low // 100, high // 100)


def no_strength(rand, low, high):
    grade = strength(rand, low, high)
    return rand.choice([low - 100, high + 100, grade + 1, grade - 1, grade + 50, 0, -grade, grade + 2 ** 32,
                        GREATEST_I64, -GREATEST_I64 - 1])


def points(rand):
    """Points of a mill curve that keep the rules."""
    count = rand.randint(1, 7)
    high = rand.choice([count, 1_000, 5_000, 100_000])
    ratios = sorted(rand.sample(range(1, high + 1), count))
    stresses = sorted(rand.choice([0, 1, 60_000, 100_000, rand.randint(0, 100_000)]) for _ in range(count))
    return [(0, 0)] + list(zip(ratios, stresses))


def broken(rand):
    """Points that break one rule."""
    curve = points(rand)
    last = curve[-1]
    kind = rand.randrange(9)
    if kind == 0:
        return []
    if kind == 1:
        return [(0, 0)]
    if kind == 2:
        return [(0, 0)] + [(10 * i, 7_000 * i) for i in range(1, 9)]
    if kind == 3:
        return [rand.choice([(0, 1), (1, 0), (0, -1), (-1, 0)])] + curve[1:]
    if kind == 4:
        return curve[1:] + [(100_000, 100_000)]
    if kind == 5:
        return curve[:-1] + [(100_001, last[1])]
    if kind == 6:
        return curve[:-1] + [(last[0], 100_001)]
    at = rand.randrange(1, len(curve))
    r, a = curve[at - 1]
    if kind == 7:
        return curve[:at] + [(r, curve[at][1])] + curve[at + 1:]
    return curve[:at] + [(curve[at][0], a - 1)] + curve[at + 1:]


def figures(rand, value):
    plain = str(value)
    return rand.choice([plain] * 8 + ['+' + plain if value >= 0 else '-00' + plain[1:], '0' + plain if value >= 0 else plain])


def line_of(rand, name, given, n, m):
    pieces = [name] + [figures(rand, v) for v in given] + ['at', figures(rand, n), figures(rand, m)]
    blanks = [' '] * 12 + ['  ', '\t', ' \r ', ' \t']
    line = ''.join(p + rand.choice(blanks) for p in pieces[:-1]) + pieces[-1]
    return (rand.choice(['', '', '', ' ', '\t']) + line + rand.choice(['', '', '', '\r', ' ', '\t\r'])).encode()


def asking(rand):
    """A line that asks a question."""
    name = rand.choice(['block', 'trapezoid', 'yield', 'mill'])
    kind = rand.random()
    if name == 'mill':
        curve = points(rand) if kind < 0.7 else broken(rand)
        given = [z for point in curve for z in point]
        edges = [sign * Fraction(r, 1_000) for r, _ in curve for sign in (1, -1)] or [Fraction(0)]
    elif name == 'yield':
        given = [strength(rand, 40_000, 75_000) if kind < 0.85 else no_strength(rand, 40_000, 75_000)]
        edges = [Fraction(given[0], 87_000), Fraction(-given[0], 87_000), Fraction(0)]
    else:
        given = [strength(rand, 3_000, 10_000) if kind < 0.85 else no_strength(rand, 3_000, 10_000)]
        edges = [Fraction(1_000 - beta(given[0]), 1_000), Fraction(1, 2), Fraction(0), Fraction(1)]
    edges = [e for e in edges if abs(e) <= 200_000] or [Fraction(0)]
    n, m = rand.choice([lambda: near(rand, edges), lambda: near(rand, edges), lambda: any_ratio(rand),
                        lambda: any_ratio(rand), lambda: refused_ratio(rand)])()
    return line_of(rand, name, given, n, m)


def spoilt(rand):
    """A line that asks a question, spoilt; or one that is nothing at all."""
    line = asking(rand)
    pieces = line.split()
    at = rand.randrange(len(pieces))
    kind = rand.randrange(9)
    if kind == 0:
        del pieces[at]
    elif kind == 1:
        pieces.insert(at, rand.choice([b'at', b'1', b'x', pieces[at]]))
    elif kind == 2:
        pieces[at] = rand.choice([b'', b'+', b'-', b'+-1', b'--1', b'1-', b'1.', b'1.0', b'1e3', b'0x10', b'1_000',
                                  b'1,000', b'x', b'\xff', b'\x00', '٣'.encode(), b'1\x0b', b'\x0c1', b'#'])
    elif kind == 3:
        pieces[at] = rand.choice([b'9223372036854775808', b'-9223372036854775809', b'9' * 40, b'-' + b'9' * 40])
    elif kind == 4:
        pieces[at] = pieces[at].upper()
    elif kind == 5:
        pieces[at] = pieces[at] + rand.choice([b'x', b'\xc3', b'.', b'-', b'+'])
    elif kind == 6:
        pieces.append(rand.choice([b'1', b'at', b'x', b'at 1 2']))
    elif kind == 7:
        return rand.randbytes(rand.randrange(1, 40)).replace(b'\n', b' ')
    else:
        return rand.choice([b'at', b'at 1 2', b'block', b'block at', b'mill', b'mill at', b'# a comment', b'refused 1',
                            b'blocks 4000 at 1 2', b'bloc 4000 at 1 2', b'block 4000 at', b'block 4000 at 1',
                            b'block 4000 1 2', b'4000 at 1 2', b'block at 1 2', b'yield 60000 60000 at 1 7'])
    return b' '.join(pieces)


def blank(rand):
    return bytes(rand.choice(b' \t\r') for _ in range(rand.randrange(4)))


def random_line(rand):
    return rand.choice([asking] * 14 + [spoilt] * 4 + [blank])(rand)


def every_edge():
    """Each law at each of its edges, and each limit of what is asked."""
    lines = []
    for fc in [2_900, 2_999, 3_050, *range(3_000, 10_001, 100), 10_001, 10_100, 0, -3_000, -4_000]:
        for m in (1, 200, 1_000, 119_999, 120_000):
            edge = (1_000 - beta(fc)) * m // 1_000
            for n in (-12_000, -1, 0, 1, edge - 1, edge, edge + 1, m // 2 - 1, m // 2, m // 2 + 1, m - 1, m):
                lines += [f'block {fc} at {n} {m}', f'trapezoid {fc} at {n} {m}']
    for fy in [39_900, 39_999, 40_050, *range(40_000, 75_001, 100), 75_001, 75_100, 0, -60_000]:
        for m in (1, 7, 87_000, 120_000):
            edge = fy * m // 87_000
            for n in (-12_000, -edge - 1, -edge, 1 - edge, -1, 0, 1, edge - 1, edge, edge + 1, m):
                lines.append(f'yield {fy} at {n} {m}')
    points = [(0, 0), (10, 1), (20, 1), (30, 100), (400, 1_000), (500, 2_000), (600, 90_000), (100_000, 100_000)]
    for count in range(2, len(points) + 1):
        law = 'mill ' + ' '.join(f'{ratio} {stress}' for ratio, stress in points[:count])
        for ratio, _ in points[:count]:
            for m in (100, 1_000, 1_001, 120_000):
                edge = ratio * m // 1_000
                for n in (edge - 1, edge, edge + 1):
                    lines += [f'{law} at {n} {m}', f'{law} at {-n} {m}']
    for law in ('block 4000', 'trapezoid 4000', 'yield 60000', 'mill 0 0 690 60000 5000 80000'):
        for n, m in ((0, 0), (0, 1), (1, 1), (2, 1), (-12_000, 1), (-12_001, 1), (1, 120_000), (1, 120_001), (0, -1),
                     (120_000, 120_000), (-12_000, 120_000), (GREATEST_I64, 1), (1, GREATEST_I64),
                     (-GREATEST_I64 - 1, 1), (1, -GREATEST_I64 - 1), (1, GREATEST_I64 + 1), (-GREATEST_I64 - 2, 1)):
            lines.append(f'{law} at {n} {m}')
    return [line.encode() for line in lines]


def compare(lines, ending):
    text = b'\n'.join(lines) + ending
    run = subprocess.run([built('stress')], input=text, capture_output=True)
    assert run.returncode == 0 and run.stderr == b'', run.stderr
    assert run.stdout == b'' or run.stdout.endswith(b'\n'), run.stdout[-40:]
    given = run.stdout.split(b'\n')[:-1]
    place = 0
    for line in lines:
        said = reply(line)
        if said is not None:
            told = given[place] if place < len(given) else None
            assert told == said, f'{line!r}: {told!r} in place of {said!r}'
            place += 1
    assert place == len(given), given[place]
    return place


def main():
    if sys.argv[1:] == ['-']:
        sys.stdout.buffer.write(b''.join(said + b'\n' for said in replies(sys.stdin.buffer.read())))
        return
    rounds = int(sys.argv[1]) if len(sys.argv) > 1 else 20
    seed = int(sys.argv[2]) if len(sys.argv) > 2 else 1
    rand = random.Random(seed)
    told = compare([], b'') + compare([b''], b'\n') + compare(every_edge(), b'\n')
    for _ in range(rounds):
        told += compare([random_line(rand) for _ in range(rand.choice([1, 10, 1_000]))], rand.choice([b'\n', b'']))
    print(f'{told} replies in {rounds} rounds with seed {seed}: as the laws and the format say')


if __name__ == '__main__':
    main()
