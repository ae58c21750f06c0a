#!/usr/bin/env python3
"""Tries `decode` and `encode` on random streams against a second implementation of the formats, written here in Python.

  tools/try_words.py [ROUNDS] [SEED]

Build the programs first: `rt run < stdin` in crates/decode and in crates/encode. Each round makes a stream of random words, most of them readable, and
zero to three loose bytes, and checks the listing byte for byte; then that `encode` gives a readable stream back from its
listing, with the indices and without, and refuses the listing of any other and writes nothing.
"""
import random
import struct
import subprocess
import sys

from built import program as built

NUMBERS = [3, 4, 5, 6, 7, 8, 9, 10, 11, 14, 18]


def entry(word):
    """The line of the entry that a word stands for, or None."""
    kind, upper, lower, whole = word >> 28, word >> 14 & 0x3fff, word & 0x3fff, word & 0xfffffff
    if kind == 1:
        return f'open fc {upper * 100} fy {lower * 100}'
    if kind == 2:
        return f'lay thickness {upper} width {lower}'
    if kind == 3 and word >> 24 & 15 == 0 and word >> 20 & 15 <= 10:
        return f'place bar {NUMBERS[word >> 20 & 15]} count {upper & 63} depth {lower}'
    if kind == 4:
        return f'lift row {whole}'
    if kind == 5:
        return f'axial pu {whole - (whole >> 27 << 28)}'
    if kind == 6:
        return f'moment member {whole >> 26} mu {whole & 0x3ffffff}'
    if kind == 7 and whole == 0:
        return 'solve'
    return None


def listing(stream):
    count = len(stream) // 4
    lines = []
    for i, (word,) in enumerate(struct.iter_unpack('>I', stream[:4 * count])):
        said = entry(word)
        lines.append(f'{i} {said}' if said else f'refused 13 at {i}')
    if len(stream) % 4:
        lines.append(f'refused 15 at {count}')
    return ''.join(line + '\n' for line in lines).encode()


def run(program, data):
    return subprocess.run([built(program)], input=data, capture_output=True)


def random_word(rand):
    kind = rand.choice([1, 2, 3, 3, 4, 5, 6, 7, 7, rand.randrange(16)])
    word = kind << 28 | rand.getrandbits(28)
    if kind == 3 and rand.random() < 0.8:
        word &= ~(15 << 24)
    if kind == 7 and rand.random() < 0.8:
        word = 7 << 28
    return word


def pack(words):
    return b''.join(struct.pack('>I', w) for w in words)


def main():
    rounds = int(sys.argv[1]) if len(sys.argv) > 1 else 200
    seed = int(sys.argv[2]) if len(sys.argv) > 2 else 1
    rand = random.Random(seed)
    for number in range(rounds):
        words = [random_word(rand) for _ in range(rand.choice([0, 1, 2, 3, 10, 200]))]
        stream = pack(words) + rand.randbytes(rand.choice([0, 0, 1, 2, 3]))
        listed = run('decode', stream)
        assert listed.returncode == 0 and listed.stdout == listing(stream), f'round {number}: decode'
        back = run('encode', listed.stdout)
        if len(stream) % 4 == 0 and all(entry(w) for w in words):
            assert back.returncode == 0 and back.stdout == stream and back.stderr == b'', f'round {number}: encode'
        else:
            assert back.returncode == 1 and back.stdout == b'' and b'line ' in back.stderr, f'round {number}: refusal'
        readable = [w for w in words if entry(w)]
        plain = ''.join(entry(w) + '\n' for w in readable).encode()
        back = run('encode', plain)
        assert back.returncode == 0 and back.stdout == pack(readable), f'round {number}: encode without indices'
    print(f'{rounds} rounds with seed {seed}: as the formats say')


if __name__ == '__main__':
    main()
