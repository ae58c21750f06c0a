#!/usr/bin/env python3
"""Measures `stress` law by law: microseconds of processor time a line, and megabytes of memory at most.

  tools/bench_stress.py

Build the program first: `rt run < stdin` in crates/stress. A line is read, answered and written; those of the column `unreadable` ask
nothing, so what a law's answer costs is less than its column's excess over that one. Memory should about double from row to row,
and time a line stay as it is.
"""
import os
import random
import tempfile

from measuring import measure

LAWS = {
    'unreadable': 'none 4000',
    'block': 'block 4000',
    'trapezoid': 'trapezoid 4000',
    'yield': 'yield 60000',
    'mill of 2': 'mill 0 0 690 60000',
    'mill of 8': 'mill 0 0 10 1 20 1 30 100 400 1000 500 2000 600 90000 100000 100000',
}


def main():
    rand = random.Random(1)
    print(f"{'lines':>8}" + ''.join(f'{law:>12}' for law in LAWS) + f"{'MB':>6}")
    with tempfile.TemporaryDirectory() as folder:
        source, target = (os.path.join(folder, n) for n in ('source', 'target'))
        for lines in (50_000, 100_000, 200_000):
            row, most = '', 0
            for law in LAWS.values():
                with open(source, 'w') as f:
                    for _ in range(lines):
                        m = rand.randint(1, 120_000)
                        f.write(f'{law} at {rand.randint(-12_000, m)} {m}\n')
                seconds, megabytes = measure('stress', source, target)
                row += f'{1e6 * seconds / lines:12.2f}'
                most = max(most, megabytes)
            print(f'{lines:8}{row}{most:6.0f}')


if __name__ == '__main__':
    main()
