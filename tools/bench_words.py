#!/usr/bin/env python3
"""Measures `decode` and `encode` on streams of 1 to 16 MB: seconds of processor time and megabytes of memory at most.

  tools/bench_words.py

Build the programs first: `rt run < stdin` in crates/decode and in crates/encode. Time and memory should about double from row to row.
"""
import os
import random
import struct
import tempfile

from measuring import measure


def main():
    rand = random.Random(1)
    kinds = [1, 2, 4, 5, 6]
    print('stream MB  decode s  decode MB  encode s  encode MB')
    with tempfile.TemporaryDirectory() as folder:
        stream, text, back = (os.path.join(folder, n) for n in ('stream', 'text', 'back'))
        for megabytes in (1, 2, 4, 8, 16):
            with open(stream, 'wb') as f:
                for _ in range(megabytes * 250_000):
                    f.write(struct.pack('>I', rand.choice(kinds) << 28 | rand.getrandbits(28)))
            d, dm = measure('decode', stream, text)
            e, em = measure('encode', text, back)
            with open(stream, 'rb') as a, open(back, 'rb') as b:
                assert a.read() == b.read()
            print(f'{megabytes:9}  {d:8.2f}  {dm:9.0f}  {e:8.2f}  {em:9.0f}')


if __name__ == '__main__':
    main()
