#!/usr/bin/env python3
"""Measures questions about blocks with the program of crates/block_table, in nanoseconds for each block or call.

    (cd crates/block_table && rt run >/dev/null) && tools/bench.py crates/block_table/out/block_table

A question is asked so often that a run takes about a second; the time of a run that asks nothing is taken off it, and the
least of seven runs is told. docs/SPEED.md has figures.
"""
import subprocess
import sys
import time

# layer words (X Y W H LINES [TW TH MODE ROUNDING] ORDER), question, how many blocks one repetition goes through
WORK = [
    ('0 0 16384 16384 1 64 64 0 0 0', 'count', 1),
    ('0 0 16384 16384 1 64 64 1 0 0', 'count', 1),
    ('0 0 16384 16384 1 64 64 2 0 0', 'count', 1),
    ('0 0 16384 16384 1 64 64 2 1 0', 'count', 1),
    ('0 0 16384 16384 1 32 32 1 0 0', 'enumerate', 349530),
    ('0 0 16384 16384 1 32 32 1 0 1', 'enumerate', 349530),
    ('0 0 512 512 1 32 32 1 0 0', 'enumerate', 346),
    ('0 0 16384 16384 1 0', 'enumerate', 16384),
    ('0 0 16384 16384 1 1', 'enumerate', 16384),
    ('0 0 16384 16384 16 0', 'enumerate', 1024),
    ('0 0 16384 16384 1 32 32 1 0 0', 'tiles', 1),
    ('0 0 16383 16383 1 33 31 1 1 0', 'tiles', 1),
    ('0 0 16384 16384 16 0', 'tiles', 1),
    ('0 0 16384 16384 1 32 32 1 0 0', 'bounds', 1),
    ('0 0 16384 16384 1 64 64 2 0 0', 'bounds', 1),
    ('0 0 16384 16384 1 32 32 1 0 0', 'lookups', 1),
    ('0 0 16384 16384 16 0', 'lookups', 1),
]


def seconds(program, layer, question, times):
    asked = f'layer {layer}\nrepeat {question} {times}\n'
    best = None
    for _ in range(7):
        start = time.perf_counter()
        subprocess.run([program], input=asked, text=True, capture_output=True, check=True)
        took = time.perf_counter() - start
        best = took if best is None else min(best, took)
    return best


def main():
    program = sys.argv[1]
    for layer, question, blocks in WORK:
        times = 1024
        while seconds(program, layer, question, times // blocks + 1) < 0.2:
            times *= 4
        rounds = 4 * (times // blocks + 1)
        per = (seconds(program, layer, question, rounds) - seconds(program, layer, question, 0)) / (rounds * blocks)
        print(f'{question:10} {layer:34} {per * 1e9:10.1f} ns', flush=True)


main()
