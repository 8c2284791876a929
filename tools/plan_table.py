#!/usr/bin/env python3
"""Writes the table of layers that crates/plan_table replays: its stdin (plans) and its stdout (what they must print).

    tools/plan_table.py ORACLE

ORACLE is a program over the Rust crate exr 1.74.2 that answers one line for each line of requests. Asked
`layer X Y W H (s LINES | t TW TH MODE ROUNDING) ORDER TYPE:1:1 ..` it prints `validate`, the verdict of the crate's
strict `Header::validate` (ok, invalid, unsupported, panic), then chunk count, total bytes, largest block and largest file.
Where the crate accepts a layer and our rules do too, chunk count and bytes are the crate's. The number of a refusal is
that of the rules in docs/RULES.md, and the crate has to refuse the layer too unless the difference is a named one.
The file is made by hand and committed: the gate needs neither this script nor the crate.
"""
import random
import struct
import subprocess
import sys

BYTES = {0: 4, 1: 2, 2: 4}
LIMIT = 1073741823


def log2(up, n):
    k = n.bit_length() - 1
    return k + 1 if up and 1 << k != n else k


def divide(up, a, b):
    return -(-a // b) if up else a // b


def levels(w, h, mode, up):
    if mode == 0:
        return [(w, h)]
    side = lambda n, l: max(1, divide(up, n, 1 << l))
    if mode == 1:
        return [(side(w, l), side(h, l)) for l in range(log2(up, max(w, h)) + 1)]
    return [(side(w, x), side(h, y)) for y in range(log2(up, h) + 1) for x in range(log2(up, w) + 1)]


class Layer:
    def __init__(self, x, y, w, h, order, types, lines=None, tile=None):
        self.x, self.y, self.w, self.h, self.order, self.types = x, y, w, h, order, types
        self.lines, self.tile = lines, tile

    def words(self):
        blocks = f's {self.lines}' if self.tile is None else 't {} {} {} {}'.format(*self.tile)
        types = ' '.join(f'{t}:1:1' for t in self.types) if len(self.types) < 9 else f'{len(self.types)} channels'
        return f'{self.x} {self.y} {self.w} {self.h} {blocks} {self.order} {types}'.strip()

    def plan(self):
        out = b''.join(b'C' + bytes([t]) for t in self.types)
        window = struct.pack('<iiII', self.x, self.y, self.w, self.h)
        if self.tile is None:
            return out + b'S' + window + struct.pack('<HB', self.lines, self.order)
        return out + b'T' + window + struct.pack('<IIBBB', *self.tile, self.order)

    def refusal(self):
        """the first rule that is broken, 0 where none is"""
        for p, n in ((self.x, self.w), (self.y, self.h)):
            if p + n >= LIMIT or p <= -LIMIT:
                return 5
        if self.tile is None and self.order == 2:
            return 6
        if 0 in (self.w, self.h):
            return 7
        if self.tile is None and self.lines not in (1, 16, 32, 256):
            return 8
        if self.tile is not None and not all(1 <= t <= 2147483647 for t in self.tile[:2]):
            return 8
        return 9 if not self.types else 0

    def count(self):
        bw, bh, mode, up = (self.w, self.lines, 0, 0) if self.tile is None else self.tile
        ls = levels(self.w, self.h, mode, up)
        chunks = sum(divide(1, w, bw) * divide(1, h, bh) for w, h in ls)
        return chunks, sum(w * h for w, h in ls) * sum(BYTES[t] for t in self.types)


def named_difference(layer):
    """what the crate lets pass and we refuse, or cannot say at all"""
    tile = layer.tile and not all(1 <= t <= 2147483647 for t in layer.tile[:2])
    lines = layer.tile is None and layer.lines not in (1, 16, 32, 256)
    return tile or lines or (0 in (layer.w, layer.h) and (layer.w, layer.h) != (0, 0))


def expected(layer, answer):
    letter = 'S' if layer.tile is None else 'T'
    lines = [f'C ok {i + 1}' for i in range(len(layer.types))]
    number = layer.refusal()
    if number == 0:
        verdict, chunks, total = answer.split()[1:4]
        assert verdict == 'ok', (layer.words(), answer)
        mine = layer.count()
        assert chunks == str(mine[0]), (layer.words(), answer, mine)
        if mine[1] < 1 << 64:
            assert total == str(mine[1]), (layer.words(), answer, mine)
            return lines + [f'{letter} ok {chunks} {total}']
        assert total == 'panic', (layer.words(), answer, mine)
        number = 19
    elif not named_difference(layer):
        assert answer.split()[1] in ('invalid', 'unsupported'), (layer.words(), answer, number)
    return lines + [f'{letter} no {number}']


def table():
    rng = random.Random(1742)
    out = []
    near = sorted({max(1, 2 ** k + d) for k in range(0, 30) for d in (-1, 0, 1)})
    far = [1073741821, 1073741822, 1073741823, 1073741824, 2147483647, 2147483648, 4294967295]
    modes = [(m, r) for m in (0, 1, 2) for r in (0, 1)]
    # every mode and rounding of a small layer, and of each side near a power of two
    for m, r in modes:
        for order in (0, 1, 2):
            out.append(Layer(0, 0, 5, 3, order, [1], tile=(2, 2, m, r)))
    for i, n in enumerate(near):
        m, r = modes[i % 6]
        out.append(Layer(0, 0, n, 1 + i % 7, 0, [1], tile=(64, 64, m, r)))
        m, r = modes[(i + 3) % 6]
        out.append(Layer(-5, 7, 1 + i % 5, n, 1, [0, 2], tile=(3, 1 + i % 4, m, r)))
    # lines, good and not, and heights around them
    for lines in (1, 16, 32, 256):
        for h in sorted({1, lines - 1, lines, lines + 1, 2 * lines, 2 * lines + 1} - {0}):
            out.append(Layer(3, -9, 11, h, h % 2, [2], lines=lines))
    for lines in (0, 2, 15, 17, 31, 33, 64, 255, 257, 65535):
        out.append(Layer(0, 0, 4, 4, 0, [1], lines=lines))
    # the window's limits, on both axes
    for n in far:
        out.append(Layer(0, 0, n, 1, 0, [1], lines=16))
        out.append(Layer(0, 0, 1, n, 0, [1], tile=(1073741822, 2147483647, 2, 1)))
    for p, n in ((-1073741822, 2147483643), (-1073741822, 2147483644), (-1073741822, 2147483645), (-1073741823, 1),
                 (-2147483648, 1), (1073741821, 1), (1073741822, 1), (2147483647, 1), (-1, 1073741823), (-1, 1073741824)):
        out.append(Layer(p, 0, n, 1, 0, [1], lines=1))
        out.append(Layer(0, p, 1, n, 0, [1], tile=(1, 2147483647, 1, 1)))
    # the longest sides, both roundings, every mode
    for m, r in modes:
        out.append(Layer(-1073741822, -1073741822, 2147483644, 1, 2, [1], tile=(4096, 1, m, r)))
        out.append(Layer(-1073741822, -1073741822, 1, 2147483644, 2, [0], tile=(1, 4096, m, r)))
        out.append(Layer(-1073741822, -1073741822, 2147483644, 2147483644, 2, [1], tile=(65536, 65536, m, r)))
        out.append(Layer(-1073741822, -1073741822, 2147483644, 2147483644, 2, [1, 2], tile=(65536, 65536, m, r)))
    # order, sides of 0, tile sides, no channels
    for order in (0, 1, 2):
        out.append(Layer(0, 0, 5, 3, order, [1], lines=1))
    for w, h in ((0, 0), (0, 5), (5, 0)):
        out.append(Layer(0, 0, w, h, 0, [1], lines=1))
        out.append(Layer(0, 0, w, h, 0, [1], tile=(2, 2, 1, 0)))
    for t in (0, 1, 2147483647, 2147483648, 4294967295):
        out.append(Layer(0, 0, 5, 3, 0, [1], tile=(t, 2, 0, 0)))
        out.append(Layer(0, 0, 5, 3, 0, [1], tile=(2, t, 2, 1)))
    out.append(Layer(0, 0, 5, 3, 0, [], lines=1))
    out.append(Layer(0, 0, 5, 3, 0, [], tile=(2, 2, 0, 0)))
    out.append(Layer(0, 0, 5, 3, 0, [0, 1, 2, 1], tile=(2, 2, 2, 1)))
    # several rules broken at once: the least number is told
    out.append(Layer(1073741823, 0, 0, 3, 2, [], lines=7))
    out.append(Layer(0, 0, 0, 3, 2, [], lines=7))
    out.append(Layer(0, 0, 0, 3, 0, [], lines=7))
    out.append(Layer(0, 0, 5, 3, 0, [], lines=7))
    # random layers
    for _ in range(160):
        side = lambda: rng.choice([rng.randint(1, 40), rng.randint(1, 5000), rng.choice(near)])
        x, y = rng.randint(-1000, 1000), rng.randint(-1000, 1000)
        types = [rng.randint(0, 2) for _ in range(rng.randint(1, 4))]
        if rng.random() < 0.25:
            out.append(Layer(x, y, side(), side(), rng.randint(0, 1), types, lines=rng.choice((1, 16, 32, 256))))
        else:
            tile = (rng.randint(1, 300), rng.randint(1, 300), rng.randint(0, 2), rng.randint(0, 1))
            out.append(Layer(x, y, side(), side(), rng.randint(0, 2), types, tile=tile))
    return out


def main():
    layers = table()
    asked = ''.join(f'layer {l.words()}\n' for l in layers)
    answers = subprocess.run([sys.argv[1]], input=asked, capture_output=True, text=True).stdout.split('\n')
    with open('crates/plan_table/stdin', 'w') as plans, open('crates/plan_table/stdout', 'w') as printed:
        def write(layer, told):
            plans.write(f'# {layer.words()}\n{layer.plan().hex()}\n')
            printed.write(f'# {layer.words()}\n' + '\n'.join(told) + '\n')

        for layer, answer in zip(layers, answers[:-1], strict=True):
            write(layer, expected(layer, answer))
        # 1,024 channels are kept, and the next is refused
        told = [f'C ok {i + 1}' for i in range(1024)] + ['C no 9', f'S ok 3 {15 * 2 * 1024}']
        write(Layer(0, 0, 5, 3, 0, [1] * 1025, lines=1), told)
    print(len(layers) + 1, 'layers')


main()
