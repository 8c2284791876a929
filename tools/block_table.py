#!/usr/bin/env python3
"""Writes the table that crates/block_table replays: its stdin (layers, and questions about their blocks) and its stdout.

    tools/block_table.py ORACLE

ORACLE is a program over the Rust crate exr 1.74.2 that answers one line for each line of requests: `layer` (chunk count),
`blocks` (the enumeration), `abs` and `win` (bounds of a tile in its level and in the plane), `liney` (row of a line) and
`cwrite` (the bytes of tile coordinates), each on `X Y W H (s LINES | t TW TH MODE ROUNDING) ORDER [comp=..] CHANNEL`.

Bounds, rows and chunk counts are the crate's, and so is the enumeration of layers of at most 120 blocks, to which the
numbering that is used everywhere here is held. Where we part from it on purpose (docs/DIFFERENCES.md)
the expected line follows docs/RULES.md: the size of a block is that of its bounds, Decreasing keeps levels and columns
rising, a level pair that the layer lacks is refused, and so is a line above the layer. Prefix bytes are packed here from
a block's coordinates by the File Layout; those of tiles are held to the crate's own writing.
The files are committed: the gate needs neither this script nor the crate.
"""
import random
import struct
import subprocess
import sys

from numbering import Blocks, levels

COMPRESSION = {1: 'none', 16: 'zip16', 32: 'piz', 256: 'dwab'}
MOST = 2147483647


class Oracle:
    def __init__(self, path):
        self.process = subprocess.Popen([path, '-f'], stdin=subprocess.PIPE, stdout=subprocess.PIPE, text=True, bufsize=1)

    def ask(self, line):
        self.process.stdin.write(line + '\n')
        self.process.stdin.flush()
        return self.process.stdout.readline().rstrip('\n')


class Layer(Blocks):
    def __init__(self, x, y, w, h, lines, order, tile=None):
        self.x, self.w, self.h, self.per_block, self.order, self.tile = x, w, h, lines, order, tile
        if tile is None:
            super().__init__(y, levels(w, h, 0, 0), w, lines, lines)
        else:
            super().__init__(y, levels(w, h, tile[2], tile[3]), tile[0], tile[1], None)

    def words(self):
        tile = () if self.tile is None else self.tile
        return ' '.join(map(str, (self.x, self.y, self.w, self.h, self.per_block, *tile, self.order)))

    def crate(self, order=None):
        """the layer as the oracle reads it"""
        blocks = f's {self.per_block}' if self.tile is None else 't {} {} {} {}'.format(*self.tile)
        order = self.order if order is None else order
        return f'{self.x} {self.y} {self.w} {self.h} {blocks} {order} comp={COMPRESSION[self.per_block]} 1:1:1'


class Table:
    def __init__(self, oracle):
        self.oracle, self.asked, self.told = oracle, [], []

    def add(self, question, *answers):
        self.asked.append(question)
        self.told.extend(answers)

    def bounds(self, layer, kind, place):
        """what the rules make of the crate's answer"""
        x, y, i, j = place
        if layer.tile is not None and max(i, j) > 63:
            return 'no 3 4'
        if (i, j) not in {(a, b) for a, b, _, _ in layer.levels}:
            return 'no 15 4'
        told = self.oracle.ask(f'{kind} {layer.crate()} | {x} {y} {i} {j}')
        return 'no 15 5' if told in ('err', 'panic') else told

    def layer(self, layer):
        self.here = layer
        told = self.oracle.ask(f'layer {layer.crate()}').split()
        assert told[1] == 'ok', (layer.words(), told)
        self.chunks = int(told[2])
        assert self.chunks == layer.chunks, layer.words()
        self.add('layer ' + layer.words(), f'layer {layer.words()}: {self.chunks}')

    def all(self):
        layer = self.here
        rising = []
        for entry in self.oracle.ask(f'blocks {layer.crate(0)}').split():
            number, place = entry.split(':')
            place = tuple(map(int, place.split(',')))[:4]
            assert layer.place(int(number)) == place and layer.number(place) == int(number), (layer.words(), entry)
            size = self.bounds(layer, 'abs', place).split()[2:]
            rising.append((int(number), place, size))
        assert [n for n, _, _ in rising] == list(range(self.chunks))
        if layer.order == 1:
            pairs = [(i, j) for i, j, _, _ in layer.levels]
            rising.sort(key=lambda b: (pairs.index(b[1][2:]), -b[1][1], b[1][0]))
        ends, turn = list(rising), []
        while ends:
            turn.append((ends.pop(0), len(ends)))
            if ends:
                turn.append((ends.pop(), len(ends)))
        self.add('all',
                 ''.join(f'{n}:{",".join(map(str, p))},{",".join(s)} ' for n, p, s in rising),
                 ''.join(f'{b[0]}/{left} ' for b, left in turn))

    def block(self, number):
        place = self.here.place(number)
        if place is None:
            self.add(f'block {number}', 'no 23 3', 'no 23 3')
        else:
            self.add(f'block {number}', str(number), self.bounds(self.here, 'abs', place))

    def pixels(self, place):
        for kind in ('abs', 'win'):
            self.add(f'{kind} {" ".join(map(str, place))}', self.bounds(self.here, kind, place))

    def row(self, y):
        far = y - self.here.y
        told = self.oracle.ask(f'liney {self.here.crate()} | {y}')
        if not -MOST - 1 <= far <= MOST:
            assert told == 'err', (self.here.words(), y, told)
            told = 'no 17 8'
        elif far < 0:
            told = 'no 18 8'
        self.add(f'row {y}', told)

    def find(self, *fields):
        number = self.here.find(fields)
        self.add('find ' + ' '.join(map(str, fields)), 'no 21 5' if number is None else str(number))

    def repeat(self):
        """the questions that are measured, asked a few times: sums of counts, of numbers and widths, of widths, of numbers"""
        layer, chunks = self.here, self.chunks
        bw = layer.block[0]
        widths = []
        for number in range(chunks):
            x, _, i, j = layer.place(number)
            w = next(w for a, b, w, _ in layer.levels if (a, b) == (i, j))
            widths.append(min(bw, w - x * bw))
        sample = lambda i: i % chunks if chunks <= 1024 else i % 1024 * (chunks // 1024)
        self.add('repeat count 3', str(3 * chunks))
        self.add('repeat enumerate 2', str(2 * (sum(range(chunks)) + sum(widths))))
        self.add('repeat bounds 50', str(sum(widths[sample(i)] for i in range(50))))
        self.add('repeat tiles 2050', str(2 * sum(widths[sample(i)] for i in range(1024))))
        self.add('repeat lookups 50', str(sum(sample(i) for i in range(50))))

    def prefix(self, number, length, room):
        layer, buffer = self.here, bytearray(b'\xaa' * min(room, 24))
        size = 8 if layer.tile is None else 20
        place = layer.place(number)
        if len(buffer) < size:
            answer = 'no 20 5'
        elif place is None:
            answer = 'no 23 3'
        elif length > MOST:
            answer = 'no 28 5'
        else:
            fields = layer.coordinates(place)
            buffer[:size] = struct.pack(f'<{len(fields) + 1}i', *fields, length)
            if layer.tile is not None:
                assert buffer[:16].hex() == self.oracle.ask('cwrite {} {} {} {}'.format(*fields)), (layer.words(), fields)
            answer = str(size)
        read = 'no 20 5' if answer != str(size) else f'{length} {number}'
        self.add(f'prefix {number} {length} {room}', answer, buffer.hex(), read)


def questions(table, layer, rng):
    table.layer(layer)
    last = table.chunks - 1
    if table.chunks <= 120:
        table.all()
        table.repeat()
    for number in sorted({0, 1, last // 2, max(last - 1, 0), last, last + 1, rng.randint(0, last)}):
        table.block(number)
    places = [layer.place(rng.randint(0, last)) for _ in range(3)] + [layer.place(last)]
    for x, y, i, j in places:
        table.pixels((x, y, i, j))
        fields = layer.coordinates((x, y, i, j))
        table.find(*fields)
        table.find(*[f + d for f, d in zip(fields, (1, -1, 1, -1))])
    x, y, i, j = places[-1]
    for place in ((x + 1, y, i, j), (x, y + 1, i, j), (0, 0, i + 1, j), (0, 0, 0, 1), (0, 0, 1, 1), (0, 0, 63, 0),
                  (0, 0, 0, 64), (0, 0, 1 << 40, 0), (1 << 40, 0, 0, 0), (0, 1 << 62, 0, 0)):
        table.pixels(place)
    for line in (layer.y - 1, layer.y, layer.y + layer.per_block - 1, layer.y + layer.per_block, layer.y + layer.h, -MOST - 1, MOST):
        table.row(line)
        table.find(line)
    table.find(-1, 0, 0, 0)
    table.find(0, -1, 0, 0)
    table.find(0, 0, -1, 0)
    table.find(0, 0, 0, 32)
    table.find(MOST, MOST, MOST, MOST)
    table.prefix(last, 0, 24)
    table.prefix(0, MOST, 20)
    table.prefix(rng.randint(0, last), rng.randint(0, MOST), 23)
    table.prefix(last + 1, MOST + 1, 24)
    table.prefix(0, MOST + 1, 24)
    table.prefix(last + 1, 5, 7)
    table.prefix(0, 5, 19)
    table.prefix(0, 5, 8)


def layers(rng):
    for mode in (0, 1, 2):
        for up in (0, 1):
            yield Layer(0, 0, 5, 3, 1, mode % 2, (2, 2, mode, up))
    yield Layer(0, 0, 5, 3, 1, 1, (2, 2, 1, 0))
    yield Layer(0, 0, 5, 3, 16, 2, (2, 2, 2, 0))
    for lines in (1, 16, 32, 256):
        for h in sorted({1, lines, lines + 1, 2 * lines + 1}):
            yield Layer(-3, 10 - h, 7, h, lines, h % 2)
    yield Layer(0, 10, 1, 33, 32, 1)
    yield Layer(-7, -1073741822, 3, 2147483644, 256, 1)
    yield Layer(1073741820, 1073741820, 2, 2, 1, 0)
    yield Layer(-1073741822, -1073741822, 2147483644, 2147483644, 32, 1, (65536, 2147483647, 2, 1))
    yield Layer(-1073741822, 0, 2147483644, 5, 256, 2, (1, 1, 1, 0))
    yield Layer(0, 0, 1, 1, 1, 2, (2147483647, 2147483647, 2, 1))
    for _ in range(26):
        side = lambda: rng.choice([rng.randint(1, 9), rng.randint(1, 70), rng.randint(1, 3000)])
        x, y, lines = rng.randint(-500, 500), rng.randint(-500, 500), rng.choice((1, 16, 32, 256))
        if rng.random() < 0.25:
            yield Layer(x, y, side(), side(), lines, rng.randint(0, 1))
        else:
            tile = (rng.randint(1, 80), rng.randint(1, 80), rng.randint(0, 2), rng.randint(0, 1))
            yield Layer(x, y, side(), side(), lines, rng.randint(0, 2), tile)


def main():
    rng = random.Random(1743)
    table = Table(Oracle(sys.argv[1]))
    for layer in layers(rng):
        questions(table, layer, rng)
    for name, lines in (('stdin', table.asked), ('stdout', table.told)):
        with open(f'crates/block_table/{name}', 'w') as out:
            out.write('\n'.join(lines) + '\n')
    print(len(table.asked), 'lines asked,', len(table.told), 'told')


main()
