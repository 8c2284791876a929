"""The rules of docs/RULES.md on levels and block numbers, for the scripts that write tables."""


def log2(up, n):
    k = n.bit_length() - 1
    return k + 1 if up and 1 << k != n else k


def divide(up, a, b):
    return -(-a // b) if up else a // b


def levels(w, h, mode, up):
    """pair and size of each level"""
    side = lambda n, l: max(1, divide(up, n, 1 << l))
    if mode == 0:
        return [(0, 0, w, h)]
    if mode == 1:
        return [(l, l, side(w, l), side(h, l)) for l in range(log2(up, max(w, h)) + 1)]
    return [(i, j, side(w, i), side(h, j)) for j in range(log2(up, h) + 1) for i in range(log2(up, w) + 1)]


class Blocks:
    """the blocks of a layer with one top line: `lines` where it is cut into scan lines, else None"""

    def __init__(self, y, levels, block_width, block_height, lines):
        self.y, self.levels, self.lines, self.block = y, levels, lines, (block_width, block_height)
        self.counts = [(i, j, divide(1, w, block_width), divide(1, h, block_height)) for i, j, w, h in levels]
        self.chunks = sum(across * down for _, _, across, down in self.counts)

    def place(self, number):
        """tile indices and level pair"""
        for i, j, across, down in self.counts:
            if number < across * down:
                return number % across, number // across, i, j
            number -= across * down
        return None

    def number(self, place):
        x, y, i, j = place
        before = 0
        for a, b, across, down in self.counts:
            if (a, b) == (i, j):
                return before + y * across + x if 0 <= x < across and 0 <= y < down else None
            before += across * down
        return None

    def coordinates(self, place):
        """the fields of a block's prefix but the length"""
        x, y, i, j = place
        return (x, y, i, j) if self.lines is None else (self.y + y * self.lines,)

    def find(self, fields):
        """the number that has these coordinates"""
        if (len(fields) == 1) != (self.lines is not None):
            return None
        if self.lines is None:
            return self.number(fields)
        far = fields[0] - self.y
        return None if far < 0 or far % self.lines else self.number((0, far // self.lines, 0, 0))
