"""The blocks of a map: squares of the least side with no more blocks than wished, and scopes."""


class Squares:
    def __init__(self, grid, wish):
        self.grid = grid
        self.side = next(s for s in range(1, 2049)
                         if -(-grid.width // s) * -(-grid.height // s) <= wish)
        self.columns = -(-grid.width // self.side)
        self.count = self.columns * -(-grid.height // self.side)
        self.scopes = [{b} for b in range(self.count)]
        for y, row in enumerate(grid.rows):
            for x, byte in enumerate(row):
                for ax, ay in ((x + 1, y), (x, y + 1)):
                    if byte != ord("@") and grid.has(ax, ay) and grid.rows[ay][ax] == byte:
                        one, other = self.block(x, y), self.block(ax, ay)
                        self.scopes[one].add(other)
                        self.scopes[other].add(one)

    def block(self, x, y):
        return y // self.side * self.columns + x // self.side

    def corner(self, b):
        """The left upper cell, and how many columns and rows of cells the block has."""
        x, y = b % self.columns * self.side, b // self.columns * self.side
        return x, y, min(self.side, self.grid.width - x), min(self.side, self.grid.height - y)

    def interferes(self, one, other):
        return one != other and bool(self.scopes[one] & self.scopes[other])
