"""What a text of triplets or of pairs lists, and what of it keeps a line or a plane, point by point, in exact fractions."""
import functools
import itertools
import math
import re
from fractions import Fraction

from arithmetic import combined, dot, times

PARTS = 48


def reduced(v):
    """The vector modulo the cell edges."""
    return tuple(x % 1 for x in v)


class Listing:
    """The operations of a text, each once modulo the lattice, and the vectors of the lattice modulo the cell edges.

    The kind says how an operation is read: in three letters, or in two.
    """

    def __init__(self, kind, given):
        size = range(len(kind.letters))
        unit = tuple(tuple(int(i == j) for j in size) for i in size)
        listed, vectors = [], []
        for line in given.splitlines():
            line = re.sub(r"^\s*\(\d+\)", "", line.partition("#")[0]).strip()
            if line.startswith("("):
                vectors += [tuple(map(Fraction, words.split(","))) for words in re.findall(r"\(([^)]*)\)", line)]
            elif line:
                listed.append(kind.read(line))
        vectors += [vector for matrix, vector in listed if matrix == unit]
        self.residues = new = {tuple(Fraction(0) for _ in size)}
        while new:
            new = {reduced(combined((1, v), (1, w))) for v in new for w in vectors} - self.residues
            self.residues = self.residues | new
        self.operations = []
        for matrix, vector in listed:
            if not any(matrix == other and self.holds(combined((1, vector), (-1, w))) for other, w in self.operations):
                self.operations.append((matrix, vector))

    def holds(self, v):
        """Whether the vector is in the lattice."""
        return reduced(v) in self.residues

    @functools.cache
    def period(self, row):
        """The least positive height of a lattice vector."""
        heights = [dot(row, v) for v in self.residues]
        parts = math.lcm(*(Fraction(height).denominator for height in heights))
        return Fraction(math.gcd(*(int(height * parts) for height in heights), *(x * parts for x in row)), parts)

    @functools.cache
    def level(self, row):
        """The operations that take points of one height to points of one, and by how much each raises those at 0 and at 1."""
        found = []
        for matrix, vector in self.operations:
            rises = [{dot(row, times(matrix, point)) + dot(row, vector) - height for point in points(row, height)} for height in (0, 1)]
            if all(len(rise) == 1 for rise in rises):
                found.append((matrix, vector, *(rise.pop() for rise in rises)))
        return found

    def keeping(self, row, *heights):
        """The operations that, moved by a lattice vector, keep each line or plane of these heights, and by how much each raises them."""
        period = self.period(row)
        for matrix, vector, bottom, top in self.level(row):
            rises = {bottom + height * (top - bottom) for height in heights}
            if len(rises) == 1 and (rise := rises.pop()) % period == 0:
                yield matrix, vector, rise

    def keeping_all(self, row):
        """The same of all heights: what keeps two parallel lines or planes keeps them all."""
        return self.keeping(row, 0, 1)

    def special_heights(self, row):
        """The heights from 0 to below the period that more operations keep."""
        always = len([*self.keeping_all(row)])
        heights = (Fraction(k, 2 * PARTS) for k in range(int(2 * PARTS * self.period(row))))
        return [height for height in heights if len([*self.keeping(row, height)]) > always]


def points(row, height):
    """Points of a line or plane that span it."""
    foot = tuple(Fraction(height * x, dot(row, row)) for x in row)
    yield foot
    for i, j in itertools.combinations(range(len(row)), 2):
        step = [0] * len(row)
        step[i], step[j] = row[j], -row[i]
        yield combined((1, foot), (1, step))
