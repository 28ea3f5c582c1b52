"""Exact arithmetic of vectors and matrices, the bounded matrices in their order, and the script with the types beside this file."""
import importlib.machinery
import importlib.util
import itertools
import pathlib
import sys
from fractions import Fraction


def closures():
    """The script of that name beside this file."""
    loader = importlib.machinery.SourceFileLoader("closures", str(pathlib.Path(__file__).resolve().parent / "closures"))
    module = importlib.util.module_from_spec(importlib.util.spec_from_loader("closures", loader))
    sys.dont_write_bytecode = True
    loader.exec_module(module)
    return module


def times(matrix, vector):
    return tuple(sum(entry * x for entry, x in zip(row, vector)) for row in matrix)


def product(p, q):
    """The product of two matrices of two rows."""
    (a, b), (c, d) = p
    (e, f), (g, h) = q
    return (a * e + b * g, a * f + b * h), (c * e + d * g, c * f + d * h)


def determinant(p):
    return p[0][0] * p[1][1] - p[0][1] * p[1][0]


def combined(*terms):
    """The sum of multiples of vectors."""
    return tuple(sum(k * v[i] for k, v in terms) for i in range(len(terms[0][1])))


def cross(v, w):
    return v[1] * w[2] - v[2] * w[1], v[2] * w[0] - v[0] * w[2], v[0] * w[1] - v[1] * w[0]


def dot(v, w):
    return sum(x * y for x, y in zip(v, w))


def coordinates(a, b, c, v):
    """The three numbers by which v is a combination of a, b and c."""
    rows = cross(b, c), cross(c, a), cross(a, b)
    return tuple(Fraction(dot(row, v)) / dot(rows[2], c) for row in rows)


def text(v):
    return ",".join(map(str, v))


def matrices():
    """The bounded matrices in their order: the least sum of sizes first, and then the greatest entries."""
    entries = sorted(itertools.product(range(-2, 3), repeat=4), key=lambda e: (sum(map(abs, e)), [-x for x in e]))
    return [((e[0], e[1]), (e[2], e[3])) for e in entries]


def partners(found, kept, p):
    """Each operation (A, e, t) of a section with that of a type for which A P = P A', where all have one.

    The type has under A' and e what goes with them. The determinant of P is not 0.
    """
    det = determinant(p)
    back = ((p[1][1], -p[0][1]), (-p[1][0], p[0][0]))
    made = []
    for a, sign, t in found:
        inner = product(product(back, a), p)
        if any(x % det for row in inner for x in row):
            return None
        partner = kept.get((tuple(tuple(x // det for x in row) for row in inner), sign))
        if partner is None:
            return None
        made.append((a, sign, t, partner))
    return made if len(made) == len(kept) else None
