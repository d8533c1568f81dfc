"""Each decomposition of the library against the meaning that it has to have: all solutions, counted out here."""

from dataclasses import dataclass
from itertools import product
from typing import Callable, Dict, List, Tuple

Range = Tuple[int, int]


@dataclass
class Table:
    """A constraint over variables with these ranges, and when numbers meet it; a range (0, 1) may name a Boolean."""

    name: str
    constraint: str
    ranges: Dict[str, Range]
    holds: Callable[..., bool]
    booleans: Tuple[str, ...] = ()

    def model(self) -> str:
        kinds = {name: f"{low}..{high}" for name, (low, high) in self.ranges.items()}
        kinds.update(dict.fromkeys(self.booleans, "bool"))
        declared = " ".join(f"var {kind}: {name};" for name, kind in kinds.items())
        return f'include "globals.mzn"; {declared} constraint {self.constraint};'

    def solutions(self) -> List[Tuple[int, ...]]:
        values = [range(low, high + 1) for low, high in self.ranges.values()]
        return sorted(numbers for numbers in product(*values) if self.holds(*numbers))


def quotient(a: int, b: int) -> int:
    return abs(a) // abs(b) * (1 if (a < 0) == (b < 0) else -1)


def power(base: int, exponent: int) -> int:
    return base**exponent if exponent >= 0 else quotient(1, base**-exponent)


def fits(capacity: int, *tasks: Tuple[int, int, int]) -> bool:
    times = {start for start, _, _ in tasks}
    return all(sum(use for start, lasts, use in tasks if start <= t < start + lasts) <= capacity for t in times)


def ordered(a: Tuple[int, int], b: Tuple[int, int]) -> bool:
    return a[0] + a[1] <= b[0] or b[0] + b[1] <= a[0]


TABLES = [
    Table("product", "a * b = c", {"a": (-2, 2), "b": (-3, 2), "c": (-5, 6)}, lambda a, b, c: a * b == c),
    Table(
        "reified product", "a * b > 2 <-> p", {"a": (-2, 2), "b": (-3, 2), "p": (0, 1)},
        lambda a, b, p: (a * b > 2) == bool(p), ("p",),
    ),
    Table(
        "reified quotient", "a div b > 0 <-> p", {"a": (-3, 3), "b": (-1, 2), "p": (0, 1)},
        lambda a, b, p: (b != 0 and quotient(a, b) > 0) == bool(p), ("p",),
    ),
    Table(
        "reified extremes", "max([a, b, c]) - min([a, b, c]) < 2 <-> p", {**dict.fromkeys("abc", (0, 2)), "p": (0, 1)},
        lambda a, b, c, p: (max(a, b, c) - min(a, b, c) < 2) == bool(p), ("p",),
    ),
    Table("square", "a * a = c", {"a": (-3, 4), "c": (0, 16)}, lambda a, c: a * a == c),
    Table(
        "quotient", "a div b = c", {"a": (-5, 4), "b": (-2, 2), "c": (-3, 3)},
        lambda a, b, c: b != 0 and quotient(a, b) == c,
    ),
    Table("quotient by a constant", "a div -3 = c", {"a": (-9, 9), "c": (-3, 3)}, lambda a, c: quotient(a, -3) == c),
    Table(
        "rest", "a mod b = c", {"a": (-4, 4), "b": (-3, 3), "c": (-2, 2)},
        lambda a, b, c: b != 0 and a - b * quotient(a, b) == c,
    ),
    Table("rest by a constant", "a mod 4 = c", {"a": (-9, 9), "c": (-4, 4)}, lambda a, c: a - 4 * quotient(a, 4) == c),
    Table("cube", "pow(a, 3) = c", {"a": (-2, 3), "c": (-9, 27)}, lambda a, c: a**3 == c),
    Table(
        "power", "pow(a, b) = c", {"a": (-2, 2), "b": (-2, 3), "c": (-8, 8)},
        lambda a, b, c: (a != 0 or b >= 0) and power(a, b) == c,
    ),
    Table("greater", "max(a, b) = c", {"a": (-2, 2), "b": (-1, 3), "c": (-2, 3)}, lambda a, b, c: max(a, b) == c),
    Table("smaller", "min(a, b) = c", {"a": (-2, 2), "b": (-1, 3), "c": (-2, 3)}, lambda a, b, c: min(a, b) == c),
    Table("greatest", "max([a, b, c]) = 1", dict.fromkeys("abc", (-1, 2)), lambda *x: max(x) == 1),
    Table("least", "min([a, b, c]) = 0", dict.fromkeys("abc", (-1, 2)), lambda *x: min(x) == 0),
    Table("size", "abs(a) = c", {"a": (-4, 3), "c": (-1, 5)}, lambda a, c: abs(a) == c),
    Table("parity", "xorall([p, q, r])", dict.fromkeys("pqr", (0, 1)), lambda *x: sum(x) % 2 == 1, ("p", "q", "r")),
    Table(
        "no parity", "iffall([p, q]) <-> r", dict.fromkeys("pqr", (0, 1)),
        lambda p, q, r: (p != q) != bool(r), ("p", "q", "r"),
    ),
    Table(
        "weighted Booleans", "bool_lin_eq([2, -1], [p, q], a)", {"p": (0, 1), "q": (0, 1), "a": (-2, 2)},
        lambda p, q, a: 2 * p - q == a, ("p", "q"),
    ),
    Table(
        "resource with a variable duration", "cumulative([a, b], [d, 2], [2, 1], 2)",
        {"a": (0, 3), "b": (0, 2), "d": (0, 2)}, lambda a, b, d: fits(2, (a, d, 2), (b, 2, 1)),
    ),
    Table(
        "resource with a variable use and capacity", "cumulative([a, 1], [1, 2], [u, 1], c)",
        {"a": (0, 3), "u": (0, 2), "c": (0, 3)}, lambda a, u, c: fits(c, (a, 1, u), (1, 2, 1)),
    ),
    Table(
        "machine with an empty task", "disjunctive([a, b, 1], [2, 0, 1])", {"a": (0, 3), "b": (0, 2)},
        lambda a, b: ordered((a, 2), (1, 1)),
    ),
    Table(
        "machine with a variable duration", "disjunctive([a, b], [d, 1])", {"a": (0, 2), "b": (0, 2), "d": (0, 2)},
        lambda a, b, d: d == 0 or ordered((a, d), (b, 1)),
    ),
    Table(
        "strict machine", "disjunctive_strict([a, b], [2, d])", {"a": (0, 2), "b": (0, 3), "d": (0, 1)},
        lambda a, b, d: ordered((a, 2), (b, d)),
    ),
    Table(
        "inverse", "inverse([a, b], array1d(0..1, [c, d]))", dict.fromkeys("abcd", (-1, 3)),
        lambda a, b, c, d: (a, b) in ((0, 1), (1, 0)) and (c, d) == ((1, 2) if a == 0 else (2, 1)),
    ),
    Table(
        "reified all different", "all_different([a, b, c]) <-> p", {**dict.fromkeys("abc", (0, 2)), "p": (0, 1)},
        lambda a, b, c, p: (len({a, b, c}) == 3) == bool(p), ("p",),
    ),
    Table(
        "reified resource", "cumulative([a, b], [2, 1], [1, 1], 1) <-> p", {"a": (0, 2), "b": (0, 2), "p": (0, 1)},
        lambda a, b, p: fits(1, (a, 2, 1), (b, 1, 1)) == bool(p), ("p",),
    ),
]
