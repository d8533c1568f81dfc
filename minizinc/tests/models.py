"""Small models with their outcomes, found by hand, and what a solution has to meet, evaluated here."""

from dataclasses import dataclass
from itertools import combinations
from typing import Callable, Dict, Optional, Tuple

SATISFIED = "satisfied"
UNSATISFIABLE = "unsatisfiable"
Values = Dict[str, object]


@dataclass
class Case:
    """A model, its outcome (a best value where it optimizes), what a solution meets, and globals that stay native."""

    name: str
    model: str
    outcome: object
    valid: Callable[[Values], bool] = lambda v: True
    native: Tuple[str, ...] = ()
    goal: Optional[str] = None


def differ(numbers) -> bool:
    return len(set(numbers)) == len(numbers)


def apart(tasks) -> bool:
    """No two tasks (start, duration) overlap; one without duration lies anywhere."""
    return all(a[0] + a[1] <= b[0] or b[0] + b[1] <= a[0] or not a[1] or not b[1] for a, b in combinations(tasks, 2))


def peak(tasks) -> int:
    """The greatest use of the tasks (start, duration, use) at any time."""
    return max(sum(use for start, lasts, use in tasks if start <= t < start + lasts) for t, _, _ in tasks)


def truncated(a: int, b: int) -> int:
    return abs(a) // abs(b) * (1 if (a < 0) == (b < 0) else -1)


def runs_of_two(word) -> bool:
    return all(word[i : i + 3] != [1, 1, 1] for i in range(len(word)))


def members(printed) -> set:
    """The numbers of a set as JSON has it: single ones and ranges."""
    ranges = [part if isinstance(part, list) else [part, part] for part in printed["set"]]
    return {number for low, high in ranges for number in range(low, high + 1)}


def is_tour(successors) -> bool:
    seen, at = [], 1
    while at not in seen:
        seen.append(at)
        at = successors[at - 1]
    return len(seen) == len(successors) and at == 1


COSTS = [[0, 3, 9, 2], [3, 0, 1, 8], [9, 1, 0, 4], [2, 8, 4, 0]]

CASES = [
    Case(
        "queens",
        """include "all_different.mzn"; array[1..6] of var 1..6: q; constraint all_different(q);
        constraint all_different([q[i] + i | i in 1..6]); constraint all_different([q[i] - i | i in 1..6]);""",
        SATISFIED,
        lambda v: all(differ([q + s * i for i, q in enumerate(v["q"])]) for s in (0, 1, -1)),
        ("fzn_all_different_int",),
    ),
    Case(
        "magic square",
        """include "all_different.mzn"; array[1..3, 1..3] of var 1..9: m; constraint all_different(array1d(m));
        constraint forall(i in 1..3)(sum(j in 1..3)(m[i,j]) = 15 /\\ sum(j in 1..3)(m[j,i]) = 15);
        constraint m[1,1] + m[2,2] + m[3,3] = 15 /\\ m[1,3] + m[2,2] + m[3,1] = 15;""",
        SATISFIED,
        lambda v: differ(sum(v["m"], [])) and all(sum(row) == 15 for row in [*v["m"], *zip(*v["m"])]),
        ("fzn_all_different_int",),
    ),
    Case(
        "send more money",
        """include "all_different.mzn"; var 1..9: S; var 0..9: E; var 0..9: N; var 0..9: D; var 1..9: M; var 0..9: O;
        var 0..9: R; var 0..9: Y; constraint all_different([S,E,N,D,M,O,R,Y]);
        constraint 1000*S + 100*E + 10*N + D + 1000*M + 100*O + 10*R + E = 10000*M + 1000*O + 100*N + 10*E + Y;""",
        SATISFIED,
        lambda v: [v[c] for c in "SENDMORY"] == [9, 5, 6, 7, 1, 0, 8, 2],
        ("fzn_all_different_int",),
    ),
    Case(
        "pigeons",
        'include "all_different.mzn"; array[1..5] of var 1..4: hole; constraint all_different(hole);',
        UNSATISFIABLE,
        native=("fzn_all_different_int",),
    ),
    Case(
        "cumulative",
        """include "cumulative.mzn"; array[1..4] of var 0..9: s; array[1..4] of int: d = [3,2,2,1];
        var 0..20: end; constraint cumulative(s, d, [2,1,1,3], 3);
        constraint forall(i in 1..4)(s[i] + d[i] <= end); solve minimize end;""",
        5,
        lambda v: peak(list(zip(v["s"], [3, 2, 2, 1], [2, 1, 1, 3]))) <= 3,
        ("fzn_cumulative",),
        "end",
    ),
    Case(
        "cumulative too full",
        'include "cumulative.mzn"; array[1..3] of var 0..2: s; constraint cumulative(s, [2,2,2], [2,2,1], 3);'
        " constraint forall(i in 1..3)(s[i] <= 1);",
        UNSATISFIABLE,
        native=("fzn_cumulative",),
    ),
    Case(
        "cumulative with a variable capacity",
        """include "cumulative.mzn"; array[1..3] of var 0..2: s; var 0..9: room;
        constraint cumulative(s, [2,2,2], [3,2,1], room); solve minimize room;""",
        3,
        lambda v: peak(list(zip(v["s"], [2, 2, 2], [3, 2, 1]))) <= v["room"],
        ("fzn_cumulative",),
        "room",
    ),
    Case(
        "cumulative with variable durations and uses",
        """include "cumulative.mzn"; array[1..2] of var 0..3: s; array[1..2] of var 1..3: d; array[1..2] of var 1..2: r;
        constraint cumulative(s, d, r, 2); constraint sum(d) = 5; constraint r[1] + r[2] = 3;
        constraint s[1] + d[1] <= 6 /\\ s[2] + d[2] <= 6; var int: end;
        constraint end = max(s[1] + d[1], s[2] + d[2]); solve minimize end;""",
        5,
        lambda v: peak(list(zip(v["s"], v["d"], v["r"]))) <= 2 and sum(v["d"]) == 5 and sum(v["r"]) == 3,
        goal="end",
    ),
    Case(
        "disjunctive",
        """include "disjunctive.mzn"; array[1..4] of var 0..9: s; array[1..4] of int: d = [2,3,0,1];
        constraint disjunctive(s, d); constraint s[2] >= 1 /\\ s[3] = s[2] + 1;
        var 0..20: end; constraint forall(i in 1..4)(s[i] + d[i] <= end); solve minimize end;""",
        6,
        lambda v: apart(list(zip(v["s"], [2, 3, 0, 1]))) and v["s"][2] == v["s"][1] + 1,
        ("fzn_cumulative",),
        "end",
    ),
    Case(
        "disjunctive too full",
        'include "disjunctive.mzn"; array[1..3] of var 0..3: s; constraint disjunctive(s, [2,2,2]);',
        UNSATISFIABLE,
        native=("fzn_cumulative",),
    ),
    Case(
        "strict disjunctive",
        """include "disjunctive_strict.mzn"; array[1..2] of var 0..4: s; constraint disjunctive_strict(s, [3,0]);
        constraint s[1] = 1 /\\ s[2] >= 1 /\\ s[2] <= 3;""",
        SATISFIED,
        lambda v: v["s"] == [1, 1],
    ),
    Case(
        "job shop",
        """include "disjunctive.mzn"; array[1..2, 1..2] of var 0..9: s; var 0..20: end;
        constraint s[1,1] + 3 <= s[1,2] /\\ s[2,1] + 2 <= s[2,2];
        constraint disjunctive([s[1,1], s[2,2]], [3,4]); constraint disjunctive([s[1,2], s[2,1]], [2,2]);
        constraint s[1,2] + 2 <= end /\\ s[2,2] + 4 <= end; solve minimize end;""",
        7,
        lambda v: apart([(v["s"][0][0], 3), (v["s"][1][1], 4)]) and apart([(v["s"][0][1], 2), (v["s"][1][0], 2)]),
        ("fzn_cumulative",),
        "end",
    ),
    Case(
        "knapsack",
        """array[1..4] of var bool: take;
        array[1..4] of int: worth = [10,7,6,4]; array[1..4] of int: weight = [6,4,4,2];
        constraint sum(i in 1..4)(weight[i] * take[i]) <= 10;
        var int: total; constraint total = sum(i in 1..4)(worth[i] * take[i]); solve maximize total;""",
        17,
        lambda v: sum(w for w, t in zip([6, 4, 4, 2], v["take"]) if t) <= 10,
        goal="total",
    ),
    Case(
        "element of constants",
        "var 1..5: i; var int: cost; constraint cost = [7,4,9,3,8][i]; constraint i mod 2 = 1; solve minimize cost;",
        7,
        lambda v: v["i"] == 1,
        goal="cost",
    ),
    Case(
        "element of variables",
        """array[1..3] of var 0..4: x; var 1..3: i; constraint x[i] = 4 /\\ x[1] < x[2] /\\ x[2] < x[3];
        constraint i < 3;""",
        UNSATISFIABLE,
    ),
    Case(
        "element of a matrix",
        """var 1..2: i; var 1..3: j; array[1..2, 1..3] of int: t = [|4,1,7|2,9,5|];
        constraint i + j = 4; var int: got; constraint got = t[i,j]; solve maximize got;""",
        9,
        lambda v: (v["i"], v["j"]) == (2, 2),
        goal="got",
    ),
    Case(
        "product",
        """var 1..30: x; var 1..30: y; constraint x * y = 24 /\\ x < y;
        var int: cost; constraint cost = x + y; solve minimize cost;""",
        10,
        lambda v: (v["x"], v["y"]) == (4, 6),
        goal="cost",
    ),
    Case(
        "product of signed numbers",
        "var {-4,-1,2,5}: x; var -6..6: y; var int: z; constraint z = x * y; constraint y != 0; solve minimize z;",
        -30,
        lambda v: v["x"] * v["y"] == v["z"],
        goal="z",
    ),
    Case("product of a prime", "var 2..12: x; var 2..12: y; constraint x * y = 13;", UNSATISFIABLE),
    Case(
        "greater and smaller of two",
        """var 0..9: x; var 0..9: y; constraint max(x, y) = 7 /\\ min(x, y) = 3 /\\ x > y;""",
        SATISFIED,
        lambda v: (v["x"], v["y"]) == (7, 3),
    ),
    Case(
        "greatest and least of many",
        """array[1..4] of var 0..20: x; constraint x[1] >= 5 /\\ x[2] <= 3 /\\ x[3] = x[1] + 1;
        var int: spread; constraint spread = max(x) - min(x); solve minimize spread;""",
        3,
        lambda v: max(v["x"]) - min(v["x"]) == 3 and v["x"][2] == v["x"][0] + 1,
        goal="spread",
    ),
    Case(
        "absolute value",
        """var -9..9: x; var -9..9: y; constraint abs(x) = 6 /\\ abs(y - x) >= 13;
        var int: cost; constraint cost = y; solve maximize cost;""",
        9,
        lambda v: abs(v["x"]) == 6 and abs(v["y"] - v["x"]) >= 13,
        goal="cost",
    ),
    Case(
        "quotient and rest",
        "var 0..99: x; constraint x div 7 = 3 /\\ x mod 7 = 5;",
        SATISFIED,
        lambda v: v["x"] == 26,
    ),
    Case(
        "quotient and rest of signed numbers",
        """var -20..-10: x; var {-5, 0, 3}: y; var int: q; constraint q = x div y; var int: r; constraint r = x mod y;
        constraint q = 3 /\\ r = -2;""",
        SATISFIED,
        lambda v: (v["x"], v["y"]) == (-17, -5) and truncated(v["x"], v["y"]) == v["q"] and v["r"] == -2,
    ),
    Case(
        "fixed power",
        "var 1..9: x; var 1..9: y; constraint x^2 + y^2 = 25 /\\ x < y;",
        SATISFIED,
        lambda v: (v["x"], v["y"]) == (3, 4),
    ),
    Case(
        "variable power",
        """var 2..4: b; var 0..6: e; var int: p; constraint p = pow(b, e);
        constraint p < 100 /\\ e > b; solve maximize p;""",
        81,
        lambda v: v["b"] ** v["e"] == v["p"] and v["e"] > v["b"],
        goal="p",
    ),
    Case(
        "parity",
        "array[1..5] of var bool: b; constraint xorall(b); constraint sum(b) = 4;",
        UNSATISFIABLE,
    ),
    Case(
        "odd number of Booleans",
        "array[1..4] of var bool: b; constraint xorall(b); constraint b[1] /\\ b[2] /\\ not b[4];",
        SATISFIED,
        lambda v: v["b"] == [True, True, True, False],
    ),
    Case(
        "sums of Booleans",
        """array[1..4] of var bool: b; constraint bool_lin_eq([1,2,3,4], b, 7); constraint bool_lin_le([1,1,1,1], b, 2);
        constraint not b[3];""",
        UNSATISFIABLE,
    ),
    Case(
        "sets",
        """var set of 1..5: A; var set of 1..5: B; constraint card(A) = 3 /\\ card(A intersect B) = 1;
        constraint A union B = 1..5 /\\ {1, 2} subset A /\\ not (3 in A) /\\ 4 in B /\\ 1 in B;""",
        SATISFIED,
        lambda v: members(v["A"]) == {1, 2, 5} and members(v["B"]) == {1, 3, 4},
    ),
    Case(
        "table",
        """include "table.mzn"; var 1..4: x; var 1..9: y; constraint table([x,y], [|1,9|2,5|3,2|4,7|]);
        var int: cost; constraint cost = 2*x + y; solve minimize cost;""",
        8,
        lambda v: (v["x"], v["y"]) == (3, 2),
        goal="cost",
    ),
    Case(
        "regular",
        """include "regular.mzn"; array[1..7] of var 0..1: w; constraint sum(w) = 5;
        constraint regular([x + 1 | x in w], 3, 2, [|1,2|1,3|1,0|], 1, 1..3);""",
        SATISFIED,
        lambda v: sum(v["w"]) == 5 and runs_of_two(v["w"]),
    ),
    Case(
        "circuit",
        f"""include "circuit.mzn"; array[1..4] of var 1..4: next; constraint circuit(next);
        array[1..4, 1..4] of int: c = array2d(1..4, 1..4, {sum(COSTS, [])});
        var int: cost; constraint cost = sum(i in 1..4)(c[i, next[i]]); solve minimize cost;""",
        10,
        lambda v: is_tour(v["next"]) and sum(COSTS[i][n - 1] for i, n in enumerate(v["next"])) == v["cost"],
        ("fzn_all_different_int",),
        "cost",
    ),
    Case(
        "inverse",
        """include "inverse.mzn"; array[1..4] of var 1..4: f; array[1..4] of var 1..4: g; constraint inverse(f, g);
        constraint f[1] = 3 /\\ g[1] = 4 /\\ f[2] > f[3];""",
        SATISFIED,
        lambda v: all(v["g"][n - 1] == i for i, n in enumerate(v["f"], 1)) and v["f"] == [3, 4, 2, 1],
    ),
    Case(
        "global cardinality",
        """include "global_cardinality.mzn"; array[1..5] of var 1..3: x;
        constraint global_cardinality(x, [1,2,3], [1,3,1]);
        constraint x[1] = 3 /\\ x[5] = 1;""",
        SATISFIED,
        lambda v: v["x"] == [3, 2, 2, 2, 1],
    ),
    Case(
        "counts and kinds of values",
        """include "globals.mzn"; array[1..5] of var 1..4: x; constraint count(x, 2) = 3 /\\ nvalue(3, x);
        constraint among(1, x, {4}) /\\ increasing(x);""",
        SATISFIED,
        lambda v: v["x"] in ([1, 2, 2, 2, 4], [2, 2, 2, 3, 4]),
    ),
    Case(
        "order of words",
        """include "globals.mzn"; array[1..3] of var 0..2: x; constraint lex_less(x, [1,0,1]);
        var int: n; constraint n = 9*x[1] + 3*x[2] + x[3]; solve maximize n;""",
        9,
        lambda v: v["x"] == [1, 0, 0],
        goal="n",
    ),
    Case(
        "bins",
        'include "globals.mzn"; array[1..5] of var 1..2: bin; constraint bin_packing(8, bin, [5,4,4,2,2]);',
        UNSATISFIABLE,
    ),
    Case(
        "boxes side by side",
        """include "globals.mzn"; array[1..3] of var 0..3: x; array[1..3] of var 0..1: y;
        constraint diffn(x, y, [2,2,1], [2,1,1]);
        constraint forall(i in 1..3)(x[i] + [2,2,1][i] <= 4 /\\ y[i] + [2,1,1][i] <= 2);""",
        SATISFIED,
        lambda v: v["y"][0] == 0 and v["x"][0] in (0, 2) and v["y"][1] != v["y"][2],
    ),
    Case(
        "reified globals",
        """include "globals.mzn"; array[1..3] of var 1..2: x; var bool: b; constraint b <-> all_different(x);
        constraint b \\/ x[1] > x[2];""",
        SATISFIED,
        lambda v: v["b"] is False and v["x"][:2] == [2, 1],
    ),
    Case(
        "implications and choices",
        """var 0..9: x; var bool: b; constraint b -> x > 5; constraint not b -> x < 3; constraint x >= 2;
        var int: cost; constraint cost = if b then x + 1 else 10 * x endif; solve minimize cost;""",
        7,
        lambda v: v["b"] is True and v["x"] == 6,
        goal="cost",
    ),
    Case(
        "enumerations and holes",
        """enum Colour = {Red, Green, Blue}; array[1..3] of var Colour: c; var {1, 4, 9}: x;
        constraint c[1] < c[2] /\\ c[2] != c[3];
        constraint c[3] > c[2] /\\ x > 1 /\\ x != 9;""",
        SATISFIED,
        lambda v: v["x"] == 4 and [c["e"] for c in v["c"]] == ["Red", "Green", "Blue"],
    ),
    Case(
        "absent values",
        """var opt 1..5: x; var opt 1..5: y; constraint absent(x) != absent(y); constraint occurs(x) -> deopt(x) > 3;
        constraint absent(y) /\\ deopt(x) != 4;""",
        SATISFIED,
        lambda v: v["x"] == 5 and v["y"] is None,
    ),
    Case(
        "constant goal",
        "var 0..5: x; constraint x >= 2; var int: cost; constraint cost = 3; solve minimize cost;",
        3,
        goal="cost",
    ),
    Case("contradiction while compiling", "var 0..5: x; constraint x > 7;", UNSATISFIABLE),
]
