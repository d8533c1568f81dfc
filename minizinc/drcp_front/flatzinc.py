"""As much of a compiled model as the front end needs: its items, its goal, what it prints, and small changes to it."""

import re
from dataclasses import dataclass
from functools import cached_property
from pathlib import Path
from typing import Dict, Iterator, List, NamedTuple, Optional, Tuple

BREAK = re.compile(r'"(?:\\.|[^"\\\n])*"|%[^\n]*|;')
LEAD = re.compile(r"(?:\s|%[^\n]*)*")
COMMENT = re.compile(r'("(?:\\.|[^"\\\n])*")|%[^\n]*')
SOLVE = re.compile(r"solve\b.*?\b(satisfy|minimize|maximize)\b\s*([^\s;]*)\s*;$", re.S)
OUTPUT_VARIABLE = re.compile(r"var\b([^:]*):\s*(\w+)[^=;]*::\s*output_var\b[^=;]*(?:=\s*([^;\s]+)\s*)?;$", re.S)
OUTPUT_ARRAY = re.compile(r"array\b[^:]*:\s*(\w+).*?::\s*output_array\(\s*\[(.*?)\]\s*\).*?=\s*\[(.*)\]\s*;$", re.S)
PARAMETER = r"int\s*:\s*{name}\b[^=;]*=\s*(-?\w+)\s*;"
EQUAL = re.compile(r"constraint\s+(int_eq|int_lin_eq)\s*\((.*)\)", re.S)
SOLUTION_LINE = re.compile(r"(\w+) = (?:array\d+d\(.*, \[(.*)\]\)|(.*));$")

GOAL = "drcp_goal"
END_OF_SOLUTION = "----------"
COMPLETE = "=========="
UNSATISFIABLE = "=====UNSATISFIABLE====="
UNKNOWN = "=====UNKNOWN====="
MARKS = (END_OF_SOLUTION, COMPLETE, UNSATISFIABLE, UNKNOWN)


class Place(NamedTuple):
    """A place of a text, from 1, and the line that it lies in."""

    line: int
    column: int
    text: str


@dataclass
class Output:
    """What the model marks for printing: a name, and the variables or constants behind it with their names in print."""

    name: str
    members: List[Tuple[str, str]]


def place_of(text: bytes, at: int) -> Place:
    """The place of the byte `at`, from 0."""
    start = text.rfind(b"\n", 0, at) + 1
    end = text.find(b"\n", at)
    line = text[start : end if end >= 0 else len(text)].decode("utf-8", "replace")
    column = len(text[start:at].decode("utf-8", "replace")) + 1
    return Place(text.count(b"\n", 0, at) + 1, column, line)


class FlatModel:
    """A compiled model, of which no more is read than a question wants."""

    def __init__(self, text: str):
        self.text = text

    @classmethod
    def read(cls, file: Path) -> "FlatModel":
        return cls(file.read_bytes().decode("utf-8", "surrogateescape"))

    def write(self, file: Path) -> None:
        file.write_bytes(self.encoded)

    @cached_property
    def encoded(self) -> bytes:
        return self.text.encode("utf-8", "surrogateescape")

    def byte_of(self, at: int) -> int:
        """The byte at which this character lies."""
        return len(self.text[:at].encode("utf-8", "surrogateescape"))

    def character_of(self, byte: int) -> int:
        """The character in which this byte lies."""
        return len(self.encoded[:byte].decode("utf-8", "surrogateescape"))

    def place(self, byte: int) -> Place:
        return place_of(self.encoded, byte)

    def items(self) -> Iterator[Tuple[int, str]]:
        """Each item with its place, comments taken out."""
        start = 0
        for found in BREAK.finditer(self.text):
            if found[0] == ";":
                at = LEAD.match(self.text, start).end()
                item = self.text[at : found.end()]
                yield at, COMMENT.sub(lambda part: part[1] or "", item) if "%" in item else item
                start = found.end()

    @cached_property
    def constraints(self) -> List[Tuple[int, str]]:
        return [(at, item) for at, item in self.items() if item.startswith("constraint")]

    @cached_property
    def solve_item(self) -> Tuple[int, str]:
        last = (len(self.text), "solve satisfy;")
        for at, item in self.items():
            if item.startswith("solve"):
                last = (at, item)
        return last

    @cached_property
    def goal(self) -> Tuple[str, str]:
        """`satisfy`, `minimize` or `maximize`, and the name or number that follows."""
        found = SOLVE.search(self.solve_item[1])
        return (found[1], found[2]) if found else ("satisfy", "")

    @property
    def optimizes(self) -> bool:
        return self.goal[0] != "satisfy"

    @cached_property
    def outputs(self) -> Dict[str, Output]:
        """What the model prints, by name."""
        found = {}
        for _, item in self.items():
            if "output_" not in item or item.startswith("constraint"):
                continue
            variable, array = OUTPUT_VARIABLE.match(item), OUTPUT_ARRAY.match(item)
            if variable:
                found[variable[2]] = Output(variable[2], [(variable[2], variable[2])])
            elif array:
                found[array[1]] = Output(array[1], named_elements(array[1], array[2], array[3]))
        return found

    def constraint(self, number: int) -> Optional[Tuple[Place, str]]:
        """The constraint item of this number, from 1, and its place."""
        if not 1 <= number <= len(self.constraints):
            return None
        at, item = self.constraints[number - 1]
        return self.place(self.byte_of(at)), " ".join(item.split())

    def with_additions(self, variables: List[str], constraints: List[str], solve: Optional[str] = None) -> "FlatModel":
        """The model with more variables, and more constraints behind all others, so that none is renumbered."""
        solve_at, solve_item = self.solve_item
        declared_at = self.constraints[0][0] if self.constraints else solve_at
        parts = [
            self.text[:declared_at],
            *(f"{line}\n" for line in variables),
            self.text[declared_at:solve_at],
            *(f"{line}\n" for line in constraints),
            solve or solve_item,
            "\n",
        ]
        return FlatModel("".join(parts))

    def with_variable_goal(self) -> "FlatModel":
        """The model itself, or, where its goal is a constant, with a variable of that value as its goal."""
        if not self.optimizes:
            return self
        kind, name = self.goal
        value = name
        if not re.fullmatch(r"-?\d+", name):
            parameter = re.search(r"(?:^|[;\n])\s*" + PARAMETER.format(name=re.escape(name)), self.text)
            if not parameter:
                return self
            value = parameter[1]
        goal = self.fresh(GOAL)
        return self.with_additions([f"var {value}..{value}: {goal};"], [], f"solve {kind} {goal};")

    def fresh(self, name: str) -> str:
        """This name, or one like it that the text lacks."""
        while name in self.text:
            name += "_"
        return name

    def without(self, solution: "Solution", round_number: int) -> "FlatModel":
        """The model with a clause that excludes what was printed."""
        prefix = self.fresh(f"drcp_differs_{round_number}")
        variables, constraints, hold, fail = [], [], [], []
        for place, (name, value) in enumerate(sorted(solution.values_of(self.outputs).items()), 1):
            if value in ("true", "false"):
                (fail if value == "true" else hold).append(name)
                continue
            differs = f"{prefix}_{place}"
            variables.append(f"var bool: {differs};")
            constraints.append(f"constraint int_ne_reif({name},{value},{differs});")
            hold.append(differs)
        constraints.append(f"constraint bool_clause([{','.join(hold)}],[{','.join(fail)}]);")
        return self.with_additions(variables, constraints)

    @cached_property
    def goal_in_words(self) -> str:
        """The name in print of an output that is, or equals, the goal; else the goal's own name."""
        goal = self.goal[1]
        equal = {goal, *self.equal_to(goal)}
        printed = [words for output in self.outputs.values() for name, words in output.members if name == goal]
        printed += [words for output in self.outputs.values() for name, words in output.members if name in equal]
        return printed[0] if printed else goal

    def equal_to(self, name: str) -> Iterator[str]:
        """Variables that a definition or a constraint of the model says to equal this one."""
        for _, item in self.items():
            if name not in item:
                continue
            alias = re.match(r"var\b[^:]*:\s*(\w+)[^=;]*=\s*(\w+)\s*;$", item)
            if alias and name in alias.groups():
                yield from alias.groups()
            yield from self.sides_of(item, name)

    def sides_of(self, item: str, name: str) -> List[str]:
        """Both sides of an equation `a = b` with this name among them."""
        equation = EQUAL.match(item)
        if not equation:
            return []
        words = re.findall(r"-?\w+", equation[2])
        if equation[1] == "int_lin_eq":
            words = self.coefficients(words[0]) + words[1:] if words[0].startswith("X_") else words
            if words[:2] not in (["1", "-1"], ["-1", "1"]) or words[4:5] != ["0"]:
                return []
            words = words[2:]
        return words[:2] if name in words[:2] else []

    def coefficients(self, name: str) -> List[str]:
        """The elements of an array of constants that the compiler named."""
        found = re.search(rf"array[^:;]*of int\s*:\s*{name}\b[^=;]*=\s*\[([^\]]*)\]", self.text)
        return re.findall(r"-?\w+", found[1]) if found else []


def named_elements(name: str, ranges: str, elements: str) -> List[Tuple[str, str]]:
    """The elements of an array, each with its name in print."""
    members = [element.strip() for element in elements.split(",") if element.strip()]
    sides = [tuple(map(int, found)) for found in re.findall(r"(-?\d+)\s*\.\.\s*(-?\d+)", ranges)]
    indices: List[List[int]] = [[]]
    for low, high in sides:
        indices = [index + [value] for index in indices for value in range(low, high + 1)]
    if len(indices) != len(members):
        return [(member, name) for member in members]
    return [(member, f"{name}[{','.join(map(str, index))}]") for member, index in zip(members, indices)]


@dataclass
class Solution:
    """The lines of one solution."""

    text: str

    def values_of(self, outputs: Dict[str, Output]) -> Dict[str, str]:
        """The value of each variable that was printed, itself or in an array."""
        values = {}
        for line in self.text.splitlines():
            found = SOLUTION_LINE.match(line)
            if not found or found[1] not in outputs:
                continue
            printed = [found[3]] if found[3] is not None else [value.strip() for value in found[2].split(",")]
            for (name, _), value in zip(outputs[found[1]].members, printed):
                if re.match(r"[A-Za-z_]", name) and name not in ("true", "false"):
                    values[name] = value
        return values


def split_answer(answer: str) -> Tuple[Optional[Solution], List[str]]:
    """The solution of an answer of `solve`, if there is one, and the marks behind it."""
    lines = answer.splitlines(keepends=True)
    marks = [line.strip() for line in lines if line.strip() in MARKS]
    if END_OF_SOLUTION not in marks:
        return None, marks
    return Solution("".join(line for line in lines if line.strip() not in MARKS)), marks
