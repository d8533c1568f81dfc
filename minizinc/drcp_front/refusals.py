"""Refusals of drcp, told to a person: the place in the model, the line itself, and what to write instead."""

import re
from dataclasses import dataclass
from typing import Callable, Optional, Tuple

from .flatzinc import FlatModel, Place

# Tells of a variable's name, or of a constraint's number from 0, where it comes from, if that is known.
Source = Callable[[str], Optional[str]]

MODEL_REFUSAL = re.compile(r"model refused: (\w+) at byte (\d+)")
CONSTRAINT_FIELD = re.compile(r"\bc:(\d+)\b")

FLOAT_ITEM = re.compile(r"(?:var|array)\b[^:]*(?:float|\d\.\d)[^:]*:\s*(\w+)")
NO_FLOATS = "use integers: count in cents, millimetres or seconds"

# A constraint or a word of the compiled model, what it is in MiniZinc's words, and what to write instead.
BEYOND = "compile with the library of drcp (--solver org.drcp.solve), which says it by constraints that are read"
CONSTRUCTS = [
    (r"float|int2float|array_float_\w+", "a float", NO_FLOATS),
    (r"set|set_\w+|array_set_\w+|array_var_set_\w+", "a set variable", BEYOND),
    (r"int_div", "the quotient `x div y`", BEYOND),
    (r"int_mod", "the rest `x mod y`", BEYOND),
    (r"int_pow\w*", "the power `x ^ y` or `pow(x, y)`", BEYOND),
    (r"array_int_maximum", "the maximum `max(..)`", BEYOND),
    (r"array_int_minimum", "the minimum `min(..)`", BEYOND),
    (r"bool_lin_\w+", "a sum of Booleans", BEYOND),
    (r"array_bool_xor", "`xorall` or `iffall`", BEYOND),
    (r"\w+_imp", "an implied constraint", BEYOND),
    (r"(fzn_)?cumulative\w*", "`cumulative` with a variable duration, use or capacity", BEYOND),
]

REASONS = {
    "BadByte": "this byte begins no token of FlatZinc",
    "Number": "this number is beyond ±10^18, or has no digit",
    "OpenString": "this string is not closed on its line",
    "Syntax": "FlatZinc has no such word here",
    "Unknown": "this name is not declared above",
    "Declared": "this name is declared twice",
    "Kind": "this has another type or size than is wanted here",
    "Limit": "this is beyond a limit: bounds and coefficients lie within ±10^9, other numbers within ±10^18",
}


@dataclass
class Told:
    """A refused model as a person reads it."""

    why: str
    line: int
    column: int
    text: str
    instead: Optional[str] = None

    def __str__(self) -> str:
        shown, shift = clipped(self.text, self.column)
        lines = [f"model refused: {self.why} (line {self.line}, column {self.column} of the compiled model)"]
        lines += [f"  {shown}", "  " + " " * (self.column - 1 - shift) + "^"]
        if self.instead:
            lines.append(f"instead: {self.instead}")
        return "\n".join(lines)


def clipped(line: str, column: int, width: int = 110) -> Tuple[str, int]:
    """The part of a long line around a column, and how many characters of its front are left out."""
    if len(line) <= width:
        return line, 0
    shift = max(0, min(column - width // 2, len(line) - width))
    return line[shift : shift + width], shift


def no_source(key: str) -> Optional[str]:
    """Where nothing is known of where a variable or a constraint comes from."""
    return None


def told_model_refusal(answer: str, model: FlatModel, source: Source = no_source) -> str:
    """What `drcp` said of a refused model, in words, and where in MiniZinc it comes from, if that is known."""
    found = MODEL_REFUSAL.search(answer)
    if not found:
        return answer.strip()
    why, at = found[1], int(found[2])
    place = model.place(at)
    keys = [*re.findall(r"X_INTRODUCED_\d+_", place.text), constraint_key(model, at)]
    known = [told for told in map(source, keys) if told][:1]
    return "\n".join([str(told_in_words(why, model, place)), *known])


def constraint_key(model: FlatModel, at: int) -> str:
    """The number, from 0, of the constraint that holds this byte."""
    character = model.character_of(at)
    return str(sum(1 for start, _ in model.constraints if start <= character) - 1)


def told_in_words(why: str, model: FlatModel, place: Place) -> Told:
    if why == "Unbounded":
        return unbounded(place)
    if why != "Unsupported":
        return Told(f"{why}: {REASONS.get(why, why)}", *place)
    word = (re.match(r"\w+", place.text[place.column - 1 :]) or [""])[0]
    reason, instead = unsupported(word, place.text)
    if instead == NO_FLOATS:
        named = first_float(model)
        reason = f"`{named[1]}` is a float" if named else "a float is not read"
        reason += "; integers and Booleans alone are read"
        place = model.place(named[0]) if named else place
    return Told(reason, *place, instead)


def unbounded(place: Place) -> Told:
    name = (re.search(r"(\w+)[^:]*$", re.split(r"::", place.text[: place.column - 1])[0]) or ["", "?"])[1]
    why = f"the variable `{name}` has no bounds"
    if name.startswith("X_INTRODUCED"):
        why += ", which the compiler made for an expression whose variables have none"
    return Told(why, *place, f"give it some: `var 0..1000: {name};`")


def first_float(model: FlatModel) -> Optional[Tuple[int, str]]:
    """The first float variable that the model itself names: its byte, and its name."""
    for at, item in model.items():
        found = FLOAT_ITEM.match(item)
        if found and not found[1].startswith("X_INTRODUCED"):
            return model.byte_of(at), found[1]
    return None


def unsupported(word: str, line: str) -> tuple:
    """What an unsupported word stands for, and what to write instead."""
    if re.match(r"\s*solve\b", line):
        return f"the goal `{word}` is a constant", f"minimize a variable: `var int: cost = {word};`"
    for names, construct, instead in CONSTRUCTS:
        if re.fullmatch(names, word):
            return f"{construct} is not read (`{word}`)", instead
    if re.match(r"-?\d*\.\d", line[line.find(word) :]):
        return "a float is not read", NO_FLOATS
    if "constraint" in line:
        return f"the constraint `{word}` is not read", BEYOND
    return f"`{word}` is not read", None


def told_log_refusal(answer: str, model: FlatModel, source: Source = no_source) -> str:
    """What `drcp` said of a refused log, with the constraint item that its line names by `c:K`."""
    lines = [answer.strip()]
    for number in dict.fromkeys(CONSTRAINT_FIELD.findall("\n".join(answer.splitlines()[1:]))):
        item = model.constraint(int(number))
        if item is None:
            count = len(model.constraints)
            lines.append(f"c:{number} names no constraint item: the model has {count}")
        else:
            place, text = item
            shown, _ = clipped(text, 1, 200)
            lines.append(f"c:{number} is the constraint item on line {place.line} of the model: {shown}")
            lines += filter(None, [source(str(int(number) - 1))])
    return "\n".join(lines)
