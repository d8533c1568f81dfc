"""Files by their names: packed ones among them, no file named twice, and where a constraint stands in MiniZinc."""

import gzip
import shutil
import tempfile
from contextlib import contextmanager
from pathlib import Path
from typing import Iterator, List, Optional, Tuple

Origin = Tuple[str, int, int, int, int]


class Twice(Exception):
    """Two paths of one command name the same file."""


def refuse_twice(named: List[Tuple[str, Path]]) -> None:
    """Each path with what it is for: no two may name one file."""
    for place, (use, path) in enumerate(named):
        for other_use, other in named[:place]:
            same = path.resolve() == other.resolve()
            if same or (path.exists() and other.exists() and path.samefile(other)):
                raise Twice(f"{other_use} and {use} are one file: {path}")


@contextmanager
def readable(path: Path, folder: Path) -> Iterator[Path]:
    """The file itself, or, of one whose name ends in .gz, what is packed in it."""
    if path.suffix != ".gz":
        yield path
        return
    unpacked = Path(tempfile.mkdtemp(dir=folder)) / path.stem
    with gzip.open(path, "rb") as packed, unpacked.open("wb") as plain:
        shutil.copyfileobj(packed, plain)
    yield unpacked
    unpacked.unlink()


@contextmanager
def writable(path: Path, folder: Path) -> Iterator[Path]:
    """A file to write to, which is packed into a path whose name ends in .gz once it is whole."""
    if path.suffix != ".gz":
        yield path
        return
    plain = Path(tempfile.mkdtemp(dir=folder)) / path.stem
    yield plain
    if plain.exists():
        pack(plain, path)


def pack(plain: Path, packed: Path) -> None:
    with plain.open("rb") as source, gzip.open(packed, "wb") as target:
        shutil.copyfileobj(source, target)
    plain.unlink()


def plain_name(path: Path) -> Path:
    """The path without .gz."""
    return path.with_suffix("") if path.suffix == ".gz" else path


def origin_of(model: Path, key: str, library: Path) -> Optional[Origin]:
    """Where a variable, by its name, or a constraint, by its number from 0, comes from: the innermost place outside the
    library, by the file of paths beside the model."""
    paths = plain_name(model).with_suffix(".paths")
    if not paths.is_file():
        return None
    for line in paths.read_text(encoding="utf-8", errors="replace").splitlines():
        fields = line.split("\t")
        if len(fields) == 3 and fields[0] == key:
            return innermost(fields[2], library)
    return None


def innermost(path: str, library: Path) -> Optional[Origin]:
    found = None
    for step in path.split(";"):
        words = step.split("|")
        ours = words[0].startswith(str(library)) or "/share/minizinc/" in words[0]
        if len(words) > 5 and not ours and all(word.isdigit() for word in words[1:5]):
            found = (words[0], *map(int, words[1:5]))
        elif ours and found:
            break
    return found


def told_origin(origin: Origin) -> str:
    """The place of a MiniZinc model in words, with its text where it is one line."""
    file, line, column, last_line, last_column = origin
    told = f"it comes from {Path(file).name}, line {line}, column {column}"
    source = Path(file)
    if not source.is_file() or line != last_line:
        return told
    lines = source.read_text(encoding="utf-8", errors="replace").splitlines()
    return f"{told}: {lines[line - 1][column - 1 : last_column]}" if line <= len(lines) else told
