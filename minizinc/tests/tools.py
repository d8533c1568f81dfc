"""What the tests share: calls of MiniZinc and of the front end in a folder of their own, and what came of them."""

import json
import os
import shutil
import subprocess
import sys
import tempfile
from dataclasses import dataclass
from pathlib import Path
from typing import Dict, List, Optional

HOME = Path(__file__).resolve().parents[1]
PERSON = HOME / "drcp-model"


@dataclass
class Answer:
    """How a call ended, and what it printed."""

    status: int
    text: str
    errors: str

    @property
    def lines(self) -> List[str]:
        return self.text.splitlines()

    def solutions(self) -> List[Dict[str, object]]:
        """Each solution that was printed in JSON."""
        found, block = [], []
        for line in self.lines:
            if line.strip() == "----------":
                found.append(json.loads("\n".join(block)))
                block = []
            elif not line.startswith(("%", "=")):
                block.append(line)
        return found

    def comments(self) -> List[str]:
        return [line for line in self.lines if line.startswith("% accepted")]

    def figures(self) -> Dict[str, str]:
        told = [line.partition(": ")[2].partition("=") for line in self.lines if line.startswith("%%%mzn-stat:")]
        return {name: value for name, _, value in told}


def call(words: List[str], folder: Path, environment: Optional[Dict[str, str]] = None) -> Answer:
    surroundings = {**os.environ, "MZN_SOLVER_PATH": str(HOME), **(environment or {})}
    pipes = {"stdout": subprocess.PIPE, "stderr": subprocess.PIPE, "universal_newlines": True}
    ended = subprocess.run(words, cwd=folder, env=surroundings, timeout=120, **pipes)
    return Answer(ended.returncode, ended.stdout, ended.stderr)


def minizinc(model: str, *words: str, solver: str = "prove", environment: Optional[Dict[str, str]] = None) -> Answer:
    """Calls MiniZinc on this text."""
    with tempfile.TemporaryDirectory() as folder:
        file = Path(folder) / "model.mzn"
        file.write_text(model)
        return call(["minizinc", "--solver", f"org.drcp.{solver}", *words, str(file)], Path(folder), environment)


def compiled(model: str) -> str:
    """The model as the compiler writes it with the library of drcp."""
    with tempfile.TemporaryDirectory() as folder:
        file, flat = Path(folder) / "model.mzn", Path(folder) / "model.fzn"
        file.write_text(model)
        words = ["minizinc", "-c", "--solver", "org.drcp.solve", "--fzn", str(flat), "--no-output-ozn", str(file)]
        call(words, Path(folder))
        return flat.read_text()


class Workshop:
    """A folder with files, in which a person's commands are called."""

    def __init__(self, **files: str):
        self.files = files

    def __enter__(self) -> "Workshop":
        self.folder = Path(tempfile.mkdtemp())
        for name, text in self.files.items():
            self.file(name.replace("_", ".")).write_text(text)
        return self

    def __exit__(self, *problem) -> None:
        shutil.rmtree(self.folder)

    def file(self, name: str) -> Path:
        return self.folder / name

    def person(self, *words: str, environment: Optional[Dict[str, str]] = None) -> Answer:
        return call([sys.executable, str(PERSON), *words], self.folder, environment)


def want(true: object, why: str) -> None:
    """Fails a test where this is not so."""
    if not true:
        raise AssertionError(why)


def want_in(part: str, whole: str) -> None:
    want(part in whole, f"wanted {part!r} in\n{whole}")
