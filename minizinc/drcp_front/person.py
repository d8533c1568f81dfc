"""The side of a person: from a model to a checked proof in one command, and drcp's own commands told in words."""

import argparse
import subprocess
import sys
import tempfile
from contextlib import ExitStack
from dataclasses import dataclass
from pathlib import Path
from typing import List, Optional

from . import VERSION, program
from .files import Twice, origin_of, plain_name, readable, refuse_twice, told_origin, writable
from .flatzinc import COMPLETE, UNSATISFIABLE, FlatModel, split_answer
from .program import Clock, Ended, Patience, Progress, TimeUp
from .refusals import Source, told_log_refusal, told_model_refusal
from .solver import in_words

HOME = Path(__file__).resolve().parents[1]
SOLVER = HOME / "drcp.msc"
LIBRARY = HOME / "lib"
FAILED = 1


class Stopped(Exception):
    """The command ends here, with a message and a status."""

    def __init__(self, message: str, status: int = FAILED):
        super().__init__(message)
        self.status = status


@dataclass
class Kept:
    """The files of one proof, side by side."""

    model: Path
    scaffold: Path
    log: Path

    @classmethod
    def of(cls, folder: Path, name: str, packed: bool) -> "Kept":
        end = ".gz" if packed else ""
        return cls(*(folder / f"{name}.{kind}{end}" for kind in ("fzn", "scaffold", "log")))


class Person:
    """One command of a person, with its options."""

    def __init__(self, options: argparse.Namespace, folder: Path):
        self.options, self.folder = options, folder
        self.clock = Clock.begin(getattr(options, "seconds", None))

    def prove(self) -> int:
        """Compiles, solves, processes and checks, and keeps the files."""
        source, data = self.options.model, self.options.data
        name = plain_name(source).stem
        folder = self.options.folder or Path(f"{name}-proof")
        kept = Kept.of(folder, name, self.options.gz)
        inputs = [("the model", source)] + [("the data", path) for path in data]
        refuse_twice(inputs + [("the kept model", kept.model), ("the scaffold", kept.scaffold), ("the log", kept.log)])
        folder.mkdir(parents=True, exist_ok=True)
        for old in (kept.scaffold, kept.log):
            if old.exists():
                old.unlink()
        ozn = self.compile(source, data, kept.model)
        marks = self.solve_model(kept.model, kept.scaffold, ozn)
        self.tell(f"kept {kept.model} and {kept.scaffold}")
        if COMPLETE not in marks and UNSATISFIABLE not in marks:
            self.tell("a solution claims nothing that a log could prove")
            return program.ENDED_WELL
        self.process_scaffold(kept.model, kept.scaffold, kept.log)
        self.check_log(kept.model, kept.log)
        self.tell(f"kept {kept.log}; to check it again: drcp-model check {kept.model} {kept.log}")
        return program.ENDED_WELL

    def compile(self, source: Path, data: List[Path], target: Path) -> Optional[Path]:
        """Writes the compiled model, its goal made a variable, and answers the file that says how to print."""
        if plain_name(source).suffix == ".fzn":
            with readable(source, self.folder) as plain:
                self.write_model(plain, target)
            return None
        base = plain_name(target)
        ozn, flat = base.with_suffix(".ozn"), self.folder / "compiled.fzn"
        words = ["--fzn", str(flat), "--ozn", str(ozn), "--output-paths-to-file", str(base.with_suffix(".paths"))]
        words += [word for setting in self.options.set for word in ("-D", setting)]
        with ExitStack() as unpacked:
            words += [str(unpacked.enter_context(readable(path, self.folder))) for path in [source, *data]]
            told = compiler_says(["-I", str(source.parent), *words])
        if not flat.exists():
            raise Stopped(f"minizinc does not compile the model:\n{told}")
        if told:
            self.tell(told)
        self.write_model(flat, target)
        return ozn

    def write_model(self, flat: Path, target: Path) -> None:
        with writable(target, self.folder) as plain:
            FlatModel.read(flat).with_variable_goal().write(plain)

    def solve_model(self, model: Path, scaffold: Path, ozn: Optional[Path]) -> List[str]:
        """Solves, prints the solution in the model's own words, and answers the marks."""
        with readable(model, self.folder) as flat, writable(scaffold, self.folder) as out:
            progress = self.progress("solving", out)
            answer = program.solve(flat, out, self.options.conflicts, self.clock, progress)
            if answer.status == program.MODEL_REFUSED:
                raise Stopped(told_model_refusal(answer.text, FlatModel.read(flat), self.source_of(model)), answer.status)
            progress.report()
        print(in_output_words(answer.text, ozn), end="", flush=True)
        if answer.status == program.LIMIT_REACHED:
            raise Stopped(f"{self.options.conflicts} conflicts did not settle it", program.LIMIT_REACHED)
        return split_answer(answer.text)[1]

    def process_scaffold(self, model: Path, scaffold: Path, log: Path) -> None:
        with readable(model, self.folder) as flat, readable(scaffold, self.folder) as taken:
            with writable(log, self.folder) as out:
                answer = program.process(flat, taken, out, self.clock, self.patience("processing", taken))
            self.refuse(answer, flat, model)
        self.tell(answer.text.strip())

    def check_log(self, model: Path, log: Path) -> None:
        with readable(model, self.folder) as flat, readable(log, self.folder) as taken:
            answer = program.check(flat, taken, self.clock, self.patience("checking", taken))
            self.refuse(answer, flat, model)
            print(in_words(answer.text.strip(), FlatModel.read(flat)), flush=True)

    def refuse(self, answer: Ended, flat: Path, model: Path) -> None:
        """Ends the command where the model, the scaffold or the log was refused."""
        if answer.status == program.MODEL_REFUSED:
            raise Stopped(told_model_refusal(answer.text, FlatModel.read(flat), self.source_of(model)), answer.status)
        if answer.status == program.REFUSED:
            raise Stopped(told_log_refusal(answer.text, FlatModel.read(flat), self.source_of(model)), answer.status)

    def source_of(self, model: Path) -> Source:
        """Tells where a variable or a constraint of the model comes from in MiniZinc, if that is known."""

        def tell(key: str) -> Optional[str]:
            origin = origin_of(model, key, LIBRARY)
            return told_origin(origin) if origin else None

        return tell

    def progress(self, doing: str, file: Path) -> Progress:
        """Counts what is in the file, and tells it on stderr."""

        def tell(nogoods: int, size: int) -> None:
            self.tell(f"{doing}: {nogoods} nogoods, {size} bytes so far, {self.clock.elapsed():.0f} s")

        return Progress(file, tell)

    def patience(self, doing: str, file: Path) -> Patience:
        """Tells on stderr how long a file is worked on."""
        size = file.stat().st_size if file.exists() else 0
        return Patience(lambda: self.tell(f"{doing} {size} bytes: {self.clock.elapsed():.0f} s"))

    def tell(self, words: str) -> None:
        if not self.options.quiet:
            print(words, file=sys.stderr, flush=True)

    # The commands that drcp has too.

    def solve(self) -> int:
        self.refuse_named("model", "out")
        self.solve_model(self.options.model, self.options.out, None)
        return program.ENDED_WELL

    def process(self) -> int:
        self.refuse_named("model", "scaffold", "out")
        self.process_scaffold(self.options.model, self.options.scaffold, self.options.out)
        return program.ENDED_WELL

    def check(self) -> int:
        self.refuse_named("model", "log")
        self.check_log(self.options.model, self.options.log)
        return program.ENDED_WELL

    def refuse_named(self, *names: str) -> None:
        refuse_twice([(name.upper(), getattr(self.options, name)) for name in names])


def compiler_says(words: List[str]) -> str:
    """Compiles for drcp; what MiniZinc says meanwhile."""
    words = ["minizinc", "-c", "--solver", str(SOLVER), *words]
    try:
        compiled = subprocess.run(words, stdout=subprocess.PIPE, stderr=subprocess.STDOUT, universal_newlines=True)
    except FileNotFoundError:
        raise Stopped("minizinc is not on the path; a compiled model, NAME.fzn, is taken without it")
    return compiled.stdout.strip()


def in_output_words(answer: str, ozn: Optional[Path]) -> str:
    """The answer as the model's own output item prints it."""
    if ozn is None or not ozn.exists():
        return answer
    words = ["minizinc", "--ozn-file", str(ozn)]
    pipes = {"stdout": subprocess.PIPE, "stderr": subprocess.PIPE, "universal_newlines": True}
    printed = subprocess.run(words, input=answer, **pipes)
    return printed.stdout.rstrip("\n") + "\n" if printed.returncode == 0 else answer


def versions() -> str:
    """The front end, the program, and MiniZinc, where they are."""
    lines = [f"drcp-model {VERSION}"]
    try:
        lines.append(f"drcp: {program.find_program()}")
    except program.Missing as problem:
        lines.append(str(problem))
    try:
        printed = subprocess.run(["minizinc", "--version"], stdout=subprocess.PIPE, universal_newlines=True).stdout
        lines.append(printed.splitlines()[0])
    except FileNotFoundError:
        lines.append("minizinc: not on the path")
    return "\n".join(lines)


class ShowVersions(argparse.Action):
    """Prints the versions when they are asked for, and ends."""

    def __init__(self, option_strings, dest, **kwargs):
        super().__init__(option_strings, dest, nargs=0, help="the versions of what is used", default=argparse.SUPPRESS)

    def __call__(self, reader, namespace, values, option_string=None):
        print(versions())
        reader.exit()


def conflicts(word: str) -> int:
    if not word.isdigit() or not 1 <= int(word) <= program.MOST_CONFLICTS:
        raise argparse.ArgumentTypeError(f"a number from 1 to {program.MOST_CONFLICTS} is wanted")
    return int(word)


def read_options(words: List[str]) -> argparse.Namespace:
    reader = argparse.ArgumentParser(
        prog="drcp-model",
        description="From a MiniZinc model to a checked proof, by drcp.",
        epilog="A file whose name ends in .gz is read and written packed. The variable DRCP names the program.",
    )
    reader.add_argument("--version", action=ShowVersions)
    commands = reader.add_subparsers(dest="command", metavar="COMMAND", required=True)
    for name, texts, arguments in (
        ("prove", "compiles, solves, processes and checks, and keeps the files in a folder", ["model", "data"]),
        ("solve", "prints a solution of a compiled model, and writes its scaffold", ["model", "out"]),
        ("process", "makes a scaffold into a log", ["model", "scaffold", "out"]),
        ("check", "judges a log", ["model", "log"]),
    ):
        command = commands.add_parser(name, help=texts, description=texts.capitalize() + ".")
        for argument in arguments:
            many = {"nargs": "*"} if argument == "data" else {}
            command.add_argument(argument, metavar=argument.upper(), type=Path, **many)
        command.add_argument("-q", "--quiet", action="store_true", help="no progress on stderr")
        command.add_argument("--seconds", type=float, metavar="S", help="end after so many seconds")
        if name in ("prove", "solve"):
            most = {"type": conflicts, "default": 1_000_000, "metavar": "N"}
            command.add_argument("--conflicts", help="learn at most N nogoods", **most)
        if name == "prove":
            command.add_argument("--folder", type=Path, metavar="DIR", help="where files are kept (NAME-proof)")
            command.add_argument("--gz", action="store_true", help="keep them packed")
            command.add_argument("-D", dest="set", action="append", default=[], metavar="n=3", help="data in a word")
    return reader.parse_args(words)


def main(words: List[str]) -> int:
    options = read_options(words)
    program.end_on_signals()
    try:
        with tempfile.TemporaryDirectory(prefix="drcp-") as folder:
            return getattr(Person(options, Path(folder)), options.command)()
    except Stopped as stop:
        print(stop, file=sys.stderr)
        return stop.status
    except TimeUp:
        print(f"the time is up ({options.seconds:g} s)", file=sys.stderr)
        return program.LIMIT_REACHED
    except (Twice, program.Missing, program.Broken, OSError, EOFError) as problem:
        print(problem, file=sys.stderr)
        return FAILED
