"""The side of MiniZinc: solves a compiled model, and proves it where that is asked, as a solver of MiniZinc does."""

import argparse
import sys
import tempfile
from dataclasses import dataclass, field
from pathlib import Path
from typing import List, Optional

from . import VERSION, program
from .flatzinc import COMPLETE, END_OF_SOLUTION, UNKNOWN, UNSATISFIABLE, FlatModel, Solution, split_answer
from .program import Clock, Progress, TimeUp
from .refusals import told_log_refusal, told_model_refusal

FIRST_CONFLICTS = 1


class Refused(Exception):
    """The model is not read, or a claim is not accepted."""


@dataclass
class Figures:
    """What -s tells, summed up over the runs."""

    runs: int = 0
    solutions: int = 0
    nogoods: int = 0
    kept: int = 0
    steps: int = 0
    scaffold_bytes: int = 0
    log_bytes: int = 0
    seconds: dict = field(default_factory=lambda: {"solve": 0.0, "process": 0.0, "check": 0.0})

    def lines(self, proving: bool) -> List[str]:
        told = {
            "failures": self.nogoods,
            "nogoods": self.nogoods,
            "runs": self.runs,
            "solutions": self.solutions,
            "scaffoldBytes": self.scaffold_bytes,
            "solveTime": f"{self.seconds['solve']:.3f}",
        }
        if proving:
            told.update(
                nogoodsKept=self.kept,
                steps=self.steps,
                logBytes=self.log_bytes,
                processTime=f"{self.seconds['process']:.3f}",
                checkTime=f"{self.seconds['check']:.3f}",
            )
        return [f"%%%mzn-stat: {name}={value}" for name, value in told.items()] + ["%%%mzn-stat-end"]


class Session:
    """One call of the solver: its model, its options, and what was printed so far."""

    def __init__(self, options: argparse.Namespace, folder: Path):
        self.options, self.folder = options, folder
        self.clock = Clock.begin(options.time / 1000 if options.time else None)
        self.figures = Figures()
        self.model = FlatModel.read(Path(options.model)).with_variable_goal()
        self.last: Optional[Solution] = None
        self.complete = False

    def run(self) -> None:
        try:
            if self.model.optimizes:
                self.optimize()
            else:
                self.satisfy()
        except TimeUp:
            self.tell_more("the time is up")
            if self.last is None:
                say(UNKNOWN)
        if self.options.statistics:
            say("\n".join(self.figures.lines(self.options.prove)))

    def satisfy(self) -> None:
        """As many solutions as are wanted, each with a clause that excludes those before it."""
        wanted = self.options.solutions if self.options.solutions is not None else (0 if self.options.all else 1)
        model = self.model
        while True:
            answer = self.solve(model, program.MOST_CONFLICTS)
            solution, marks = split_answer(answer.text)
            if solution is None:
                self.end_satisfaction(model, marks)
                return
            self.print_solution(solution)
            if self.figures.solutions == wanted:
                return
            model = model.without(solution, self.figures.solutions)

    def end_satisfaction(self, model: FlatModel, marks: List[str]) -> None:
        if UNSATISFIABLE not in marks:
            if self.last is None:
                say(UNKNOWN)
            return
        say(UNSATISFIABLE if self.last is None else COMPLETE)
        printed = self.figures.solutions
        of_what = f" of the model without the {printed} printed solution{'s' * (printed > 1)}" if printed else ""
        self.prove(model, of_what)

    def optimize(self) -> None:
        """A best solution; where improving ones are wanted, or time is short, with more and more conflicts allowed."""
        growing = self.options.all or self.options.improving or self.clock.limit is not None
        conflicts = FIRST_CONFLICTS if growing else program.MOST_CONFLICTS
        while True:
            answer = self.solve(self.model, conflicts)
            solution, marks = split_answer(answer.text)
            if solution is not None and (self.last is None or solution.text != self.last.text):
                self.print_solution(solution)
            if answer.status != program.LIMIT_REACHED or conflicts == program.MOST_CONFLICTS:
                break
            conflicts = min(2 * conflicts, program.MOST_CONFLICTS)
        if COMPLETE in marks or UNSATISFIABLE in marks:
            say(UNSATISFIABLE if self.last is None else COMPLETE)
            self.prove(self.model, "")
        elif self.last is None:
            say(UNKNOWN)

    def solve(self, model: FlatModel, conflicts: int) -> program.Ended:
        file, scaffold = self.folder / "model.fzn", self.folder / "scaffold"
        model.write(file)
        answer = program.solve(file, scaffold, conflicts, self.clock)
        if answer.status == program.MODEL_REFUSED:
            raise Refused(told_model_refusal(answer.text, model))
        grown = Progress(scaffold).look()
        self.figures.runs += 1
        self.figures.nogoods += grown.nogoods
        self.figures.scaffold_bytes += grown.bytes
        self.figures.seconds["solve"] += answer.seconds
        self.tell_more(f"solve up to {conflicts} conflicts: {grown.nogoods} nogoods, {answer.seconds:.2f} s")
        return answer

    def prove(self, model: FlatModel, of_what: str) -> None:
        """Makes the scaffold of the last run into a log, checks it, and prints the line of the check as a comment."""
        if not self.options.prove:
            return
        file, scaffold, log = (self.folder / name for name in ("model.fzn", "scaffold", "log"))
        try:
            processed = program.process(file, scaffold, log, self.clock)
            self.figures.seconds["process"] += processed.seconds
            if processed.status != program.ENDED_WELL:
                raise Refused(told_log_refusal(processed.text, model))
            self.tell_more(processed.text.strip())
            checked = program.check(file, log, self.clock)
        except TimeUp:
            say("% not checked: the time is up")
            return
        self.count_proof(processed.text, log, checked.seconds)
        if checked.status != program.ENDED_WELL:
            raise Refused(told_log_refusal(checked.text, model))
        say(f"% {in_words(checked.text.strip(), model)}{of_what}")

    def count_proof(self, processed: str, log: Path, seconds: float) -> None:
        numbers = [int(word) for word in processed.split() if word.isdigit()]
        self.figures.kept, _, self.figures.steps = numbers[:3]
        self.figures.log_bytes = log.stat().st_size
        self.figures.seconds["check"] += seconds

    def print_solution(self, solution: Solution) -> None:
        say(solution.text + END_OF_SOLUTION)
        self.last = solution
        self.figures.solutions += 1

    def tell_more(self, words: str) -> None:
        if self.options.verbose:
            print(f"% drcp: {words}", file=sys.stderr, flush=True)


def in_words(line: str, model: FlatModel) -> str:
    """The line of a check with the goal named as the model prints it."""
    goal = model.goal[1]
    return line.replace(f"[{goal} ", f"[{model.goal_in_words} ") if goal else line


def say(text: str) -> None:
    print(text, flush=True)


def read_options(words: List[str], prove: bool) -> argparse.Namespace:
    reader = argparse.ArgumentParser(
        prog="fzn-drcp-prove" if prove else "fzn-drcp",
        description="Solves a compiled model with drcp" + (", and checks a proof of what is claimed" if prove else ""),
    )
    reader.add_argument("model", metavar="MODEL.fzn")
    reader.add_argument("-a", dest="all", action="store_true", help="all solutions, or improving ones")
    reader.add_argument("-i", dest="improving", action="store_true", help="improving solutions")
    reader.add_argument("-n", dest="solutions", type=int, metavar="N", help="at most N solutions; 0 is all")
    reader.add_argument("-s", dest="statistics", action="store_true", help="failures, nogoods, bytes, times")
    reader.add_argument("-t", dest="time", type=int, metavar="MS", help="end after so many milliseconds")
    reader.add_argument("-v", dest="verbose", action="store_true", help="tell each run of drcp on stderr")
    reader.add_argument("-f", dest="free", action="store_true", help="free search, which drcp's always is")
    reader.add_argument("-p", dest="threads", type=int, metavar="N", help="taken, but drcp solves in one thread")
    reader.add_argument("-r", dest="seed", metavar="SEED", help="taken, but drcp draws no random numbers")
    reader.add_argument("--version", action="version", version=f"%(prog)s {VERSION}")
    options = reader.parse_args(words)
    options.prove = prove
    return options


def main(words: List[str], prove: bool) -> int:
    options = read_options(words, prove)
    program.end_on_signals()
    try:
        with tempfile.TemporaryDirectory(prefix="drcp-") as folder:
            Session(options, Path(folder)).run()
    except (Refused, program.Missing, program.Broken, OSError) as problem:
        print(f"drcp: {problem}", file=sys.stderr, flush=True)
        return 1
    return 0
