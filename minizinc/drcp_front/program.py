"""The program drcp: where it lies, and one run of each of its commands."""

import os
import shutil
import signal
import subprocess
import tempfile
import threading
import time
from dataclasses import dataclass
from pathlib import Path
from typing import Callable, List, Optional, Union

BUILT = Path(__file__).resolve().parents[2] / "crates/drcp/out/drcp"
MOST_CONFLICTS = 4_000_000_000

# Seconds between two looks at a run, and between two reports of it.
LOOK_EVERY, REPORT_EVERY = 0.1, 1.0

ENDED_WELL, REFUSED, NO_COMMAND, MODEL_REFUSED, LIMIT_REACHED = 0, 1, 2, 3, 4
MEANINGS = {5: "an input could not be read", 6: "an output could not be written", 7: "there was not enough memory"}


class Missing(Exception):
    """The program, or what is wanted beside it, is not there."""


class TimeUp(Exception):
    """The time that was given is over, and the run was ended."""


class Broken(Exception):
    """The program ended in a way that says nothing of the model or the log."""


@dataclass
class Ended:
    """How a run of the program ended, and what it printed."""

    status: int
    text: str
    seconds: float


@dataclass
class Clock:
    """The time since the start, and how much is left where an end was given."""

    start: float
    limit: Optional[float] = None

    @classmethod
    def begin(cls, limit: Optional[float] = None) -> "Clock":
        return cls(time.monotonic(), limit)

    def elapsed(self) -> float:
        return time.monotonic() - self.start

    def left(self) -> Optional[float]:
        return None if self.limit is None else self.limit - self.elapsed()

    def is_up(self) -> bool:
        left = self.left()
        return left is not None and left <= 0


def find_program() -> str:
    """The program that DRCP names; else `drcp` on the path; else the one that is built in this repository."""
    named = os.environ.get("DRCP")
    if named:
        found = shutil.which(named)
        if not found:
            raise Missing(f"DRCP names {named}, which is no program")
        return found
    found = shutil.which("drcp")
    if found:
        return found
    if os.access(BUILT, os.X_OK):
        return str(BUILT)
    raise Missing(f"drcp is not there: build it by ./build ({BUILT}), put it on the path, or let DRCP name it")


class Progress:
    """Counts the nogoods and bytes of a file that grows."""

    def __init__(self, file: Path, tell: Optional[Callable[[int, int], None]] = None):
        self.file, self.tell = file, tell
        self.nogoods = self.bytes = 0

    def look(self) -> "Progress":
        """Reads on from where it stopped, whole lines alone."""
        if self.file.is_file():
            with self.file.open("rb") as stream:
                stream.seek(self.bytes)
                for line in stream:
                    if not line.endswith(b"\n"):
                        break
                    self.bytes += len(line)
                    self.nogoods += line.startswith(b"n ")
        return self

    def report(self) -> None:
        self.look()
        if self.tell:
            self.tell(self.nogoods, self.bytes)


@dataclass
class Patience:
    """Tells again and again that a run is still going on."""

    report: Callable[[], None]


Reporter = Union[Progress, Patience]


told_to_end = threading.Event()


def end_on_signals() -> None:
    """Ends in order when it is told to end, so that a run of the program ends too."""
    for number in (signal.SIGTERM, signal.SIGINT):
        signal.signal(number, lambda *_: told_to_end.set())


def run(words: List[str], clock: Clock, progress: Optional[Reporter] = None) -> Ended:
    """Runs the program with these words until it ends, or until the time is up."""
    begun = time.monotonic()
    with tempfile.TemporaryFile() as answer:
        child = subprocess.Popen([find_program(), *words], stdout=answer, stderr=subprocess.STDOUT)
        try:
            wait_for(child, clock, progress)
        finally:
            if child.poll() is None:
                child.kill()
                child.wait()
        answer.seek(0)
        text = answer.read().decode("utf-8", "replace")
    ended = Ended(child.returncode, text, time.monotonic() - begun)
    if ended.status not in (ENDED_WELL, REFUSED, MODEL_REFUSED, LIMIT_REACHED):
        meaning = MEANINGS.get(ended.status, f"it ended with status {ended.status}: {text.strip()}")
        raise Broken(f"drcp {words[0]}: {meaning}")
    return ended


def wait_for(child: subprocess.Popen, clock: Clock, progress: Optional[Reporter]) -> None:
    """Waits until the program ends; reports again and again, and stops where the time is up or a signal came."""
    reported = time.monotonic()
    while child.poll() is None:
        if told_to_end.is_set():
            raise SystemExit(1)
        if clock.is_up():
            raise TimeUp()
        if progress and time.monotonic() - reported >= REPORT_EVERY:
            progress.report()
            reported = time.monotonic()
        try:
            child.wait(LOOK_EVERY)
        except subprocess.TimeoutExpired:
            pass


def solve(model: Path, scaffold: Path, conflicts: int, clock: Clock, progress: Optional[Progress] = None) -> Ended:
    return run(["solve", str(model), str(scaffold), "--conflicts", str(conflicts)], clock, progress)


def process(model: Path, scaffold: Path, log: Path, clock: Clock, progress: Optional[Reporter] = None) -> Ended:
    return run(["process", str(model), str(scaffold), str(log)], clock, progress)


def check(model: Path, log: Path, clock: Clock, progress: Optional[Reporter] = None) -> Ended:
    return run(["check", str(model), str(log)], clock, progress)
