"""The tests: each model, each flag of the solvers, each command and message of the front end."""

import gzip
import re
import shutil
import subprocess
import sys
import tempfile
import time
from pathlib import Path
from typing import Callable, List, Tuple

from .models import CASES, SATISFIED, UNSATISFIABLE, Case
from .tables import TABLES, Table
from .tools import HOME, Answer, Workshop, call, compiled, minizinc, want, want_in

COMPLETE = "=========="
NOT_READ = r"int_(div|mod|pow\w*)|array_int_m\w+|bool_lin_\w+|array_bool_xor|\w+_imp"

PAIRS = "var 0..2: x; var 0..2: y; constraint x < y; var bool: b; constraint b <-> x = 1;"
CLIMB = """array[1..7] of var 0..1: x; constraint sum(i in 1..7)((i + 3) * x[i]) <= 24;
var int: worth; constraint worth = sum(i in 1..7)((i * i mod 7 + i) * x[i]); solve maximize worth;"""
HARD = """array[1..9] of var 1..8: hole; constraint forall(i, j in 1..9 where i < j)(hole[i] + 0 != hole[j]);
var int: cost = hole[1]; solve minimize cost;"""
LONG = """include "all_different.mzn"; array[1..11] of var 1..11: p; constraint all_different(p);
array[1..11, 1..11] of int: far = array2d(1..11, 1..11, [(i * 7 + j * 5) mod 17 | i, j in 1..11]);
var int: cost; constraint cost = sum(i in 1..10)(far[p[i], p[i + 1]] * (1 + i mod 3)); solve minimize cost;"""
SMALL = "var 0..3: x;\nvar 0..3: y;\nconstraint x + y <= 2;\nconstraint x + y >= 3;\n"
CHOICE = """int: n; var 1..9: x; constraint x * x >= n; var int: cost = 2 * x; solve minimize cost;
output ["x is \\(x)\\n"];"""


TESTS: List[Callable[[], None]] = []


def test(check: Callable[[], None]) -> Callable[[], None]:
    """Marks what is called as a test."""
    TESTS.append(check)
    return check


def solved_and_proved(case: Case) -> None:
    """The outcome is the known one, the solution is valid, the claim is checked, and globals stay native."""
    answer = minizinc(case.model, "--output-mode", "json")
    want(answer.status == 0, f"status {answer.status}\n{answer.text}{answer.errors}")
    if case.outcome == UNSATISFIABLE:
        want_in("=====UNSATISFIABLE=====", answer.text)
        want(answer.comments() in (["% accepted: UNSAT"], []), f"unwanted comment\n{answer.text}")
        want(answer.comments() or "inconsistency" in answer.errors, f"not checked\n{answer.text}")
    else:
        solutions = answer.solutions()
        want(len(solutions) == 1, f"one solution is wanted\n{answer.text}")
        want(case.valid(solutions[0]), f"not valid: {solutions[0]}")
        if case.outcome != SATISFIED:
            optimal(case, answer, solutions[0])
    constraints = re.findall(r"^constraint (\w+)", compiled(case.model), re.M)
    strange = [name for name in constraints if re.fullmatch(NOT_READ, name)]
    want(not strange, f"not read: {strange}")
    want(all(name in constraints for name in case.native), f"wanted {case.native} among {sorted(set(constraints))}")


def optimal(case: Case, answer: Answer, values) -> None:
    want(values[case.goal] == case.outcome, f"wanted {case.goal} = {case.outcome}, not {values}")
    want(COMPLETE in answer.lines, f"not complete\n{answer.text}")
    side = ">=" if "minimize" in case.model else "<="
    wanted = [f"% accepted: [{name} {side} {case.outcome}]" for name in (case.goal, "drcp_goal")]
    want(answer.comments() and answer.comments()[0] in wanted, f"wanted {wanted[0]}\n{answer.text}")


def same_solutions(table: Table) -> None:
    """All solutions are those that the meaning has, and that there is no other is checked."""
    answer = minizinc(table.model(), "-a", "--output-mode", "json")
    found = sorted(tuple(int(values[name]) for name in table.ranges) for values in answer.solutions())
    wanted = table.solutions()
    more, fewer = sorted(set(found) - set(wanted)), sorted(set(wanted) - set(found))
    want(found == wanted, f"too many: {more}, missing: {fewer}\n{answer.errors}")
    want(len(answer.comments()) == 1, f"not checked\n{answer.text[-300:]}")


# The flags of the two solvers.


@test
def every_solution() -> None:
    answer = minizinc(PAIRS, "-a", "--output-mode", "json")
    found = {(v["x"], v["y"], v["b"]) for v in answer.solutions()}
    want(len(answer.solutions()) == 3 and found == {(0, 1, False), (0, 2, False), (1, 2, True)}, answer.text)
    want(COMPLETE in answer.lines, answer.text)
    want(answer.comments() == ["% accepted: UNSAT of the model without the 3 printed solutions"], answer.text)


@test
def some_solutions() -> None:
    answer = minizinc(PAIRS, "-n", "2", "--output-mode", "json")
    want(len(answer.solutions()) == 2 and COMPLETE not in answer.lines and not answer.comments(), answer.text)


@test
def more_solutions_than_there_are() -> None:
    answer = minizinc(PAIRS, "-n", "7", "--output-mode", "json", solver="solve")
    want(len(answer.solutions()) == 3 and COMPLETE in answer.lines and not answer.comments(), answer.text)


@test
def every_solution_of_arrays() -> None:
    answer = minizinc("array[1..2, 1..2] of var 1..2: m; constraint m[1,1] < m[1,2] /\\ m[2,1] <= m[2,2];", "-a")
    want(answer.text.count("----------") == 3 and COMPLETE in answer.lines, answer.text)


@test
def every_solution_without_output() -> None:
    answer = minizinc('var 0..5: x; output ["some\\n"];', "-a")
    want(answer.text.count("----------") == 1 and COMPLETE in answer.lines, answer.text)


@test
def improving_solutions() -> None:
    answer = minizinc(CLIMB, "-a", "--output-mode", "json")
    worths = [v["worth"] for v in answer.solutions()]
    want(worths and worths == sorted(set(worths)) and COMPLETE in answer.lines, answer.text)
    want(answer.comments() == [f"% accepted: [worth <= {worths[-1]}]"], answer.text)
    last = minizinc(CLIMB, "--output-mode", "json", solver="solve").solutions()
    want([v["worth"] for v in last] == worths[-1:], f"{last} against {worths}")


@test
def statistics() -> None:
    told = minizinc(CLIMB, "-s").figures()
    wanted = "failures nogoods runs solutions scaffoldBytes solveTime nogoodsKept steps logBytes processTime checkTime"
    want(all(name in told for name in wanted.split()), f"{told}")
    want(int(told["logBytes"]) > 0 and int(told["nogoods"]) > 0 and float(told["solveTime"]) >= 0, f"{told}")
    want("logBytes" not in minizinc(CLIMB, "-s", solver="solve").figures(), "solve writes no log")


@test
def limited_time() -> None:
    answer = minizinc(HARD.replace("9", "12").replace("8", "11"), "--time-limit", "1500")
    want_in("=====UNKNOWN=====", answer.text)
    want(answer.status == 0, answer.errors)


@test
def limited_time_with_improving_solutions() -> None:
    for solver in ("solve", "prove"):
        answer = minizinc(LONG, "--time-limit", "2500", "--output-mode", "json", solver=solver)
        costs = [v["cost"] for v in answer.solutions()]
        want(costs and costs == sorted(set(costs), reverse=True), answer.text)
        want(answer.status == 0 and COMPLETE not in answer.lines and not answer.comments(), answer.text + answer.errors)


@test
def enough_time() -> None:
    model = HARD.replace("1..8", "1..9").replace("hole[1];", "hole[1] + hole[2] * 3;")
    answer = minizinc(model, "--time-limit", "60000")
    want(COMPLETE in answer.lines and answer.comments() == ["% accepted: [cost >= 5]"], answer.text)


@test
def flags_without_effect() -> None:
    plain = minizinc(CLIMB)
    flagged = minizinc(CLIMB, "-f", "-p", "2", "-r", "5")
    want(flagged.status == 0 and flagged.text == plain.text, flagged.text + flagged.errors)


@test
def more_words() -> None:
    want_in("% drcp: solve up to", minizinc(CLIMB, "-v").errors)


@test
def goal_of_a_sum() -> None:
    answer = minizinc("var 0..9: x; var 0..9: y; constraint x + y >= 4; solve minimize 2*x + 3*y;")
    want(answer.comments() == ["% accepted: [X_INTRODUCED_0_ >= 8]"], answer.text)


@test
def goal_in_an_array() -> None:
    answer = minizinc("array[0..1] of var 0..9: c; constraint c[0] + c[1] >= 12; solve minimize c[1];")
    want(answer.comments() == ["% accepted: [c[1] >= 3]"], answer.text)


@test
def goal_that_equals_an_output() -> None:
    goal = "var 0..9: X_INTRODUCED_1_; "
    ones = "array [1..2] of int: X_INTRODUCED_2_ = [1,-1]; "
    cost = "var 0..9: cost :: output_var; constraint int_le(3,X_INTRODUCED_1_); "
    for text in (
        goal + cost + "constraint int_eq(cost,X_INTRODUCED_1_);",
        goal + cost + "constraint int_lin_eq([1,-1],[X_INTRODUCED_1_,cost],0);",
        ones + goal + cost + "constraint int_lin_eq(X_INTRODUCED_2_,[cost,X_INTRODUCED_1_],0);",
        goal + cost.replace(";", " = X_INTRODUCED_1_;", 1),
    ):
        with Workshop(m_fzn=f"{text} solve minimize X_INTRODUCED_1_;") as shop:
            answer = call([sys.executable, str(HOME / "fzn-drcp-prove"), "m.fzn"], shop.folder)
            want(answer.lines == ["cost = 3;", "----------", COMPLETE, "% accepted: [cost >= 3]"], answer.text)


# What is refused, and how it is told.


def refused(model: str, *parts: str) -> None:
    answer = minizinc(model)
    want(answer.status != 0, f"accepted\n{answer.text}")
    for part in parts:
        want_in(part, answer.errors + answer.text)


@test
def float_variable() -> None:
    refused(
        "var 0.0..9.5: weight; var 0..3: x; constraint weight >= 1.5 * x; solve maximize x;",
        "`weight` is a float",
        "of the compiled model",
        "instead: use integers",
    )


@test
def no_bounds() -> None:
    refused("var int: x; constraint x > 3;", "`x` has no bounds", "give it some: `var 0..1000: x;`")


@test
def product_too_large() -> None:
    model = "var 0..99999: x; var 0..88888: y; constraint x * y = 777777;"
    refused(model, "drcp: a product of two variables, of 0..88888 and 0..99999: neither has at most 2000 values")


@test
def factor_without_bounds() -> None:
    refused("var int: x; var 1..3: y; constraint x * y > 4;", "drcp: a variable without bounds in a product")
    refused("array[1..3] of var 1..3: x; constraint product(x) = 12;", "write x * y * z")
    model = "var 1..3: x; var 1..3: y; var 1..3: z; constraint x * y * z = 18 /\\ x < y;"
    answer = minizinc(model, "--output-mode", "json")
    found = [(v["x"], v["y"], v["z"]) for v in answer.solutions()]
    want(found == [(2, 3, 3)], f"{found}\n{answer.errors}")


@test
def table_of_powers_too_large() -> None:
    refused("var 1..2000: x; var 1..99: y; constraint pow(x, y) = 8;", "drcp: a power whose table would have")


@test
def bounds_too_wide() -> None:
    refused("var 0..3000000000: x; solve maximize x;", "model refused: Limit", "beyond a limit")


@test
def constraint_of_another_library() -> None:
    with Workshop(m_fzn="var 0..3: x;\nconstraint int_div(x,x,x);\nsolve satisfy;\n") as shop:
        answer = shop.person("solve", "m.fzn", "out")
        want(answer.status == 3, f"status {answer.status}")
        item = "constraint int_div(x,x,x);"
        for part in ("the quotient `x div y`", "(line 2, column 12 of", item, "instead: compile with"):
            want_in(part, answer.errors)


@test
def other_refusals() -> None:
    for text, part in (
        ("var 0..3: x; var 0..3: x; solve satisfy;", "declared twice"),
        ("var 0..3: x; constraint int_le(1,y); solve satisfy;", "not declared"),
        ("constraint int_le(1); solve satisfy;", "another type or size"),
        ("var 0..3 x; solve satisfy;", "no such word"),
        ("# solve satisfy;", "begins no token"),
        ("constraint set_card(x,1); solve satisfy;", "a set variable"),
        ("var set of 1..3: x; solve satisfy;", "a set variable"),
        ("constraint bool_clause_imp([],[],true); solve satisfy;", "an implied constraint"),
        ("constraint my_global(1); solve satisfy;", "the constraint `my_global`"),
    ):
        with Workshop(m_fzn=text) as shop:
            want_in(part, shop.person("solve", "m.fzn", "out").errors)


@test
def float_without_a_name() -> None:
    with Workshop(m_mzn="var 1..9: x;\nconstraint sqrt(x) > 2.0;\n") as shop:
        answer = shop.person("prove", "m.mzn")
        want(answer.status == 3, f"status {answer.status}")
        want_in("a float is not read", answer.errors)
        want_in("it comes from m.mzn, line 2, column 17: x", answer.errors)


@test
def refused_log() -> None:
    with Workshop(small_mzn=SMALL) as shop:
        want(shop.person("prove", "small.mzn").status == 0, "not proved")
        log = shop.file("small-proof/small.log")
        other = lambda found: f"{found[1]} c:{3 - int(found[2])}"
        log.write_text(re.sub(r"(?m)^(i 1 .*) c:(\d)", other, log.read_text()))
        answer = shop.person("check", "small-proof/small.fzn", "small-proof/small.log")
        want(answer.status == 1, f"status {answer.status}")
        for part in ("refused: NotImplied at line", "is the constraint item on line", "it comes from small.mzn, line"):
            want_in(part, answer.errors)


# The commands of a person.


@test
def from_a_model_to_a_proof() -> None:
    with Workshop(choice_mzn=CHOICE, data_dzn="n = 30;\n") as shop:
        answer = shop.person("prove", "choice.mzn", "data.dzn")
        want(answer.status == 0, answer.errors)
        want(answer.lines == ["x is 6", "----------", COMPLETE, "accepted: [cost >= 12]"], answer.text)
        kept = {file.name for file in shop.file("choice-proof").iterdir()}
        want(kept == {"choice.fzn", "choice.ozn", "choice.paths", "choice.scaffold", "choice.log"}, f"{kept}")
        want_in("solving: ", answer.errors)
        again = shop.person("check", "choice-proof/choice.fzn", "choice-proof/choice.log")
        want(again.text == "accepted: [cost >= 12]\n", again.text)


@test
def the_example() -> None:
    """The two commands of the documents."""
    with Workshop() as shop:
        solved = call(["minizinc", "--solver", "drcp-prove", str(HOME / "example.mzn")], shop.folder)
        proved = shop.person("prove", str(HOME / "example.mzn"))
        lines = ["x = 4;", "y = 6;", "cost = 10;", "----------", COMPLETE]
        want(solved.lines == lines + ["% accepted: [cost >= 10]"], solved.text + solved.errors)
        want(proved.lines == lines + ["accepted: [cost >= 10]"], proved.text + proved.errors)


@test
def data_in_a_word() -> None:
    with Workshop(choice_mzn=CHOICE) as shop:
        answer = shop.person("prove", "-q", "--folder", "kept", "choice.mzn", "-D", "n=50")
        want(answer.lines[-1] == "accepted: [cost >= 16]" and not answer.errors, answer.text + answer.errors)


@test
def packed_files() -> None:
    with Workshop(small_mzn=SMALL) as shop:
        answer = shop.person("prove", "--gz", "small.mzn")
        want(answer.lines[-1] == "accepted: UNSAT", answer.text + answer.errors)
        want_in("c UNSAT", gzip.open(shop.file("small-proof/small.log.gz"), "rt").read())
        model, scaffold, log = (f"small-proof/small.{kind}.gz" for kind in ("fzn", "scaffold", "log"))
        want(shop.person("check", model, log).text == "accepted: UNSAT\n", "not checked")
        want(shop.person("process", model, scaffold, "new.log.gz").status == 0, "not processed")
        want(gzip.open(shop.file("new.log.gz")).read() == gzip.open(shop.file(log)).read(), "another log")
        want_in("UNSATISFIABLE", shop.person("solve", model, "new.scaffold.gz").text)
        for name, text in (("choice.mzn.gz", CHOICE), ("data.dzn.gz", "n = 50;")):
            with gzip.open(shop.file(name), "wt") as packed:
                packed.write(text)
        answer = shop.person("prove", "choice.mzn.gz", "data.dzn.gz")
        want(answer.lines and answer.lines[-1] == "accepted: [cost >= 16]", answer.text + answer.errors)


@test
def one_file_named_twice() -> None:
    with Workshop(small_mzn=SMALL) as shop:
        shop.person("prove", "small.mzn", "--folder", ".")
        before = shop.file("small.fzn").read_text()
        twice = ("prove small.fzn --folder .", "solve small.fzn ./small.fzn", "process small.fzn small.log small.log")
        for words in twice:
            answer = shop.person(*words.split())
            want(answer.status == 1, f"status {answer.status} of {words}")
            want_in("are one file", answer.errors)
        want(shop.file("small.fzn").read_text() == before, "the model was written over")


@test
def limits() -> None:
    with Workshop(hard_mzn=HARD) as shop:
        few = shop.person("prove", "hard.mzn", "--conflicts", "3")
        want(few.status == 4, f"status {few.status}")
        want_in("3 conflicts did not settle it", few.errors)
        late = shop.person("prove", "hard.mzn", "--seconds", "0.01")
        want(late.status == 4, f"status {late.status}")
        want_in("the time is up", late.errors)


@test
def satisfied_model() -> None:
    with Workshop(m_mzn="var 1..3: x; constraint x > 2;") as shop:
        answer = shop.person("prove", "m.mzn")
        want(answer.status == 0 and answer.lines == ["x = 3;", "----------"], answer.text + answer.errors)
        want_in("claims nothing", answer.errors)


@test
def contradiction_while_compiling() -> None:
    with Workshop(m_mzn="var 0..5: x; constraint x > 7;") as shop:
        answer = shop.person("prove", "m.mzn")
        want(answer.status == 0 and answer.lines[-1:] == ["accepted: UNSAT"], answer.text + answer.errors)


@test
def model_that_does_not_compile() -> None:
    with Workshop(m_mzn="var 1..3: x; constraint y > 2;") as shop:
        answer = shop.person("prove", "m.mzn")
        want(answer.status == 1, f"status {answer.status}")
        want_in("undefined identifier `y'", answer.errors)


@test
def ended_from_outside() -> None:
    """The program ends with the front end that runs it."""
    with Workshop(m_fzn=compiled(HARD.replace("9", "12").replace("8", "11"))) as shop:
        solver = subprocess.Popen([sys.executable, str(HOME / "fzn-drcp"), str(shop.file("m.fzn"))])
        children = Path(f"/proc/{solver.pid}/task/{solver.pid}/children")
        deadline = time.monotonic() + 20
        while not children.read_text().split() and time.monotonic() < deadline:
            time.sleep(0.05)
        child = children.read_text().split()[0]
        solver.terminate()
        solver.wait(20)
        want(not Path(f"/proc/{child}").exists(), "drcp runs on")


@test
def skipped_without_minizinc() -> None:
    with Workshop() as shop, tempfile.TemporaryDirectory() as empty:
        answer = call([sys.executable, str(HOME / "test")], shop.folder, {"PATH": empty})
        want(answer.status == 0, f"status {answer.status}")
        want(re.fullmatch(r"minizinc: 0 passed, 0 failed, \d+ skipped", answer.lines[-1]), answer.text)
        want_in("minizinc is not on the path", answer.text)


@test
def help_and_versions() -> None:
    with Workshop() as shop:
        for words in (["--help"], ["prove", "--help"], ["solve", "--help"], ["process", "--help"], ["check", "--help"]):
            want(shop.person(*words).text.startswith("usage: drcp-model"), f"{words}")
        told = shop.person("--version")
        want(told.status == 0 and re.match(r"drcp-model \d", told.text) and "MiniZinc" in told.text, told.text)
        for solver in ("fzn-drcp", "fzn-drcp-prove"):
            want_in(solver, call([sys.executable, str(HOME / solver), "--version"], shop.folder).text)


@test
def missing_program() -> None:
    answer = minizinc("var 1..2: x;", environment={"DRCP": "/nowhere/drcp"})
    want(answer.status != 0, "accepted")
    want_in("DRCP names /nowhere/drcp", answer.errors)


@test
def missing_compiler() -> None:
    with Workshop(small_mzn=SMALL) as shop, tempfile.TemporaryDirectory() as tools:
        Path(tools, "python3").symlink_to(shutil.which("python3") or sys.executable)
        answer = shop.person("prove", "small.mzn", environment={"PATH": tools})
        want(answer.status == 1, f"status {answer.status}")
        want_in("minizinc is not on the path", answer.errors)


@test
def library_is_a_line_away_from_native() -> None:
    """A builtin whose line is taken out of the library stays native."""
    with tempfile.TemporaryDirectory() as folder:
        shutil.copytree(HOME / "lib", Path(folder, "lib"))
        lines = Path(folder, "lib/redefinitions.mzn").read_text().splitlines(keepends=True)
        Path(folder, "lib/redefinitions.mzn").write_text("".join(line for line in lines if "% int_times" not in line))
        solver = (HOME / "drcp.msc").read_text().replace("org.drcp.solve", "org.drcp.near")
        Path(folder, "near.msc").write_text(solver)
        Path(folder, "fzn-drcp").write_text("")
        Path(folder, "m.mzn").write_text("var 1..9: x; var 1..9: y; constraint x * y = 12;")
        call(["minizinc", "-c", "--solver", str(Path(folder, "near.msc")), "m.mzn"], Path(folder))
        want_in("constraint int_times(", Path(folder, "m.fzn").read_text())


def tests() -> List[Tuple[str, Callable[[], None]]]:
    """Each test with its name: the models, the meanings of what is decomposed, then what is marked above."""
    models = [(f"model: {case.name}", lambda case=case: solved_and_proved(case)) for case in CASES]
    tables = [(f"meaning: {table.name}", lambda table=table: same_solutions(table)) for table in TABLES]
    return models + tables + [(check.__name__.replace("_", " "), check) for check in TESTS]
