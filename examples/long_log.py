#!/usr/bin/env python3
# Writes a log of many lines for the model of two numbers below: python3 examples/long_log.py LINES MODEL LOG
import sys

lines, model, log = int(sys.argv[1]), sys.argv[2], sys.argv[3]
with open(model, "w") as out:
    out.write("var 0..9: x;\nvar 0..9: y;\nconstraint int_le(x,y);\nconstraint int_lt(y,x);\nsolve satisfy;\n")
with open(log, "w") as out:
    out.write("a 1 [x >= 5]\na 2 [y >= 5]\n")
    for step in range(1, lines + 1):
        out.write(f"i {step} 1 0 2 c:1 l:linear\n")
    hints = []
    number = lines
    # x >= k implies y >= k, and y >= k implies x >= k + 1
    for k in range(0, 10):
        atom = 10 + 2 * k
        out.write(f"a {atom} [x >= {k}]\na {atom + 1} [y >= {k}]\n")
        number += 1
        out.write(f"i {number} {atom} 0 {atom + 1} c:1 l:linear\n")
        hints.append(number)
        number += 1
        if k < 9:
            out.write(f"a {atom + 2000} [x >= {k + 1}]\ni {number} {atom + 1} 0 {atom + 2000} c:2 l:linear\n")
        else:
            out.write(f"i {number} {atom + 1} 0 c:2 l:linear\n")
        hints.append(number)
    number += 1
    out.write(f"n {number} 0 {' '.join(map(str, hints))}\nc UNSAT\n")
