#!/usr/bin/env python3
# Writes a model of many constraints and a log that refutes it: python3 examples/large_model.py CONSTRAINTS MODEL LOG
import sys

count, model, log = int(sys.argv[1]), sys.argv[2], sys.argv[3]
with open(model, "w") as out:
    out.write("array [1..2] of int: weights = [1,-1];\n")
    for k in range(100_000):
        out.write(f"var 0..9: x{k} :: output_var;\n")
    for k in range(count - 1):
        out.write(f"constraint int_lin_le(weights,[x{k % 100_000},x{(k + 1) % 100_000}],{k % 7}) :: domain;\n")
    out.write("constraint int_le(10,x0);\nsolve :: int_search([x0,x1],input_order,indomain_min,complete) satisfy;\n")
with open(log, "w") as out:
    out.write(f"i 1 0 c:{count} l:linear\nn 2 0 1\nc UNSAT\n")
