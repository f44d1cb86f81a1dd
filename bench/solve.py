#!/usr/bin/env python3
"""Times the built program on generated files. No test: it prints seconds and memory, and judges nothing.

usage: bench/solve.py [PROGRAM]     (default: crates/blic/out/blic, as bin/blic builds it)
"""
import os
import random
import resource
import subprocess
import sys
import tempfile
import time

TOP = os.path.dirname(os.path.dirname(os.path.abspath(__file__)))


def many_literals(path):
    """A canonical file at the limits of variables and literals."""
    rng = random.Random(1)
    variables, clauses = 65535, 262144
    with open(path, "w") as out:
        out.write(f"p cnf {variables} {clauses}\n")
        out.write("e " + " ".join(map(str, range(1, variables + 1))) + " 0\n")
        for _ in range(clauses):
            literals = (rng.choice("- ").strip() + str(rng.randint(1, variables)) for _ in range(4))
            out.write(" ".join(literals) + " 0\n")


def not_canonical(path):
    """A file of 64 MiB whose first line is a header, and which is no canonical text."""
    with open(path, "w") as out:
        out.write("p cnf 5 3\n")
        line = "c a comment, which a canonical text has not\n"
        while out.tell() < 64 * 1024 * 1024 - len(line):
            out.write(line)


def twenty_entries(path):
    """Twenty existential variables that must all be true."""
    with open(path, "w") as out:
        out.write("p cnf 20 20\ne " + " ".join(map(str, range(1, 21))) + " 0\n")
        for variable in range(20, 0, -1):
            out.write(f"{variable} 0\n")


def measure(program, path):
    begin = time.perf_counter()
    done = subprocess.run([program, "solve", path], stdout=subprocess.PIPE)
    seconds = time.perf_counter() - begin
    peak = resource.getrusage(resource.RUSAGE_CHILDREN).ru_maxrss // 1024
    return seconds, peak, done.returncode, done.stdout.decode().strip()


def main():
    program = sys.argv[1] if len(sys.argv) > 1 else os.path.join(TOP, "crates/blic/out/blic")
    with tempfile.TemporaryDirectory() as folder:
        for make in (twenty_entries, many_literals, not_canonical):
            path = os.path.join(folder, make.__name__)
            make(path)
            size = os.path.getsize(path) / 2**20
            seconds, peak, status, line = measure(program, path)
            print(f"{make.__name__}: {size:.1f} MiB, {seconds:.2f} s, at most {peak} MiB so far, {line!r} ({status})")


if __name__ == "__main__":
    main()
