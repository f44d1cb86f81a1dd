#!/usr/bin/env python3
"""Prints, for files in QDIMACS, counts that don't depend on a machine. No test: it judges nothing.

usage: bench/counts.py [PROGRAM] FILE..     (default: crates/blic/out/blic, as bin/blic builds it)

Decisions and pairs are the least limits within which the program solves the file, found by halving. Draws, frames and bytes are
those of the conversation that certifies it.
"""
import os
import subprocess
import sys

TOP = os.path.dirname(os.path.dirname(os.path.abspath(__file__)))
SEED = "00" * 32


def run(program, *words):
    return subprocess.run([program, *words], stdout=subprocess.PIPE).stdout.decode().splitlines()


def least(program, file, option, most):
    """The least value of the option with which the file is solved, or None if the greatest doesn't do."""
    def solved(limit):
        return run(program, "solve", file, option, str(limit))[0].startswith("s cnf")

    if not solved(most):
        return None
    low, high = 1, most
    while low < high:
        middle = (low + high) // 2
        if solved(middle):
            high = middle
        else:
            low = middle + 1
    return low


def main():
    words = sys.argv[1:]
    program = os.path.join(TOP, "crates/blic/out/blic")
    if words and os.access(words[0], os.X_OK) and not words[0].endswith((".qdimacs", ".cnf")):
        program = words.pop(0)
    print("| file | decisions | pairs | draws | frames | bytes |")
    print("|---|---|---|---|---|---|")
    for file in words:
        decisions = least(program, file, "--nodes", 1 << 22)
        pairs = least(program, file, "--pairs", 1 << 24)
        frames = [line[2:] for line in run(program, "certify", file, "--talk", "--seed", SEED) if line[:2] in ("> ", "< ")]
        size = sum(len(frame) // 2 for frame in frames)
        draws = [line.split()[1] for line in run(program, "certify", file, "--seed", SEED) if line.startswith("draws")]
        cells = [os.path.basename(file), decisions, pairs, draws[0] if draws else None, len(frames), size]
        print("| " + " | ".join("-" if cell is None else str(cell) for cell in cells) + " |")


main()
