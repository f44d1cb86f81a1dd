#!/usr/bin/env python3
"""Times the built program on files in QDIMACS, beside other solvers. No test: it prints seconds and memory, and judges nothing.

usage: bench/beside.py [--blic PROGRAM] [--beside COMMAND].. [--runs N] FILE..

Each COMMAND is run with a file behind its words, as `--beside 'depqbf --no-lazy-qpup'`. Printed are, for each file and program, the
median of the processor times of N runs (5 if N isn't given) in seconds, the peak memory in MiB, and the exit status.
"""
import argparse
import os
import shlex
import statistics
import subprocess

TOP = os.path.dirname(os.path.dirname(os.path.abspath(__file__)))


def measure(words):
    """Processor seconds, peak memory in MiB and status of one run."""
    process = subprocess.Popen(words, stdout=subprocess.DEVNULL, stderr=subprocess.DEVNULL)
    _, status, used = os.wait4(process.pid, 0)
    process.returncode = os.waitstatus_to_exitcode(status)
    return used.ru_utime + used.ru_stime, used.ru_maxrss / 1024, process.returncode


def main():
    parser = argparse.ArgumentParser(description=__doc__, formatter_class=argparse.RawDescriptionHelpFormatter)
    parser.add_argument("--blic", default=os.path.join(TOP, "crates/blic/out/blic"))
    parser.add_argument("--beside", action="append", default=[])
    parser.add_argument("--runs", type=int, default=5)
    parser.add_argument("files", nargs="+")
    words = parser.parse_args()
    commands = [[words.blic, "solve"]] + [shlex.split(command) for command in words.beside]
    print("file", *(os.path.basename(command[0]) for command in commands), sep="\t")
    for file in words.files:
        cells = []
        for command in commands:
            runs = [measure(command + [file]) for _ in range(words.runs)]
            seconds = statistics.median(run[0] for run in runs)
            cells.append(f"{seconds:.3f} s {max(run[1] for run in runs):.0f} MiB ({runs[0][2]})")
        print(os.path.basename(file), *cells, sep="\t")


main()
