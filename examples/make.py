#!/usr/bin/env python3
"""Writes the larger examples in QDIMACS to standard output.

usage: examples/make.py tokens N | nand N
"""
import itertools
import sys


def tokens(count):
    """Two players in turn take one, two or three of `count` tokens, and who takes the last one wins.

    Move i is the two bits 2i + 1 (weight 2) and 2i + 2 (weight 1). Who takes none, or more than there are, has lost. The first
    player's moves are existential, the second's universal, and there is a clause for each play that the first player loses: it
    says that some bit of the play is another one.
    """
    clauses = []

    def lost(play):
        bits = [bit for move in play for bit in (move & 2, move & 1)]
        clauses.append([-(i + 1) if bit else i + 1 for i, bit in enumerate(bits)])

    def play_on(play, left):
        first_moves = len(play) % 2 == 0
        for move in range(4):
            if move == 0 or left < move:
                if first_moves:
                    lost(play + [move])
            elif move < left:
                play_on(play + [move], left - move)
            elif not first_moves:
                lost(play + [move])

    play_on([], count)
    prefix = [("ea"[i % 2], [2 * i + 1, 2 * i + 2]) for i in range(count)]
    return 2 * count, prefix, clauses


def nand(gates):
    """Is there a circuit of so many NAND gates whose last gate is the exclusive or of two inputs?

    For each of a gate's two sides, a variable for each signal before the gate, the inputs or an earlier gate, says that the side is
    that signal. They are existential; then come the inputs, which are universal, and the values of the gates, existential.
    """
    names = {}

    def var(*name):
        return names.setdefault(name, len(names) + 1)

    sides = [[[var("side", gate, side, signal) for signal in range(gate + 2)] for side in range(2)] for gate in range(gates)]
    chosen = list(range(1, len(names) + 1))
    inputs = [var("signal", signal) for signal in range(2)]
    values = [var("signal", gate + 2) for gate in range(gates)]
    signals = inputs + values
    clauses = []
    for gate, (left, right) in enumerate(sides):
        clauses += [left, right]
        out = signals[gate + 2]
        for a, b in itertools.product(range(gate + 2), repeat=2):
            when = [-left[a], -right[b]]
            clauses.append(when + [signals[a], out])
            clauses.append(when + [signals[b], out])
            clauses.append(when + [-signals[a], -signals[b], -out])
    x, y, last = inputs[0], inputs[1], signals[-1]
    clauses += [[-x, -y, -last], [x, y, -last], [x, -y, last], [-x, y, last]]
    return len(names), [("e", chosen), ("a", inputs), ("e", values)], clauses


def main():
    make = {"tokens": tokens, "nand": nand}[sys.argv[1]]
    variables, prefix, clauses = make(int(sys.argv[2]))
    print(f"p cnf {variables} {len(clauses)}")
    for quantifier, bound in prefix:
        print(quantifier, *bound, 0)
    for clause in clauses:
        print(*dict.fromkeys(clause), 0)


main()
