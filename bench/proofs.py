#!/usr/bin/env python3
"""Writes formulas and proofs that they have no model, in a folder of their own that is removed at the end, and times `rup` on them.

usage: proofs.py [--program PROGRAM] [--plain PROGRAM] [--sizes CLAUSES,..] [--only NAME] [--rounds N] [--keep FOLDER]

PROGRAM is the built `abt_main` of this repository if none is given. For each proof, which has about so many clauses, a line
tells its clauses, literals and variables, the user seconds of `rup` (the best of the rounds), the most memory, and the
answer, which must be `verified`; beside it the same of the program that --plain names, which takes the same words. With
--keep the formulas and proofs are written into FOLDER and stay there. What is written follows from the numbers here alone.

pigeons   one more pigeon than holes, refuted by a tree of placements, whose clauses have up to eight literals
random    random formulas of three literals a clause near the threshold, of 50 variables each, one of which must hold:
          each is refuted by a tree of decisions in a fixed order
parity    chains of exclusive ors over the same bits, of which each two are shown to be equal, bit by bit
units     the clauses of `parity`, each beside a literal that is false by a long chain of implications from a unit
"""
import os
import subprocess
import sys
import tempfile

PART = 50       # variables of a random formula
RATIO = 4.26    # its clauses for each variable
BITS = 40       # bits of a chain
FORCED = 3000   # variables that have one value


def option(name, default):
    return sys.argv[sys.argv.index(name) + 1] if name in sys.argv else default


here = os.path.dirname(os.path.abspath(__file__))
program = os.path.abspath(option('--program', os.path.join(here, '..', 'crates', 'abt_main', 'out', 'abt_main')))
plain = option('--plain', None)
sizes = [int(size) for size in option('--sizes', '10000,100000').split(',')]
rounds = int(option('--rounds', '3'))


def numbers(count, seed):
    """Numbers below `count`, from a seed."""
    while True:
        seed = (seed * 6364136223846793005 + 1442695040888963407) % (1 << 64)
        yield (seed >> 33) % count


def pigeons(size):
    """One more pigeon than holes; pigeon i has hole h where variable `var(i, h)` is true."""
    holes, tree = 1, 2
    while tree * (holes + 1) + 1 <= size * 3 // 2:
        holes, tree = holes + 1, tree * (holes + 1) + 1

    def var(pigeon, hole):
        return pigeon * holes + hole + 1

    each = range(holes)
    formula = [[var(i, h) for h in each] for i in range(holes + 1)]
    formula += [[-var(i, h), -var(j, h)] for h in each for j in range(holes + 1) for i in range(j)]
    proof = []

    def refute(taken):
        for hole in each:
            if hole not in taken:
                refute(taken + [hole])
        proof.append([-var(i, hole) for i, hole in enumerate(taken)])

    refute([])
    return formula, proof


def random_part(seed):
    """A random formula, as lists of literals."""
    draw = numbers(1 << 30, seed)
    clauses = []
    for _ in range(int(PART * RATIO) + 1):
        clause = []
        while len(clause) < 3:
            variable = next(draw) % PART + 1
            if variable not in map(abs, clause):
                clause.append(variable if next(draw) % 2 else -variable)
        clauses.append(clause)
    return clauses


def propagated(clauses, where, true, queue):
    """Adds to the true literals what follows from those in the queue: whether a clause became false."""
    while queue:
        for number in where.get(-queue.pop(), ()):
            left = [literal for literal in clauses[number] if -literal not in true]
            if not left:
                return True
            if len(left) == 1 and left[0] not in true:
                true.add(left[0])
                queue.append(left[0])
    return False


def tree_of(clauses, most):
    """The clauses of a tree of decisions that refutes a formula, or None where it has a model or the tree is too large."""
    where = {}
    for number, clause in enumerate(clauses):
        for literal in clause:
            where.setdefault(literal, []).append(number)
    tree = []

    def refute(decided, true, at):
        if not propagated(clauses, where, true, decided[-1:]):
            while at <= PART and (at in true or -at in true):
                at += 1
            if at > PART or len(tree) > most:
                return False
            for literal in (at, -at):
                if not refute(decided + [literal], true | {literal}, at + 1):
                    return False
        tree.append([-literal for literal in decided])
        return True

    return tree if refute([], set(), 1) else None


def random(size):
    """Parts that are refuted each beside a literal of its own, one of which must be false, for the clause at the end."""
    formula, proof, parts, seed = [], [], 0, 0
    while len(proof) < size:
        seed += 1
        clauses = random_part(seed)
        tree = tree_of(clauses, size)
        if tree is None:
            continue
        first = parts * (PART + 1)
        choice = first + PART + 1

        def moved(literal):
            return literal + first if literal > 0 else literal - first

        formula += [[moved(literal) for literal in clause] + [-choice] for clause in clauses]
        proof += [[moved(literal) for literal in clause] + [-choice] for clause in tree]
        parts += 1
        if (parts + 1) * (PART + 1) > 4096:
            break
    formula.append([(part + 1) * (PART + 1) for part in range(parts)])
    return formula, proof + [[]]


def parity(size, first=0):
    """Chains over BITS bits; the ends of the first and of the last chain differ."""
    chains = 2
    while 3 * BITS * chains * (chains - 1) < size and (chains + 2) * BITS + first <= 4096:
        chains += 1

    def bit(i):
        return first + i + 1

    def var(chain, i):
        return first + (chain + 1) * BITS + i + 1

    formula, proof = [], []
    for chain in range(chains):
        formula += [[bit(0), -var(chain, 0)], [-bit(0), var(chain, 0)]]
        for i in range(1, BITS):
            x, old, new = bit(i), var(chain, i - 1), var(chain, i)
            formula += [[x, old, -new], [x, -old, new], [-x, old, new], [-x, -old, -new]]
    ends = var(0, BITS - 1), var(chains - 1, BITS - 1)
    formula += [[ends[0], ends[1]], [-ends[0], -ends[1]]]
    for low in range(chains):
        for high in range(low + 1, chains):
            for i in range(BITS):
                for a, b in ((var(low, i), var(high, i)), (var(high, i), var(low, i))):
                    proof += [[x, -a, b] for x in (bit(i), -bit(i))] + [[-a, b]]
    return formula, proof + [[ends[0]], []]


def units(size):
    """A chain of implications from one unit, and beside each clause of `parity` a literal that is false at its end."""
    formula, proof = parity(size, FORCED)
    chain = [[1]] + [[-i, i + 1] for i in range(1, FORCED)]
    return chain + [clause + [-FORCED] for clause in formula], proof


def write(names, make, size):
    """Writes the formula and the proof, and answers the counts of the proof's clauses, of all literals and of the variables."""
    formula, proof = make(size)
    variables = max(abs(literal) for clause in formula for literal in clause)
    with open(names[0], 'w') as file:
        file.write('p cnf %d %d\n' % (variables, len(formula)))
        file.writelines(' '.join(map(str, clause + [0])) + '\n' for clause in formula)
    with open(names[1], 'w') as file:
        file.writelines(' '.join(map(str, clause + [0])) + '\n' for clause in proof)
    return len(proof), sum(map(len, formula + proof)), variables


def rup(binary, names):
    """-> user seconds, KiB, answer"""
    best = None
    for _ in range(rounds):
        with tempfile.TemporaryFile('w+') as out:
            child = subprocess.Popen([binary, 'rup', *names], stdout=out)
            _, status, used = os.wait4(child.pid, 0)
            child.returncode = os.waitstatus_to_exitcode(status)
            out.seek(0)
            found = used.ru_utime, used.ru_maxrss, out.read().strip()
            best = min(best, found) if best else found
    return best


def apart(call, *words):
    """The numbers that a call answers in a process of its own, so that this one stays small beside those that it measures."""
    out, into = os.pipe()
    child = os.fork()
    if not child:
        os.write(into, ' '.join(map(str, call(*words))).encode())
        os._exit(0)
    os.close(into)
    with open(out) as text:
        answer = text.read()
    os.waitpid(child, 0)
    return tuple(map(int, answer.split()))


def main():
    sys.setrecursionlimit(10000)
    with tempfile.TemporaryDirectory() as scratch:
        folder = option('--keep', scratch)
        os.makedirs(folder, exist_ok=True)
        for name, make in [('pigeons', pigeons), ('random', random), ('parity', parity), ('units', units)]:
            for size in sizes:
                if option('--only', name) != name:
                    continue
                names = [os.path.join(folder, '%s-%d.%s' % (name, size, kind)) for kind in ('cnf', 'proof')]
                line = '%-8s %7d clauses, %8d literals, %5d variables' % (name, *apart(write, names, make, size))
                for binary in filter(None, (program, plain)):
                    line += ': %6.2f s, %7d KiB, %s' % rup(binary, names)
                print(line, flush=True)
                if folder == scratch:
                    for file in names:
                        os.remove(file)


if __name__ == '__main__':
    main()
