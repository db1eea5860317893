#!/usr/bin/env python3
"""Writes logs that are refutations, in a folder of their own that is removed at the end, and times `check` on them.

usage: logs.py [--program PROGRAM] [--sizes MEGABYTES,..] [--only NAME] [--keep FOLDER]

PROGRAM is the built `abt_main` of this repository if none is given. For each log a line tells its bytes and steps, the
user and system seconds of `check`, the most memory, and the answer, which must be `verified`. With --keep the models and
logs are written into FOLDER and stay there. What is written follows from the numbers here alone.

tree      one more pigeon than holes, refuted by a tree: each nogood has up to eight pairs and cites those before it
deleted   the same as a log of version 2, in which each step that is not needed any more is deleted
wide      nogoods of some 200 pairs
reasons   lines with 1,000 reasons each
"""
import os
import subprocess
import sys
import tempfile


def option(name, default):
    return sys.argv[sys.argv.index(name) + 1] if name in sys.argv else default


here = os.path.dirname(os.path.abspath(__file__))
program = os.path.abspath(option('--program', os.path.join(here, '..', 'crates', 'abt_main', 'out', 'abt_main')))
sizes = [int(size) for size in option('--sizes', '50,500').split(',')]
HOLES = 8


class Log:
    """A log that is written until it has about so many bytes."""

    def __init__(self, file, head, size):
        self.file, self.size, self.bytes, self.steps = file, size, len(head), 0
        file.write(head)

    def step(self, text):
        self.steps += 1
        line = '%d %s\n' % (self.steps, text)
        self.bytes += len(line)
        self.file.write(line)
        return self.steps

    def delete(self, numbers):
        line = 'd %s\n' % ' '.join(map(str, sorted(numbers)))
        self.bytes += len(line)
        self.file.write(line)

    def is_full(self):
        return self.bytes >= self.size


def pigeons_model():
    """Each of the pigeons 1 to HOLES + 1 has a hole, and no two have one hole. Constraint `rules[i, j]` is between i and j."""
    lines = ['var 1..%d: p%d;\n' % (HOLES, i) for i in range(1, HOLES + 2)]
    rules = {}
    for i in range(1, HOLES + 2):
        for j in range(i + 1, HOLES + 2):
            rules[i, j] = len(rules) + 1
            lines.append('constraint int_ne(p%d,p%d);\n' % (i, j))
    return ''.join(lines) + 'solve satisfy;\n', rules


def refute(log, rules, taken, deletes):
    """Derives that the first pigeons are not in the holes that are taken, and answers the number of that step."""
    pigeon = len(taken) + 1
    reasons, children = [], []
    for hole in range(1, HOLES + 1):
        if hole in taken:
            reasons.append('c%d' % rules[taken.index(hole) + 1, pigeon])
        else:
            children.append(refute(log, rules, taken + [hole], deletes))
            reasons.append('n%d' % children[-1])
    pairs = ','.join('v%d=%d' % (i + 1, hole) for i, hole in enumerate(taken))
    number = log.step('v%d [%s] <- %s' % (pigeon, pairs, ' '.join(reasons)))
    if deletes and children:
        log.delete(children)
    return number


def tree(log, deletes=False):
    model, rules = pigeons_model()
    yield model
    while not log.is_full():
        refute(log, rules, [], deletes)


def deleted(log):
    return tree(log, True)


def numbers(count, seed):
    """Numbers below `count`, from a seed."""
    while True:
        seed = (seed * 6364136223846793005 + 1442695040888963407) % (1 << 64)
        yield (seed >> 33) % count


def wide(log):
    others = range(3, 400)
    yield ('var 0..1: x;\nvar 0..1: y;\n' + ''.join('var -9..90: z%d;\n' % i for i in others)
           + 'constraint int_ne(x,y);\nconstraint int_eq(x,y);\nsolve satisfy;\n')
    draw = numbers(100, 1)
    while not log.is_full():
        value = next(draw) % 2
        pairs = ','.join('v%d=%d' % (i, next(draw) - 9) for i in others if next(draw) < 50)
        log.step('v2 [v1=%d,%s] <- c%d c%d' % (value, pairs, 1 + value, 2 - value))
    ends = [log.step('v2 [v1=%d] <- c%d c%d' % (value, 1 + value, 2 - value)) for value in (0, 1)]
    log.step('v1 [] <- n%d n%d' % tuple(ends))


def reasons(log):
    yield 'var 1..1000: x;\nvar 1..1000: y;\nconstraint int_ne(x,y);\nconstraint int_eq(x,y);\nsolve satisfy;\n'
    while not log.is_full():
        cited = []
        for value in range(1, 1001):
            row = ['c2'] * 1000
            row[value - 1] = 'c1'
            cited.append('n%d' % log.step('v2 [v1=%d] <- %s' % (value, ' '.join(row))))
        log.step('v1 [] <- %s' % ' '.join(cited))


def make(folder, name, write, megabytes):
    """Writes the model and the log, and answers their names and how many steps the log has."""
    names = [os.path.join(folder, '%s-%d.%s' % (name, megabytes, kind)) for kind in ('fzn', 'ngd')]
    with open(names[1], 'w') as file:
        log = Log(file, 'ngd 2\n' if write is deleted else 'ngd 1\n', megabytes * 1_000_000)
        for model in write(log):
            with open(names[0], 'w') as other:
                other.write(model)
        file.write('end\n')
    return names, log.steps


def check(names):
    """-> user seconds, system seconds, KiB, answer"""
    with tempfile.TemporaryFile('w+') as out:
        child = subprocess.Popen([program, 'check', *names], stdout=out)
        _, status, used = os.wait4(child.pid, 0)
        child.returncode = os.waitstatus_to_exitcode(status)
        out.seek(0)
        return used.ru_utime, used.ru_stime, used.ru_maxrss, out.read().strip()


def main():
    with tempfile.TemporaryDirectory() as scratch:
        folder = option('--keep', scratch)
        for name, write in [('tree', tree), ('deleted', deleted), ('wide', wide), ('reasons', reasons)]:
            for megabytes in sizes:
                if option('--only', name) != name:
                    continue
                names, steps = make(folder, name, write, megabytes)
                size = os.path.getsize(names[1])
                user, system, most, answer = check(names)
                print('%-8s %11d bytes %9d steps: %6.2f s user, %5.2f s system, %8d KiB, %s'
                      % (name, size, steps, user, system, most, answer), flush=True)
                if folder == scratch:
                    for file in names:
                        os.remove(file)


if __name__ == '__main__':
    main()
