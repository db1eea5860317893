#!/usr/bin/env python3
"""Times the lines that run agents, in a folder of their own that is removed at the end, and beside them those of another program.

usage: runs.py [--program PROGRAM] [--beside OTHER] [--only NAME] [--rounds N] [--instructions]

PROGRAM is the built `abt_main` of this repository if none is given. For each run a line tells the mean user milliseconds of
the better half of N rounds, 9 if not given, in turn with OTHER's, the most memory, and the quotients; `differs` stands where
status, answer or a file is another one. With --instructions each runs once under callgrind, and millions of instructions
are told in place of times. `growth N` is a sparse graph of N agents, whose line tells nanoseconds a delivery too.
"""
import hashlib
import os
import re
import subprocess
import sys
import tempfile


def option(name, default):
    return sys.argv[sys.argv.index(name) + 1] if name in sys.argv else default


here = os.path.dirname(os.path.abspath(__file__))
program = os.path.abspath(option('--program', os.path.join(here, '..', 'crates', 'abt_main', 'out', 'abt_main')))
beside = option('--beside', None)
programs = [program] + ([os.path.abspath(beside)] if beside else [])
only, rounds, counts = option('--only', ''), int(option('--rounds', '9')), '--instructions' in sys.argv


def numbers(count, seed):
    """Numbers below `count`, from a seed."""
    while True:
        seed = (seed * 6364136223846793005 + 1442695040888963407) % (1 << 64)
        yield (seed >> 32) % count


def formula(variables, clauses, seed):
    """A formula with three literals a clause."""
    draw, sign = numbers(variables, seed), numbers(2, seed + 1)
    lines = [' '.join('%s%d' % ('-' * next(sign), 1 + next(draw)) for _ in range(3)) + ' 0\n' for _ in range(clauses)]
    return 'p cnf %d %d\n' % (variables, clauses) + ''.join(lines)


def model(count, values, constraints):
    """So many variables from 1 to `values`, and constraints."""
    variables = ''.join('var 1..%d: x%d;\n' % (values, i) for i in range(1, count + 1))
    shown = 'array [1..%d] of var int: shown :: output_array([1..%d]) = [%s];\n' % (count, count, ','.join('x%d' % i for i in range(1, count + 1)))
    return variables + shown + ''.join('constraint %s;\n' % text for text in constraints) + 'solve satisfy;\n'


def each_pair(count):
    return [(i, j) for i in range(1, count + 1) for j in range(i + 1, count + 1)]


def queens(count):
    diagonal = 'int_lin_ne([1,-1],[x%d,x%d],%d)'
    return model(count, count, [text for i, j in each_pair(count) for text in
                                ('int_ne(x%d,x%d)' % (i, j), diagonal % (i, j, j - i), diagonal % (i, j, i - j))])


def pigeons(count):
    return model(count, count - 1, ['int_ne(x%d,x%d)' % pair for pair in each_pair(count)])


def colouring(count, values, seed):
    """Each two nodes differ with one chance in four."""
    draw = numbers(4, seed)
    return model(count, values, ['int_ne(x%d,x%d)' % pair for pair in each_pair(count) if next(draw) == 0])


def sparse(count, seed):
    """Each node differs from three drawn before it."""
    draw = numbers(1 << 32, seed)
    return model(count, 4, ['int_ne(x%d,x%d)' % (1 + next(draw) % (i - 1), i) for i in range(2, count + 1) for _ in range(3)])


# each run: its name, its model, and its line, where `m` is the model
RUNS = [
    ('queens 16', lambda: queens(16), 'solve m log'),
    ('queens 18', lambda: queens(18), 'solve m log --seed 3'),
    ('pigeons 8', lambda: pigeons(8), 'solve m log'),
    ('pigeons 9', lambda: pigeons(9), 'solve m log'),
    ('colouring 40 of 4', lambda: colouring(40, 4, 2), 'solve m log'),
    ('growth 250', lambda: sparse(250, 3), 'solve m log'),
    ('growth 1000', lambda: sparse(1000, 3), 'solve m log'),
    ('growth 4000', lambda: sparse(4000, 3), 'solve m log'),
    ('replay', lambda: queens(16), 'replay m schedule log'),
    ('starve', lambda: queens(16), 'starve m 1 16 file'),
    ('lossy', lambda: queens(12), 'lossy m log 100000 1'),
    ('drill', lambda: queens(4), 'drill 1'),
    ('cnf', lambda: formula(60, 262, 4), 'cnf m proof'),
]


def digest(folder, status, answer):
    """The same exactly where status, answer and written files are."""
    whole = hashlib.sha256(b'%d %s' % (status, answer))
    for name in sorted(os.listdir(folder)):
        if name not in ('m', 'schedule'):
            with open(os.path.join(folder, name), 'rb') as file:
                while piece := file.read(1 << 20):
                    whole.update(piece)
    return whole.hexdigest()


def run(binary, words, made):
    """Milliseconds or millions of instructions, KiB, what came of it, and its deliveries."""
    with tempfile.TemporaryDirectory() as folder:
        for name in os.listdir(made):
            os.link(os.path.join(made, name), os.path.join(folder, name))
        told = os.path.join(made, '..', 'told')
        tool = ['valgrind', '--tool=callgrind', '--callgrind-out-file=/dev/null', '--log-file=' + told] if counts else []
        child = subprocess.Popen(tool + [binary] + words, cwd=folder, stdout=subprocess.PIPE, stderr=subprocess.DEVNULL)
        answer = child.stdout.read()
        _, status, used = os.wait4(child.pid, 0)
        child.returncode = os.waitstatus_to_exitcode(status)
        figure = used.ru_utime * 1e3
        if counts:
            figure = int(re.search(r'Collected : (\d+)', open(told).read()).group(1)) / 1e6
        return figure, used.ru_maxrss, digest(folder, child.returncode, answer), deliveries(answer)


def deliveries(answer):
    found = re.search(rb'deliveries (\d+)', answer)
    return int(found.group(1)) if found else 0


def make(text, words, folder):
    """Writes the model of a run, and the schedule that a replay follows."""
    with open(os.path.join(folder, 'm'), 'w') as file:
        file.write(text)
    if 'schedule' in words:
        subprocess.run([program, 'solve', 'm', 'log', '--record', 'schedule'], cwd=folder, stdout=subprocess.DEVNULL)
        os.remove(os.path.join(folder, 'log'))


def told_of(name, results):
    """The line of a run: of each program the mean of the better half, and its most memory."""
    unit = 'million instructions' if counts else 'ms'
    means, parts = [], []
    for runs in results:
        best = sorted(figure for figure, _, _, _ in runs)[:(len(runs) + 1) // 2]
        means.append(sum(best) / len(best))
        parts.append('%.1f %s, %d KiB' % (means[-1], unit, max(memory for _, memory, _, _ in runs)))
    made = results[0][0][3]
    each = ['%.0f ns a delivery' % (means[0] * 1e6 / made)] if made and not counts else []
    quotient = ['%.2f times' % (means[0] / max(means[1], 0.001))] if len(means) == 2 else []
    same = all(run[2] == results[0][0][2] for runs in results for run in runs)
    return '%-18s %s' % (name, '; '.join(parts + each + quotient + ([] if same else ['differs'])))


for name, text_of, line in RUNS:
    if only not in name:
        continue
    with tempfile.TemporaryDirectory() as top:
        made = os.path.join(top, 'made')
        os.mkdir(made)
        make(text_of(), line.split(), made)
        results = [[] for _ in programs]
        for _ in range(1 if counts else rounds):
            for binary, runs in zip(programs, results):
                runs.append(run(binary, line.split(), made))
        print(told_of(name, results), flush=True)
