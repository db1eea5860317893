#!/usr/bin/env python3
"""The phase transition of random binary problems, made by one command.

    bench/experiment.py FOLDER [--program ABT] [--variables N] [--values D] [--edges E] [--forbidden A,B,..]
                        [--orders model,links,..] [--problems P] [--runs R] [--from SEED] [--workers W]

For each number of forbidden pairs it makes P problems by `gen binary`, with the seeds from SEED on, and runs each of
them R times by `survey`, with the seeds 0 to R - 1, under each of the orders: the model's own, or one by a rule of
`order`. FOLDER gets `runs.csv`, a line for each run, and `figure.svg`: deliveries (median, and quartiles of the first
order) and the share of problems with a solution, over tightness, which is the share of pairs of values that a constraint
forbids.

A stopped experiment goes on where it was: a problem of which `runs.csv` has all lines is not run again. The numbers of
the experiment stand in `settings.txt`, and a folder of other numbers is refused. The values not given are those of a
well-known peak: 14 variables, 6 values, 45 of the 91 pairs of variables.
"""

import argparse
import csv
import os
import statistics
import subprocess
import sys
import tempfile
import time
from concurrent.futures import ThreadPoolExecutor, as_completed

HEAD = ["order", "forbidden", "problem"]
ORDERS = ("model", "degree", "links", "reverse")
COLOURS = ("#0072b2", "#009e73", "#cc79a7", "#56b4e9")


class Failed(Exception):
    """A call of the program that did not end well."""


def call(program, words, good=(0,)):
    done = subprocess.run([program, *map(str, words)], capture_output=True, text=True)
    if done.returncode not in good:
        raise Failed(f"{program} {' '.join(map(str, words))}: status {done.returncode}: {done.stderr.strip()}")
    return done.stdout


def run_problem(settings, order, forbidden, seed):
    """The lines of one problem under an order: the survey's own, behind the order and the problem's numbers."""
    with tempfile.TemporaryDirectory() as folder:
        model = os.path.join(folder, "model.fzn")
        with open(model, "w") as file:
            file.write(call(settings.program, ["gen", "binary", settings.variables, settings.values, settings.edges, forbidden, seed]))
        words = ["survey", model, settings.runs]
        if order != "model":
            listed = os.path.join(folder, "order")
            call(settings.program, ["order", model, order, listed])
            words += ["--order", listed]
        head, *lines = call(settings.program, words, good=(0, 5)).splitlines()
    if len(lines) != settings.runs:
        raise Failed(f"{len(lines)} lines of {settings.runs} runs")
    return head.split(","), [[order, forbidden, seed, *line.split(",")] for line in lines]


class Table:
    """`runs.csv`: whole problems only; a problem's lines are written by one write."""

    def __init__(self, path):
        self.path = path
        self.columns = None
        self.rows = []
        if os.path.exists(path):
            with open(path, newline="") as file:
                table = list(csv.reader(file))
            if table:
                self.columns, self.rows = table[0], table[1:]

    def done(self, runs):
        """The problems of which all runs are there; others are dropped, since they were cut off."""
        counts = {}
        whole = len(self.columns or [])
        for row in self.rows:
            if len(row) == whole:
                counts[tuple(row[:3])] = counts.get(tuple(row[:3]), 0) + 1
        kept = {problem for problem, count in counts.items() if count == runs}
        self.rows = [row for row in self.rows if len(row) == whole and tuple(row[:3]) in kept]
        if self.columns:
            with open(self.path + ".new", "w", newline="") as file:
                csv.writer(file, lineterminator="\n").writerows([self.columns, *self.rows])
            os.replace(self.path + ".new", self.path)
        return {(order, int(forbidden), int(seed)) for order, forbidden, seed in kept}

    def add(self, columns, rows):
        with open(self.path, "a", newline="") as file:
            lines = csv.writer(file, lineterminator="\n")
            if self.columns is None:
                self.columns = HEAD + columns
                lines.writerow(self.columns)
            lines.writerows(rows)
        self.rows += [[str(cell) for cell in row] for row in rows]

    def column(self, name):
        return self.columns.index(name)


class Bar:
    """How far it is, on one line of standard error; without a terminal one line at each tenth."""

    def __init__(self, whole):
        self.whole, self.made, self.began, self.tenth = whole, 0, time.time(), 0

    def step(self):
        self.made += 1
        spent = time.time() - self.began
        left = spent / self.made * (self.whole - self.made)
        share = self.made / self.whole
        text = f"{self.made} of {self.whole} problems, {left // 60:.0f} min {left % 60:02.0f} s left"
        if sys.stderr.isatty():
            filled = int(share * 30)
            print(f"\r[{'#' * filled}{'.' * (30 - filled)}] {text} ", end="", file=sys.stderr, flush=True)
            if self.made == self.whole:
                print(file=sys.stderr)
        elif int(share * 10) > self.tenth:
            self.tenth = int(share * 10)
            print(text, file=sys.stderr, flush=True)


def make_runs(settings, table):
    wanted = [(order, forbidden, seed) for order in settings.orders for forbidden in settings.forbidden
              for seed in range(settings.start, settings.start + settings.problems)]
    done = table.done(settings.runs)
    missing = [problem for problem in wanted if problem not in done]
    if not missing:
        return
    bar = Bar(len(missing))
    with ThreadPoolExecutor(settings.workers) as workers:
        tasks = [workers.submit(run_problem, settings, *problem) for problem in missing]
        try:
            for task in as_completed(tasks):
                table.add(*task.result())
                bar.step()
        except BaseException:
            for task in tasks:
                task.cancel()
            raise


# ---- what the runs come to

def disagreements(settings, table):
    """Problems of which one run found a solution and another, under any order, refuted it: there can be none."""
    end = table.column("end")
    ends = {}
    for row in table.rows:
        ends.setdefault(tuple(row[1:3]), set()).add(row[end])
    return sorted(problem for problem, said in ends.items() if {"solved", "refuted"} <= said)


def summary(settings, table, order):
    """For each number of forbidden pairs: tightness, quartiles of the deliveries, share of problems with a solution."""
    deliveries, end = table.column("deliveries"), table.column("end")
    asked = {str(seed) for seed in range(settings.start, settings.start + settings.problems)}
    points = []
    for forbidden in settings.forbidden:
        rows = [row for row in table.rows if row[:2] == [order, str(forbidden)] and row[2] in asked]
        counts = [int(row[deliveries]) for row in rows]
        low, middle, high = statistics.quantiles(counts, n=4) if len(counts) > 1 else counts * 3
        solved = {row[2] for row in rows if row[end] == "solved"}
        refuted = {row[2] for row in rows if row[end] == "refuted"}
        share = len(solved) / (len(solved) + len(refuted)) if solved or refuted else 0
        points.append((forbidden / settings.values**2, low, middle, high, share))
    return points


def expected_peak(settings):
    """The tightness at which one solution is expected: N values to choose, each constraint lets 1 - t of the pairs."""
    if not settings.edges:
        return None
    peak = 1 - settings.values ** (-settings.variables / settings.edges)
    return peak if 0 < peak < 1 else None


# ---- the figure

WIDTH, HEIGHT, LEFT, RIGHT, TOP, BOTTOM = 760, 440, 80, 70, 40, 60


def ticks(most):
    step = 10 ** (len(str(int(most))) - 1)
    if most / step < 3:
        step //= 2 if step > 1 else 1
    return range(0, int(most) + step, max(step, 1))


def figure(settings, curves):
    points = curves[0][1]
    across = [point[0] for point in points]
    least, most = min(across), max(across)
    span = most - least or 1
    heights = list(ticks(max([point[3] for point in points] + [point[2] for _, others in curves[1:] for point in others]) or 1))
    def x(tightness):
        return LEFT + (tightness - least) / span * (WIDTH - LEFT - RIGHT)
    def y(count):
        return HEIGHT - BOTTOM - count / heights[-1] * (HEIGHT - TOP - BOTTOM)
    def shared(share):
        return HEIGHT - BOTTOM - share * (HEIGHT - TOP - BOTTOM)
    def path(pairs):
        return " ".join(f"{'M' if i == 0 else 'L'}{a:.1f},{b:.1f}" for i, (a, b) in enumerate(pairs))
    out = [f'<svg xmlns="http://www.w3.org/2000/svg" viewBox="0 0 {WIDTH} {HEIGHT}" font-family="sans-serif" font-size="13">',
           f'<rect width="{WIDTH}" height="{HEIGHT}" fill="white"/>',
           f'<text x="{LEFT}" y="22">{title(settings)}</text>']
    for height in heights:
        out.append(f'<path d="M{LEFT},{y(height):.1f}H{WIDTH - RIGHT}" stroke="#ddd"/>')
        out.append(f'<text x="{LEFT - 8}" y="{y(height) + 4:.1f}" text-anchor="end">{height:,}</text>')
    for share in (0, 0.25, 0.5, 0.75, 1):
        out.append(f'<text x="{WIDTH - RIGHT + 8}" y="{shared(share) + 4:.1f}" fill="#b35900">{share:.0%}</text>')
    for point in points:
        out.append(f'<text x="{x(point[0]):.1f}" y="{HEIGHT - BOTTOM + 20}" text-anchor="middle" font-size="11">{point[0]:.3f}</text>')
    band = [(x(p[0]), y(p[3])) for p in points] + [(x(p[0]), y(p[1])) for p in reversed(points)]
    out.append(f'<path d="{path(band)}Z" fill="#0072b2" fill-opacity="0.2"/>')
    for place, (order, others) in enumerate(curves):
        colour = COLOURS[place]
        out.append(f'<path d="{path([(x(p[0]), y(p[2])) for p in others])}" fill="none" stroke="{colour}" stroke-width="2.5"/>')
        if len(curves) > 1:
            out.append(f'<text x="{LEFT + 12}" y="{TOP + 16 + 18 * place}" fill="{colour}">{order}</text>')
    out.append(f'<path d="{path([(x(p[0]), shared(p[4])) for p in points])}" fill="none" stroke="#d55e00" stroke-width="2" stroke-dasharray="6 4"/>')
    peak = expected_peak(settings)
    if peak is not None and least <= peak <= most:
        out.append(f'<path d="M{x(peak):.1f},{TOP}V{HEIGHT - BOTTOM}" stroke="#555" stroke-dasharray="2 3"/>')
        out.append(f'<text x="{x(peak) + 4:.1f}" y="{TOP + 12}" fill="#555">expected {peak:.3f}</text>')
    middle = (TOP + HEIGHT - BOTTOM) / 2
    out.append(f'<text x="{(LEFT + WIDTH - RIGHT) / 2}" y="{HEIGHT - 16}" text-anchor="middle">tightness: share of the pairs of values that a constraint forbids</text>')
    out.append(f'<text transform="translate(18,{middle}) rotate(-90)" text-anchor="middle" fill="#0072b2">deliveries: median{", quartiles" if len(curves) == 1 else f", quartiles of {curves[0][0]}"}</text>')
    out.append(f'<text transform="translate({WIDTH - 12},{middle}) rotate(-90)" text-anchor="middle" fill="#b35900">problems with a solution</text>')
    return "\n".join(out + ["</svg>", ""])


def title(settings):
    return (f"{settings.variables} variables, {settings.values} values, {settings.edges} constraints: "
            f"{settings.problems} problems, {settings.runs} runs each")


# ---- the command

def built_program():
    """The program itself, which the launcher makes where it is not there or is older than its sources."""
    top = os.path.dirname(os.path.dirname(os.path.abspath(__file__)))
    launcher, program = os.path.join(top, "abt"), os.path.join(top, "crates", "abt_main", "out", "abt_main")
    # what the launcher says is shown, since a first build takes long
    if subprocess.run([launcher, "gen", "pigeons", "2"], stdout=subprocess.DEVNULL).returncode != 0:
        sys.exit(f"{launcher} made no program")
    return program if os.path.exists(program) else launcher


def arguments():
    words = argparse.ArgumentParser(description="The phase transition of random binary problems.",
                                    formatter_class=argparse.ArgumentDefaultsHelpFormatter)
    words.add_argument("folder", help="where runs.csv and figure.svg are written; it keeps what was measured")
    words.add_argument("--program", help="the program that measures; where none is given, the launcher's")
    for name, default, meaning in (
            ("variables", 14, "of each problem"),
            ("values", 6, "of each variable"),
            ("edges", 45, "pairs of variables with a constraint"),
            ("problems", 100, "for each number of forbidden pairs"),
            ("runs", 5, "of each problem, under the seeds 0, 1, ..")):
        words.add_argument(f"--{name}", type=int, default=default, metavar="N", help=meaning)
    words.add_argument("--from", type=int, default=0, dest="start", metavar="SEED", help="the first problem's seed")
    words.add_argument("--forbidden", default="4,8,10,12,13,14,15,16,17,18,20,24", metavar="N,..",
                       help="pairs of values that each constraint forbids")
    words.add_argument("--orders", default="model", metavar="ORDER,..",
                       help=f"orders of agents, a curve for each: {', '.join(ORDERS)}")
    words.add_argument("--workers", type=int, default=os.cpu_count() or 1, metavar="N", help="runs at once")
    settings = words.parse_args()
    settings.program = settings.program or built_program()
    settings.forbidden = sorted({int(word) for word in settings.forbidden.split(",")})
    settings.orders = list(dict.fromkeys(settings.orders.split(",")))
    if not set(settings.orders) <= set(ORDERS):
        words.error(f"--orders takes {', '.join(ORDERS)}, with a comma between")
    return settings


def same_numbers(settings):
    """Whether the folder is new, or has these numbers; they are written into a new one."""
    told = "".join(f"{name} {getattr(settings, name)}\n" for name in
                   ("variables", "values", "edges", "runs"))
    path = os.path.join(settings.folder, "settings.txt")
    if os.path.exists(path):
        with open(path) as file:
            return file.read() == told
    with open(path, "w") as file:
        file.write(told)
    return True


def main():
    settings = arguments()
    os.makedirs(settings.folder, exist_ok=True)
    if not same_numbers(settings):
        sys.exit(f"{settings.folder} has an experiment of other numbers: see its settings.txt, or name another folder")
    table = Table(os.path.join(settings.folder, "runs.csv"))
    try:
        make_runs(settings, table)
        wrong = disagreements(settings, table)
        if wrong:
            raise Failed(f"runs of one problem disagree: {wrong}")
        curves = [(order, summary(settings, table, order)) for order in settings.orders]
    except Failed as failure:
        sys.exit(str(failure))
    except KeyboardInterrupt:
        sys.exit("\nstopped; the same command goes on from here")
    with open(os.path.join(settings.folder, "figure.svg"), "w") as file:
        file.write(figure(settings, curves))
    print(f"{'order':>7} {'tightness':>9} {'lower':>9} {'median':>9} {'upper':>9} {'solved':>7}")
    for order, points in curves:
        for tightness, low, middle, high, share in points:
            print(f"{order:>7} {tightness:9.3f} {low:9.0f} {middle:9.0f} {high:9.0f} {share:7.0%}")
    print(f"{settings.folder}/runs.csv, {settings.folder}/figure.svg")


if __name__ == "__main__":
    main()
