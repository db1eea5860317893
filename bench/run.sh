#!/bin/sh
# Makes FlatZinc files as MiniZinc writes them, at the limits of the program, and times the program and its
# parts over them, one agent over many messages, all agents of some problems, and appends to a file. It wants python3 and GNU time.
set -e
top=$(cd "$(dirname "$0")/.." && pwd)
folder=$(mktemp -d)
trap 'rm -rf "$folder"' EXIT
python3 - "$folder" <<'PYTHON'
import sys
folder = sys.argv[1]
size = 16 * 1024 * 1024
end = b'solve :: int_search([X_INTRODUCED_0_,X_INTRODUCED_1_],first_fail,indomain_min) satisfy;\n'
name = lambda i: b'X_INTRODUCED_%d_' % (i % 2000)
truth = lambda i: b'X_INTRODUCED_%d_' % (3000 + i % 100)


def write(file, lines):
    with open(folder + '/' + file, 'wb') as out:
        out.write(b''.join(lines))


def declared():
    lines = [b'array [1..2] of int: X_INTRODUCED_4000_ = [1,-1];\n']
    lines += [b'var 1..100: %s:: output_var;\n' % name(i) for i in range(2000)]
    return lines + [b'var bool: %s ::var_is_introduced :: is_defined_var;\n' % truth(i) for i in range(100)]


def constraint(i):
    pair = name(i), name(i * 7 + 1)
    if i % 3 == 0:
        return b'constraint int_lt_reif(%s,%s,%s):: defines_var(%s);\n' % (pair + (truth(i), truth(i)))
    return b'constraint int_lin_ne(X_INTRODUCED_4000_,[%s,%s],%d);\n' % (pair + (i % 100,))


def filled(size):
    lines = declared()
    left = size - len(end) - sum(map(len, lines))
    i = 0
    while left >= len(constraint(i)):
        lines.append(constraint(i))
        left -= len(lines[-1])
        i += 1
    return lines + [end]


# 16 MiB of constraints between 2,100 variables, and half of it, for how the cost grows
write('large.fzn', filled(size))
write('half.fzn', filled(size // 2))
# as many variables and rules as there may be
variables = [b'var 1..100: x%d;\n' % i for i in range(4096)]
rules = [b'constraint int_ne(x%d,x%d);\n' % (i % 4096, (i * 7 + 1) % 4096) for i in range(262144)]
write('rules.fzn', variables + rules + [b'solve satisfy;\n'])
# as many listed values as there may be
sets = [b'constraint set_in(x,{%s});\n' % b','.join(b'%d' % (k * 131 + v) for v in range(65535)) for k in range(16)]
write('listed.fzn', [b'var 1..100: x;\n'] + sets + [b'solve satisfy;\n'])


def each_pair(n, high, lines):
    """Variables from 1 to `high`, and the lines of constraints for each two of them."""
    pairs = [(i, j) for i in range(1, n + 1) for j in range(i + 1, n + 1)]
    variables = [b'var 1..%d: q%d;\n' % (high, i) for i in range(1, n + 1)]
    return variables + [line for i, j in pairs for line in lines(i, j)] + [b'solve satisfy;\n']


def queen(i, j):
    pair, apart = (i, j), j - i
    diagonal = b'constraint int_lin_ne([1,-1],[q%d,q%d],%d);\n'
    return [b'constraint int_ne(q%d,q%d);\n' % pair, diagonal % (i, j, apart), diagonal % (i, j, -apart)]


def numbers(count, seed):
    """Numbers below `count`, from a seed."""
    while True:
        seed = (seed * 6364136223846793005 + 1442695040888963407) % (1 << 64)
        yield (seed >> 32) % count


# problems for all agents: twenty queens, eight pigeons in seven holes, and thirty variables with many values
write('queens.fzn', each_pair(20, 20, queen))
write('pigeons.fzn', each_pair(8, 7, lambda i, j: queen(i, j)[:1]))
write('wide.fzn', each_pair(30, 1000, lambda i, j: queen(i, j)[:2]))
# a sparse graph: each node has one of four colours, and differs from three drawn before it
draw = numbers(1 << 32, 1)
nodes = [b'var 1..4: q%d;\n' % i for i in range(1, 501)]
edges = [b'constraint int_ne(q%d,q%d);\n' % (1 + next(draw) % (i - 1), i) for i in range(2, 501) for _ in range(3)]
write('sparse.fzn', nodes + edges + [b'solve satisfy;\n'])
write('short.fzn', [b';' * size])
write('none.ngd', [b'ngd 1\nend\n'])
PYTHON
figures='%e s, of them %U s of processor and %S s in the system; %M KiB at most'
parts=$top/crates/bench_parts/out/bench_parts
(cd "$top/crates/bench_parts" && rt run -- items data/small.fzn) >/dev/null
"$top/abt" check "$top/examples/m1.fzn" "$top/examples/m1.ngd" >/dev/null
cd "$folder"
for part in 'tokens large.fzn' 'items large.fzn' 'tokens short.fzn'; do
    echo "$part: $(wc -c <"${part#* }") bytes"
    /usr/bin/time -f "$figures" "$parts" $part
done
# one agent of 1,000 values with 50 higher ones: values and nogoods, then values alone beside so many kept nogoods
for run in 'agent 100000' 'quiet 100000 0' 'quiet 100000 90' 'quiet 100000 900'; do
    echo "$run"
    /usr/bin/time -f "$figures" "$parts" $run
done
# all agents of a problem, under the choices of one seed; the time of reading counts too
"$top/abt" gen queens 20 >generated.fzn
"$top/abt" gen colouring 100 9 1 >colouring.fzn
for problem in queens.fzn generated.fzn colouring.fzn sparse.fzn pigeons.fzn wide.fzn; do
    /usr/bin/time -f '%U %M' -o used "$parts" network $problem >told
    awk -v name=$problem 'NR == FNR { made = $1; told = $0; next }
        { printf "network %s: %s, %.2f s of processor, %.0f ns each, %s KiB at most\n", name, told, $1, 1e9 * $1 / made, $2 }' told used
done
# lines of 190 bytes, each appended by a call of its own to a file of the system
echo 'appends 1000000'
/usr/bin/time -f "$figures" "$parts" appends 1000000
for model in large.fzn half.fzn rules.fzn listed.fzn; do
    echo "check $model: $(wc -c <$model) bytes"
    # the log refutes nothing, so the status is 1
    /usr/bin/time -f "$figures" "$top/crates/abt_main/out/abt_main" check $model none.ngd || true
done
