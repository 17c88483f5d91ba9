#!/usr/bin/env python3
"""Makes the matrices of crates/structures and the Rust's answers to them.

  python3 make.py BUILD       BUILD is a folder with the cut source as cholesky.rs (bench/baseline.py makes it)

Writes crates/structures/stdin, a line a matrix (n, a, the n + 1 starts, the a rows, in decimal), and
crates/structures/stdout, a line an answer, as dump.rs prints it. The matrices come from the families below with a fixed
seed, so that the lists are remade bit for bit."""
import os, random, subprocess, sys

HERE = os.path.dirname(os.path.abspath(__file__))
CRATE = os.path.join(HERE, '..', '..', 'crates', 'structures')
rng = random.Random(20261115)

def columns(n, entries):
    """Upper columns of the places (i, k), i <= k < n."""
    cols = [sorted({i for i, k in entries if k == c}) for c in range(n)] if n < 50 else None
    if cols is None:
        cols = [set() for _ in range(n)]
        for i, k in entries:
            cols[k].add(i)
        cols = [sorted(c) for c in cols]
    return n, cols

def diagonal(n):
    return [(k, k) for k in range(n)]

def dense(n):
    return columns(n, [(i, k) for k in range(n) for i in range(k + 1)])

def arrow(n):
    """The last column full: no fill."""
    return columns(n, diagonal(n) + [(i, n - 1) for i in range(n)])

def reverse_arrow(n):
    """The first row full: all fills in."""
    return columns(n, diagonal(n) + [(0, k) for k in range(n)])

def band(n, w):
    return columns(n, [(i, k) for k in range(n) for i in range(max(0, k - w), k + 1)])

def grid(x, y):
    e = []
    for k in range(x * y):
        if k >= x:
            e.append((k - x, k))
        if k % x:
            e.append((k - 1, k))
        e.append((k, k))
    return columns(x * y, e)

def scattered(n, per, diag=True):
    e = diagonal(n) if diag else []
    for k in range(1, n):
        for _ in range(rng.randrange(0, per + 1)):
            e.append((rng.randrange(k), k))
    return columns(n, e)

def blocks(sizes, border):
    """Blocks whose first row is full, so that each fills in, joined by a border that meets a row of each."""
    e, at = [], 0
    n = sum(sizes) + border
    for s in sizes:
        e += [(at, at + k) for k in range(s)] + [(at + k, at + k) for k in range(s)]
        for b in range(border):
            e.append((at + rng.randrange(s), n - border + b))
        at += s
    return columns(n, e + [(n - border + b, n - border + b) for b in range(border)])

LIST = [
    columns(0, []), columns(1, [(0, 0)]), columns(1, []), columns(2, []), columns(5, []),
    columns(4, [(0, 2), (1, 3), (2, 3)] + diagonal(4)), columns(3, [(0, 1), (0, 2)]), columns(6, [(0, 5), (1, 4), (2, 3)]),
    columns(8, diagonal(8)), columns(9, [(0, 8), (1, 7), (2, 6), (0, 4), (4, 8)]),
    dense(2), dense(3), dense(17), dense(64), dense(65),
    arrow(10), arrow(60), reverse_arrow(10), reverse_arrow(60), reverse_arrow(200),
    band(30, 1), band(40, 3), band(100, 7), grid(3, 3), grid(7, 5), grid(12, 12), grid(20, 9),
] + [scattered(n, per) for n, per in [(5, 1), (8, 2), (12, 1), (20, 1), (20, 3), (33, 2), (50, 1), (80, 2), (120, 1), (150, 2), (300, 1), (400, 1)]] \
  + [scattered(n, per, False) for n, per in [(7, 1), (25, 1), (60, 2), (200, 1)]] \
  + [blocks([4, 3, 5], 2), blocks([20, 30, 10, 25], 3), blocks([150, 190, 100, 60, 150], 8), blocks([185, 185, 185], 0), blocks([100] * 6, 30), grid(40, 40)]

def line(m):
    n, cols = m
    starts = [0]
    for c in cols:
        starts.append(starts[-1] + len(c))
    rows = [i for c in cols for i in c]
    return ' '.join(map(str, [n, len(rows)] + starts + rows)) + '\n'

if __name__ == '__main__':
    if len(sys.argv) != 2:
        sys.exit(__doc__)
    build = os.path.abspath(sys.argv[1])
    text = ''.join(map(line, LIST))
    os.makedirs(CRATE, exist_ok=True)
    open(os.path.join(CRATE, 'stdin'), 'w').write(text)
    with open(os.path.join(build, 'dump.rs'), 'w') as f:
        f.write(open(os.path.join(HERE, 'dump.rs')).read())
    subprocess.run(['rustc', '--edition', '2024', '-O', '-A', 'warnings', '-o', 'dump', 'dump.rs'], cwd=build, check=True)
    out = subprocess.run([os.path.join(build, 'dump')], input=text, capture_output=True, text=True, check=True).stdout
    open(os.path.join(CRATE, 'stdout'), 'w').write(out)
    print(len(LIST), 'matrices,', len(text), 'bytes')
