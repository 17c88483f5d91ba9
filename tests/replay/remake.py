#!/usr/bin/env python3
"""Remakes the lists of the crate `replay` from the Rust source.

  remake.py SOURCE [--check]    SOURCE is the folder that holds the source's files as they were handed over;
                                --check compares with the lists that stand and writes nothing
  remake.py --table             counts the stored jobs by list, family and answer; needs no Rust

Builds judge.rs over the unchanged module in a folder of its own, makes the jobs from the seed below, and writes
crates/replay/stdin (the jobs), crates/replay/stdout (the judge's answers) and NAMES. Needs rustc and nothing else. The
same seed makes the same bytes."""
import os, random, struct, subprocess, sys, tempfile

HERE = os.path.dirname(os.path.abspath(__file__))
CRATE = os.path.join(HERE, '..', '..', 'crates', 'replay')
SEED, RANDOM_JOBS = 20261115, 150
MODULE = 'src--crates--solver--src--cholesky.rs.txt'
ANY = 0xFFFFFFFF

# ---- the judge

PARALLEL = '''pub fn map<T>(n: usize, f: impl Fn(usize) -> T) -> Vec<T> {
    (0..n).map(f).collect()
}
pub fn for_each_mut<T>(l: &mut [T], f: impl Fn(usize, &mut T)) {
    l.iter_mut().enumerate().for_each(|(i, x)| f(i, x));
}
'''
MODEL = '''pub mod progress {
    pub struct Progress;
    impl Progress {
        pub fn is_cancelled(&self) -> bool {
            false
        }
    }
    pub fn current() -> Option<Progress> {
        None
    }
}
'''

def build(source, d):
    def write(name, text): open(os.path.join(d, name), 'w').write(text)
    def rustc(*words): subprocess.run(['rustc', '--edition', '2024', '-O', *words], cwd=d, check=True)
    for name, text in (('fieldcraft_parallel', PARALLEL), ('fieldcraft_model', MODEL)):
        write(name + '.rs', text)
        rustc('--crate-type', 'rlib', '--crate-name', name, name + '.rs')
    write('cholesky.rs', open(os.path.join(source, MODULE)).read())
    write('judge.rs', open(os.path.join(HERE, 'judge.rs')).read())
    rustc('-L', '.', '--extern', 'fieldcraft_parallel', '--extern', 'fieldcraft_model', '-A', 'warnings', 'judge.rs')
    return os.path.join(d, 'judge')

# ---- jobs

def bits(x): return struct.unpack('>Q', struct.pack('>d', x))[0]
def number(u): return struct.unpack('>d', struct.pack('>Q', u))[0]

NAN, INF, SIGN = 0x7FF8000000000000, 0x7FF0000000000000, 1 << 63
ODD = [NAN, NAN | SIGN, 0x7FF0000000000001, 0xFFF8000000000123, 0x7FFFFFFFFFFFFFFF, INF, INF | SIGN, 0, SIGN, 1, 1 | SIGN, 0x000FFFFFFFFFFFFF, 0x0010000000000000,
       0x7FEFFFFFFFFFFFFF, 0xFFEFFFFFFFFFFFFF, bits(1e300), bits(-1e-300), bits(-1.0), bits(1e-10)]

def lines(n, a, b, cap=ANY):
    """a maps (row, column) to a float or bits; b is a list of such."""
    u = lambda x: x if isinstance(x, int) else bits(x)
    out = ['01%04X%08X' % (n, cap)]
    out += ['02%04X%04X%016X' % (k, i, u(a[i, k])) for i, k in sorted(a, key=lambda t: (t[1], t[0]))]
    out += ['03%04X%016X' % (k, u(x)) for k, x in enumerate(b)]
    return out + ['04']

def text(l): return ''.join(x + '\n' for x in l).encode()

def edges(r, kind, n):
    if kind == 'scattered': e = [tuple(sorted(r.sample(range(n), 2))) for _ in range(r.randint(0, 2 * n))] if n > 1 else []
    elif kind == 'band': w = r.randint(1, 5); e = [(i, k) for k in range(n) for i in range(max(0, k - w), k)]
    elif kind == 'last-full': e = [(i, n - 1) for i in range(n - 1)]
    elif kind == 'first-full': e = [(0, k) for k in range(1, n)]
    elif kind == 'tree': e = [(i, r.randrange(i + 1, n)) for i in range(n - 1)]
    elif kind == 'tree-down': e = [(r.randrange(k), k) for k in range(1, n)]
    elif kind == 'grid': x = max(1, int(n ** .5)); e = [(k - d, k) for k in range(n) for d in (1, x) if k >= d and (d == x or k % x)]
    elif kind == 'blocks': g = [r.randrange(1 + n // 4) for _ in range(n)]; e = [(i, k) for k in range(n) for i in range(k) if g[i] == g[k]]
    elif kind == 'dense': e = [(i, k) for k in range(n) for i in range(k)]
    else: p = list(range(n)); r.shuffle(p); e = [tuple(sorted((p[i], p[r.randrange(i + 1, n)]))) for i in range(n - 1)]
    return sorted(set(e))

KINDS = ['scattered', 'band', 'last-full', 'first-full', 'tree', 'tree-down', 'grid', 'blocks', 'dense', 'tree-shuffled']

def dominant(r, n, e, scale=1.0):
    a, d = {}, [scale * r.uniform(.1, 1) for _ in range(n)]
    for i, k in e:
        a[i, k] = scale * r.uniform(-1, 1)
        d[i] += abs(a[i, k]); d[k] += abs(a[i, k])
    a.update({(k, k): d[k] * r.uniform(1.01, 1.5) for k in range(n)})
    return a

def sides(r, n): return [r.choice([r.uniform(-9, 9), float(r.randint(-9, 9))]) for _ in range(n)]

def fixed():
    """Document 01's edges, and what only a large n can meet."""
    one = lambda n: [1.0] * n
    yield 'whole-case', lines(2, {(0, 0): 4., (0, 1): 2., (1, 1): 5.}, [8., 12.], 3)
    yield 'no-columns', lines(0, {}, [], 0)
    yield 'one-column', lines(1, {(0, 0): 4.}, [8.])
    yield 'nothing-stored', lines(1, {}, [8.])
    arrow = {(0, 0): 1., (0, 1): 1., (0, 2): 1., (1, 1): 2., (2, 2): 3.}
    yield 'cap-6', lines(3, arrow, one(3), 6)
    yield 'cap-5', lines(3, arrow, one(3), 5)
    six = {(k, k): 1. for k in range(5)} | {(5, 5): 1e10} | {(i, 5): v for i, v in enumerate([99999., 447., 13., 4., 2.])}
    yield 'at-threshold', lines(6, six, one(6))
    yield 'above-threshold', lines(6, six | {(4, 5): 1.}, one(6))
    four = {(0, 2): 1., (1, 3): 1., (2, 3): 1.}
    yield 'postorder', lines(4, four | {(k, k): 4. for k in range(4)}, one(4))
    yield 'first-in-postorder', lines(4, {t: 0. for t in four} | {(0, 0): 0., (1, 1): 0., (2, 2): 1., (3, 3): 1.}, one(4))
    for name, u in (('two', bits(2.)), ('least', 1), ('largest', 0x7FEFFFFFFFFFFFFF)): yield 'root-of-' + name, lines(1, {(0, 0): u}, [1.])
    yield 'signed-zero', lines(4, {(k, k): 64. for k in range(4)} | {(0, 2): -1., (0, 3): 0., (1, 2): .5, (2, 3): -0.}, [1., 0., 1., -0.])
    hub = lambda n, m: {(0, k): 1. for k in range(1, m)} | {(k, k): 4. for k in range(1, n)} | {(0, 0): 3. * n}
    for n in (63, 64, 65, 66, 127): yield 'hub-%d' % n, lines(n, hub(n, n), [float(k % 7) for k in range(n)])
    # 8,256 entries; 8,192 and 8,193
    yield 'values-short', lines(128, hub(128, 128), one(128))
    yield 'values-short-cap', lines(128, hub(128, 128), one(128), 8255)
    for late in (63, 64, 65): yield 'near-8192-%d' % late, lines(128, hub(128, 127) | {(late, 127): 1., (127, 127): 9.}, one(128))
    yield 'entries-4096', ['01000200000009'] + ['020000' + '0000' + '%016X' % bits(4.)] * 4096 + ['03%04X%016X' % (k, 0) for k in (0, 1)] + ['04']
    yield 'entries-4097', ['01000200000009'] + ['020000' + '0000' + '%016X' % bits(4.)] * 4097 + ['03%04X%016X' % (k, 0) for k in (0, 1)] + ['04']
    # 113,554 bytes and an answer of 2,959: no job and no answer is longer
    near = [(k - d, k) for d in range(128) for k in range(d, 128)][:4096]
    yield 'largest', lines(128, {t: 1. for t in near} | {(k, k): 500. for k in range(128)}, [float(k) for k in range(128)])
    # 6 and 5 come before 9
    yield 'cap-before-pivot', lines(3, arrow | {(0, 0): -1.}, one(3), 5)
    yield 'values-before-pivot', lines(128, hub(128, 128) | {(0, 0): -1.}, one(128))

def damaged():
    """One small job, with one thing wrong each time: what a line's frame, its place or its end can have wrong."""
    l = lines(2, {(0, 0): 4., (0, 1): 2., (1, 1): 5.}, [8., 12.])
    put = lambda i, *new: text(l[:i] + list(new) + l[i + 1:])
    add = lambda i, *new: text(l[:i] + list(new) + l[i:])
    yield 'empty', b''
    yield 'one-lf', b'\n'
    for i, x in enumerate(l):
        yield 'ends-after-%d' % i, text(l[:i])
        yield 'no-lf-%d' % i, text(l[:i]) + x.encode()
        yield 'short-%d' % i, put(i, x[:-1])
        yield 'long-%d' % i, put(i, x + '0')
        yield 'space-%d' % i, put(i, x + ' ')
        yield 'cr-%d' % i, put(i, x + '\r')
        yield 'blank-before-%d' % i, add(i, '')
        yield 'twice-%d' % i, add(i, x)
        yield 'left-out-%d' % i, put(i)
        yield 'no-digit-%d' % i, put(i, x[:1] + ':' + x[2:])
        yield 'letter-%d' % i, put(i, x[:1] + 'G' + x[2:])
        yield 'nul-%d' % i, put(i, '\0' + x[1:])
        yield 'other-kind-%d' % i, put(i, '05' + x[2:])
    yield 'lower-case', put(0, l[0][:-8] + 'ffffffff')
    yield 'lower-case-bits', put(2, l[2][:-16] + '3ff000000000000a')
    yield 'n-128-early', put(0, '010080FFFFFFFF')
    yield 'n-129', put(0, '010081FFFFFFFF')
    yield 'n-most', put(0, '01FFFFFFFFFFFF')
    yield 'column-n', add(4, '020002' + l[3][6:])
    yield 'column-most', add(4, '02FFFF' + l[3][6:])
    yield 'column-falls', add(4, l[1])
    yield 'stored-after-side', add(5, l[3])
    yield 'sides-swapped', text(l[:4] + [l[5], l[4], l[6]])
    yield 'side-skipped', put(5, '030002' + l[5][6:])
    yield 'side-extra', add(6, '030002' + l[5][6:])
    yield 'end-early', add(5, '04')
    yield 'sides-before-stored', text([l[0]] + l[4:6] + l[1:4] + l[6:])
    for name, x in (('end', '04\n'), ('lf', '\n'), ('begin', l[0] + '\n'), ('byte', ' '), ('digit', '0')): yield 'after-end-' + name, text(l) + x.encode()
    yield 'answer-first', add(0, '81000000030001')
    yield 'no-columns-stored', text(['01000000000000', l[1], '04'])
    yield 'no-columns-side', text(['01000000000000', l[4], '04'])
    yield 'fault-after-wrong-rows', text([l[0], '020000' + '0001' + l[1][10:]] + l[2:6] + ['4'])
    yield 'two-faults', text([l[0], l[1] + 'F'] + l[2:6] + ['05'])

def drawn(r, i):
    """A job of one of ten families, by turns, over every kind of pattern."""
    kind = KINDS[i // 10 % len(KINDS)]
    n = r.randint(1, 14 if kind == 'dense' else 24)
    a = dominant(r, n, edges(r, kind, n), r.choice([1., 1., 3., 1e-150, 1e150, 1e-300]))
    b, cap, family = sides(r, n), ANY, i % 10
    keys = sorted(a, key=lambda t: (t[1], t[0]))
    diagonal = lambda x: a.update({(k, k): x(k) for k in r.sample(range(n), r.randint(1, min(n, 3)))})
    if family == 0: name = 'solved'
    elif family == 1: name = 'solved-any-side'; b = [r.choice(ODD + [r.getrandbits(64)]) for _ in range(n)]
    elif family == 2: name = 'stored-zeros'; a.update({t: r.choice([0., -0.]) for t in keys if t[0] < t[1] and r.random() < .5})
    elif family == 3: name = 'odd-value'; a[r.choice(keys)] = r.choice(ODD)
    elif family == 4: name = 'any-bits'; a = {t: r.getrandbits(63 if t[0] == t[1] else 64) for t in keys}
    elif family == 5: name = 'subnormal'; a = {t: r.getrandbits(40) | (1 << 51 if t[0] == t[1] else r.getrandbits(1) << 63) for t in keys}
    elif family == 6: name = 'wrong-pivots'; diagonal(lambda k: r.choice([0., -0., -1., NAN, INF, 1e-320]))
    elif family == 7: name = 'missing-diagonal'; [a.pop((k, k)) for k in r.sample(range(n), 1)]
    elif family == 8: name = 'cap'; cap = r.choice([0, n - 1, n, len(a) - 1, len(a), len(a) + 1])
    else:
        name, l = 'wrong-rows', lines(n, a, b, r.choice([ANY, 0]))
        k = r.randrange(len(keys))
        l[1 + k] = l[1 + k][:6] + '%04X' % r.choice([keys[k][1] + 1, n, 128, 0xFFFF, 0x8000]) + l[1 + k][10:] if r.random() < .6 else l[1 + k]
        if r.random() < .5: l.insert(1 + k, l[1 + k])
        return '%s-%s' % (name, kind), text(l)
    return '%s-%s' % (name, kind), text(lines(n, a, b, cap))

def jobs():
    r = random.Random(SEED)
    yield from ((name, text(l)) for name, l in fixed())
    yield from damaged()
    yield from (drawn(r, i) for i in range(RANDOM_JOBS))

# ---- lists

def framed(items): return b''.join(b'%08X\n%s\n' % (len(x), x) for x in items)

def unframed(data):
    while data:
        k = int(data[:8], 16)
        yield data[9:9 + k]
        data = data[10 + k:]

NUMBERS = [0, 4, 5, 6, 9, 13]

def table():
    """The stored names, which begin with the list or the family, and the numbers of the stored answers."""
    families = ['fixed'] * len(list(fixed())) + ['damaged'] * len(list(damaged()))
    names = [l.split()[1] for l in open(os.path.join(HERE, 'NAMES'))]
    families += [next(x[:-len(k) - 1] for k in sorted(KINDS, key=len, reverse=True) if x.endswith('-' + k)) for x in names[len(families):]]
    told = [0 if x[:2] == b'81' else int(x[2:4], 16) for x in unframed(open(os.path.join(CRATE, 'stdout'), 'rb').read())]
    assert len(names) == len(told) and set(told) == set(NUMBERS)
    row = lambda name, l: print('|', name, '|', ' | '.join(str(x) for x in [len(l)] + [l.count(k) for k in NUMBERS]), '|')
    print('| | jobs | accepted |', ' | '.join(str(k) for k in NUMBERS[1:]), '|\n|' + '---|' * 8)
    for f in dict.fromkeys(families): row(f, [k for k, x in zip(told, families) if x == f])
    row('all', told)

def main():
    if '--table' in sys.argv: return table()
    made = list(jobs())
    asked = framed(x for _, x in made)
    with tempfile.TemporaryDirectory() as d:
        told = subprocess.run([build(sys.argv[1], d)], input=asked, capture_output=True, check=True).stdout
    names = ''.join('%03d %s %s\n' % (k, name, x.split(b'\n')[0].decode()) for k, ((name, _), x) in enumerate(zip(made, unframed(told))))
    for path, data in ((os.path.join(CRATE, 'stdin'), asked), (os.path.join(CRATE, 'stdout'), told), (os.path.join(HERE, 'NAMES'), names.encode())):
        if '--check' in sys.argv:
            assert open(path, 'rb').read() == data, path + ' differs'
        else:
            open(path, 'wb').write(data)
    print(len(made), 'jobs')

if __name__ == '__main__': main()
