// Makes the matrices and runs of crates/widths, and the Rust's answers to them.
//
//   list SEED STDIN STDOUT      SEED is for the drawn matrices and orders; the two files are written
//
// STDIN has decimal numbers one space apart; the first of a line says what the line is:
//   0 n a, the n + 1 starts, the a rows, the bits of the a values: a matrix
//   1 n: dense, 1024.0 on the diagonal and 1.0 elsewhere; 2 n: dense, A(i,k) = 1 / (1 + i + 3k), diagonal 2 + k / 8
//   3 x: run the last matrix in the plain order; 4 x, a list: in the list's order; x is 0 for the end, t + 1 for a stop after t
// STDOUT has a line for each run: the answer's number, its two details, the state (0 empty, 2 partial, 3 full), supernodes,
// entries, the sum of the values' bits; the number that solve answers to three right sides in one call, b(i) = i + 1 over all of
// them, and the sum of the bits of b afterwards.
// The sum, in hexadecimal: h = 0; for each word x: h = rotate_left(h, 1) ^ x. Every NaN counts as 7ff8000000000000.
//
// A complete run is Factor::new, and Factor::solve for each right side alone. A stopped one has the stretches of the supernodes
// that it names out of that factor, and zeros. Where Factor::new fails it goes by document 01's rule for a stopped run, with the
// Rust's own step: a failing supernode stops its ancestors, and the least failing column is named. That rule is also run wherever
// Factor::new answers, and must agree with it. Number 8 is 01's; the Rust has no lists.
mod cholesky;
use cholesky::{Context, Factor, FactorError, Symbolic, UpperColumns};
use std::collections::{BTreeMap, BTreeSet};
use std::fmt::Write;

const NAN: u64 = 0x7FF8000000000000;
const SIDES: usize = 3;

// ---- chance

struct Chance(u64);

impl Chance {
    // splitmix64
    fn word(&mut self) -> u64 {
        self.0 = self.0.wrapping_add(0x9E3779B97F4A7C15);
        let mut z = self.0;
        z = (z ^ (z >> 30)).wrapping_mul(0xBF58476D1CE4E5B9);
        z = (z ^ (z >> 27)).wrapping_mul(0x94D049BB133111EB);
        z ^ (z >> 31)
    }
    fn below(&mut self, n: usize) -> usize {
        (self.word() % n as u64) as usize
    }
    fn between(&mut self, a: usize, b: usize) -> usize {
        a + self.below(b - a + 1)
    }
    // from -1 to 1
    fn real(&mut self) -> f64 {
        (self.word() >> 11) as f64 / (1u64 << 52) as f64 - 1.0
    }
    fn one_in(&mut self, n: usize) -> bool {
        self.below(n) == 0
    }
    fn of(&mut self, l: &[u64]) -> u64 {
        l[self.below(l.len())]
    }
}

// ---- matrices: values by (column, row)

type Places = BTreeMap<(usize, usize), f64>;

fn matrix(n: usize, p: &Places) -> UpperColumns {
    let mut m = UpperColumns { n, ptr: vec![0], idx: vec![], val: vec![] };
    for k in 0..n {
        for (&(_, i), &v) in p.range((k, 0)..(k + 1, 0)) {
            assert!(i <= k);
            m.idx.push(i);
            m.val.push(v);
        }
        m.ptr.push(m.idx.len());
    }
    m
}

fn dense(n: usize, second: bool) -> UpperColumns {
    let mut p = Places::new();
    for k in 0..n {
        for i in 0..=k {
            let v = match (second, i == k) {
                (false, true) => 1024.0,
                (false, false) => 1.0,
                (true, true) => 2.0 + k as f64 / 8.0,
                (true, false) => 1.0 / (1 + i + 3 * k) as f64,
            };
            p.insert((k, i), v);
        }
    }
    matrix(n, &p)
}

// The five-point grid.
fn grid(x: usize, y: usize) -> UpperColumns {
    let mut p = Places::new();
    for k in 0..x * y {
        if k >= x {
            p.insert((k, k - x), -1.0);
        }
        if k % x > 0 {
            p.insert((k, k - 1), -1.0);
        }
        p.insert((k, k), 4.0);
    }
    matrix(x * y, &p)
}

// The values of a pattern, with a diagonal that exceeds the rest of its row.
fn dominant(c: &mut Chance, n: usize, pattern: &[(usize, usize)], scale: f64) -> Places {
    let mut p = Places::new();
    let mut d = vec![0.0; n];
    for &(k, i) in pattern {
        let v = c.real() * scale;
        p.insert((k, i), v);
        d[i] += v.abs();
        d[k] += v.abs();
    }
    for k in 0..n {
        p.insert((k, k), (d[k] + scale) * (1.25 + c.real() / 8.0));
    }
    p
}

// First row full, so that all fills in; or last column full, so that nothing does.
fn arrow(n: usize, first: bool) -> Vec<(usize, usize)> {
    (0..n).filter(|k| if first { *k > 0 } else { *k + 1 < n }).map(|k| if first { (k, 0) } else { (n - 1, k) }).collect()
}

// Blocks that fill in, joined by a border, which meets a row of each.
fn blocks(c: &mut Chance, sizes: &[usize], border: usize) -> (usize, Vec<(usize, usize)>) {
    let n = sizes.iter().sum::<usize>() + border;
    let mut e = vec![];
    let mut at = 0;
    for &s in sizes {
        e.extend((1..s).map(|k| (at + k, at)));
        e.extend((0..border).map(|b| (n - border + b, at + c.below(s))));
        at += s;
    }
    (n, e)
}

fn scattered(c: &mut Chance, n: usize, quarters: usize) -> Vec<(usize, usize)> {
    let mut e = vec![];
    for _ in 0..n * quarters / 4 {
        let (a, b) = (c.below(n), c.below(n));
        if a != b {
            e.push((a.max(b), a.min(b)));
        }
    }
    e.sort();
    e.dedup();
    e
}

// A tree in which a column's parent is near.
fn branching(c: &mut Chance, n: usize) -> Vec<(usize, usize)> {
    (0..n.saturating_sub(1)).filter_map(|i| if c.one_in(6) { None } else { Some(((i + 1 + c.below(6)).min(n - 1), i)) }).collect()
}

fn pattern(c: &mut Chance, n: usize, kind: usize) -> Vec<(usize, usize)> {
    match kind % 6 {
        0 => scattered(c, n, 2),
        1 => scattered(c, n, 4),
        2 => scattered(c, n, 8),
        3 => branching(c, n),
        4 => scattered(c, n.min(24), n),
        // apart: nothing joins the first half and the second
        _ => scattered(c, n, 5).into_iter().filter(|(k, i)| (*k < n / 2) == (*i < n / 2)).collect(),
    }
}

const ODD: [u64; 16] = [
    NAN,
    0xFFF8000000000123,
    0x7FF0000000000001,
    0x7FF0000000000000,
    0xFFF0000000000000,
    0,
    1 << 63,
    1,
    0x8000000000000001,
    0x000FFFFFFFFFFFFF,
    0x0010000000000000,
    0x7FEFFFFFFFFFFFFF,
    0xFFEFFFFFFFFFFFFF,
    0x7E37E43C8800759C,
    0x01A56E1FC2F8F359,
    0xBFF0000000000000,
];

const FAMILIES: [&str; 10] = ["dominant", "stored zeros", "scaled", "subnormal", "near the limit", "indefinite", "no diagonal", "odd off the diagonal", "odd anywhere", "any bits"];

fn drawn(c: &mut Chance, family: usize, kind: usize) -> UpperColumns {
    let n = c.between(1, if kind % 3 == 0 { 60 } else { 30 });
    let e = pattern(c, n, kind);
    let mut p = dominant(c, n, &e, 1.0);
    let keys: Vec<(usize, usize)> = p.keys().copied().collect();
    let off: Vec<(usize, usize)> = keys.iter().copied().filter(|(k, i)| k != i).collect();
    match family {
        0 => {}
        1 => {
            for t in off {
                if c.one_in(2) {
                    p.insert(t, if c.one_in(2) { 0.0 } else { -0.0 });
                }
            }
        }
        2 => p = dominant(c, n, &e, [1e-150, 1e150, 1e-290, 3.0, 1e300][kind % 5]),
        3 => {
            for t in keys {
                let w = c.word() >> 24;
                p.insert(t, f64::from_bits(if t.0 == t.1 { w | 1 << (44 + c.below(8)) } else { w >> c.below(30) | (c.word() & 1 << 63) }));
            }
        }
        // a pivot that overflows, or nearly does
        4 => {
            p = dominant(c, n, &e, 1e306 / n as f64);
            let k = c.below(n);
            p.insert((k, k), f64::MAX);
        }
        5 => {
            for _ in 0..c.between(1, 4) {
                let k = c.below(n);
                let v = p[&(k, k)] * c.real() / if c.one_in(2) { 1.0 } else { 8.0 };
                p.insert((k, k), v);
            }
        }
        6 => {
            for _ in 0..c.between(1, 3) {
                let k = c.below(n);
                p.remove(&(k, k));
            }
        }
        7 => {
            for _ in 0..c.between(1, 2) {
                if !off.is_empty() {
                    p.insert(off[c.below(off.len())], f64::from_bits(c.of(&ODD)));
                }
            }
        }
        8 => {
            for _ in 0..c.between(1, 3) {
                p.insert(keys[c.below(keys.len())], f64::from_bits(c.of(&ODD)));
            }
        }
        // off the diagonal small or large by chance, so that some first columns pass
        _ => {
            for t in keys {
                let w = if t.0 == t.1 { c.word() >> 1 } else { c.word() };
                p.insert(t, f64::from_bits(w));
            }
        }
    }
    matrix(n, &p)
}

// ---- orders

struct Tree {
    many: usize,
    parent: Vec<usize>,
}

// The parent of a supernode owns its first row past its own columns; a root's is `many`.
fn tree(s: &Symbolic) -> Tree {
    let many = s.supernodes();
    let owner = |r: usize| (0..many).find(|k| s.structure.cols(*k).contains(&r)).unwrap();
    let parent = (0..many).map(|k| s.structure.rows(k).get(s.structure.cols(k).len()).map_or(many, |r| owner(*r))).collect();
    Tree { many, parent }
}

impl Tree {
    fn children(&self, j: usize) -> Vec<usize> {
        (0..self.many).filter(|k| self.parent[*k] == j).collect()
    }
    // Subtrees falling, roots too.
    fn falling(&self) -> Vec<usize> {
        fn walk(t: &Tree, j: usize, out: &mut Vec<usize>) {
            for k in t.children(j).into_iter().rev() {
                walk(t, k, out);
                out.push(k);
            }
        }
        let mut out = vec![];
        walk(self, self.many, &mut out);
        out
    }
    // All leaves, then all whose children are leaves, and so on.
    fn leaves_first(&self) -> Vec<usize> {
        let mut height = vec![0; self.many + 1];
        for k in 0..self.many {
            height[self.parent[k]] = height[self.parent[k]].max(height[k] + 1);
        }
        let mut out: Vec<usize> = (0..self.many).collect();
        out.sort_by_key(|k| (height[*k], *k));
        out
    }
    fn any(&self, c: &mut Chance) -> Vec<usize> {
        let mut out = vec![];
        while out.len() < self.many {
            let ready: Vec<usize> = (0..self.many).filter(|k| !out.contains(k) && self.children(*k).iter().all(|x| out.contains(x))).collect();
            out.push(ready[c.below(ready.len())]);
        }
        out
    }
    // Number 8's position.
    fn fault(&self, list: &[usize], stop: usize) -> Option<usize> {
        if list.len() != self.many || stop > self.many {
            return Some(self.many);
        }
        (0..list.len()).find(|p| list[*p] >= self.many || list[..*p].contains(&list[*p]) || !self.children(list[*p]).iter().all(|k| list[..*p].contains(k)))
    }
}

// ---- answers

fn sum<'a>(v: impl Iterator<Item = &'a f64>) -> u64 {
    v.fold(0u64, |h, x| h.rotate_left(1) ^ if x.is_nan() { NAN } else { x.to_bits() })
}

fn same(a: &[f64], b: &[f64]) -> bool {
    a.len() == b.len() && a.iter().zip(b).all(|(x, y)| x.to_bits() == y.to_bits() || x.is_nan() && y.is_nan())
}

// 01's rule over the Rust's step: the values, and the least failing column.
fn stopped(s: &Symbolic, t: &Tree, named: &[usize]) -> (Vec<Vec<f64>>, Option<usize>) {
    let context = Context { a: &s.a, s: &s.structure, updates: &s.updates };
    let mut values = s.allocate().unwrap();
    let mut halted = vec![false; t.many];
    let mut least: Option<usize> = None;
    for &j in named {
        if t.children(j).iter().any(|k| halted[*k]) {
            halted[j] = true;
            continue;
        }
        let (done, own) = values.split_at_mut(j);
        match context.supernode(j, done, 0, &mut own[0]) {
            Ok(()) => {}
            Err(FactorError::NotPositiveDefinite { column }) => {
                own[0].fill(0.0);
                halted[j] = true;
                least = Some(least.map_or(column, |x| x.min(column)));
            }
            Err(e) => panic!("{e:?}"),
        }
    }
    (values, least)
}

// What one matrix's runs are answered from.
struct Known {
    symbolic: Symbolic,
    tree: Tree,
    whole: Result<Factor, usize>,
    side: Vec<f64>,
    solution: Vec<f64>,
}

fn known(m: &UpperColumns) -> Known {
    let symbolic = Symbolic::new(m, usize::MAX).unwrap();
    let tree = tree(&symbolic);
    let whole = match Factor::new(m, usize::MAX) {
        Ok(f) => Ok(f),
        Err(FactorError::NotPositiveDefinite { column }) => Err(column),
        Err(e) => panic!("{e:?}"),
    };
    let side: Vec<f64> = (0..SIDES * m.n).map(|i| (i + 1) as f64).collect();
    let mut solution = side.clone();
    if let Ok(f) = &whole {
        for j in 0..SIDES {
            f.solve(&mut solution[j * m.n..(j + 1) * m.n]).unwrap();
        }
    }
    Known { symbolic, tree, whole, side, solution }
}

fn line(number: usize, detail: usize, state: usize, supernodes: usize, entries: usize, l: u64, solve: usize, x: u64) -> String {
    format!("factor {number} {detail} 0 {state} {supernodes} {entries} {l:016x} solve {solve} {x:016x}\n")
}

fn answer(k: &Known, list: Option<&[usize]>, stop: Option<usize>) -> String {
    let many = k.tree.many;
    let plain: Vec<usize> = (0..many).collect();
    let order = list.unwrap_or(&plain);
    let t = stop.unwrap_or(many);
    let refused = |number, detail| line(number, detail, 0, 0, 0, 0, 11, sum(k.side.iter()));
    if let Some(position) = k.tree.fault(order, t) {
        return refused(8, position);
    }
    let named = &order[..t];
    let (values, least) = stopped(&k.symbolic, &k.tree, named);
    match &k.whole {
        Ok(f) => {
            assert!(least.is_none());
            for (j, v) in f.values.iter().enumerate() {
                assert!(same(&values[j], &if named.contains(&j) { v.clone() } else { vec![0.0; v.len()] }));
            }
        }
        Err(column) => assert!(t < many || least.map(|c| k.symbolic.perm[c]) == Some(*column)),
    }
    if let Some(c) = least {
        return refused(9, k.symbolic.perm[c]);
    }
    let (state, solve, x) = if t < many { (2, 11, &k.side) } else { (3, 0, &k.solution) };
    line(0, 0, state, many, k.symbolic.entries, sum(values.iter().flatten()), solve, sum(x.iter()))
}

// ---- the list

struct Lists {
    chance: Chance,
    stdin: String,
    stdout: String,
    // by the name of a matrix's kind: matrices, and runs by number and state
    counts: BTreeMap<String, (usize, BTreeMap<String, usize>)>,
    done: BTreeSet<(Option<Vec<usize>>, Option<usize>)>,
}

impl Lists {
    // A run, unless this matrix has it already.
    fn run(&mut self, kind: &str, k: &Known, list: Option<&[usize]>, stop: Option<usize>) {
        if !self.done.insert((list.map(<[usize]>::to_vec), stop)) {
            return;
        }
        write!(self.stdin, "{} {}", 3 + list.is_some() as usize, stop.map_or(0, |t| t + 1)).unwrap();
        for j in list.unwrap_or(&[]) {
            write!(self.stdin, " {j}").unwrap();
        }
        self.stdin += "\n";
        let a = answer(k, list, stop);
        let w: Vec<&str> = a.split(' ').collect();
        let number = w[1].to_string() + if w[4] == "2" { " partial" } else { "" };
        *self.counts.get_mut(kind).unwrap().1.entry(number).or_default() += 1;
        self.stdout += &a;
    }

    // Lists that are wrong, each in another way.
    fn wrong(&mut self, kind: &str, k: &Known) {
        let many = k.tree.many;
        let order = k.tree.falling();
        self.run(kind, k, None, Some(many + 1));
        self.run(kind, k, Some(&order), Some(many + 1));
        self.run(kind, k, Some(&[]), None);
        let mut l = order.clone();
        l.push(0);
        self.run(kind, k, Some(&l), None);
        if many == 0 {
            return;
        }
        self.run(kind, k, Some(&order[1..]), Some(0));
        let p = self.chance.below(many);
        for x in [many, usize::MAX >> 4, order[self.chance.below(many)]] {
            let mut l = order.clone();
            l[p] = x;
            self.run(kind, k, Some(&l), None);
        }
        let mut l = order.clone();
        l.reverse();
        self.run(kind, k, Some(&l), None);
        // a parent changes places with its last child; the run would stop before it
        if let Some(c) = (0..many).find(|c| k.tree.parent[*c] < many) {
            let (x, y) = (order.iter().position(|j| *j == c).unwrap(), order.iter().position(|j| *j == k.tree.parent[c]).unwrap());
            let mut l = order.clone();
            l.swap(x, y);
            self.run(kind, k, Some(&l), Some(0));
        }
    }

    fn runs(&mut self, kind: &str, m: &UpperColumns, wrong: bool) {
        let k = known(m);
        assert!(m.n < 512 && m.idx.len() <= 16384 && k.symbolic.entries <= 16384);
        self.counts.entry(kind.to_string()).or_default().0 += 1;
        self.done.clear();
        let many = k.tree.many;
        self.run(kind, &k, None, None);
        for t in [0, 1.min(many), many / 2, many] {
            self.run(kind, &k, None, Some(t));
        }
        let (falling, leaves, any) = (k.tree.falling(), k.tree.leaves_first(), k.tree.any(&mut self.chance));
        let t = self.chance.below(many + 1);
        for (list, stops) in [(falling, [1.min(many), many / 2, many.saturating_sub(1)]), (leaves, [many / 3, many / 2, many]), (any, [0, t, t])] {
            assert!(k.tree.fault(&list, 0).is_none());
            self.run(kind, &k, Some(&list), None);
            for t in stops {
                self.run(kind, &k, Some(&list), Some(t));
            }
        }
        if wrong {
            self.wrong(kind, &k);
        }
    }

    fn stored(&mut self, kind: &str, m: &UpperColumns, wrong: bool) {
        write!(self.stdin, "0 {} {}", m.n, m.idx.len()).unwrap();
        for x in m.ptr.iter().chain(&m.idx) {
            write!(self.stdin, " {x}").unwrap();
        }
        for x in &m.val {
            write!(self.stdin, " {}", x.to_bits()).unwrap();
        }
        self.stdin += "\n";
        self.runs(kind, m, wrong);
    }
}

fn main() {
    let args: Vec<String> = std::env::args().collect();
    let mut l = Lists { chance: Chance(args[1].parse().unwrap()), stdin: String::new(), stdout: String::new(), counts: BTreeMap::new(), done: BTreeSet::new() };
    for n in [1, 2, 63, 64, 65, 127, 128, 129] {
        for second in [false, true] {
            writeln!(l.stdin, "{} {n}", 1 + second as usize).unwrap();
            l.runs(if second { "dense B" } else { "dense A" }, &dense(n, second), n < 3);
        }
    }
    for n in [0, 1, 5] {
        l.stored("nothing stored", &matrix(n, &Places::new()), true);
    }
    for (x, y) in [(3, 3), (7, 5), (20, 20)] {
        l.stored("grid", &grid(x, y), true);
    }
    for n in [5, 30, 70, 130] {
        for first in [true, false] {
            let p = dominant(&mut l.chance, n, &arrow(n, first), 1.0);
            l.stored("arrow", &matrix(n, &p), n == 5);
        }
    }
    for (sizes, border) in [(vec![4, 3, 5], 2), (vec![20, 30, 10], 3), (vec![70, 65], 8), (vec![1, 66], 66), (vec![3, 2, 2, 3], 0)] {
        let (n, e) = blocks(&mut l.chance, &sizes, border);
        let p = dominant(&mut l.chance, n, &e, 1.0);
        l.stored("blocks", &matrix(n, &p), false);
    }
    for kind in 0..6 {
        for (f, name) in FAMILIES.iter().enumerate() {
            let m = drawn(&mut l.chance, f, kind);
            l.stored(name, &m, kind == 3);
        }
    }
    std::fs::write(&args[2], &l.stdin).unwrap();
    std::fs::write(&args[3], &l.stdout).unwrap();
    let mut all = BTreeMap::new();
    for (kind, (matrices, runs)) in &l.counts {
        let said: Vec<String> = runs.iter().map(|(a, n)| format!("{a}: {n}")).collect();
        println!("{kind}: {matrices} matrices; {}", said.join(", "));
        for (a, n) in runs {
            *all.entry(a).or_insert(0) += n;
        }
    }
    println!("in all: {} matrices, {} runs; {all:?}; {} and {} bytes", l.counts.values().map(|c| c.0).sum::<usize>(), l.stdout.lines().count(), l.stdin.len(), l.stdout.len());
}
