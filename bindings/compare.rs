// Holds the library to the Rust baseline on drawn matrices: structure, values, refusals and solutions, bit for bit (any two NaNs
// are equal). bench/run.sh builds and runs it; the first difference ends it.
//   compare [COUNT [SEED]]     one matrix of 32,768 columns with 64 right sides, COUNT drawn ones of at most 60 columns, then 40 larger ones
mod cholesky;
mod nosebagged;
use cholesky::{FactorError, Symbolic, UpperColumns};
use nosebagged::{Areas, Matrix, Order, Record, Refusal, Stage, Stop, Update};

// splitmix64
struct Draw(u64);
impl Draw {
    fn bits(&mut self) -> u64 {
        self.0 = self.0.wrapping_add(0x9E3779B97F4A7C15);
        let mut z = self.0;
        z = (z ^ (z >> 30)).wrapping_mul(0xBF58476D1CE4E5B9);
        z = (z ^ (z >> 27)).wrapping_mul(0x94D049BB133111EB);
        z ^ (z >> 31)
    }
    fn below(&mut self, n: usize) -> usize {
        (self.bits() % n as u64) as usize
    }
    fn unit(&mut self) -> f64 {
        (self.bits() >> 11) as f64 / (1u64 << 53) as f64
    }
}

fn pattern(d: &mut Draw, n: usize) -> Vec<Vec<usize>> {
    let kind = d.below(7);
    let dense = [0.02, 0.05, 0.1, 0.3, 0.7, 1.0][d.below(6)];
    let missing = d.below(8) == 0;
    let width = 1 + d.below(6);
    let mut cols = Vec::new();
    for k in 0..n {
        let mut c = Vec::new();
        for i in 0..=k {
            let stored = match kind {
                _ if i == k => !missing || d.below(6) > 0,
                0..=2 => d.unit() < dense,
                3 => k - i <= width,
                4 => k + width >= n,
                5 => i < width && d.unit() < 0.6,
                _ => i + 1 == k || i + width == k,
            };
            if stored {
                c.push(i);
            }
        }
        cols.push(c);
    }
    cols
}

fn odd(d: &mut Draw) -> f64 {
    match d.below(8) {
        0 => f64::INFINITY,
        1 => f64::NEG_INFINITY,
        2 => 0.0 / 0.0,
        3 => -0.0,
        4 => f64::from_bits(1 + d.bits() % 4096),
        5 => f64::MAX * (1.0 - d.unit()),
        6 => d.unit() * 1e-300,
        _ => -1.0 / (1.0 + d.unit()),
    }
}

fn small(d: &mut Draw) -> Vec<Vec<usize>> {
    let n = match d.below(10) {
        0 => d.below(4),
        1..=6 => d.below(24),
        _ => d.below(61),
    };
    pattern(d, n)
}

// Supernodes about one, two and three panels wide, and trees of several tasks and a top: dense blocks joined by a border, and grids.
fn large(d: &mut Draw, at: usize) -> Vec<Vec<usize>> {
    let widths = [63, 64, 65, 127, 128, 129, 192, 193, 200, 257];
    match at % 4 {
        0 | 1 => (0..widths[(at / 4 + 5 * (at % 4)) % 10]).map(|k| (0..=k).collect()).collect(),
        2 => {
            let blocks: Vec<usize> = (0..2 + d.below(4)).map(|_| 40 + d.below(160)).collect();
            let border = 1 + d.below(80);
            let inner: usize = blocks.iter().sum();
            let mut cols = Vec::new();
            for b in &blocks {
                let from = cols.len();
                cols.extend((0..*b).map(|k| (from..=from + k).collect::<Vec<_>>()));
            }
            for k in inner..inner + border {
                let mut c: Vec<usize> = (0..inner).filter(|_| d.below(40) == 0).collect();
                c.extend(inner..=k);
                cols.push(c);
            }
            cols
        }
        _ => {
            let (x, y) = (5 + d.below(40), 5 + d.below(40));
            let wanted = |k: usize| [k.checked_sub(x), k.checked_sub(1).filter(|_| k % x > 0), Some(k)];
            (0..x * y).map(|k| wanted(k).into_iter().flatten().collect()).collect()
        }
    }
}

// The diagonal of the last factor column, set so that its pivot is about 1e-10 of it, where that is the pivot's bound.
fn near_bound(d: &mut Draw, a: &mut UpperColumns) {
    let Ok(f) = cholesky::Factor::new(a, usize::MAX) else { return };
    let Some(&k) = f.perm.last() else { return };
    let Some(&root) = f.values.last().and_then(|v| v.last()) else { return };
    for t in a.ptr[k]..a.ptr[k + 1] {
        if a.idx[t] == k {
            let taken = a.val[t] - root * root;
            let share = if d.below(2) == 0 { 1e-10 * (0.98 + 0.04 * d.unit()) } else { f64::powf(10.0, -12.0 + 4.0 * d.unit()) };
            a.val[t] = taken + taken * share;
        }
    }
}

// Definite by its diagonal; then, by the kind: as it is, a weaker diagonal, an odd value somewhere, powers of two far apart, a value
// that makes it singular, a pivot about its bound.
fn matrix(d: &mut Draw, cols: &[Vec<usize>]) -> UpperColumns {
    let n = cols.len();
    let mut a = UpperColumns { n, ptr: vec![0], idx: Vec::new(), val: Vec::new() };
    let mut weight = vec![0.0f64; n];
    for (k, c) in cols.iter().enumerate() {
        for &i in c {
            let v = if i == k { 0.0 } else { 2.0 * d.unit() - 1.0 };
            weight[i] += v.abs();
            weight[k] += v.abs();
            a.idx.push(i);
            a.val.push(v);
        }
        a.ptr.push(a.idx.len());
    }
    let (name, strength) = match d.below(10) {
        9 => ("near", 1.5),
        0..=4 => ("definite", 1.0 + d.unit()),
        5 => ("weak", 0.3 * d.unit()),
        6 => ("odd", 1.5),
        7 => ("scaled", 1.5),
        _ => ("one zero", 1.5),
    };
    for k in 0..n {
        for t in a.ptr[k]..a.ptr[k + 1] {
            if a.idx[t] == k {
                a.val[t] = 0.5 * strength + strength * weight[k];
            }
        }
    }
    let stored = a.val.len();
    if stored > 0 {
        match name {
            "odd" => {
                for _ in 0..1 + d.below(2) {
                    let t = d.below(stored);
                    a.val[t] = odd(d);
                }
            }
            "scaled" => {
                let s: Vec<f64> = (0..n).map(|_| f64::from_bits((1023 - 480 + d.bits() % 960) << 52)).collect();
                for k in 0..n {
                    for t in a.ptr[k]..a.ptr[k + 1] {
                        a.val[t] = a.val[t] * s[k] * s[a.idx[t]];
                    }
                }
            }
            "one zero" => {
                let t = d.below(stored);
                a.val[t] = 0.0;
            }
            "near" => near_bound(d, &mut a),
            _ => {}
        }
    }
    a
}

fn same(x: f64, y: f64) -> bool {
    x.to_bits() == y.to_bits() || (x.is_nan() && y.is_nan())
}

fn same_floats(what: &str, mine: &[f64], theirs: &[f64]) {
    assert_eq!(mine.len(), theirs.len(), "{what}: lengths");
    for (p, (x, y)) in mine.iter().zip(theirs).enumerate() {
        assert!(same(*x, *y), "{what}: {x:?} and {y:?} at {p}");
    }
}

// An area holds the part from the start, and zeros after it.
fn holds(what: &str, area: &[usize], part: &[usize]) {
    assert_eq!(&area[..part.len()], part, "{what}");
    assert!(area[part.len()..].iter().all(|x| *x == 0), "{what}: not zero after its part");
}

fn scratch_is_zero(s: &Areas) {
    assert!(s.words.iter().all(|x| *x == 0) && s.floats.iter().all(|x| x.to_bits() == 0), "scratch is not zero");
}

fn all_zero(s: &Areas) {
    scratch_is_zero(s);
    for l in [&s.permutation, &s.firsts, &s.starts, &s.groups, &s.tasks, &s.top, &s.rows] {
        assert!(l.iter().all(|x| *x == 0), "an area is not zero after a refusal");
    }
    assert!(s.updates.iter().all(|u| *u == Update::default()) && s.values.iter().all(|x| x.to_bits() == 0), "an area is not zero after a refusal");
}

// The record's counts and areas 1 to 6, 9 and 10.
fn same_structure(r: &Record, s: &Areas, y: &Symbolic) {
    let (first, rptr) = (&y.structure.first, &y.structure.rptr);
    let ns = y.supernodes();
    let mut work = 0;
    for k in 0..ns {
        let m = rptr[k + 1] - rptr[k];
        work += (0..first[k + 1] - first[k]).map(|c| (m - c) * (m - c)).sum::<usize>();
    }
    let mut groups = vec![0];
    for u in &y.updates {
        groups.push(groups[groups.len() - 1] + u.len());
    }
    let updates: Vec<Update> = y.updates.iter().flatten().map(|u| Update { supernode: u.k, p1: u.p1, p2: u.p2 }).collect();
    let tasks: Vec<usize> = y.tasks.iter().flat_map(|t| [t.start, t.end]).collect();
    let counts = [y.n, ns, y.structure.rows.len(), updates.len(), y.tasks.len(), y.top.len(), y.entries, work];
    assert_eq!(r.0[1..], counts, "record");
    holds("permutation", &s.permutation, &y.perm);
    holds("first columns", &s.firsts, first);
    holds("row starts", &s.starts, rptr);
    holds("update starts", &s.groups, &groups);
    holds("tasks", &s.tasks, &tasks);
    holds("top", &s.top, &y.top);
    holds("rows", &s.rows, &y.structure.rows);
    assert_eq!(&s.updates[..updates.len()], &updates[..], "updates");
    assert!(s.updates[updates.len()..].iter().all(|u| *u == Update::default()), "updates: not zero after their part");
}

// What was there before the call must not matter.
fn soil(d: &mut Draw, s: &mut Areas) {
    for l in [&mut s.permutation, &mut s.firsts, &mut s.starts, &mut s.groups, &mut s.tasks, &mut s.top, &mut s.words, &mut s.rows] {
        l.iter_mut().for_each(|x| *x = d.bits() as usize);
    }
    s.updates.iter_mut().for_each(|u| {
        let x = d.bits() as usize;
        *u = Update { supernode: x, p1: x, p2: x };
    });
    s.floats.iter_mut().for_each(|x| *x = 0.0 / 0.0);
    s.values.iter_mut().for_each(|x| *x = 1.5);
}

// A legal order that is drawn: children before parents.
fn legal_order(d: &mut Draw, y: &Symbolic) -> Vec<usize> {
    let ns = y.supernodes();
    let mut owner = vec![0; y.n];
    for k in 0..ns {
        owner[y.structure.first[k]..y.structure.first[k + 1]].fill(k);
    }
    let parent: Vec<Option<usize>> = (0..ns)
        .map(|k| {
            let w = y.structure.first[k + 1] - y.structure.first[k];
            y.structure.rows[y.structure.rptr[k] + w..y.structure.rptr[k + 1]].first().map(|r| owner[*r])
        })
        .collect();
    let mut waits = vec![0; ns];
    parent.iter().flatten().for_each(|p| waits[*p] += 1);
    let mut ready: Vec<usize> = (0..ns).filter(|k| waits[*k] == 0).collect();
    let mut list = Vec::new();
    while !ready.is_empty() {
        let at = d.below(ready.len());
        let k = ready.swap_remove(at);
        list.push(k);
        if let Some(p) = parent[k] {
            waits[p] -= 1;
            if waits[p] == 0 {
                ready.push(p);
            }
        }
    }
    list
}

#[derive(Default)]
struct Met {
    accepted: usize,
    over_cap: usize,
    wrong_pivot: usize,
    calls: usize,
    solved: usize,
    not_a_number: usize,
    columns: usize,
    listed: usize,
    partial: usize,
    most_tasks: usize,
    most_top: usize,
    widest: usize,
}

fn trial(d: &mut Draw, a: UpperColumns, met: &mut Met) {
    let m = Matrix { n: a.n, starts: &a.ptr, rows: &a.idx, values: &a.val };
    let whole = Symbolic::new(&a, usize::MAX).unwrap();
    let cap = match d.below(if a.n > 60 { 18 } else { 6 }) {
        0 => d.below(whole.entries + 1),
        1 => whole.entries,
        2 => whole.entries.saturating_sub(1),
        _ => usize::MAX,
    };
    // areas as long as they must be, or longer
    let more = d.below(3);
    let updates: usize = whole.updates.iter().map(Vec::len).sum();
    let mut s = Areas::new(a.n + more, a.idx.len()).with_room(whole.structure.rows.len() + more, updates + more, whole.entries + more);
    soil(d, &mut s);
    match (nosebagged::analyse(m, cap, &mut s), Symbolic::new(&a, cap)) {
        (Ok(r), Ok(y)) => {
            assert_eq!(r.state(), Stage::Analysed);
            same_structure(&r, &s, &y);
            assert!(s.words.iter().all(|x| *x == 0), "scratch is not zero");
        }
        (Err(r), Err(FactorError::TooLarge { entries, limit })) => assert_eq!(r, Refusal::OverCap { entries, cap: limit }),
        (x, y) => panic!("analyse: {x:?}, the Rust: {}", y.is_ok()),
    }
    soil(d, &mut s);
    let mine = nosebagged::factor(m, cap, Order::Plain, Stop::End, &mut s);
    match (mine, cholesky::Factor::new(&a, cap)) {
        (Ok(r), Ok(f)) => {
            met.accepted += 1;
            assert_eq!(r.state(), Stage::Full);
            same_structure(&r, &s, &whole);
            scratch_is_zero(&s);
            met.most_tasks = met.most_tasks.max(r.tasks());
            met.most_top = met.most_top.max(r.top());
            met.widest = met.widest.max((0..r.supernodes()).map(|k| s.firsts[k + 1] - s.firsts[k]).max().unwrap_or(0));
            let l: Vec<f64> = f.values.iter().flatten().copied().collect();
            same_floats("values", &s.values[..l.len()], &l);
            assert!(s.values[l.len()..].iter().all(|x| x.to_bits() == 0), "values: not zero after the entries");
            // column by column they are the values again
            let mut at = 0;
            for q in 0..a.n {
                let k = nosebagged::column(&r, &s, q, &mut []);
                let mut v = vec![7.0; k + more];
                assert_eq!(nosebagged::column(&r, &s, q, &mut v), k);
                same_floats("column", &v[..k], &l[at..at + k]);
                assert!(v[k..].iter().all(|x| x.to_bits() == 0));
                at += k;
                met.columns += 1;
            }
            assert_eq!(at, l.len());
            assert_eq!(nosebagged::column(&r, &s, a.n, &mut []), 0);
            // right sides, tame and odd, in one call; the Rust solves each alone
            let sides = if d.below(20) == 0 { [0, 64][d.below(2)] } else { 1 + d.below(4) };
            let mut b = Vec::new();
            for _ in 0..sides {
                let odd_side = d.below(3) == 0;
                b.extend((0..a.n).map(|_| if odd_side && d.below(5) == 0 { odd(d) } else { 20.0 * d.unit() - 10.0 }));
            }
            let mut x = b.clone();
            nosebagged::solve(&r, &mut s, sides, &mut b).unwrap();
            for j in 0..sides {
                let own = &mut x[j * a.n..(j + 1) * a.n];
                f.solve(own).unwrap();
                met.not_a_number += own.iter().any(|v| v.is_nan()) as usize;
            }
            same_floats("solutions", &b, &x);
            scratch_is_zero(&s);
            met.solved += sides;
            met.calls += 1;
            let mut long = vec![1.0; sides * a.n + 1];
            assert_eq!(nosebagged::solve(&r, &mut s, sides, &mut long), Err(Refusal::WrongSide { length: sides * a.n + 1 }));
            assert_eq!(nosebagged::solve(&r, &mut s, 65 + d.below(9), &mut long), Err(Refusal::ManySides));
            assert!(long.iter().all(|x| *x == 1.0));
            // any legal order gives the same bits; stopped, the first are final and the others zero
            let list = legal_order(d, &whole);
            let mut other = s.clone();
            soil(d, &mut other);
            let again = nosebagged::factor(m, cap, Order::Listed(&list), Stop::After(list.len()), &mut other).unwrap();
            assert_eq!(again, r);
            same_floats("values in another order", &other.values, &s.values);
            met.listed += 1;
            if !list.is_empty() {
                let t = d.below(list.len());
                let part = nosebagged::factor(m, cap, Order::Listed(&list), Stop::After(t), &mut other).unwrap();
                assert_eq!(part.state(), Stage::Partial);
                let mut expected = Vec::new();
                for (k, v) in f.values.iter().enumerate() {
                    let done = list[..t].contains(&k);
                    expected.extend(v.iter().map(|x| if done { *x } else { 0.0 }));
                }
                same_floats("values of a partial factor", &other.values[..expected.len()], &expected);
                let mut b = vec![1.0; a.n];
                assert_eq!(nosebagged::solve(&part, &mut other, 1, &mut b), Err(Refusal::NoFactor));
                assert_eq!(nosebagged::column(&part, &other, 0, &mut []), 0);
                met.partial += 1;
                let over = Stop::After(list.len() + 1);
                assert_eq!(nosebagged::factor(m, cap, Order::Plain, over, &mut other), Err(Refusal::WrongOrder { position: list.len() }));
                all_zero(&other);
            }
        }
        (Err(r), Err(FactorError::NotPositiveDefinite { column })) => {
            met.wrong_pivot += 1;
            assert_eq!(r, Refusal::WrongPivot { column });
            all_zero(&s);
            let list = legal_order(d, &whole);
            assert_eq!(nosebagged::factor(m, cap, Order::Listed(&list), Stop::End, &mut s), Err(r), "refusal in another order");
            all_zero(&s);
        }
        (Err(r), Err(FactorError::TooLarge { entries, limit })) => {
            met.over_cap += 1;
            assert_eq!(r, Refusal::OverCap { entries, cap: limit });
            all_zero(&s);
        }
        (x, y) => panic!("factor: {x:?}, the Rust: {:?}", y.err()),
    }
    // the owning form finds the room by itself
    match (nosebagged::Factor::new(m, cap), mine) {
        (Ok(mut f), Ok(r)) => {
            assert_eq!(f.record, r);
            assert_eq!(f.areas.values.len(), r.entries());
            assert!(f.solve(1, &mut vec![1.0; a.n]).is_ok());
            assert_eq!((0..a.n).map(|q| f.column(q).len()).sum::<usize>(), r.entries());
        }
        (x, y) => assert_eq!(x.err(), y.err()),
    }
}

// Numbers that the Rust does not have, once each, and words that mean nothing.
fn refusals() {
    let (starts, rows, values) = ([0, 1, 3], [0, 0, 1], [4.0, 2.0, 5.0]);
    let m = Matrix { n: 2, starts: &starts, rows: &rows, values: &values };
    let err = |m: Matrix| nosebagged::Factor::new(m, usize::MAX).err().unwrap();
    assert_eq!(err(Matrix { n: 32769, ..m }), Refusal::OverLimit);
    assert_eq!(err(Matrix { n: 3, ..m }), Refusal::WrongLengths { which: 1 });
    assert_eq!(err(Matrix { values: &values[..2], ..m }), Refusal::WrongLengths { which: 2 });
    assert_eq!(err(Matrix { starts: &[0, 4, 3], ..m }), Refusal::WrongStarts { position: 2 });
    assert_eq!(err(Matrix { rows: &[0, 1, 1], ..m }), Refusal::WrongColumn { column: 1 });
    let mut s = Areas::new(2, 3).with_room(2, 0, 2);
    assert_eq!(nosebagged::factor(m, 3, Order::Plain, Stop::End, &mut s), Err(Refusal::ShortArea { area: 11, need: 3 }));
    all_zero(&s);
    s.top = vec![9];
    assert_eq!(nosebagged::analyse(m, 3, &mut s), Err(Refusal::ShortArea { area: 6, need: 2 }));
    let mut f = nosebagged::Factor::new(m, 3).unwrap();
    assert_eq!(f.areas.values, [2.0, 1.0, 2.0]);
    let mut b = [8.0, 12.0];
    f.solve(1, &mut b).unwrap();
    assert_eq!(b, [1.0, 2.0]);
    assert_eq!(f.solve(usize::MAX, &mut b), Err(Refusal::ManySides));
    f.areas.floats.truncate(1);
    assert_eq!(f.solve(1, &mut b), Err(Refusal::ShortArea { area: 8, need: 2 }));
    assert_eq!(b, [1.0, 2.0]);
    for state in [0, 1, 2, 4, usize::MAX] {
        f.record.0[0] = state;
        assert_eq!(f.solve(1, &mut b), Err(Refusal::NoFactor));
        assert!(f.column(0).is_empty());
    }
    assert_eq!(b, [1.0, 2.0]);
}

// The most of both: 64 right sides of 32,768 columns, which is 2,097,152 numbers.
fn most(d: &mut Draw) {
    let n = 32768;
    let mut a = UpperColumns { n, ptr: vec![0], idx: Vec::new(), val: Vec::new() };
    for k in 0..n {
        for i in k.saturating_sub(2)..=k {
            a.idx.push(i);
            a.val.push(if i == k { 4.0 + d.unit() } else { d.unit() - 1.0 });
        }
        a.ptr.push(a.idx.len());
    }
    let f = cholesky::Factor::new(&a, usize::MAX).unwrap();
    let mut mine = nosebagged::Factor::new(Matrix { n, starts: &a.ptr, rows: &a.idx, values: &a.val }, usize::MAX).unwrap();
    let mut b: Vec<f64> = (0..64 * n).map(|_| 20.0 * d.unit() - 10.0).collect();
    let mut x = b.clone();
    mine.solve(64, &mut b).unwrap();
    x.chunks_mut(n).for_each(|own| f.solve(own).unwrap());
    same_floats("the most", &b, &x);
}

fn main() {
    let mut words = std::env::args().skip(1).map(|w| w.parse::<u64>().expect("a number"));
    let count = words.next().unwrap_or(600);
    let seed = words.next().unwrap_or(20261115);
    let mut d = Draw(seed);
    let mut met = Met::default();
    refusals();
    most(&mut d);
    for _ in 0..count {
        let cols = small(&mut d);
        let a = matrix(&mut d, &cols);
        trial(&mut d, a, &mut met);
    }
    for at in 0..40 {
        let cols = large(&mut d, at);
        let a = matrix(&mut d, &cols);
        trial(&mut d, a, &mut met);
    }
    println!(
        "{count} small and 40 larger matrices from seed {seed}, and one of 32,768 columns with 64 right sides, all equal to the Rust: accepted {}, over the cap {}, a wrong pivot {}; solutions {} in {} calls (with a NaN {}), columns {}, other orders {}, partial {}; the widest supernode {}, the most tasks {} and top entries {}",
        met.accepted, met.over_cap, met.wrong_pivot, met.solved, met.calls, met.not_a_number, met.columns, met.listed, met.partial, met.widest, met.most_tasks, met.most_top
    );
}
