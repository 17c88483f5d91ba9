// Times the library beside the Rust baseline and, where they are there, CSparse and CHOLMOD: in one run, by turns, after holding structure,
// values and solutions to the Rust's, bit for bit. bench/run.sh builds and runs it.
//   speed [TURNS | growth]      growth: how much memory inputs of these kinds have lent, and nothing is timed
// 'factor, made': the whole call, all memory allocated in the time measured. 'factor, ready': the values (the Rust), all areas (here) are
// allocated and written beforehand, as a caller who factors again has them, and anew for each turn, since where in memory they come to lie
// makes a tenth; the Rust still allocates its structure. 'analyse': areas ready. 'solve': one right side, one call. 'solve, 40': forty right sides, here by one call. The freeing of memory is
// not measured. Time is the thread's time on a processor, so that waiting for other programs does not count.
mod nosebagged;
use engine_any::Engine;
use engine_any::cholesky::{FactorError, Symbolic, UpperColumns};
use nosebagged::{Areas, Matrix, Order, Record, Refusal, Stop, Update};
use std::hint::black_box;

// ---- the inputs

// Upper columns: the rows of each, and the value at each place (i, k).
fn columns(n: usize, rows: impl Fn(usize) -> Vec<usize>, value: impl Fn(usize, usize) -> f64) -> UpperColumns {
    let mut a = UpperColumns { n, ptr: vec![0], idx: Vec::new(), val: Vec::new() };
    for k in 0..n {
        for i in rows(k) {
            a.val.push(value(i, k));
            a.idx.push(i);
        }
        a.ptr.push(a.idx.len());
    }
    a
}

fn dense(n: usize) -> UpperColumns {
    columns(n, |k| (0..=k).collect(), |i, k| if i == k { 1024.0 } else { 1.0 })
}

// The five-point grid of x by y places, numbered row by row.
fn grid(x: usize, y: usize) -> UpperColumns {
    let rows = |k: usize| [k.checked_sub(x), k.checked_sub(1).filter(|_| k % x > 0), Some(k)].into_iter().flatten().collect();
    columns(x * y, rows, |i, k| if i == k { 4.0 } else { -1.0 })
}

// The places of a box from lo below hi by nested dissection: both halves first, then the plane between them.
fn dissect(lo: [usize; 3], hi: [usize; 3], to: &mut Vec<[usize; 3]>) {
    let long = |d: usize| hi[d] - lo[d];
    let d = (0..3).max_by_key(|&d| long(d)).unwrap();
    if (0..3).any(|d| long(d) == 0) {
        return;
    }
    if long(d) <= 2 {
        for z in lo[2]..hi[2] {
            for y in lo[1]..hi[1] {
                to.extend((lo[0]..hi[0]).map(|x| [x, y, z]));
            }
        }
        return;
    }
    let cut = lo[d] + long(d) / 2;
    let with = |mut p: [usize; 3], at: usize| {
        p[d] = at;
        p
    };
    dissect(lo, with(hi, cut), to);
    dissect(with(lo, cut + 1), hi, to);
    // the plane is dissected in its turn
    dissect(with(lo, cut), with(hi, cut + 1), to);
}

// A box of places, each joined to its neighbours along the axes, in that order: a five-point grid where it is flat.
fn dissected(size: [usize; 3]) -> UpperColumns {
    let mut order = Vec::new();
    dissect([0; 3], size, &mut order);
    let at = |p: [usize; 3]| p[0] + size[0] * (p[1] + size[1] * p[2]);
    let mut place = vec![0; order.len()];
    for (q, &p) in order.iter().enumerate() {
        place[at(p)] = q;
    }
    let rows = |q: usize| {
        let mut rows = vec![q];
        for d in 0..3 {
            for v in [order[q][d].wrapping_sub(1), order[q][d] + 1] {
                if v < size[d] {
                    let mut p = order[q];
                    p[d] = v;
                    rows.push(place[at(p)]);
                }
            }
        }
        rows.retain(|&i| i <= q);
        rows.sort();
        rows
    };
    columns(order.len(), rows, |i, k| if i == k { 6.0 } else { -1.0 })
}

// A band of w places above the diagonal: no fill.
fn band(n: usize, w: usize) -> UpperColumns {
    columns(n, |k| (k.saturating_sub(w)..=k).collect(), |i, k| if i == k { 4.0 * w as f64 } else { -1.0 })
}

// The diagonal, and the last w columns full: no fill.
fn arrow(n: usize, w: usize) -> UpperColumns {
    columns(n, |k| if k + w < n { vec![k] } else { (0..=k).collect() }, |i, k| if i == k { 4.0 * n as f64 } else { -1.0 })
}

// ---- the library

fn view(a: &UpperColumns) -> Matrix<'_> {
    Matrix { n: a.n, starts: &a.ptr, rows: &a.idx, values: &a.val }
}

fn updates(y: &Symbolic) -> usize {
    y.updates.iter().map(Vec::len).sum()
}

fn areas(a: &UpperColumns, y: &Symbolic) -> Areas {
    Areas::new(a.n, a.idx.len()).with_room(y.structure.rows.len(), updates(y), y.entries)
}

// Each page written, so that no call is the first to touch it.
fn touched(mut s: Areas) -> Areas {
    for l in [&mut s.permutation, &mut s.firsts, &mut s.starts, &mut s.groups, &mut s.tasks, &mut s.top, &mut s.words, &mut s.rows] {
        l.fill(1);
    }
    s.updates.fill(Update { supernode: 1, p1: 1, p2: 1 });
    s.floats.fill(1.0);
    s.values.fill(1.0);
    s
}

fn same_structure(r: &Record, s: &Areas, y: &Symbolic) {
    let updates: Vec<Update> = y.updates.iter().flatten().map(|u| Update { supernode: u.k, p1: u.p1, p2: u.p2 }).collect();
    let tasks: Vec<usize> = y.tasks.iter().flat_map(|t| [t.start, t.end]).collect();
    let ns = y.supernodes();
    assert_eq!(r.0[1..8], [y.n, ns, y.structure.rows.len(), updates.len(), y.tasks.len(), y.top.len(), y.entries]);
    assert!(s.permutation == y.perm && s.firsts[..=ns] == y.structure.first && s.starts[..=ns] == y.structure.rptr && s.rows == y.structure.rows);
    assert!(s.updates == updates && s.tasks[..tasks.len()] == tasks && s.top[..y.top.len()] == y.top);
}

fn same_bits(what: &str, a: &[f64], b: &[f64]) {
    assert!(a.len() == b.len() && a.iter().zip(b).all(|(x, y)| x.to_bits() == y.to_bits()), "{what} differ");
}

// ---- the peers

type Peer = (&'static str, fn(*mut u8, &mut [f64], usize), fn(*mut u8) -> bool, fn(*mut u8) -> bool, fn(*mut u8), *mut u8);

macro_rules! peer {
    ($cfg:ident, $name:expr, $a:expr, $to:expr, $open:ident, $clear:ident, $analyse:ident, $factor:ident, $solve:ident) => {
        #[cfg($cfg)]
        {
            unsafe extern "C" {
                fn $open(n: usize, starts: *const usize, rows: *const usize, values: *const f64) -> *mut u8;
                fn $clear(h: *mut u8);
                fn $analyse(h: *mut u8) -> i32;
                fn $factor(h: *mut u8) -> i32;
                fn $solve(h: *mut u8, b: *mut f64, sides: usize);
            }
            // Safe: peers.c only reads the matrix, which outlives the handle, and writes the right sides.
            let h = unsafe { $open($a.n, $a.ptr.as_ptr(), $a.idx.as_ptr(), $a.val.as_ptr()) };
            let p: Peer = ($name, |h, b, sides| unsafe { $solve(h, b.as_mut_ptr(), sides) }, |h| unsafe { $analyse(h) != 0 }, |h| unsafe { $factor(h) != 0 }, |h| unsafe { $clear(h) }, h);
            $to.push(p);
        }
    };
}

#[allow(unused_mut, unused_variables)]
fn peers(a: &UpperColumns) -> Vec<Peer> {
    let mut all = Vec::new();
    peer!(csparse, "CSparse", a, all, csparse_open, csparse_clear, csparse_analyse, csparse_factor, csparse_solve);
    peer!(cholmod, "CHOLMOD", a, all, cholmod_open, cholmod_clear, cholmod_analyse_whole, cholmod_factor_whole, cholmod_solve_sides);
    all
}

// ---- the clock and the table

// POSIX's clock of the thread's own time.
fn now() -> f64 {
    #[repr(C)]
    struct Timespec {
        seconds: i64,
        nanoseconds: i64,
    }
    unsafe extern "C" {
        fn clock_gettime(clock: i32, t: *mut Timespec) -> i32;
    }
    const CLOCK_THREAD_CPUTIME_ID: i32 = 3;
    let mut t = Timespec { seconds: 0, nanoseconds: 0 };
    // Safe: t is what the call writes, laid out as 64-bit Linux has it.
    assert_eq!(unsafe { clock_gettime(CLOCK_THREAD_CPUTIME_ID, &mut t) }, 0);
    t.seconds as f64 + t.nanoseconds as f64 * 1e-9
}

fn timed<T>(f: impl FnOnce() -> T) -> (f64, T) {
    let t = now();
    let x = black_box(f());
    (now() - t, x)
}

type Timed<'a> = (&'a str, Box<dyn FnMut() -> f64 + 'a>);

// Each by turns, so that what disturbs the machine disturbs all: a line of medians and, in brackets, least times in ms, and after the
// library ('here') its ratio to the Rust. The first line of an input names the columns.
fn by_turns(what: &str, first: bool, turns: usize, mut each: Vec<Timed>) {
    let mut all: Vec<Vec<f64>> = vec![Vec::new(); each.len()];
    for _ in 0..turns {
        for ((_, f), t) in each.iter_mut().zip(&mut all) {
            t.push(f());
        }
    }
    let found: Vec<(&str, f64, f64)> = each.iter().zip(&mut all).map(|((name, _), t)| {
        t.sort_by(f64::total_cmp);
        (*name, t[t.len() / 2] * 1e3, t[0] * 1e3)
    }).collect();
    let of = |wanted: &str| found.iter().position(|f| f.0 == wanted).unwrap();
    let (rust, here) = (&found[of("the Rust")], &found[of("here")]);
    let line = |what: &str, mut cells: Vec<String>, ratio: String| {
        cells.insert(of("here") + 1, ratio);
        println!("  {what:14}{}", cells.iter().map(|c| format!("{c:>18}")).collect::<String>());
    };
    if first {
        line("ms", found.iter().map(|f| f.0.to_string()).collect(), "here / the Rust".to_string());
    }
    line(what, found.iter().map(|f| format!("{:.3} ({:.3})", f.1, f.2)).collect(), format!("{:.3} ({:.3})", here.1 / rust.1, here.2 / rust.2));
}

// ---- what is measured

fn show(name: &str, a: &UpperColumns, y: &Symbolic) {
    let (n, stored, rows, many) = (a.n, a.idx.len(), y.structure.rows.len(), updates(y));
    let s = areas(a, y);
    let words = [&s.permutation, &s.firsts, &s.starts, &s.groups, &s.tasks, &s.top, &s.words, &s.rows].map(|l| l.len()).iter().sum::<usize>();
    let lent = 8 * (words + s.floats.len() + 3 * s.updates.len() + s.values.len());
    assert_eq!(lent, 8 * (32 * n + 2 * stored + 27 + rows + 3 * many + y.entries));
    println!("{name}: n {n}, stored {stored}, entries of L {}, supernodes {}, structure rows {rows}, updates {many}; {:.1} MB are lent", y.entries, y.supernodes(), lent as f64 / 1e6);
}

// A pass of forty elevations; to set the right sides is not in the time.
const SIDES: usize = 40;

fn whole(name: &str, a: &UpperColumns, turns: usize) {
    let any = Engine::new(a.n, &a.ptr, &a.idx, &a.val);
    let own = engine_own::Engine::new(a.n, &a.ptr, &a.idx, &a.val);
    let y = any.analyse();
    show(name, a, &y);
    let run = |s: &mut Areas| nosebagged::factor(view(a), usize::MAX, Order::Plain, Stop::End, s).unwrap();
    let mut s = touched(areas(a, &y));
    let r = run(&mut s);
    same_structure(&r, &s, &y);
    same_bits("values", &s.values, &any.f.values.concat());
    same_bits("values by own vectors", &s.values, &own.f.values.concat());
    let side: Vec<f64> = (0..SIDES * a.n).map(|i| (i % 97) as f64 - 48.0).collect();
    let (mut x, mut b) = (side.clone(), side.clone());
    any.solve(&mut x);
    nosebagged::solve(&r, &mut s, SIDES, &mut b).unwrap();
    same_bits("solutions", &x, &b);
    let peers = peers(a);
    for (name, solve, _, factor, ..) in &peers {
        let h = peers.iter().find(|p| p.0 == *name).unwrap().5;
        assert!(factor(h), "{name} did not factor");
        let mut c = side.clone();
        solve(h, &mut c, SIDES);
        let big = x.iter().fold(0.0, |m: f64, v| m.max(v.abs()));
        assert!(x.iter().zip(&c).all(|(v, w)| (v - w).abs() <= 1e-9 * big), "{name} found something else");
    }
    println!("  the same structure, {} values and {} solutions as the Rust's, bit for bit", s.values.len(), SIDES);

    // the peers allocate all that they make, in each of the three
    let peer = |step: fn(&Peer) -> bool| -> Vec<Timed> {
        peers.iter().map(move |&p| -> Timed {
            (p.0, Box::new(move || {
                (p.4)(p.5);
                let (t, ok) = timed(|| step(&p));
                assert!(ok);
                t
            }))
        }).collect()
    };
    let mut each: Vec<Timed> = vec![
        ("the Rust", Box::new(|| timed(|| any.made()).0)),
        ("own vectors", Box::new(|| timed(|| own.made()).0)),
        ("here", Box::new(|| {
            timed(|| {
                let mut s = areas(a, &y);
                run(&mut s);
                s
            })
            .0
        })),
    ];
    each.extend(peer(|p| (p.3)(p.5)));
    by_turns("factor, made", true, turns, each);

    by_turns("factor, ready", false, turns, vec![
        ("the Rust", Box::new(|| {
            let mut v = any.values();
            timed(|| any.ready(&mut v)).0
        })),
        ("own vectors", Box::new(|| {
            let mut v = own.values();
            timed(|| own.ready(&mut v)).0
        })),
        ("here", Box::new(|| {
            let mut s = touched(areas(a, &y));
            timed(|| run(&mut s)).0
        })),
    ]);

    let mut each: Vec<Timed> = vec![
        ("the Rust", Box::new(|| timed(|| any.analyse()).0)),
        ("own vectors", Box::new(|| timed(|| own.analyse()).0)),
        ("here", Box::new(|| {
            let mut s = touched(areas(a, &y));
            timed(|| nosebagged::analyse(view(a), usize::MAX, &mut s).unwrap()).0
        })),
    ];
    each.extend(peer(|p| (p.2)(p.5)));
    by_turns("analyse", false, turns, each);

    peers.iter().for_each(|p| {
        (p.4)(p.5);
        (p.3)(p.5);
    });
    for (what, sides, turns) in [("solve", 1, 4 * turns), ("solve, 40", SIDES, turns)] {
        let b = &side[..sides * a.n];
        let set = |x: &mut Vec<f64>| {
            x.clear();
            x.extend_from_slice(b);
        };
        let mut v: Vec<Vec<f64>> = vec![Vec::with_capacity(b.len()); 3 + peers.len()];
        let [x, w, z, rest @ ..] = &mut v[..] else { unreachable!() };
        let mut each: Vec<Timed> = vec![
            ("the Rust", Box::new(|| {
                set(x);
                timed(|| any.solve(x)).0
            })),
            ("own vectors", Box::new(|| {
                set(w);
                timed(|| own.solve(w)).0
            })),
            ("here", Box::new(|| {
                set(z);
                timed(|| nosebagged::solve(&r, &mut s, sides, z).unwrap()).0
            })),
        ];
        for (&p, x) in peers.iter().zip(rest) {
            each.push((p.0, Box::new(move || {
                set(x);
                timed(|| (p.1)(p.5, x, sides)).0
            })));
        }
        by_turns(what, false, turns, each);
    }
}

fn analyses(name: &str, a: &UpperColumns, turns: usize) {
    let y = Symbolic::new(a, usize::MAX).unwrap();
    show(name, a, &y);
    let mut s = touched(areas(a, &y));
    same_structure(&nosebagged::analyse(view(a), usize::MAX, &mut s).unwrap(), &s, &y);
    by_turns("analyse", true, turns, vec![
        ("the Rust", Box::new(|| timed(|| Symbolic::new(a, usize::MAX).unwrap()).0)),
        ("here", Box::new(|| {
            let mut s = touched(areas(a, &y));
            timed(|| nosebagged::analyse(view(a), usize::MAX, &mut s).unwrap()).0
        })),
    ]);
}

// The first row full: everything fills in, and the cap refuses it once the entries are counted.
fn refusals(n: usize, turns: usize) {
    let a = columns(n, |k| if k == 0 { vec![0] } else { vec![0, k] }, |i, k| if i == k { 2.0 * n as f64 } else { -1.0 });
    let mut s = touched(Areas::new(n, a.idx.len()));
    let entries = n * (n + 1) / 2;
    println!("all fills in: n {n}, stored {}, refused by a cap of 1,000,000: entries of L {entries}", a.idx.len());
    by_turns("analyse", true, turns, vec![
        ("the Rust", Box::new(|| {
            let (t, x) = timed(|| Symbolic::new(&a, 1000000));
            assert!(matches!(x, Err(FactorError::TooLarge { entries: e, .. }) if e == entries));
            t
        })),
        ("here", Box::new(|| {
            let (t, x) = timed(|| nosebagged::analyse(view(&a), 1000000, &mut s));
            assert_eq!(x, Err(Refusal::OverCap { entries, cap: 1000000 }));
            t
        })),
    ]);
}

fn growth() {
    let mut all: Vec<(String, UpperColumns)> = Vec::new();
    all.extend([256, 512, 1024, 1400].map(|n| (format!("dense {n}"), dense(n))));
    all.extend([50, 100, 150, 181].map(|k| (format!("grid {k} x {k}, by rows"), grid(k, k))));
    all.extend([45, 90, 181].map(|k| (format!("grid {k} x {k}, dissected"), dissected([k, k, 1]))));
    all.extend([10, 20, 32].map(|k| (format!("cube {k} x {k} x {k}, dissected"), dissected([k, k, k]))));
    all.push(("tridiagonal".to_string(), band(32768, 1)));
    for (name, a) in &all {
        show(name, a, &Symbolic::new(a, usize::MAX).unwrap());
    }
}

fn main() {
    if std::env::args().nth(1).as_deref() == Some("growth") {
        return growth();
    }
    let turns: usize = std::env::args().nth(1).map_or(31, |w| w.parse().expect("a number of turns"));
    whole("dense 512", &dense(512), turns);
    whole("dense 1,024", &dense(1024), turns.div_ceil(2));
    whole("grid 100 x 100, by rows", &grid(100, 100), turns.div_ceil(2));
    whole("grid 180 x 180, dissected", &dissected([180, 180, 1]), turns.div_ceil(2));
    whole("cube 20 x 20 x 20, dissected", &dissected([20, 20, 20]), turns.div_ceil(2));
    whole("tridiagonal", &band(32768, 1), turns.div_ceil(2));
    analyses("arrow of 31 columns", &arrow(32768, 31), turns.div_ceil(4));
    analyses("band of 31", &band(32768, 30), turns.div_ceil(4));
    refusals(32768, turns.div_ceil(10));
}
