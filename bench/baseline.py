#!/usr/bin/env python3
"""Makes the baseline from the Rust source: its Cholesky half, cut to one thread, so that plain rustc compiles it.

  python3 baseline.py SOURCE OUT     SOURCE: crates/solver/src/cholesky.rs of the Rust; OUT: the file to write

By named cuts, each of which must match exactly once, so that another version of the source is refused and not mended.
What goes: threads, cancelling, the indefinite half (pivots, D, scale), the symmetric constructor; some items become
public. No operation on a number that the Cholesky half makes is changed."""
import sys
if len(sys.argv) != 3:
    sys.exit(__doc__)
src = open(sys.argv[1]).read()

def cut(a, b, new='', incl_b=False):
    global src
    assert src.count(a) == 1, (src.count(a), a)
    i = src.index(a)
    j = src.index(b, i)
    if incl_b: j += len(b)
    src = src[:i] + new + src[j:]
def rep(a, new, n=1):
    global src
    assert src.count(a) == n, (src.count(a), a)
    src = src.replace(a, new)

rep('''use fieldcraft_parallel as parallel;

use crate::{Error, Result};
''', '''/// Stub of the crate's error type (cut: the original's other cases).
#[derive(Debug, Clone, PartialEq)]
pub enum Error {
    Internal(String),
}
pub type Result<T> = std::result::Result<T, Error>;
''')
cut('''    /// From a symmetric matrix stored by full rows''', '''    fn column(&self, k: usize) -> (&[usize], &[f64]) {
        let (a, b) = (self.ptr.get(k)''')
cut('''    /// The symmetric indefinite factorization ([`crate::ldlt`]) found''', '''    /// The factor would hold more''')
cut('''    /// The command was cancelled''', '''}

impl FactorError''')
rep('''FactorError::NotPositiveDefinite { column } | FactorError::Singular { column } => Some(*column)''', '''FactorError::NotPositiveDefinite { column } => Some(*column)''')
cut('''            FactorError::Singular { .. } =>''', '''            e => e,''')
cut('''/// The pivots of a symmetric indefinite factor's block diagonal D, per column''', '''/// S(i, c) = Σ_k''')
rep('''(meaningful for i ≥ c), each sum in column order. Y is L
/// (Cholesky), or L D with D the block diagonal the trapezoid holds when `pivots` (of the
/// columns `cols`) are given. Returned''', '''(meaningful for i ≥ c), each sum in column order. Y is L. Returned''')
rep('''wu: usize, pivots: Option<&[Pivot]>) -> Vec<Vec<f64>>''', '''wu: usize) -> Vec<Vec<f64>>''')
cut('''    if let Some(pivots) = pivots {
        for row in yt''', '''    let tiles = mu.div_ceil(TILE);''')
rep('''    if mu.saturating_mul(wu).saturating_mul(kw) >= PARALLEL_WORK { parallel::map(tiles, tile) } else { (0..tiles).map(tile).collect() }''', '''    (0..tiles).map(tile).collect()''')
rep('''    if (m - c1).saturating_mul(pw).saturating_mul(pw) >= PARALLEL_WORK { parallel::map(tiles, tile) } else { (0..tiles).map(tile).collect() }''', '''    (0..tiles).map(tile).collect()''')
# scale of Lower (LDLᵀ only)
rep('''    /// The largest magnitude in each row (= column) of the whole symmetric matrix.
    pub(crate) scale: Vec<f64>,
''', '')
rep('''        let mut scale = vec![0.0f64; n];
''', '')
rep('''                for x in [r, c] {
                    if let Some(s) = scale.get_mut(x) {
                        *s = s.max(v.abs());
                    }
                }
''', '')
rep('''Lower { ptr, idx, val, diag, scale }''', '''Lower { ptr, idx, val, diag }''')
# Supernode trait: values only
rep('''    /// The pivots of D (symmetric indefinite factors), `None` for Cholesky.
    fn pivots(&self) -> Option<&[Pivot]>;
    /// Local pivot position to symbolic column within this supernode; identity for Cholesky.
    #[inline]
    fn order(&self) -> Option<&[usize]> {
        None
    }
''', '')
rep('''    #[inline]
    fn pivots(&self) -> Option<&[Pivot]> {
        None
    }
''', '')
# solve without D
rep('''/// Shared triangular solve, with Cholesky's diagonal or LDLᵀ's unit L and block diagonal D.''', '''/// Triangular solve with Cholesky's diagonal.''')
rep('''    let mut scratch = Vec::new();
    // L z = P b, then D⁻¹, by supernodes; the supernode's own unknowns are left in pivot
    // order for the backward pass.
''', '''    // L z = P b, by supernodes.
''')
rep('''        let pivots = blk.pivots();
        let order = blk.order();
        scratch.clear();
        let y = if let Some(order) = order {
            scratch.extend(order.iter().map(|&c| get(own, c)));
            scratch.as_mut_slice()
        } else {
            &mut *own
        };
''', '''        let y = &mut *own;
''')
rep('''            let end = q + if pivots.and_then(|p| p.get(q)) == Some(&Pivot::First) { 2 } else { 1 };
''', '''            let end = q + 1;
''')
rep('''            if pivots.is_none() {
                yq /= t.data.get(offset(m, q)).copied().unwrap_or(1.0);
                if let Some(v) = y.get_mut(q) {
                    *v = yq;
                }
            }
''', '''            yq /= t.data.get(offset(m, q)).copied().unwrap_or(1.0);
            if let Some(v) = y.get_mut(q) {
                *v = yq;
            }
''')
cut('''        if pivots.is_some() {
            let mut c = 0;''', '''    }
    // Lᵀ x = z, supernodes in reverse''')
rep('''    // Lᵀ x = z, supernodes in reverse; each scatters its unknowns back from pivot order.''', '''    // Lᵀ x = z, supernodes in reverse.''')
rep('''        let pivots = blk.pivots();
        let order = blk.order();
        scratch.clear();
        let y = if order.is_some() {
            scratch.extend_from_slice(own);
            scratch.as_mut_slice()
        } else {
            &mut *own
        };
''', '''        let y = &mut *own;
''')
cut('''            // Reverse pivot groups, keeping''', '''            let mut sum = get(y, q);''', '''            let (q, end) = (c, c + 1);
''')
rep('''            if pivots.is_none() {
                sum /= t.data.get(offset(m, q)).copied().unwrap_or(1.0);
            }
''', '''            sum /= t.data.get(offset(m, q)).copied().unwrap_or(1.0);
''')
cut('''        if let Some(order) = order {
            for (pos, &c)''', '''    }
    for (&j, v) in perm.iter().zip(&x)''')
rep('''p1, mu, wu, done_k.pivots());''', '''p1, mu, wu);''')
rep('''c0, m - c0, pw, None);''', '''c0, m - c0, pw);''')
# factor: one thread
cut('''        let broken = std::sync::Mutex::new(None::<FactorError>);''', '''        // The first failing column in postorder is the one a pass''', '''        let mut broken: Option<FactorError> = None;
        for (range, piece, failed) in pieces.iter_mut() {
            for j in range.clone() {
                let (done, own) = piece.split_at_mut(j - range.start);
                let Some(own) = own.first_mut() else { break };
                match supernode(&context, j, done, range.start, own) {
                    Ok(()) => {}
                    Err(e) if e.column().is_some() => {
                        *failed = Some(e);
                        break;
                    }
                    Err(e) => {
                        broken.get_or_insert(e);
                        break;
                    }
                }
            }
        }
        if let Some(e) = broken {
            return Err(e);
        }
''')
rep('''            if cancelled() {
                return Err(FactorError::Cancelled);
            }
''', '')
# accessors
for f in ['perm: Vec<usize>,\n    structure: Structure,\n    /// The values', ]:
    pass
src = src.replace('pub(crate) ', 'pub ')
rep('''struct Update {
    k: usize,
    p1: usize,
    p2: usize,''', '''pub struct Update {
    pub k: usize,
    pub p1: usize,
    pub p2: usize,''')
rep('''    /// First column of each supernode, and `n` at the end.
    first: Vec<usize>,''', '''    /// First column of each supernode, and `n` at the end.
    pub first: Vec<usize>,''')
rep('''    rptr: Vec<usize>,
    rows: Vec<usize>,
}''', '''    pub rptr: Vec<usize>,
    pub rows: Vec<usize>,
}''')
rep('''pub struct Lower {
    ptr: Vec<usize>,
    idx: Vec<usize>,
    val: Vec<f64>,
    diag: Vec<f64>,''', '''pub struct Lower {
    pub ptr: Vec<usize>,
    pub idx: Vec<usize>,
    pub val: Vec<f64>,
    pub diag: Vec<f64>,''')
rep('''    a: Lower,
    updates: Vec<Vec<Update>>,''', '''    pub a: Lower,
    pub updates: Vec<Vec<Update>>,''')
rep('''    tasks: Vec<std::ops::Range<usize>>,
    top: Vec<usize>,
    /// Entries''', '''    pub tasks: Vec<std::ops::Range<usize>>,
    pub top: Vec<usize>,
    /// Entries''')
rep('''    perm: Vec<usize>,
    structure: Structure,
    /// The values of each supernode (a lower trapezoid by columns).
    values: Vec<Vec<f64>>,
    entries: usize,''', '''    pub perm: Vec<usize>,
    pub structure: Structure,
    /// The values of each supernode (a lower trapezoid by columns).
    pub values: Vec<Vec<f64>>,
    pub entries: usize,''')
rep('fn symbolic(a: &UpperColumns)', 'pub fn symbolic(a: &UpperColumns)')
rep('const NONE: usize', 'pub const NONE: usize')
rep('    fn supernode(&self, j: usize, done: &[Vec<f64>]', '    pub fn supernode(&self, j: usize, done: &[Vec<f64>]')
rep('''    updates: &'a [Vec<Update>],''', '''    pub updates: &'a [Vec<Update>],''')
head = '''// Cut from crates/solver/src/cholesky.rs of jyviko/fieldcraft e9ccf10692 (2026-10-17),
// licence MIT OR Apache-2.0, Copyright (c) 2026 FieldCraft contributors. Made by bench/baseline.py.
//
// Cut: threads (fieldcraft_parallel::map and for_each_mut are plain loops in the same order, the
// Mutex is a local Option), progress and Cancelled, from_symmetric (needs crate::sparse), the LDLt
// parts (Pivot, times_d, Supernode::pivots and order, the D solve, FactorError::Singular,
// Lower::scale). crate::Error and Result are stubs. Fields and some functions are pub so that
// structure and values can be read. Nothing else was changed: the arithmetic, its order, the
// allocations and the structure are the original's.
'''
src = src.replace('//! ', '//// ').replace('//!\n', '////\n')
src = head + '#![allow(dead_code)]\n' + src.replace('////', '//')
open(sys.argv[2], 'w').write(src)
