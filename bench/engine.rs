// The Rust baseline behind plain functions. bench/run.sh compiles it twice, for any x86-64 and for this machine's own vectors, so that one
// program can time both.
#![allow(dead_code)]
pub mod cholesky;
use cholesky::{Factor, Symbolic, UpperColumns};

/// A matrix and its factor.
pub struct Engine {
    pub a: UpperColumns,
    pub y: Symbolic,
    pub f: Factor,
}

impl Engine {
    pub fn new(n: usize, starts: &[usize], rows: &[usize], values: &[f64]) -> Engine {
        let a = UpperColumns { n, ptr: starts.to_vec(), idx: rows.to_vec(), val: values.to_vec() };
        let y = Symbolic::new(&a, usize::MAX).unwrap();
        let f = Factor::new(&a, usize::MAX).unwrap();
        Engine { a, y, f }
    }

    #[inline(never)]
    pub fn analyse(&self) -> Symbolic {
        Symbolic::new(&self.a, usize::MAX).unwrap()
    }

    #[inline(never)]
    pub fn made(&self) -> Factor {
        Factor::new(&self.a, usize::MAX).unwrap()
    }

    /// Values that are allocated and cleared, every page of them written.
    pub fn values(&self) -> Vec<Vec<f64>> {
        let mut v = self.y.allocate().unwrap();
        v.iter_mut().for_each(|x| x.fill(1.0));
        v.iter_mut().for_each(|x| x.fill(0.0));
        v
    }

    /// Into values that were cleared beforehand.
    #[inline(never)]
    pub fn ready(&self, v: &mut Vec<Vec<f64>>) -> Symbolic {
        let y = self.analyse();
        y.factor(v, |c, j, done, base, own| c.supernode(j, done, base, own)).unwrap();
        y
    }

    /// Each right side of b by itself.
    #[inline(never)]
    pub fn solve(&self, b: &mut [f64]) {
        b.chunks_exact_mut(self.a.n).for_each(|x| self.f.solve(x).unwrap());
    }
}
