// Document 01's job program over the source's own module, unchanged, beside this file: the judge of the proved program.
// `remake.py` builds it with two stub crates, `fieldcraft_parallel` and `fieldcraft_model`, whose calls run in order.
#![allow(dead_code)]
mod cholesky;
use cholesky::{Factor, FactorError, Symbolic, UpperColumns};
use std::io::{Read, Write};

// What the module takes from its crate.
#[derive(Debug)]
pub enum Error {
    Internal(String),
}
pub type Result<T> = std::result::Result<T, Error>;
mod sparse {
    pub struct Csr {
        pub n: usize,
    }
    impl Csr {
        pub fn row(&self, _: usize) -> (&[usize], &[f64]) {
            (&[], &[])
        }
    }
}

#[derive(Default)]
struct Job {
    n: usize,
    cap: usize,
    columns: Vec<usize>,
    rows: Vec<usize>,
    values: Vec<f64>,
    b: Vec<f64>,
}

fn digits(s: &[u8]) -> Option<u64> {
    s.iter().try_fold(0u64, |v, &c| match c {
        b'0'..=b'9' => Some(v * 16 + (c - 48) as u64),
        b'A'..=b'F' => Some(v * 16 + (c - 55) as u64),
        _ => None,
    })
}

// Whether a line can stand after the frames so far; `phase` is 0 before 01, 1 among 02, 2 among 03, 3 after 04.
fn take(job: &mut Job, phase: &mut u8, l: &[u8]) -> Option<()> {
    let f = |a: usize, k: usize| digits(&l[a..a + k]);
    match (l.len(), *phase) {
        (14, 0) if f(0, 2)? == 1 => {
            (job.n, job.cap) = (f(2, 4)? as usize, f(6, 8)? as usize);
            *phase = 1;
            (job.n <= 128).then_some(())
        }
        (26, 1) if f(0, 2)? == 2 => {
            let (c, r, v) = (f(2, 4)? as usize, f(6, 4)? as usize, f(10, 16)?);
            if c >= job.n || job.columns.last().is_some_and(|p| *p > c) || job.columns.len() == 4096 {
                return None;
            }
            job.columns.push(c);
            job.rows.push(r);
            job.values.push(f64::from_bits(v));
            Some(())
        }
        (22, 1 | 2) if f(0, 2)? == 3 => {
            let (p, v) = (f(2, 4)? as usize, f(6, 16)?);
            if p >= job.n || p != job.b.len() {
                return None;
            }
            job.b.push(f64::from_bits(v));
            *phase = 2;
            Some(())
        }
        (2, 1 | 2) if f(0, 2)? == 4 => {
            *phase = 3;
            (job.b.len() == job.n).then_some(())
        }
        _ => None,
    }
}

// The job, or the line that cannot stand.
fn read(text: &[u8]) -> std::result::Result<Job, usize> {
    let (mut job, mut phase, mut line, mut rest) = (Job::default(), 0, 1, text);
    while let Some(k) = rest.iter().position(|c| *c == 10) {
        take(&mut job, &mut phase, &rest[..k]).ok_or(line)?;
        rest = &rest[k + 1..];
        line += 1;
    }
    if rest.is_empty() && phase == 3 { Ok(job) } else { Err(line) }
}

fn refusal(number: usize, first: usize, second: usize) -> String {
    format!("8F{number:02X}{first:08X}{second:08X}\n")
}

fn answer(text: &[u8]) -> String {
    let mut job = match read(text) {
        Ok(job) => job,
        Err(line) => return refusal(13, line, 0),
    };
    // Columns do not fall, so the starts break no rule; a column's rows may.
    let ptr: Vec<usize> = (0..=job.n).map(|k| job.columns.iter().filter(|c| **c < k).count()).collect();
    for k in 0..job.n {
        let rows = &job.rows[ptr[k]..ptr[k + 1]];
        if rows.windows(2).any(|w| w[0] >= w[1]) || rows.last().is_some_and(|r| *r > k) {
            return refusal(4, k, 0);
        }
    }
    let a = UpperColumns { n: job.n, ptr, idx: job.rows, val: job.values };
    let symbolic = match Symbolic::new(&a, job.cap) {
        Ok(s) => s,
        Err(FactorError::TooLarge { entries, limit }) => return refusal(6, entries, limit),
        Err(e) => panic!("{e:?}"),
    };
    if symbolic.entries > 8192 {
        return refusal(5, 11, symbolic.entries);
    }
    let factor = match Factor::from_symbolic(&symbolic) {
        Ok(f) => f,
        Err(FactorError::NotPositiveDefinite { column }) => return refusal(9, column, 0),
        Err(e) => panic!("{e:?}"),
    };
    factor.solve(&mut job.b).unwrap();
    let mut out = format!("81{:08X}{:04X}\n", factor.entries(), symbolic.supernodes());
    for (k, x) in job.b.iter().enumerate() {
        out += &format!("82{k:04X}{:016X}\n", if x.is_nan() { 0x7FF8_0000_0000_0000 } else { x.to_bits() });
    }
    out
}

// Standard input and output are lists: each item is its length as 8 digits, LF, its bytes, LF.
fn main() {
    let mut list = Vec::new();
    std::io::stdin().read_to_end(&mut list).unwrap();
    let mut out = Vec::new();
    let mut rest = &list[..];
    while !rest.is_empty() {
        let k = digits(&rest[..8]).unwrap() as usize;
        let a = answer(&rest[9..9 + k]);
        out.extend(format!("{:08X}\n{a}\n", a.len()).bytes());
        rest = &rest[10 + k..];
    }
    std::io::stdout().write_all(&out).unwrap();
}
