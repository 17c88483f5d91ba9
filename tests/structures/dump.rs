// The structure of each matrix of a list, by the Rust: a line a matrix, sixteen hexadecimal numbers of sixteen digits.
// Number, supernodes, structure rows, updates, tasks, top entries, entries, work figure; then the sums of permutation,
// first columns, row starts, rows, update starts, updates, tasks, top.
// The sum of a list: h = 0; for each word x: h = rotate_left(h, 1) ^ (x + 1).
mod cholesky;
use cholesky::{Symbolic, UpperColumns};
use std::io::Read;

fn sum(v: impl Iterator<Item = usize>) -> u64 {
    v.fold(0u64, |h, x| h.rotate_left(1) ^ (x as u64 + 1))
}

fn main() {
    let mut text = String::new();
    std::io::stdin().read_to_string(&mut text).unwrap();
    for line in text.lines() {
        let w: Vec<usize> = line.split(' ').map(|x| x.parse().unwrap()).collect();
        let (n, a) = (w[0], w[1]);
        let ptr = w[2..n + 3].to_vec();
        let idx = w[n + 3..].to_vec();
        assert_eq!(idx.len(), a);
        let m = UpperColumns { n, ptr, idx, val: vec![0.0; a] };
        let s = Symbolic::new(&m, usize::MAX).unwrap();
        let (first, rptr) = (&s.structure.first, &s.structure.rptr);
        let ns = first.len() - 1;
        let mut work = 0;
        for k in 0..ns {
            let rows = rptr[k + 1] - rptr[k];
            for c in 0..first[k + 1] - first[k] {
                work += (rows - c) * (rows - c);
            }
        }
        let mut groups = vec![0];
        for u in &s.updates {
            groups.push(groups.last().unwrap() + u.len());
        }
        let updates: Vec<usize> = s.updates.iter().flatten().flat_map(|u| [u.k, u.p1, u.p2]).collect();
        let tasks: Vec<usize> = s.tasks.iter().flat_map(|t| [t.start, t.end]).collect();
        let counts = [0, ns, s.structure.rows.len(), updates.len() / 3, s.tasks.len(), s.top.len(), s.entries, work];
        let lists = [&s.perm, first, rptr, &s.structure.rows, &groups, &updates, &tasks, &s.top];
        let all: Vec<String> = counts.iter().map(|x| *x as u64).chain(lists.iter().map(|l| sum(l.iter().copied()))).map(|x| format!("{x:016X}")).collect();
        println!("{}", all.join(" "));
    }
}
