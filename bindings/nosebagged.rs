//! A safe wrapper over the static library (nosebagged.h says what each call and each area is). No crates: name it by
//! `#[path = ".."] mod nosebagged;` and link with `-L FOLDER -l static=exports`.
//!
//! No length is tested here before a call: slices carry theirs, arrays have theirs in the type, and the library tests each of them
//! (numbers 2, 5, 8 and 10). What it cannot test, that nothing overlaps and no pointer is null, Rust's references ensure.
#![allow(dead_code)]

mod raw {
    unsafe extern "C" {
        pub fn nosebagged_analyse(
            n: usize,
            input_starts: *const usize, input_starts_count: usize,
            input_rows: *const usize, input_rows_count: usize,
            input_values: *const f64, input_values_count: usize,
            cap: usize,
            permutation: *mut usize, permutation_count: usize,
            firsts: *mut usize, firsts_count: usize,
            starts: *mut usize, starts_count: usize,
            groups: *mut usize, groups_count: usize,
            tasks: *mut usize, tasks_count: usize,
            top: *mut usize, top_count: usize,
            words: *mut usize, words_count: usize,
            rows: *mut usize, rows_count: usize,
            updates: *mut super::Update, updates_count: usize,
            results: *mut [usize; 12],
        ) -> usize;
        pub fn nosebagged_factor(
            n: usize,
            input_starts: *const usize, input_starts_count: usize,
            input_rows: *const usize, input_rows_count: usize,
            input_values: *const f64, input_values_count: usize,
            cap: usize,
            order: usize,
            list: *const usize, list_count: usize,
            stop: usize,
            permutation: *mut usize, permutation_count: usize,
            firsts: *mut usize, firsts_count: usize,
            starts: *mut usize, starts_count: usize,
            groups: *mut usize, groups_count: usize,
            tasks: *mut usize, tasks_count: usize,
            top: *mut usize, top_count: usize,
            words: *mut usize, words_count: usize,
            floats: *mut f64, floats_count: usize,
            rows: *mut usize, rows_count: usize,
            updates: *mut super::Update, updates_count: usize,
            values: *mut f64, values_count: usize,
            results: *mut [usize; 12],
        ) -> usize;
        pub fn nosebagged_solve(
            record: *const [usize; 9],
            permutation: *const usize, permutation_count: usize,
            firsts: *const usize, firsts_count: usize,
            starts: *const usize, starts_count: usize,
            rows: *const usize, rows_count: usize,
            values: *const f64, values_count: usize,
            words: *mut usize, words_count: usize,
            floats: *mut f64, floats_count: usize,
            sides: usize,
            b: *mut f64, b_count: usize,
            answer: *mut [usize; 3],
        ) -> usize;
        pub fn nosebagged_column(
            record: *const [usize; 9],
            permutation: *const usize, permutation_count: usize,
            firsts: *const usize, firsts_count: usize,
            starts: *const usize, starts_count: usize,
            rows: *const usize, rows_count: usize,
            values: *const f64, values_count: usize,
            q: usize,
            to: *mut f64, to_count: usize,
        ) -> usize;
    }
}

/// A matrix by upper columns: column k's rows, at most k and rising, stand in `rows` from `starts[k]` to `starts[k + 1]`.
#[derive(Clone, Copy)]
pub struct Matrix<'a> {
    pub n: usize,
    pub starts: &'a [usize],
    pub rows: &'a [usize],
    pub values: &'a [f64],
}

/// Why a call was refused: document 01's numbers 1 to 12, and 14, with their details.
#[derive(Debug, Clone, Copy, PartialEq, Eq)]
pub enum Refusal {
    OverLimit,
    WrongLengths { which: usize },
    WrongStarts { position: usize },
    WrongColumn { column: usize },
    ShortArea { area: usize, need: usize },
    OverCap { entries: usize, cap: usize },
    WrongOrder { position: usize },
    WrongPivot { column: usize },
    WrongSide { length: usize },
    NoFactor,
    WrongStructure,
    ManySides,
    /// A number that no call of the library gives.
    Other { number: usize },
}

impl Refusal {
    pub fn number(self) -> usize {
        match self {
            Refusal::OverLimit => 1,
            Refusal::WrongLengths { .. } => 2,
            Refusal::WrongStarts { .. } => 3,
            Refusal::WrongColumn { .. } => 4,
            Refusal::ShortArea { .. } => 5,
            Refusal::OverCap { .. } => 6,
            Refusal::WrongOrder { .. } => 8,
            Refusal::WrongPivot { .. } => 9,
            Refusal::WrongSide { .. } => 10,
            Refusal::NoFactor => 11,
            Refusal::WrongStructure => 12,
            Refusal::ManySides => 14,
            Refusal::Other { number } => number,
        }
    }
}

fn answered(number: usize, one: usize, two: usize) -> Result<(), Refusal> {
    Err(match number {
        0 => return Ok(()),
        1 => Refusal::OverLimit,
        2 => Refusal::WrongLengths { which: one },
        3 => Refusal::WrongStarts { position: one },
        4 => Refusal::WrongColumn { column: one },
        5 => Refusal::ShortArea { area: one, need: two },
        6 => Refusal::OverCap { entries: one, cap: two },
        8 => Refusal::WrongOrder { position: one },
        9 => Refusal::WrongPivot { column: one },
        10 => Refusal::WrongSide { length: one },
        11 => Refusal::NoFactor,
        12 => Refusal::WrongStructure,
        14 => Refusal::ManySides,
        _ => Refusal::Other { number },
    })
}

/// The order of the supernodes.
#[derive(Clone, Copy)]
pub enum Order<'a> {
    Plain,
    Listed(&'a [usize]),
}

/// Where factor stops.
#[derive(Clone, Copy)]
pub enum Stop {
    End,
    After(usize),
}

/// What a record is of.
#[derive(Debug, Clone, Copy, PartialEq, Eq)]
pub enum Stage {
    Empty,
    Analysed,
    Partial,
    Full,
}

/// The record of a call, as its nine words.
#[derive(Debug, Clone, Copy, PartialEq, Eq)]
pub struct Record(pub [usize; 9]);

impl Record {
    pub fn state(&self) -> Stage {
        match self.0[0] {
            1 => Stage::Analysed,
            2 => Stage::Partial,
            3 => Stage::Full,
            _ => Stage::Empty,
        }
    }
    pub fn n(&self) -> usize { self.0[1] }
    pub fn supernodes(&self) -> usize { self.0[2] }
    pub fn rows(&self) -> usize { self.0[3] }
    pub fn updates(&self) -> usize { self.0[4] }
    pub fn tasks(&self) -> usize { self.0[5] }
    pub fn top(&self) -> usize { self.0[6] }
    pub fn entries(&self) -> usize { self.0[7] }
    pub fn work(&self) -> usize { self.0[8] }
}

/// Supernode `supernode` updates the target that owns its rows at the positions p1..p2.
#[repr(C)]
#[derive(Clone, Copy, Debug, Default, PartialEq)]
pub struct Update {
    pub supernode: usize,
    pub p1: usize,
    pub p2: usize,
}

/// The lent areas 1 to 11, owned here.
#[derive(Clone, Default)]
pub struct Areas {
    pub permutation: Vec<usize>,
    pub firsts: Vec<usize>,
    pub starts: Vec<usize>,
    pub groups: Vec<usize>,
    pub tasks: Vec<usize>,
    pub top: Vec<usize>,
    pub words: Vec<usize>,
    pub floats: Vec<f64>,
    pub rows: Vec<usize>,
    pub updates: Vec<Update>,
    pub values: Vec<f64>,
}

impl Areas {
    /// Areas 1 to 8 as long as a matrix of n columns and so many stored rows needs; 9 to 11 are empty.
    pub fn new(n: usize, stored: usize) -> Areas {
        Areas {
            permutation: vec![0; n],
            firsts: vec![0; n + 1],
            starts: vec![0; n + 1],
            groups: vec![0; n + 1],
            tasks: vec![0; 2 * n],
            top: vec![0; n],
            words: vec![0; 24 * n + stored + 24],
            floats: vec![0.0; stored + n],
            ..Areas::default()
        }
    }

    /// Areas 9 to 11 as long as this record needs.
    pub fn with_room(mut self, rows: usize, updates: usize, entries: usize) -> Areas {
        self.rows = vec![0; rows];
        self.updates = vec![Update::default(); updates];
        self.values = vec![0.0; entries];
        self
    }

    /// Lengthens the area that number 5 names; false where the refusal is another, or where the memory is not to be had.
    pub fn grow(&mut self, r: Refusal) -> bool {
        fn to<T: Clone>(v: &mut Vec<T>, need: usize, zero: T) -> bool {
            let more = need.saturating_sub(v.len());
            if v.try_reserve_exact(more).is_err() {
                return false;
            }
            v.resize(v.len() + more, zero);
            more > 0
        }
        let Refusal::ShortArea { area, need } = r else { return false };
        match area {
            1 => to(&mut self.permutation, need, 0),
            2 => to(&mut self.firsts, need, 0),
            3 => to(&mut self.starts, need, 0),
            4 => to(&mut self.groups, need, 0),
            5 => to(&mut self.tasks, need, 0),
            6 => to(&mut self.top, need, 0),
            7 => to(&mut self.words, need, 0),
            8 => to(&mut self.floats, need, 0.0),
            9 => to(&mut self.rows, need, 0),
            10 => to(&mut self.updates, need, Update::default()),
            11 => to(&mut self.values, need, 0.0),
            _ => false,
        }
    }
}

fn settled(number: usize, results: [usize; 12]) -> Result<Record, Refusal> {
    answered(number, results[1], results[2])?;
    let mut record = [0; 9];
    record.copy_from_slice(&results[3..]);
    Ok(Record(record))
}

/// The structure of the factor, in these areas.
pub fn analyse(m: Matrix, cap: usize, s: &mut Areas) -> Result<Record, Refusal> {
    let mut results = [0; 12];
    // Safe: every pointer comes from a reference that lives over the call, with its count.
    let number = unsafe {
        raw::nosebagged_analyse(
            m.n,
            m.starts.as_ptr(), m.starts.len(),
            m.rows.as_ptr(), m.rows.len(),
            m.values.as_ptr(), m.values.len(),
            cap,
            s.permutation.as_mut_ptr(), s.permutation.len(),
            s.firsts.as_mut_ptr(), s.firsts.len(),
            s.starts.as_mut_ptr(), s.starts.len(),
            s.groups.as_mut_ptr(), s.groups.len(),
            s.tasks.as_mut_ptr(), s.tasks.len(),
            s.top.as_mut_ptr(), s.top.len(),
            s.words.as_mut_ptr(), s.words.len(),
            s.rows.as_mut_ptr(), s.rows.len(),
            s.updates.as_mut_ptr(), s.updates.len(),
            &mut results,
        )
    };
    settled(number, results)
}

/// The factor, in these areas.
pub fn factor(m: Matrix, cap: usize, order: Order, stop: Stop, s: &mut Areas) -> Result<Record, Refusal> {
    let (order, list): (usize, &[usize]) = match order {
        Order::Plain => (0, &[]),
        Order::Listed(list) => (1, list),
    };
    let stop = match stop {
        Stop::End => usize::MAX,
        // The largest word is the end, and a count one less is refused alike: no matrix has as many supernodes.
        Stop::After(t) => t.min(usize::MAX - 1),
    };
    let mut results = [0; 12];
    // Safe: as in analyse.
    let number = unsafe {
        raw::nosebagged_factor(
            m.n,
            m.starts.as_ptr(), m.starts.len(),
            m.rows.as_ptr(), m.rows.len(),
            m.values.as_ptr(), m.values.len(),
            cap,
            order,
            list.as_ptr(), list.len(),
            stop,
            s.permutation.as_mut_ptr(), s.permutation.len(),
            s.firsts.as_mut_ptr(), s.firsts.len(),
            s.starts.as_mut_ptr(), s.starts.len(),
            s.groups.as_mut_ptr(), s.groups.len(),
            s.tasks.as_mut_ptr(), s.tasks.len(),
            s.top.as_mut_ptr(), s.top.len(),
            s.words.as_mut_ptr(), s.words.len(),
            s.floats.as_mut_ptr(), s.floats.len(),
            s.rows.as_mut_ptr(), s.rows.len(),
            s.updates.as_mut_ptr(), s.updates.len(),
            s.values.as_mut_ptr(), s.values.len(),
            &mut results,
        )
    };
    settled(number, results)
}

/// So many right sides, n numbers each, stand in b one after another, and each becomes its solution; a refusal leaves b as it was. Of the
/// scratch only what solve needs is lent, n words and n floats, since it clears whatever it is lent.
pub fn solve(record: &Record, s: &mut Areas, sides: usize, b: &mut [f64]) -> Result<(), Refusal> {
    let mut answer = [0; 3];
    let (words, floats) = (record.n().min(s.words.len()), record.n().min(s.floats.len()));
    // Safe: as in analyse.
    let number = unsafe {
        raw::nosebagged_solve(
            &record.0,
            s.permutation.as_ptr(), s.permutation.len(),
            s.firsts.as_ptr(), s.firsts.len(),
            s.starts.as_ptr(), s.starts.len(),
            s.rows.as_ptr(), s.rows.len(),
            s.values.as_ptr(), s.values.len(),
            s.words.as_mut_ptr(), words,
            s.floats.as_mut_ptr(), floats,
            sides,
            b.as_mut_ptr(), b.len(),
            &mut answer,
        )
    };
    answered(number, answer[1], answer[2])
}

/// Column q of L into `to`, diagonal first and zeros after it; its length. Where `to` is shorter, it is zero.
pub fn column(record: &Record, s: &Areas, q: usize, to: &mut [f64]) -> usize {
    // Safe: as in analyse.
    unsafe {
        raw::nosebagged_column(
            &record.0,
            s.permutation.as_ptr(), s.permutation.len(),
            s.firsts.as_ptr(), s.firsts.len(),
            s.starts.as_ptr(), s.starts.len(),
            s.rows.as_ptr(), s.rows.len(),
            s.values.as_ptr(), s.values.len(),
            q,
            to.as_mut_ptr(), to.len(),
        )
    }
}

/// A whole factor with its areas.
pub struct Factor {
    pub record: Record,
    pub areas: Areas,
}

impl Factor {
    /// In the plain order. Areas 9 to 11 are lengthened as the library asks for them, so that the call is made up to four times.
    pub fn new(m: Matrix, cap: usize) -> Result<Factor, Refusal> {
        // A matrix over the limits is refused before any area is looked at, so no more than that is taken.
        let mut areas = Areas::new(m.n.min(32768), m.rows.len().min(1048576));
        loop {
            match factor(m, cap, Order::Plain, Stop::End, &mut areas) {
                Ok(record) => return Ok(Factor { record, areas }),
                Err(r) if areas.grow(r) => {}
                Err(r) => return Err(r),
            }
        }
    }

    /// So many right sides in b, one after another, each in place.
    pub fn solve(&mut self, sides: usize, b: &mut [f64]) -> Result<(), Refusal> {
        solve(&self.record, &mut self.areas, sides, b)
    }

    /// Column q of L, diagonal first; empty for a column not below n.
    pub fn column(&self, q: usize) -> Vec<f64> {
        let mut v = vec![0.0; column(&self.record, &self.areas, q, &mut [])];
        column(&self.record, &self.areas, q, &mut v);
        v
    }
}
