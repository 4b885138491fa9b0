//! Plans the same jobs and the same lists of one area by the static library and by an older one, in one process, and prints the times of both.
//!
//! `bench/versions` makes this a child module of oracle/jobs.rs. The older library planned one area: a plan was sixteen numbers, a request
//! thirty. Its symbols have `older_` before their names.

use super::cases::*;
use std::hint::black_box;
use yuzhbani::{plan_into, plan_lists_into, run_list, Lists, Numbers, RequestNumbers};

mod older {
    extern "C" {
        pub fn older_yuzhbani_plan(
            bytes: *const u8,
            bytes_len: usize,
            numbers: *mut [u64; 16],
            row_runs: *mut u64,
            row_runs_len: usize,
            column_runs: *mut u64,
            column_runs_len: usize,
        ) -> u8;

        pub fn older_yuzhbani_plan_lists(
            request: *const [u64; 30],
            row_indexes: *const u32,
            row_indexes_len: usize,
            row_sizes: *const u64,
            row_sizes_len: usize,
            column_indexes: *const u32,
            column_indexes_len: usize,
            column_sizes: *const u64,
            column_sizes_len: usize,
            merge_first_rows: *const u32,
            merge_first_rows_len: usize,
            merge_first_columns: *const u32,
            merge_first_columns_len: usize,
            merge_last_rows: *const u32,
            merge_last_rows_len: usize,
            merge_last_columns: *const u32,
            merge_last_columns_len: usize,
            row_breaks: *const u32,
            row_breaks_len: usize,
            column_breaks: *const u32,
            column_breaks_len: usize,
            numbers: *mut [u64; 16],
            row_runs: *mut u64,
            row_runs_len: usize,
            column_runs: *mut u64,
            column_runs_len: usize,
        ) -> u8;
    }
}

/// What a library plans with: lent once, and used for each call.
struct Lending<const N: usize> {
    numbers: [u64; N],
    rows: Vec<u64>,
    columns: Vec<u64>,
}

impl<const N: usize> Lending<N> {
    fn new() -> Self {
        Self { numbers: [0; N], rows: run_list(ROOM), columns: run_list(ROOM) }
    }
}

type Newer = Lending<60>;
type Older = Lending<16>;

impl Newer {
    fn plan(&mut self, bytes: &[u8]) {
        plan_into(bytes, &mut self.numbers, &mut self.rows, &mut self.columns).expect("a plan");
    }

    fn plan_lists(&mut self, request: &RequestNumbers, lists: &Lists) {
        plan_lists_into(request, lists, &mut self.numbers, &mut self.rows, &mut self.columns).expect("a plan");
    }

    /// The numbers of its one area in the older order.
    fn older_numbers(&self) -> [u64; 16] {
        let n: &Numbers = &self.numbers;
        std::array::from_fn(|at| match at {
            0 => n[12],
            1..=4 => n[at + 13],
            _ => n[at - 4],
        })
    }
}

impl Older {
    fn plan(&mut self, bytes: &[u8]) {
        let (rows, columns) = (&mut self.rows, &mut self.columns);
        // Safe: each pointer and length are those of a slice or an array that is borrowed over the call, and what is lent as `&mut` is lent
        // once.
        let answer = unsafe {
            older::older_yuzhbani_plan(
                bytes.as_ptr(),
                bytes.len(),
                &mut self.numbers,
                rows.as_mut_ptr(),
                rows.len(),
                columns.as_mut_ptr(),
                columns.len(),
            )
        };
        assert_eq!(answer, 0, "no plan");
    }

    fn plan_lists(&mut self, request: &[u64; 30], lists: &Lists) {
        let (rows, columns) = (&mut self.rows, &mut self.columns);
        // Safe: as in `plan`.
        let answer = unsafe {
            older::older_yuzhbani_plan_lists(
                request,
                lists.row_indexes.as_ptr(),
                lists.row_indexes.len(),
                lists.row_sizes.as_ptr(),
                lists.row_sizes.len(),
                lists.column_indexes.as_ptr(),
                lists.column_indexes.len(),
                lists.column_sizes.as_ptr(),
                lists.column_sizes.len(),
                lists.merge_first_rows.as_ptr(),
                lists.merge_first_rows.len(),
                lists.merge_first_columns.as_ptr(),
                lists.merge_first_columns.len(),
                lists.merge_last_rows.as_ptr(),
                lists.merge_last_rows.len(),
                lists.merge_last_columns.as_ptr(),
                lists.merge_last_columns.len(),
                lists.row_breaks.as_ptr(),
                lists.row_breaks.len(),
                lists.column_breaks.as_ptr(),
                lists.column_breaks.len(),
                &mut self.numbers,
                rows.as_mut_ptr(),
                rows.len(),
                columns.as_mut_ptr(),
                columns.len(),
            )
        };
        assert_eq!(answer, 0, "no plan");
    }
}

/// A request of one area as the older library has it.
fn older_request(request: &RequestNumbers) -> [u64; 30] {
    std::array::from_fn(|at| match at {
        0..=19 => request[at],
        20..=23 => request[at + 3],
        _ => request[at + 31],
    })
}

/// Both libraries planned the same.
fn agree(newer: &Newer, older: &Older) {
    assert_eq!(newer.older_numbers(), older.numbers);
    assert_eq!((&newer.rows, &newer.columns), (&older.rows, &older.columns));
}

/// The best of rounds that take the two in turn, in microseconds: the newer, and the older.
fn best(newer: &mut dyn FnMut(), older: &mut dyn FnMut()) -> [f64; 2] {
    let calls = [calls_for(&mut *newer), calls_for(&mut *older)];
    let mut least = [f64::INFINITY; 2];
    for _ in 0..ROUNDS {
        least[0] = least[0].min(timed(calls[0], &mut *newer));
        least[1] = least[1].min(timed(calls[1], &mut *older));
    }
    least
}

fn text([newer, older]: [f64; 2]) -> String {
    format!("{newer:>10.1} {older:>10.1} {:>6.2}", newer / older)
}

pub fn main() {
    let (mut newer, mut older) = (Newer::new(), Older::new());
    println!("                                                    bytes to runs                lists to runs");
    println!("family                        size   pages      newer      older  ratio      newer      older  ratio");
    for (family, cases) in families() {
        for case in cases {
            let (request, lists) = (request_of(&case.job), lists_of(&case.job));
            let before = older_request(&request);
            newer.plan_lists(&request, &lists);
            older.plan_lists(&before, &lists);
            agree(&newer, &older);
            let by_lists = best(
                &mut || newer.plan_lists(black_box(&request), black_box(&lists)),
                &mut || older.plan_lists(black_box(&before), black_box(&lists)),
            );
            let by_bytes = case.bytes.as_ref().map(|bytes| {
                newer.plan(bytes);
                older.plan(bytes);
                agree(&newer, &older);
                best(&mut || newer.plan(black_box(bytes)), &mut || older.plan(black_box(bytes)))
            });
            let by_bytes = by_bytes.map_or(format!("{:>10} {:>10} {:>6}", "-", "-", "-"), text);
            println!("{family:<25} {:>8} {:>7} {by_bytes} {}", case.size, newer.numbers[1], text(by_lists));
        }
    }
}
