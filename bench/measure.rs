//! Plans the same jobs and the same lists by the static library and by the Rust's chain, in one process, and prints the times of both; and
//! eight areas in one plan beside eight plans of one.
//!
//! `bench/compare` makes this a child module of oracle/jobs.rs, whose reader and chain it calls.

use super::cases::*;
use super::*;
use std::hint::black_box;
use yuzhbani::{count_into, plan_into, plan_lists_into, run_list, write_area_into, Lists, Numbers, RequestNumbers};

// ---- both sides

/// What our side plans with: lent once, and used for each call.
struct Ours {
    numbers: Numbers,
    rows: Vec<u64>,
    columns: Vec<u64>,
}

impl Ours {
    fn plan(&mut self, bytes: &[u8]) {
        plan_into(bytes, &mut self.numbers, &mut self.rows, &mut self.columns).expect("a plan");
    }

    fn plan_lists(&mut self, request: &RequestNumbers, lists: &Lists) {
        plan_lists_into(request, lists, &mut self.numbers, &mut self.rows, &mut self.columns).expect("a plan");
    }

    /// As program `plan` does: a count, and then area by area in the same lists.
    fn plan_by_area(&mut self, bytes: &[u8]) {
        count_into(bytes, &mut self.numbers).expect("a count");
        for at in 0..self.numbers[0] {
            let permille = self.numbers[12 + 6 * at as usize] as u16;
            write_area_into(bytes, at + 1, permille, &mut [0; 2], &mut self.rows, &mut self.columns).expect("an area");
        }
    }
}

fn planned_by_rust(job: &Job) -> (Vec<Area>, PrintWarnings) {
    let mut warnings = PrintWarnings::default();
    (prepared(job, &mut warnings).ok().expect("a plan"), warnings)
}

/// Both sides have the same permilles, pages, notes and runs.
fn agree(ours: &Ours, (areas, warnings): (Vec<Area>, PrintWarnings)) {
    let runs = |segments: Vec<AxisSegment<u32>>, list: &[u64]| {
        let mut theirs = Lent::zeros(segments.len());
        theirs.write(&segments);
        assert_eq!(&list[..theirs.0.len()], &theirs.0[..]);
    };
    assert_eq!(ours.numbers[..2], [areas.len() as u64, page_count(&areas)]);
    assert_eq!(ours.numbers[3..12], nine_notes(warnings));
    for (area, numbers) in areas.iter().zip(ours.numbers[12..].chunks_exact(6)) {
        let counts = [area.row_segments.len() as u64, area.column_segments.len() as u64];
        assert_eq!((u64::from(area.scale_permille), counts), (numbers[0], [numbers[2], numbers[3]]));
    }
    runs(joined(&areas, |area| &area.row_segments), &ours.rows);
    runs(joined(&areas, |area| &area.column_segments), &ours.columns);
}

/// Our answers are the Rust's.
fn compare(case: &Case, ours: &mut Ours) {
    ours.plan_lists(&request_of(&case.job), &lists_of(&case.job));
    agree(ours, planned_by_rust(&case.job));
    if let Some(bytes) = &case.bytes {
        ours.plan(bytes);
        agree(ours, planned_by_rust(&read_by_rust(bytes, ROOM)));
    }
}

// ---- times of one area

/// Microseconds of ours and of the Rust's.
#[derive(Clone, Copy)]
struct Pair {
    ours: f64,
    rust: f64,
}

impl Pair {
    fn text(self) -> String {
        format!("{:>10.1} {:>10.1} {:>6.2}", self.ours, self.rust, self.ours / self.rust)
    }
}

/// From bytes, where there are any, and from lists to the runs.
struct Times {
    whole: Option<Pair>,
    lists: Pair,
}

/// The medians of rounds that take each time in turn. A job is read by the Rust's side with no lists for its runs, as ours has its own from the
/// start.
fn times(case: &Case, ours: &mut Ours) -> Times {
    let (job, request, lists) = (&case.job, request_of(&case.job), lists_of(&case.job));
    let bytes = case.bytes.as_deref();
    let calls = [
        calls_for(|| ours.plan_lists(&request, &lists)),
        calls_for(|| drop(planned_by_rust(job))),
        bytes.map_or(0, |bytes| calls_for(|| ours.plan(bytes))),
        bytes.map_or(0, |bytes| calls_for(|| drop(read_by_rust(bytes, 0)))),
    ];
    let mut taken = [const { Vec::new() }; 4];
    for _ in 0..ROUNDS {
        taken[0].push(timed(calls[0], || ours.plan_lists(black_box(&request), black_box(&lists))));
        taken[1].push(timed(calls[1], || drop(black_box(planned_by_rust(black_box(job))))));
        if let Some(bytes) = bytes {
            taken[2].push(timed(calls[2], || ours.plan(black_box(bytes))));
            taken[3].push(timed(calls[3], || drop(black_box(read_by_rust(black_box(bytes), 0)))));
        }
    }
    let [by_lists, rust] = [0, 1].map(|at| median(taken[at].clone()));
    let whole = |_| Pair { ours: median(taken[2].clone()), rust: median(taken[3].clone()) + rust };
    Times { whole: bytes.map(whole), lists: Pair { ours: by_lists, rust } }
}

fn length(case: &Case) -> String {
    case.bytes.as_ref().map_or("-".to_string(), |bytes| bytes.len().to_string())
}

fn print_families(ours: &mut Ours) {
    println!("                                                       bytes to runs                lists to runs        lists, on the size before");
    println!("family                        size   bytes   pages       ours       Rust  ratio       ours       Rust  ratio     ours    Rust");
    for (family, cases) in families() {
        let mut before: Option<(u32, Pair)> = None;
        for case in cases {
            compare(&case, ours);
            let (size, pages, Times { whole, lists }) = (case.size, ours.numbers[1], times(&case, ours));
            let whole = whole.map_or(format!("{:>10} {:>10} {:>6}", "-", "-", "-"), Pair::text);
            print!("{family:<25} {size:>8} {:>7} {pages:>7} {whole} {}", length(&case), lists.text());
            match before {
                Some((smaller, earlier)) => {
                    let grown = f64::from(size) / f64::from(smaller);
                    let (a, b) = (lists.ours / earlier.ours, lists.rust / earlier.rust);
                    println!("  x{a:>6.2} x{b:>6.2} for x{grown:.2}");
                }
                None => println!(),
            }
            before = Some((size, lists));
        }
    }
}

// ---- eight areas

/// What is planned by lists, and by bytes.
struct Given<'a> {
    request: RequestNumbers,
    lists: Lists,
    bytes: &'a [u8],
}

fn given(case: &Case) -> Given<'_> {
    let bytes = case.bytes.as_deref().expect("a job");
    Given { request: request_of(&case.job), lists: lists_of(&case.job), bytes }
}

/// The medians of: eight areas by lists, eight plans by lists, eight areas by bytes, eight plans by bytes, and area by area by bytes; and of
/// the Rust's chain over the eight areas.
fn times_of_eight(eight: &Eight, ours: &mut Ours) -> [f64; 6] {
    let (together, apart) = (given(&eight.together), eight.apart.iter().map(given).collect::<Vec<_>>());
    let mut call = |which: usize| match which {
        0 => ours.plan_lists(black_box(&together.request), black_box(&together.lists)),
        1 => apart.iter().for_each(|one| ours.plan_lists(black_box(&one.request), black_box(&one.lists))),
        2 => ours.plan(black_box(together.bytes)),
        3 => apart.iter().for_each(|one| ours.plan(black_box(one.bytes))),
        4 => ours.plan_by_area(black_box(together.bytes)),
        _ => drop(black_box(planned_by_rust(black_box(&eight.together.job)))),
    };
    let calls: [u32; 6] = std::array::from_fn(|which| calls_for(|| call(which)));
    let mut taken = [const { Vec::new() }; 6];
    for _ in 0..ROUNDS {
        for which in 0..6 {
            taken[which].push(timed(calls[which], || call(which)));
        }
    }
    taken.map(median)
}

fn print_eight(ours: &mut Ours) {
    println!();
    println!("                                                     by lists                     by bytes                area by area        Rust, lists");
    println!("eight areas                   size   bytes   pages  one plan eight plans  ratio  one plan eight plans  ratio     plans  ratio      plan  ratio");
    for (family, cases) in families_of_eight() {
        for eight in cases {
            eight.apart.iter().chain([&eight.together]).for_each(|case| compare(case, ours));
            let pages = ours.numbers[1];
            let [lists, lists_apart, bytes, bytes_apart, by_area, rust] = times_of_eight(&eight, ours);
            let beside = |one: f64, apart: f64| format!("{one:>9.1} {apart:>11.1} {:>6.2}", one / apart);
            let (by_lists, by_bytes) = (beside(lists, lists_apart), beside(bytes, bytes_apart));
            print!("{family:<25} {:>8} {:>7} {pages:>7} {by_lists} {by_bytes}", eight.together.size, length(&eight.together));
            println!(" {by_area:>9.1} {:>6.2} {rust:>9.1} {:>6.2}", by_area / bytes, lists / rust);
        }
    }
}

pub fn main() {
    let mut ours = Ours { numbers: [0; 60], rows: run_list(ROOM), columns: run_list(ROOM) };
    print_families(&mut ours);
    print_eight(&mut ours);
}
