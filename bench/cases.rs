//! The jobs that are timed, and how a time is taken. The commands here make this a child module of oracle/jobs.rs.

use super::*;
use std::time::{Duration, Instant};
use yuzhbani::{Lists, PrintRange, Request, RequestNumbers};

/// Times taken of each job on each side.
pub const ROUNDS: usize = 21;

/// A time is taken over as many calls as make this up.
const AT_LEAST: Duration = Duration::from_millis(2);

/// The runs that a lent list has room for: no plan here has more.
pub const ROOM: usize = 50_000;

// ---- jobs

/// A job while it is written: its records so far.
#[derive(Clone, Default)]
struct Records(Vec<u8>);

impl Records {
    fn record(mut self, mark: &str, fields: &[&[u8]]) -> Self {
        self.0.extend_from_slice(mark.as_bytes());
        fields.iter().for_each(|field| self.0.extend_from_slice(field));
        self
    }

    fn number(self, mark: &str, number: u16) -> Self {
        self.record(mark, &[&number.to_le_bytes()])
    }

    /// The largest limit.
    fn most(self, mark: &str) -> Self {
        self.record(mark, &[&u64::MAX.to_le_bytes()])
    }

    fn area(self, mark: &str, (top, left, bottom, right): (u32, u16, u32, u16)) -> Self {
        self.record(mark, &[&top.to_le_bytes(), &left.to_le_bytes(), &bottom.to_le_bytes(), &right.to_le_bytes()])
    }

    fn rows(self, count: u32, size: i64) -> Self {
        (0..count).fold(self, |job, row| job.record("RW", &[&row.to_le_bytes(), &size.to_le_bytes()]))
    }

    fn columns(self, count: u16, size: i64) -> Self {
        (0..count).fold(self, |job, column| job.record("CL", &[&column.to_le_bytes(), &size.to_le_bytes()]))
    }

    fn row_merges(self, merges: impl Iterator<Item = (u32, u32)>) -> Self {
        merges.fold(self, |job, (first, last)| job.area("MR", (first, 0, last, 0)))
    }

    fn row_breaks(self, breaks: impl Iterator<Item = u32>) -> Self {
        breaks.fold(self, |job, row| job.record("BR", &[&row.to_le_bytes()]))
    }

    fn end(self) -> Vec<u8> {
        let bytes = self.record("EN", &[]).0;
        assert!(bytes.len() <= MOST_BYTES, "a job of {} bytes", bytes.len());
        bytes
    }
}

fn range(rows: u32, columns: u16) -> Records {
    Records::default().most("LP").area("AR", (0, 0, rows - 1, columns - 1))
}

/// A row of 20,480 units is 20 pixels high: 45 of them make up a Letter page.
const HIGH: i64 = 20_480;

/// A column of 65,536 units is 64 pixels wide: 10 of them make up a Letter page.
const WIDE: i64 = 65_536;

fn rows(count: u32) -> Vec<u8> {
    range(count, 1).rows(count, HIGH).columns(1, WIDE).end()
}

fn columns(count: u16) -> Vec<u8> {
    range(1, count).rows(1, HIGH).columns(count, WIDE).end()
}

fn both(count: u32) -> Vec<u8> {
    range(count, count as u16).rows(count, HIGH).columns(count as u16, WIDE).end()
}

/// A page for each row and column.
fn pages(rows: u32, columns: u16) -> Vec<u8> {
    range(rows, columns).rows(rows, 600_000).columns(columns, 500_000).end()
}

/// Fitted to one page, which takes a permille between 100 and 1,000: every halving is made.
fn fitted(count: u32) -> Vec<u8> {
    let fit = Records::default().number("FW", 1).number("FH", 1);
    fit.area("AR", (0, 0, count - 1, 0)).rows(count, fitted_size(count)).columns(1, WIDE).end()
}

fn fitted_size(count: u32) -> i64 {
    933_888 * 2 / i64::from(count)
}

/// Fitted to one page, which 100 permille does not reach.
fn unreachable(count: u32) -> Vec<u8> {
    let fit = Records::default().number("FW", 1).number("FH", 1);
    fit.area("AR", (0, 0, count - 1, 0)).rows(count, 1_000_000).columns(1, WIDE).end()
}

/// Rows in pairs, each merged.
fn merged(count: u32) -> Vec<u8> {
    range(count, 1).rows(count, HIGH).columns(1, WIDE).row_merges((0..count / 2).map(|pair| (2 * pair, 2 * pair + 1))).end()
}

/// The same, fitted to so many pages that every halving is made.
fn merged_and_fitted(count: u32) -> Vec<u8> {
    let fit = Records::default().number("FW", 1).number("FH", (count / 90) as u16);
    let job = fit.area("AR", (0, 0, count - 1, 0)).rows(count, HIGH).columns(1, WIDE);
    job.row_merges((0..count / 2).map(|pair| (2 * pair, 2 * pair + 1))).end()
}

/// A break before each row but the first.
fn broken(count: u32) -> Vec<u8> {
    range(count, 1).rows(count, HIGH).columns(1, WIDE).row_breaks(1..count).end()
}

/// Breaks from the last row to the first: the first one is kept, and each other is looked at and dropped.
fn broken_backwards(count: u32) -> Vec<u8> {
    range(count, 1).rows(count, HIGH).columns(1, WIDE).row_breaks((1..count).rev()).end()
}

/// Rows past a title of two: a titled capacity.
fn titled(count: u32) -> Vec<u8> {
    let title = range(count, 1).record("TR", &[&0u32.to_le_bytes(), &1u32.to_le_bytes()]);
    title.rows(count, HIGH).columns(1, WIDE).end()
}

/// A title that merges widen row by row, one in each pass: listed from the last to the first.
fn widened(count: u32) -> Vec<u8> {
    let title = range(count, 1).record("TR", &[&0u32.to_le_bytes(), &0u32.to_le_bytes()]);
    title.rows(4, HIGH).columns(1, WIDE).row_merges((0..count).rev().map(|row| (row, row + 1))).end()
}

/// What is planned: a job by its bytes, and its lists; or lists that no job has room for.
pub struct Case {
    pub size: u32,
    pub bytes: Option<Vec<u8>>,
    pub job: Job,
}

fn case(size: u32, bytes: Vec<u8>) -> Case {
    let job = read_by_rust(&bytes, ROOM);
    Case { size, bytes: Some(bytes), job }
}

/// Eight areas in one job, and the same eight in a job each.
pub struct Eight {
    pub together: Case,
    pub apart: Vec<Case>,
}

/// Jobs of the same records before and behind their areas.
fn eight(size: u32, before: Records, areas: [(u32, u16, u32, u16); 8], behind: impl Fn(Records) -> Records) -> Eight {
    let job = |areas: &[(u32, u16, u32, u16)]| {
        let records = areas.iter().fold(before.clone(), |job, &cells| job.area("AR", cells));
        case(size, behind(records).end())
    };
    Eight { together: job(&areas), apart: areas.map(|cells| job(&[cells])).into() }
}

/// So many rows and eight columns in eight parts, one below the other, or as a whole eight times.
fn blocks(count: u32) -> [(u32, u16, u32, u16); 8] {
    let part = count / 8;
    std::array::from_fn(|k| (k as u32 * part, 0, (k as u32 + 1) * part - 1, 7))
}

fn wholes(count: u32) -> [(u32, u16, u32, u16); 8] {
    [(0, 0, count - 1, 7); 8]
}

/// Areas that overlap in part, so that the count of their cells goes by many strips.
fn stairs(count: u32) -> [(u32, u16, u32, u16); 8] {
    std::array::from_fn(|k| (k as u32, k as u16, count - 8 + k as u32, k as u16 + 7))
}

/// As a small job, but with so many rows.
fn more_rows(small: Vec<u8>, count: u32, size: i64) -> Case {
    let mut job = read_by_rust(&small, ROOM);
    job.areas[0].last_row = count - 1;
    job.row_indexes = (0..count).collect();
    job.row_sizes = vec![size as u64; count as usize];
    Case { size: count, bytes: None, job }
}

/// The families: a name and its jobs, each with its size.
pub fn families() -> Vec<(&'static str, Vec<Case>)> {
    let sized = |job: fn(u32) -> Vec<u8>, sizes: &[u32]| sizes.iter().map(|&size| case(size, job(size))).collect::<Vec<_>>();
    let more = |mut cases: Vec<Case>, small: Vec<u8>, size: fn(u32) -> i64| {
        cases.extend([100_000, 1_000_000].map(|count| more_rows(small.clone(), count, size(count))));
        cases
    };
    let thousands = [500, 1000, 2000, 4000];
    vec![
        ("document 01", vec![case(3, pages(3, 2))]),
        ("rows", more(sized(rows, &[50, 500, 1000, 2000, 4280]), rows(1), |_| HIGH)),
        ("columns", sized(|count| columns(count as u16), &[500, 1000, 2000, 4990])),
        ("rows and columns", sized(both, &[500, 1000, 2300])),
        ("10,000 pages", vec![case(100, pages(100, 100))]),
        ("fit, every halving", more(sized(fitted, &thousands), fitted(1), fitted_size)),
        ("fit, unreachable", sized(unreachable, &thousands)),
        ("merged pairs", sized(merged, &[350, 700, 1400, 2800])),
        ("merged pairs, fit", sized(merged_and_fitted, &[350, 700, 1400, 2800])),
        ("breaks", sized(broken, &[350, 700, 1400, 2900])),
        ("breaks backwards", sized(broken_backwards, &[350, 700, 1400, 2900])),
        ("title", sized(titled, &thousands)),
        ("title widened by passes", sized(widened, &thousands)),
    ]
}

/// The families of eight areas. A limit of cells that holds has them counted; a fit makes every halving in each area.
pub fn families_of_eight() -> Vec<(&'static str, Vec<Eight>)> {
    type Areas = fn(u32) -> [(u32, u16, u32, u16); 8];
    let sized = |before: Records, areas: Areas, high: fn(u32) -> i64| {
        let job = |count: u32| eight(count, before.clone(), areas(count), |job| job.rows(count, high(count)).columns(8, WIDE));
        [80, 400, 2000, 4000].map(job).into()
    };
    let plain = || Records::default().most("LP");
    let fit = || Records::default().number("FW", 1).number("FH", 1);
    vec![
        ("eight blocks", sized(plain(), blocks, |_| HIGH)),
        ("eight times the whole", sized(plain(), wholes, |_| HIGH)),
        ("eight stairs", sized(plain(), stairs, |_| HIGH)),
        ("eight stairs, counted", sized(plain().most("UC"), stairs, |_| HIGH)),
        ("eight blocks, fit", sized(fit(), blocks, |count| fitted_size(count / 8))),
        ("eight wholes, fit", sized(fit(), wholes, fitted_size)),
    ]
}

// ---- a job's numbers and lists

fn range_asked(area: &Asked) -> PrintRange {
    PrintRange {
        first_row: area.first_row,
        first_column: area.first_column,
        last_row: area.last_row,
        last_column: area.last_column,
    }
}

pub fn request_of(job: &Job) -> RequestNumbers {
    let (setup, behavior) = (&job.setup, &job.behavior);
    let request = Request {
        paper: setup.paper_size,
        landscape: setup.landscape,
        margins: setup.margins.map(|(left, right, top, bottom, header, footer)| [left, right, top, bottom, header, footer]),
        percent: setup.scale,
        fit: behavior.fit_to_page,
        fit_width: setup.fit_to_width,
        fit_height: setup.fit_to_height,
        over_then_down: behavior.page_order == PrintPageOrder::OverThenDown,
        headings: behavior.headings,
        page_limit: job.page_limit,
        cell_limit: job.cell_limit,
        areas: job.areas.iter().map(range_asked).collect(),
        row_title: setup.repeat_rows,
        column_title: setup.repeat_cols.map(|(first, last)| (first.into(), last.into())),
    };
    request.numbers()
}

pub fn lists_of(job: &Job) -> Lists {
    Lists {
        row_indexes: job.row_indexes.clone(),
        row_sizes: job.row_sizes.clone(),
        column_indexes: job.column_indexes.clone(),
        column_sizes: job.column_sizes.clone(),
        merge_first_rows: job.merge_first_rows.clone(),
        merge_first_columns: job.merge_first_columns.clone(),
        merge_last_rows: job.merge_last_rows.clone(),
        merge_last_columns: job.merge_last_columns.clone(),
        row_breaks: job.row_breaks.clone(),
        column_breaks: job.column_breaks.clone(),
    }
}

/// The job, read by the oracle, with lists that have room for so many runs.
pub fn read_by_rust(bytes: &[u8], runs: usize) -> Job {
    questioned(bytes).ok().expect("a job").job(runs)
}

// ---- times

/// The time of one call, in microseconds, over so many calls.
pub fn timed(calls: u32, mut call: impl FnMut()) -> f64 {
    let start = Instant::now();
    (0..calls).for_each(|_| call());
    start.elapsed().as_secs_f64() * 1e6 / f64::from(calls)
}

/// How many calls make up the least time.
pub fn calls_for(mut call: impl FnMut()) -> u32 {
    let once = timed(1, &mut call).min(timed(1, &mut call)).max(0.01);
    (AT_LEAST.as_secs_f64() * 1e6 / once).ceil() as u32
}

pub fn median(mut times: Vec<f64>) -> f64 {
    times.sort_by(f64::total_cmp);
    times[times.len() / 2]
}
