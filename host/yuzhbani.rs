//! Page plans of measured worksheets: a safe face of the static library `yuzhbani`.
//!
//! A job's bytes are planned by [`Plan::of`], lists of measured slots by [`Plan::of_lists`]. A job is printed area by area, without its runs all at
//! once, by [`Counted`]. Whoever keeps run lists of his own calls [`plan_into`], [`plan_lists_into`], [`count_into`], [`write_area_into`],
//! [`page_of`], [`head_into`], [`area_line_into`] and [`block_into`].

use std::fmt;
use std::io::{self, Write};

/// The most bytes of a job. More are refused with 1.
pub const MOST_BYTES: usize = 60_000;

/// The most areas. None and more are refused with 4.
pub const MOST_AREAS: usize = 8;

/// Lists with room for so many runs have room for those of each area of a job, and for [`MOST_AREAS`] times as many for those of all: none is
/// refused with 11.
pub const MOST_RUNS: usize = 5_000;

/// How many numbers a run has in a list of runs: first, last, size, and above 0 where a manual break stands before it.
pub const RUN_NUMBERS: usize = 4;

/// The numbers of a plan: areas, pages, order, nine notes; then of each of eight areas permille, unreachable, row runs, column runs, rows empty,
/// columns empty.
pub type Numbers = [u64; 60];

/// Where the numbers of the first area stand, and how many an area has.
const AREAS: usize = 12;
const AREA_NUMBERS: usize = 6;

/// What is asked of a plan of lists, as numbers; [`Request::numbers`] has their order. Any numbers have an answer.
pub type RequestNumbers = [u64; 61];

/// The bytes that the first lines of a plan, the line of a refusal, or that of an area have room in.
pub const HEAD: usize = 256;

/// The bytes that a block of page lines has room in.
pub const BLOCK: usize = 65_536;

/// The numbers of a block: how many pages have their lines in it, and how many bytes the lines are.
pub type BlockNumbers = [u64; 2];

/// How many runs of rows and of columns an area was written with.
pub type RunCounts = [u64; 2];

mod raw {
    // A slice of Rattle is a pointer and a length here, an array or a number that is lent a pointer.
    extern "C" {
        pub fn yuzhbani_plan(
            bytes: *const u8,
            bytes_len: usize,
            numbers: *mut [u64; 60],
            row_runs: *mut u64,
            row_runs_len: usize,
            column_runs: *mut u64,
            column_runs_len: usize,
        ) -> u8;

        pub fn yuzhbani_count(bytes: *const u8, bytes_len: usize, numbers: *mut [u64; 60]) -> u8;

        pub fn yuzhbani_write_area(
            bytes: *const u8,
            bytes_len: usize,
            number: u64,
            permille: u16,
            counts: *mut [u64; 2],
            row_runs: *mut u64,
            row_runs_len: usize,
            column_runs: *mut u64,
            column_runs_len: usize,
        ) -> u8;

        pub fn yuzhbani_plan_lists(
            request: *const [u64; 61],
            row_indexes: *const u32,
            row_indexes_len: usize,
            row_sizes: *const u64,
            row_sizes_len: usize,
            column_indexes: *const u32,
            column_indexes_len: usize,
            column_sizes: *const u64,
            column_sizes_len: usize,
            merge_first_rows: *const u32,
            merge_first_rows_len: usize,
            merge_first_columns: *const u32,
            merge_first_columns_len: usize,
            merge_last_rows: *const u32,
            merge_last_rows_len: usize,
            merge_last_columns: *const u32,
            merge_last_columns_len: usize,
            row_breaks: *const u32,
            row_breaks_len: usize,
            column_breaks: *const u32,
            column_breaks_len: usize,
            numbers: *mut [u64; 60],
            row_runs: *mut u64,
            row_runs_len: usize,
            column_runs: *mut u64,
            column_runs_len: usize,
        ) -> u8;

        pub fn yuzhbani_page(
            numbers: *const [u64; 60],
            number: u64,
            row_runs: *const u64,
            row_runs_len: usize,
            column_runs: *const u64,
            column_runs_len: usize,
            page: *mut [u64; 12],
        ) -> u8;

        pub fn yuzhbani_head(answer: u8, numbers: *const [u64; 60], out: *mut [u8; 256]) -> usize;

        pub fn yuzhbani_area_line(number: u64, permille: u16, out: *mut [u8; 256]) -> usize;

        pub fn yuzhbani_block(
            numbers: *const [u64; 60],
            from: u64,
            row_runs: *const u64,
            row_runs_len: usize,
            column_runs: *const u64,
            column_runs_len: usize,
            block: *mut [u64; 2],
            out: *mut [u8; 65_536],
        ) -> u8;
    }
}

/// The number of the question, 1 to 15, that an input did not pass.
#[derive(Debug, Clone, Copy, PartialEq, Eq)]
pub struct Refusal(pub u8);

impl Refusal {
    /// `no` and the number, as program `plan` prints it.
    pub fn text(self) -> String {
        head_of(self.0, &[0; 60])
    }
}

impl fmt::Display for Refusal {
    fn fmt(&self, f: &mut fmt::Formatter) -> fmt::Result {
        write!(f, "refused with {}", self.0)
    }
}

impl std::error::Error for Refusal {}

fn answered(answer: u8) -> Result<(), Refusal> {
    match answer {
        0 => Ok(()),
        number => Err(Refusal(number)),
    }
}

/// A run of rows or columns.
#[derive(Debug, Clone, Copy, PartialEq, Eq)]
pub struct Run {
    pub first: u32,
    pub last: u32,
    pub size: u64,
    pub empty_body: bool,
    pub manual_break: bool,
}

/// A page: the numbers of its two runs, from 0 in its area, and the runs.
#[derive(Debug, Clone, Copy, PartialEq, Eq)]
pub struct Page {
    pub vertical: u64,
    pub horizontal: u64,
    pub rows: Run,
    pub columns: Run,
}

/// A list with room for so many runs, to be lent to a plan.
pub fn run_list(runs: usize) -> Vec<u64> {
    vec![0; RUN_NUMBERS * runs]
}

/// The first `count` runs of a list, as far as it has them. An index above all that a `u32` holds is the largest, as on a page.
fn runs_in(list: &[u64], count: u64, empty_body: bool) -> Vec<Run> {
    let index = |number: u64| u32::try_from(number).unwrap_or(u32::MAX);
    let run = |run: &[u64]| Run {
        first: index(run[0]),
        last: index(run[1]),
        size: run[2],
        empty_body,
        manual_break: run[3] > 0,
    };
    let count = usize::try_from(count).unwrap_or(usize::MAX);
    list.chunks_exact(RUN_NUMBERS).take(count).map(run).collect()
}

/// A range of cells that is printed. `Default` is the first cell.
#[derive(Debug, Clone, Copy, Default, PartialEq, Eq)]
pub struct PrintRange {
    pub first_row: u32,
    pub first_column: u32,
    pub last_row: u32,
    pub last_column: u32,
}

/// What is asked of a plan of lists, beside the lists: settings, areas and titles. `Default` is an area of one cell, and nothing else.
#[derive(Debug, Clone, PartialEq)]
pub struct Request {
    pub paper: Option<u16>,
    pub landscape: bool,
    /// Left, right, top, bottom, header and footer, in inches.
    pub margins: Option<[f64; 6]>,
    pub percent: Option<u16>,
    pub fit: bool,
    /// The most pages from left to right, 0 for any number.
    pub fit_width: Option<u16>,
    /// The most pages from top to bottom, 0 for any number.
    pub fit_height: Option<u16>,
    pub over_then_down: bool,
    pub headings: bool,
    /// The most pages of all areas.
    pub page_limit: u64,
    /// The most cells that lie in at least one area.
    pub cell_limit: Option<u64>,
    /// One to eight, each printed on pages of its own, in this order.
    pub areas: Vec<PrintRange>,
    pub row_title: Option<(u32, u32)>,
    pub column_title: Option<(u32, u32)>,
}

impl Default for Request {
    fn default() -> Self {
        Self {
            paper: None,
            landscape: false,
            margins: None,
            percent: None,
            fit: false,
            fit_width: None,
            fit_height: None,
            over_then_down: false,
            headings: false,
            page_limit: 10_000,
            cell_limit: None,
            areas: vec![PrintRange::default()],
            row_title: None,
            column_title: None,
        }
    }
}

impl Request {
    /// Paper given, paper; landscape; margins given, six margins' bits; percent given, percent; fit; width's target given, target; height's
    /// target given, target; order; headings; page limit; cell limit given, cell limit; count of areas, eight areas; row title given, first,
    /// last; column title given, first, last. Areas past the eighth are counted, which is refused with 4.
    pub fn numbers(&self) -> RequestNumbers {
        let setting = |set: Option<u16>| [u64::from(set.is_some()), u64::from(set.unwrap_or(0))];
        let title = |set: Option<(u32, u32)>| {
            let (first, last) = set.unwrap_or((0, 0));
            [u64::from(set.is_some()), u64::from(first), u64::from(last)]
        };
        let mut numbers = [0; 61];
        let mut put = |at: usize, some: &[u64]| numbers[at..at + some.len()].copy_from_slice(some);
        put(0, &setting(self.paper));
        put(2, &[u64::from(self.landscape), u64::from(self.margins.is_some())]);
        put(4, &self.margins.unwrap_or([0.0; 6]).map(f64::to_bits));
        put(10, &setting(self.percent));
        put(12, &[u64::from(self.fit)]);
        put(13, &setting(self.fit_width));
        put(15, &setting(self.fit_height));
        put(17, &[u64::from(self.over_then_down), u64::from(self.headings), self.page_limit]);
        put(20, &[u64::from(self.cell_limit.is_some()), self.cell_limit.unwrap_or(0), self.areas.len() as u64]);
        for (k, area) in self.areas.iter().take(MOST_AREAS).enumerate() {
            put(23 + 4 * k, &[area.first_row, area.first_column, area.last_row, area.last_column].map(u64::from));
        }
        put(55, &title(self.row_title));
        put(58, &title(self.column_title));
        numbers
    }
}

/// The measured slots, merges and breaks of a plan of lists. Lists that belong together and are not equally long are refused with 6.
#[derive(Debug, Clone, Default, PartialEq, Eq)]
pub struct Lists {
    pub row_indexes: Vec<u32>,
    pub row_sizes: Vec<u64>,
    pub column_indexes: Vec<u32>,
    pub column_sizes: Vec<u64>,
    pub merge_first_rows: Vec<u32>,
    pub merge_first_columns: Vec<u32>,
    pub merge_last_rows: Vec<u32>,
    pub merge_last_columns: Vec<u32>,
    pub row_breaks: Vec<u32>,
    pub column_breaks: Vec<u32>,
}

/// Plans a job: the plan's numbers go to `numbers`, its runs to the fronts of the lists, area after area. A refusal writes nothing.
pub fn plan_into(bytes: &[u8], numbers: &mut Numbers, row_runs: &mut [u64], column_runs: &mut [u64]) -> Result<(), Refusal> {
    // Safe: each pointer and length are those of a slice or an array that is borrowed over the call, and what is lent as
    // `&mut` is lent once.
    answered(unsafe {
        raw::yuzhbani_plan(
            bytes.as_ptr(),
            bytes.len(),
            numbers,
            row_runs.as_mut_ptr(),
            row_runs.len(),
            column_runs.as_mut_ptr(),
            column_runs.len(),
        )
    })
}

/// Counts a job: the numbers of its plan, without its runs. A refusal, which is never 11, writes nothing.
pub fn count_into(bytes: &[u8], numbers: &mut Numbers) -> Result<(), Refusal> {
    // Safe: as in `plan_into`.
    answered(unsafe { raw::yuzhbani_count(bytes.as_ptr(), bytes.len(), numbers) })
}

/// Writes the runs of the area with a number, from 1, at a permille, to the fronts of the lists, and how many they are to `counts`. A refusal
/// writes nothing: as of [`count_into`], but that the page limit is not asked; 10 of a permille of 0; 14 of a number that the job has no area
/// for; 11 where a list has no room for the area's runs.
pub fn write_area_into(
    bytes: &[u8],
    number: u64,
    permille: u16,
    counts: &mut RunCounts,
    row_runs: &mut [u64],
    column_runs: &mut [u64],
) -> Result<(), Refusal> {
    // Safe: as in `plan_into`.
    answered(unsafe {
        raw::yuzhbani_write_area(
            bytes.as_ptr(),
            bytes.len(),
            number,
            permille,
            counts,
            row_runs.as_mut_ptr(),
            row_runs.len(),
            column_runs.as_mut_ptr(),
            column_runs.len(),
        )
    })
}

/// Plans lists: as [`plan_into`], with what is asked as numbers and without a bound but the grid's on the lists.
pub fn plan_lists_into(
    request: &RequestNumbers,
    lists: &Lists,
    numbers: &mut Numbers,
    row_runs: &mut [u64],
    column_runs: &mut [u64],
) -> Result<(), Refusal> {
    // Safe: as in `plan_into`.
    answered(unsafe {
        raw::yuzhbani_plan_lists(
            request,
            lists.row_indexes.as_ptr(),
            lists.row_indexes.len(),
            lists.row_sizes.as_ptr(),
            lists.row_sizes.len(),
            lists.column_indexes.as_ptr(),
            lists.column_indexes.len(),
            lists.column_sizes.as_ptr(),
            lists.column_sizes.len(),
            lists.merge_first_rows.as_ptr(),
            lists.merge_first_rows.len(),
            lists.merge_first_columns.as_ptr(),
            lists.merge_first_columns.len(),
            lists.merge_last_rows.as_ptr(),
            lists.merge_last_rows.len(),
            lists.merge_last_columns.as_ptr(),
            lists.merge_last_columns.len(),
            lists.row_breaks.as_ptr(),
            lists.row_breaks.len(),
            lists.column_breaks.as_ptr(),
            lists.column_breaks.len(),
            numbers,
            row_runs.as_mut_ptr(),
            row_runs.len(),
            column_runs.as_mut_ptr(),
            column_runs.len(),
        )
    })
}

/// The page with a number, from 1 to the count, of a plan's numbers and the lists that were lent to it. Numbers and lists that
/// were changed have an answer too: 11, 14, or the page that they hold at that place.
pub fn page_of(numbers: &Numbers, number: u64, row_runs: &[u64], column_runs: &[u64]) -> Result<Page, Refusal> {
    let mut page = [0; 12];
    // Safe: as in `plan_into`.
    answered(unsafe {
        raw::yuzhbani_page(
            numbers,
            number,
            row_runs.as_ptr(),
            row_runs.len(),
            column_runs.as_ptr(),
            column_runs.len(),
            &mut page,
        )
    })?;
    let run = |at: usize| Run {
        first: page[at] as u32,
        last: page[at + 1] as u32,
        size: page[at + 2],
        empty_body: page[at + 3] > 0,
        manual_break: page[at + 4] > 0,
    };
    Ok(Page { vertical: page[0], horizontal: page[1], rows: run(2), columns: run(7) })
}

/// Puts the first lines that program `plan` prints, of the answer of a plan call and the plan's numbers, at the start of `out`, and
/// answers how many bytes they are. What stands behind them stays.
pub fn head_into(answer: u8, numbers: &Numbers, out: &mut [u8; HEAD]) -> usize {
    // Safe: as in `plan_into`.
    unsafe { raw::yuzhbani_head(answer, numbers, out) }
}

/// The same as a string.
pub fn head_of(answer: u8, numbers: &Numbers) -> String {
    let mut out = [0; HEAD];
    let bytes = head_into(answer, numbers, &mut out);
    String::from_utf8_lossy(&out[..bytes]).into_owned()
}

/// Puts the line that program `plan` prints before the pages of an area at the start of `out`, and answers how many bytes it is. What stands
/// behind it stays.
pub fn area_line_into(number: u64, permille: u16, out: &mut [u8; HEAD]) -> usize {
    // Safe: as in `plan_into`.
    unsafe { raw::yuzhbani_area_line(number, permille, out) }
}

/// The same as a string.
pub fn area_line_of(number: u64, permille: u16) -> String {
    let mut out = [0; HEAD];
    let bytes = area_line_into(number, permille, &mut out);
    String::from_utf8_lossy(&out[..bytes]).into_owned()
}

/// Puts the lines of the pages from the number `from` on, up to the last of its area, at the start of `out`, as many as have room there, and how
/// many pages and bytes they are into `block`. The lists have the runs of that area at their fronts. What stands behind the lines stays. A
/// refusal (11, 14) writes nothing; else there is at least one page.
pub fn block_into(
    numbers: &Numbers,
    from: u64,
    row_runs: &[u64],
    column_runs: &[u64],
    block: &mut BlockNumbers,
    out: &mut [u8; BLOCK],
) -> Result<(), Refusal> {
    // Safe: as in `plan_into`.
    answered(unsafe {
        raw::yuzhbani_block(
            numbers,
            from,
            row_runs.as_ptr(),
            row_runs.len(),
            column_runs.as_ptr(),
            column_runs.len(),
            block,
            out,
        )
    })
}

/// The numbers of an area of a plan.
#[derive(Clone, Copy)]
struct AreaNumbers([u64; AREA_NUMBERS]);

impl AreaNumbers {
    fn permille(self) -> u16 {
        u16::try_from(self.0[0]).unwrap_or(u16::MAX)
    }

    /// How many numbers the area's runs of rows, and of columns, have in a list.
    fn row_numbers(self) -> usize {
        RUN_NUMBERS * self.0[2] as usize
    }

    fn column_numbers(self) -> usize {
        RUN_NUMBERS * self.0[3] as usize
    }

    fn pages(self) -> u64 {
        self.0[2] * self.0[3]
    }
}

/// The areas of a plan as it was answered.
fn areas_in(numbers: &Numbers) -> impl Iterator<Item = AreaNumbers> + '_ {
    let areas = numbers[AREAS..].chunks_exact(AREA_NUMBERS).take(numbers[0] as usize);
    areas.map(|area| AreaNumbers(area.try_into().expect("six numbers")))
}

/// Writes the lines of an area's pages, from the number `from` on. The lists have its runs at their fronts.
fn print_area(numbers: &Numbers, from: u64, area: AreaNumbers, rows: &[u64], columns: &[u64], out: &mut impl Write) -> io::Result<()> {
    let (mut block, mut lines) = ([0; 2], Box::new([0; BLOCK]));
    let mut done = 0;
    while done < area.pages() {
        // No block of a plan that was planned is refused.
        block_into(numbers, from + done, rows, columns, &mut block, &mut lines).map_err(io::Error::other)?;
        let [pages, bytes] = block;
        out.write_all(&lines[..bytes as usize])?;
        done += pages;
    }
    Ok(())
}

/// An area of a finished plan.
#[derive(Debug, Clone, PartialEq, Eq)]
pub struct Area {
    /// The scale in thousandths.
    pub permille: u16,
    /// Whether no permille fits it to the targets.
    pub unreachable: bool,
    pub row_runs: Vec<Run>,
    pub column_runs: Vec<Run>,
    /// The number of its first page.
    pub first_page: u64,
    pub pages: u64,
}

/// A finished plan with its runs.
#[derive(Debug, Clone, PartialEq, Eq)]
pub struct Plan {
    numbers: Numbers,
    rows: Vec<u64>,
    columns: Vec<u64>,
}

impl Plan {
    /// Plans a job, with lists that have room for the runs of every job.
    pub fn of(bytes: &[u8]) -> Result<Self, Refusal> {
        let (rows, columns) = (run_list(MOST_AREAS * MOST_RUNS), run_list(MOST_AREAS * MOST_RUNS));
        let mut plan = Self { numbers: [0; 60], rows, columns };
        plan_into(bytes, &mut plan.numbers, &mut plan.rows, &mut plan.columns)?;
        Ok(plan.cut_off())
    }

    /// Plans lists, with lists of runs that have room for a run of each slot of each area.
    pub fn of_lists(request: &Request, lists: &Lists) -> Result<Self, Refusal> {
        let room = |indexes: &[u32], ends: fn(&PrintRange) -> (u32, u32)| {
            let slots = |(first, last): (u32, u32)| indexes.iter().filter(|&&index| first <= index && index <= last).count();
            run_list(request.areas.iter().map(|area| slots(ends(area)).max(1)).sum())
        };
        let rows = room(&lists.row_indexes, |area| (area.first_row, area.last_row));
        let columns = room(&lists.column_indexes, |area| (area.first_column, area.last_column));
        let mut plan = Self { numbers: [0; 60], rows, columns };
        plan_lists_into(&request.numbers(), lists, &mut plan.numbers, &mut plan.rows, &mut plan.columns)?;
        Ok(plan.cut_off())
    }

    /// The plan with lists of its runs and nothing behind them.
    fn cut_off(mut self) -> Self {
        let (rows, columns) = areas_in(&self.numbers).fold((0, 0), |(rows, columns), area| (rows + area.row_numbers(), columns + area.column_numbers()));
        self.rows.truncate(rows);
        self.columns.truncate(columns);
        self.rows.shrink_to_fit();
        self.columns.shrink_to_fit();
        self
    }

    /// The areas, in job order.
    pub fn areas(&self) -> Vec<Area> {
        let (mut rows, mut columns, mut first_page) = (&self.rows[..], &self.columns[..], 1);
        let mut areas = Vec::new();
        for area in areas_in(&self.numbers) {
            let [_, unreachable, row_runs, column_runs, rows_empty, columns_empty] = area.0;
            areas.push(Area {
                permille: area.permille(),
                unreachable: unreachable > 0,
                row_runs: runs_in(rows, row_runs, rows_empty > 0),
                column_runs: runs_in(columns, column_runs, columns_empty > 0),
                first_page,
                pages: area.pages(),
            });
            (rows, columns) = (&rows[area.row_numbers()..], &columns[area.column_numbers()..]);
            first_page += area.pages();
        }
        areas
    }

    /// The pages of all areas.
    pub fn pages(&self) -> u64 {
        self.numbers[1]
    }

    pub fn over_then_down(&self) -> bool {
        self.numbers[2] > 0
    }

    /// Unknown paper, margins, clamp, unreachable, titles ignored, titles expanded, merge expansions, break shifts, overflowing runs.
    pub fn notes(&self) -> [u64; 9] {
        let mut notes = [0; 9];
        notes.copy_from_slice(&self.numbers[3..AREAS]);
        notes
    }

    /// The page with a number from 1 to the count.
    pub fn page(&self, number: u64) -> Result<Page, Refusal> {
        page_of(&self.numbers, number, &self.rows, &self.columns)
    }

    /// Writes what program `plan` prints.
    pub fn print(&self, out: &mut impl Write) -> io::Result<()> {
        out.write_all(head_of(0, &self.numbers).as_bytes())?;
        let (mut rows, mut columns, mut from) = (&self.rows[..], &self.columns[..], 1);
        for (number, area) in (1..).zip(areas_in(&self.numbers)) {
            if number > 1 {
                out.write_all(area_line_of(number, area.permille()).as_bytes())?;
            }
            print_area(&self.numbers, from, area, rows, columns, out)?;
            (rows, columns) = (&rows[area.row_numbers()..], &columns[area.column_numbers()..]);
            from += area.pages();
        }
        Ok(())
    }
}

/// A job whose pages were counted: it is printed area by area, over two lists that hold the runs of one.
#[derive(Debug, Clone, PartialEq, Eq)]
pub struct Counted<'a> {
    bytes: &'a [u8],
    numbers: Numbers,
}

impl<'a> Counted<'a> {
    pub fn of(bytes: &'a [u8]) -> Result<Self, Refusal> {
        let mut numbers = [0; 60];
        count_into(bytes, &mut numbers)?;
        Ok(Self { bytes, numbers })
    }

    /// The pages of all areas.
    pub fn pages(&self) -> u64 {
        self.numbers[1]
    }

    /// Writes what program `plan` prints.
    pub fn print(&self, out: &mut impl Write) -> io::Result<()> {
        out.write_all(head_of(0, &self.numbers).as_bytes())?;
        let (mut rows, mut columns, mut counts, mut from) = (run_list(MOST_RUNS), run_list(MOST_RUNS), [0; 2], 1);
        for (number, area) in (1..).zip(areas_in(&self.numbers)) {
            if number > 1 {
                out.write_all(area_line_of(number, area.permille()).as_bytes())?;
            }
            // No area of a job that was counted is refused.
            write_area_into(self.bytes, number, area.permille(), &mut counts, &mut rows, &mut columns).map_err(io::Error::other)?;
            print_area(&self.numbers, from, area, &rows, &columns, out)?;
            from += area.pages();
        }
        Ok(())
    }
}
