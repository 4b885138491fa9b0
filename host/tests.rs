//! Tests of the static library through `yuzhbani.rs`. They run at the root of the repository (`host/test`).

use std::path::PathBuf;
use std::process::{Command, Stdio};
use yuzhbani::{area_line_into, area_line_of, block_into, count_into, head_into, head_of, page_of, plan_into, plan_lists_into, write_area_into};
use yuzhbani::{Area, Counted, Lists, Numbers, Page, Plan, PrintRange, Refusal, Request, RequestNumbers, Run};
use yuzhbani::{BLOCK, HEAD, MOST_AREAS, MOST_BYTES, MOST_RUNS};

// ---- jobs, written after document 01, section "Jobs", and document 02, T-02

/// A record: its mark and its numbers, little-endian.
fn record(mark: &str, fields: &[&[u8]]) -> Vec<u8> {
    let mut bytes = mark.as_bytes().to_vec();
    fields.iter().for_each(|field| bytes.extend_from_slice(field));
    bytes
}

fn slot(mark: &str, index: u32, size: i64) -> Vec<u8> {
    let index = index.to_le_bytes();
    record(mark, &[if mark == "RW" { &index } else { &index[..2] }, &size.to_le_bytes()])
}

fn area(mark: &str, cells: (u32, u16, u32, u16)) -> Vec<u8> {
    let (top, left, bottom, right) = cells;
    record(mark, &[&top.to_le_bytes(), &left.to_le_bytes(), &bottom.to_le_bytes(), &right.to_le_bytes()])
}

fn job(records: &[Vec<u8>]) -> Vec<u8> {
    records.concat()
}

/// Three rows and two columns of 400,000, after some records and before others.
fn three_by_two(before: &[Vec<u8>], after: &[Vec<u8>]) -> Vec<u8> {
    let mut records = before.to_vec();
    records.push(area("AR", (0, 0, 2, 1)));
    records.extend((0..3).map(|row| slot("RW", row, 400_000)));
    records.extend((0..2).map(|column| slot("CL", column, 400_000)));
    records.extend_from_slice(after);
    records.push(record("EN", &[]));
    job(&records)
}

/// The job of document 01, section "Jobs".
fn first() -> Vec<u8> {
    three_by_two(&[record("PC", &[&1u16.to_le_bytes()])], &[])
}

const FIRST_TEXT: &str = "\
plan 1000 4
notes 0 0 0 0 0 0 0 0 0
page 1 0 0 0 1 0 0 800000 400000
page 2 1 0 2 2 0 0 400000 400000
page 3 0 1 0 1 1 1 800000 400000
page 4 1 1 2 2 1 1 400000 400000
";

fn printed(plan: &Plan) -> String {
    let mut text = Vec::new();
    plan.print(&mut text).expect("a vector has room");
    String::from_utf8(text).expect("ASCII")
}

fn printed_by_area(counted: &Counted) -> String {
    let mut text = Vec::new();
    counted.print(&mut text).expect("a vector has room");
    String::from_utf8(text).expect("ASCII")
}

/// What is printed for a job, planned whole; counted and then planned area by area it is the same.
fn told(bytes: &[u8]) -> String {
    let text = Plan::of(bytes).map_or_else(Refusal::text, |plan| printed(&plan));
    assert_eq!(Counted::of(bytes).map_or_else(Refusal::text, |counted| printed_by_area(&counted)), text);
    text
}

/// The line of a page by its numbers, not by the library's text.
fn page_line(number: u64, page: &Page) -> String {
    let (rows, columns) = (page.rows, page.columns);
    let indexes = format!("{} {} {} {}", rows.first, rows.last, columns.first, columns.last);
    format!("page {number} {} {} {indexes} {} {}\n", page.vertical, page.horizontal, rows.size, columns.size)
}

/// What a plan prints, from its areas and its pages by number.
fn by_number(plan: &Plan) -> String {
    let notes: String = plan.notes().iter().map(|note| format!(" {note}")).collect();
    let areas = plan.areas();
    let mut text = format!("plan {} {}\nnotes{notes}\n", areas[0].permille, plan.pages());
    for (number, area) in (1..).zip(&areas) {
        if number > 1 {
            text += &format!("area {number} {}\n", area.permille);
        }
        let pages = area.first_page..area.first_page + area.pages;
        text.extend(pages.map(|page| page_line(page, &plan.page(page).expect("a page"))));
    }
    text
}

/// The area of a plan that has one.
fn only(plan: &Plan) -> Area {
    let [area] = <[Area; 1]>::try_from(plan.areas()).expect("one area");
    area
}

// ---- plans

#[test]
fn example_of_document_01() {
    let plan = Plan::of(&first()).expect("a plan");
    assert_eq!(printed(&plan), FIRST_TEXT);
    assert_eq!((plan.pages(), plan.over_then_down(), plan.notes()), (4, false, [0; 9]));
    let run = |first, last, size| Run { first, last, size, empty_body: false, manual_break: false };
    let area = Area {
        permille: 1000,
        unreachable: false,
        row_runs: vec![run(0, 1, 800_000), run(2, 2, 400_000)],
        column_runs: vec![run(0, 0, 400_000), run(1, 1, 400_000)],
        first_page: 1,
        pages: 4,
    };
    assert_eq!(plan.areas(), [area]);
    let second = Page { vertical: 1, horizontal: 0, rows: run(2, 2, 400_000), columns: run(0, 0, 400_000) };
    assert_eq!(plan.page(2), Ok(second));
}

/// The jobs of `examples/`, each with the file of its text.
fn example_jobs() -> Vec<(PathBuf, Vec<u8>)> {
    let entries = std::fs::read_dir("examples").expect("the folder examples").map(|entry| entry.expect("an entry").path());
    let texts = entries.filter(|path| path.extension().is_some_and(|end| end == "txt"));
    let job = |text: PathBuf| {
        let job = Command::new("tools/job").arg(&text).output().expect("tools/job runs");
        assert!(job.status.success(), "tools/job {text:?}");
        (text, job.stdout)
    };
    let jobs: Vec<_> = texts.map(job).collect();
    assert!(jobs.len() >= 17, "{} examples", jobs.len());
    jobs
}

#[test]
fn examples_as_they_are_printed() {
    for (text, bytes) in example_jobs() {
        let out = std::fs::read_to_string(text.with_extension("out")).expect("the answer");
        assert_eq!(told(&bytes), out, "{text:?}");
        if let Ok(plan) = Plan::of(&bytes) {
            assert_eq!(by_number(&plan), out, "{text:?} by number");
        }
    }
}

#[test]
fn over_then_down_and_a_manual_break() {
    let plan = Plan::of(&three_by_two(&[record("OD", &[&[1]])], &[record("BR", &[&1u32.to_le_bytes()])])).expect("a plan");
    assert!(plan.over_then_down());
    let marks: Vec<bool> = only(&plan).row_runs.iter().map(|run| run.manual_break).collect();
    assert_eq!(marks, [false, true]);
    let place = |number| plan.page(number).map(|page| (page.vertical, page.horizontal, page.rows.manual_break));
    assert_eq!([place(1), place(2), place(3)], [Ok((0, 0, false)), Ok((0, 1, false)), Ok((1, 0, true))]);
}

#[test]
fn empty_bodies_are_marked() {
    let plan = Plan::of(&job(&[area("AR", (7, 3, 9, 4)), record("EN", &[])])).expect("a plan");
    let empty = |first| Run { first, last: first, size: 0, empty_body: true, manual_break: false };
    assert_eq!((only(&plan).row_runs, only(&plan).column_runs), (vec![empty(7)], vec![empty(3)]));
    assert_eq!(plan.page(1), Ok(Page { vertical: 0, horizontal: 0, rows: empty(7), columns: empty(3) }));
}

/// More pages than a block of lines has room for, from one block to the next.
#[test]
fn many_pages_in_several_blocks() {
    let mut records = vec![record("LP", &[&5_000_000u64.to_le_bytes()]), area("AR", (0, 0, 1999, 1999))];
    records.extend((0..2000).map(|row| slot("RW", row, 900_000)));
    records.extend((0..2000).map(|column| slot("CL", column, 600_000)));
    records.push(record("EN", &[]));
    let plan = Plan::of(&job(&records)).expect("a plan");
    assert_eq!(plan.pages(), 4_000_000);
    let text = printed(&plan);
    assert_eq!(text.lines().count(), 4_000_002);
    for number in [1, 2, 1_234_567, 4_000_000] {
        let line = text.lines().nth(number as usize + 1).expect("a line");
        assert_eq!(format!("{line}\n"), page_line(number, &plan.page(number).expect("a page")));
    }
}

// ---- several areas

fn limit(mark: &str, most: u64) -> Vec<u8> {
    record(mark, &[&most.to_le_bytes()])
}

/// Areas of the five slots of document 01's example, after some records.
fn areas_of(before: &[Vec<u8>], areas: &[(u32, u16, u32, u16)], titles: &[Vec<u8>]) -> Vec<u8> {
    let areas = areas.iter().map(|&cells| area("AR", cells));
    let slots = (0..3).map(|row| slot("RW", row, 400_000)).chain((0..2).map(|column| slot("CL", column, 400_000)));
    let records = before.iter().cloned().chain(areas).chain(titles.iter().cloned()).chain(slots);
    job(&records.chain([record("EN", &[])]).collect::<Vec<_>>())
}

/// Two areas at scales of their own: the first is fitted to one page, the second needs no scaling.
#[test]
fn areas_have_scales_runs_and_pages_of_their_own() {
    let bytes = areas_of(&[record("FT", &[&[1]])], &[(0, 0, 2, 1), (0, 0, 0, 0)], &[]);
    let pages = ["page 1 0 0 0 2 0 1 1200000 800000", "area 2 1000", "page 2 0 0 0 0 0 0 400000 400000"];
    assert_eq!(told(&bytes), format!("plan 778 2\nnotes 0 0 0 0 0 0 0 0 0\n{}\n", pages.join("\n")));
    let plan = Plan::of(&bytes).expect("a plan");
    let run = |first, last, size| Run { first, last, size, empty_body: false, manual_break: false };
    let one_page = |permille, rows, columns, first_page| Area {
        permille,
        unreachable: false,
        row_runs: vec![rows],
        column_runs: vec![columns],
        first_page,
        pages: 1,
    };
    let areas = [
        one_page(778, run(0, 2, 1_200_000), run(0, 1, 800_000), 1),
        one_page(1000, run(0, 0, 400_000), run(0, 0, 400_000), 2),
    ];
    assert_eq!(plan.areas(), areas);
    assert_eq!(by_number(&plan), told(&bytes));
}

/// The title covers the first row of the first and of the third area, and stands above the second; the third has no body.
#[test]
fn a_title_in_each_area() {
    let title = record("TR", &[&[0; 4], &[0; 4]]);
    let plan = Plan::of(&areas_of(&[], &[(0, 0, 2, 0), (1, 0, 2, 0), (0, 0, 0, 0)], &[title])).expect("a plan");
    let firsts = |area: &Area| area.row_runs.iter().map(|run| (run.first, run.empty_body)).collect::<Vec<_>>();
    let areas = plan.areas();
    let rows: Vec<_> = areas.iter().map(firsts).collect();
    assert_eq!(rows, [vec![(1, false), (2, false)], vec![(1, false), (2, false)], vec![(0, true)]]);
    assert_eq!(areas.iter().map(|area| (area.first_page, area.pages)).collect::<Vec<_>>(), [(1, 2), (3, 2), (5, 1)]);
    let places: Vec<_> = (1..=5).map(|number| plan.page(number).map(|page| (page.vertical, page.rows.first))).collect();
    assert_eq!(places, [Ok((0, 1)), Ok((1, 2)), Ok((0, 1)), Ok((1, 2)), Ok((0, 0))]);
    assert_eq!(plan.page(6), Err(Refusal(14)));
}

/// A count has the numbers of the plan, and an area by itself the runs that stand at its place in the plan's lists.
fn same_by_area(bytes: &[u8]) {
    let (mut numbers, mut rows, mut columns) = ([77; 60], marked(3 * MOST_RUNS), marked(3 * MOST_RUNS));
    let answer = plan_into(bytes, &mut numbers, &mut rows, &mut columns);
    let mut counted = [77; 60];
    assert_eq!((count_into(bytes, &mut counted), counted), (answer, numbers));
    if answer.is_err() {
        return;
    }
    let (mut rows, mut columns) = (&rows[..], &columns[..]);
    for at in 0..numbers[0] {
        let area = 12 + 6 * at as usize;
        let (permille, runs) = (numbers[area] as u16, [numbers[area + 2], numbers[area + 3]]);
        let (high, wide) = (4 * runs[0] as usize, 4 * runs[1] as usize);
        let (mut counts, mut a, mut b) = ([77; 2], marked(MOST_RUNS), marked(MOST_RUNS));
        assert_eq!(write_area_into(bytes, at + 1, permille, &mut counts, &mut a, &mut b), Ok(()));
        assert_eq!(counts, runs);
        assert_eq!((&a[..high], &b[..wide]), (&rows[..high], &columns[..wide]));
        assert_eq!((&a[high..], &b[wide..]), (&marked(MOST_RUNS)[high..], &marked(MOST_RUNS)[wide..]));
        (rows, columns) = (&rows[high..], &columns[wide..]);
    }
}

#[test]
fn counted_and_written_area_by_area() {
    example_jobs().iter().for_each(|(_, bytes)| same_by_area(bytes));
    jobs_with_settings().iter().for_each(|bytes| same_by_area(bytes));
    refused_jobs().iter().for_each(|(_, bytes)| same_by_area(bytes));
}

#[test]
fn refused_areas_write_nothing() {
    let bytes = areas_of(&[limit("LP", 5)], &[(0, 0, 2, 1), (0, 0, 0, 0)], &[]);
    let written = |bytes: &[u8], number: u64, permille: u16, rows: usize, columns: usize| {
        let (mut counts, mut a, mut b) = ([77; 2], marked_numbers(rows), marked_numbers(columns));
        let answer = write_area_into(bytes, number, permille, &mut counts, &mut a, &mut b);
        if answer.is_err() {
            assert_eq!((counts, a, b), ([77; 2], marked_numbers(rows), marked_numbers(columns)));
        }
        answer.map(|()| counts)
    };
    assert_eq!(written(&bytes, 1, 1000, 8, 8), Ok([2, 2]));
    assert_eq!(written(&bytes, 2, 1000, 4, 4), Ok([1, 1]));
    // another permille than the plan's: all rows, or all columns, fit
    assert_eq!(written(&bytes, 1, 770, 8, 8), Ok([1, 1]));
    for (rows, columns) in [(7, 8), (8, 7), (0, 0)] {
        assert_eq!(written(&bytes, 1, 1000, rows, columns), Err(Refusal(11)));
    }
    for number in [0, 3, 9, u64::MAX] {
        assert_eq!(written(&bytes, number, 1000, 0, 0), Err(Refusal(14)));
        assert_eq!(written(&bytes, number, 0, 0, 0), Err(Refusal(10)));
    }
    for (number, bytes) in refused_jobs() {
        let expected = if number == 12 { Ok([2, 2]) } else { Err(Refusal(number)) };
        assert_eq!(written(&bytes, 1, 1000, 8, 8), expected, "refused with {number}");
    }
}

/// More runs than a list of one area has room for, and more pages than a block: whole, and area by area in the same two lists.
#[test]
fn eight_long_areas() {
    for (mark, count, cells) in [("RW", 4_270, (0, 0, 4_269, 0)), ("CL", 4_970, (0, 0, 0, 4_969))] {
        let mut records = vec![limit("LP", u64::MAX)];
        records.extend((0..MOST_AREAS).map(|_| area("AR", cells)));
        records.extend((0..count).map(|index| slot(mark, index, 1_073_741_823)));
        records.push(record("EN", &[]));
        let bytes = job(&records);
        assert!(bytes.len() <= MOST_BYTES);
        let (mut numbers, mut rows, mut columns) = ([77; 60], marked(MOST_RUNS), marked(MOST_RUNS));
        assert_eq!(plan_into(&bytes, &mut numbers, &mut rows, &mut columns), Err(Refusal(11)));
        assert_eq!(Counted::of(&bytes).map(|counted| counted.pages()), Ok(8 * u64::from(count)));
        let text = told(&bytes);
        assert_eq!(text.lines().count(), 2 + 7 + 8 * count as usize);
        assert_eq!(text.lines().filter(|line| line.starts_with("area ")).count(), 7);
        assert_eq!(by_number(&Plan::of(&bytes).expect("a plan")), text);
    }
}

// ---- refusals

/// A job for each number that a job can be refused with, and what is wrong with it.
fn refused_jobs() -> Vec<(u8, Vec<u8>)> {
    let whole = first();
    let with = |after: &[Vec<u8>]| three_by_two(&[], after);
    vec![
        (1, vec![b'E'; MOST_BYTES + 1]),
        (2, whole[..whole.len() - 1].to_vec()),
        (2, Vec::new()),
        (2, record("ZZ", &[])),
        (3, [&whole[..], b"EN"].concat()),
        (4, record("EN", &[])),
        (4, with(&[area("AR", (0, 0, 2, 1))])),
        (4, three_by_two(&vec![area("AR", (0, 0, 2, 1)); MOST_AREAS], &[])),
        (4, areas_of(&[limit("UC", 9), limit("LP", 9)], &[(0, 0, 2, 1)], &[])),
        (5, three_by_two(&[record("FT", &[&[2]])], &[])),
        (6, with(&[area("MR", (1, 0, 0, 0))])),
        (6, areas_of(&[limit("UC", 0)], &[(0, 0, 2, 1), (1, 0, 0, 0)], &[])),
        (7, with(&[area("MR", (0, 0, 1_048_576, 0))])),
        (7, areas_of(&[limit("UC", 0)], &[(0, 0, 2, 1), (0, 0, 0, 16_384)], &[])),
        (15, areas_of(&[limit("UC", 0)], &[(0, 0, 0, 0)], &[])),
        (15, areas_of(&[limit("UC", 5)], &[(0, 0, 2, 1), (1, 0, 2, 0)], &[])),
        (15, three_by_two(&[limit("UC", 5)], &[slot("CL", 1, -1)])),
        (8, with(&[slot("CL", 1, 400_000)])),
        (9, with(&[slot("CL", 2, -1)])),
        (9, with(&[slot("CL", 2, 1_073_741_824)])),
        (12, three_by_two(&[limit("LP", 3)], &[])),
        (12, areas_of(&[limit("LP", 4), limit("UC", 6)], &[(0, 0, 2, 1), (0, 0, 0, 0)], &[])),
    ]
}

#[test]
fn refusals_of_jobs_write_nothing() {
    for (number, bytes) in refused_jobs() {
        let (mut numbers, mut rows, mut columns) = ([77; 60], marked(5), marked(4));
        let answer = plan_into(&bytes, &mut numbers, &mut rows, &mut columns);
        assert_eq!(answer, Err(Refusal(number)));
        assert_eq!((numbers, rows, columns), ([77; 60], marked(5), marked(4)), "refused with {number}");
        assert_eq!(told(&bytes), format!("no {number}\n"));
    }
}

/// The numbers of a run that no plan has written.
const UNWRITTEN: [u64; 4] = [11, 22, 33, 44];

/// A list with room for so many runs, none of which is written.
fn marked(runs: usize) -> Vec<u64> {
    UNWRITTEN.repeat(runs)
}

/// The same by its numbers, of which the last may make up no run.
fn marked_numbers(numbers: usize) -> Vec<u64> {
    UNWRITTEN.into_iter().cycle().take(numbers).collect()
}

#[test]
fn sixty_thousand_bytes_are_read() {
    let mut bytes = job(&[area("AR", (0, 0, 2, 1))]);
    while bytes.len() + 4 + 2 <= MOST_BYTES {
        bytes.extend(record("BC", &[&[0, 0]]));
    }
    bytes.extend(record("EN", &[]));
    assert_eq!(bytes.len(), MOST_BYTES);
    assert!(Plan::of(&bytes).is_ok());
    bytes.push(0);
    assert_eq!(Plan::of(&bytes), Err(Refusal(1)));
    bytes.resize(1_000_000, 0);
    assert_eq!(Plan::of(&bytes), Err(Refusal(1)));
}

// ---- lists of the caller's own

fn planned_into(rows: &mut [u64], columns: &mut [u64]) -> (Result<(), Refusal>, Numbers) {
    let mut numbers = [77; 60];
    let answer = plan_into(&first(), &mut numbers, rows, columns);
    (answer, numbers)
}

/// The plan has two runs of rows and two of columns.
#[test]
fn lists_too_short_are_refused() {
    for (rows, columns) in [(7, 8), (8, 7), (5, 8), (8, 4), (0, 8), (8, 0), (0, 0), (3, 99), (7, 7)] {
        let (mut a, mut b) = (marked_numbers(rows), marked_numbers(columns));
        assert_eq!(planned_into(&mut a, &mut b), (Err(Refusal(11)), [77; 60]), "{rows} and {columns} numbers");
        assert_eq!((a, b), (marked_numbers(rows), marked_numbers(columns)));
    }
}

/// The numbers of a plan of one area, with so many runs of rows and of columns and so many pages.
fn one_area(rows: u64, columns: u64, pages: u64) -> Numbers {
    let mut numbers = [0; 60];
    (numbers[0], numbers[1]) = (1, pages);
    (numbers[12], numbers[14], numbers[15]) = (1000, rows, columns);
    numbers
}

/// What the lists hold of the plan's two runs of rows and two of columns.
const ROW_RUNS: [u64; 8] = [0, 1, 800_000, 0, 2, 2, 400_000, 0];
const COLUMN_RUNS: [u64; 8] = [0, 0, 400_000, 0, 1, 1, 400_000, 0];

#[test]
fn what_stands_behind_the_runs_stays() {
    for (rows, columns) in [(8, 8), (9, 8), (10, 11), (11, 10), (12, 15), (99, 97)] {
        let (mut a, mut b) = (marked_numbers(rows), marked_numbers(columns));
        let (answer, numbers) = planned_into(&mut a, &mut b);
        assert_eq!(answer, Ok(()), "{rows} and {columns} numbers");
        assert_eq!(numbers, one_area(2, 2, 4));
        assert_eq!((&a[..8], &b[..8]), (&ROW_RUNS[..], &COLUMN_RUNS[..]));
        assert_eq!((&a[8..], &b[8..]), (&marked_numbers(rows)[8..], &marked_numbers(columns)[8..]));
    }
}

#[test]
fn room_for_every_job() {
    assert_eq!(MOST_RUNS, 5_000);
    let mut bytes = area("AR", (0, 0, 0, 4_995));
    (0..4_996).for_each(|column| bytes.extend(slot("CL", column, 1_073_741_823)));
    bytes.extend(record("EN", &[]));
    assert!(bytes.len() <= MOST_BYTES);
    assert_eq!(Plan::of(&bytes).map(|plan| plan.pages()), Ok(4_996));
}

// ---- pages and lines of numbers that a caller changed

#[test]
fn pages_by_number() {
    let plan = Plan::of(&first()).expect("a plan");
    for number in [0, 5, 6, u64::MAX] {
        assert_eq!(plan.page(number), Err(Refusal(14)));
    }
    let (mut rows, mut columns) = (marked(4), marked(3));
    let (_, numbers) = planned_into(&mut rows, &mut columns);
    let changed = |changes: &[(usize, u64)]| {
        let mut numbers = numbers;
        changes.iter().for_each(|&(at, to)| numbers[at] = to);
        numbers
    };
    let page = |numbers: Numbers, number| page_of(&numbers, number, &rows, &columns);
    // more runs than the lists hold; no runs, no area; fewer pages
    assert_eq!(page(changed(&[(14, 5)]), 1), Err(Refusal(11)));
    assert_eq!(page(changed(&[(15, u64::MAX)]), 1), Err(Refusal(11)));
    assert_eq!(page(changed(&[(14, 0)]), 1), Err(Refusal(14)));
    assert_eq!(page(changed(&[(0, 0)]), 1), Err(Refusal(14)));
    assert_eq!(page(changed(&[(1, 3)]), 4), Err(Refusal(14)));
    // more pages than the runs make; another order, by any number above 0; marks by any number above 0
    assert_eq!(page(changed(&[(1, u64::MAX)]), 5), Err(Refusal(14)));
    assert_eq!(page(changed(&[(2, 9)]), 2).map(|page| (page.vertical, page.horizontal)), Ok((0, 1)));
    assert_eq!(page(changed(&[(16, 2)]), 1).map(|page| (page.rows.empty_body, page.columns.empty_body)), Ok((true, false)));
    // a second area, over the runs behind those of the first; a count above eight; runs of all areas together
    let second = [(0, 2), (1, 6), (20, 2), (21, 1)];
    let firsts = |numbers: Numbers, number| page(numbers, number).map(|page| (page.vertical, page.rows.first, page.columns.first));
    assert_eq!([firsts(changed(&second), 5), firsts(changed(&second), 6)], [Ok((0, 11, 11)), Ok((1, 11, 11))]);
    assert_eq!(firsts(changed(&[&second[..], &[(0, u64::MAX)]].concat()), 6), Ok((1, 11, 11)));
    assert_eq!(firsts(changed(&[&second[..], &[(0, 1)]].concat()), 5), Err(Refusal(14)));
    assert_eq!(firsts(changed(&[&second[..], &[(20, 3)]].concat()), 1), Err(Refusal(11)));
    assert_eq!(firsts(changed(&[&second[..], &[(20, u64::MAX)]].concat()), 1), Err(Refusal(11)));
    // a run that the plan did not write
    let third = page(changed(&[(14, 3)]), 3).expect("a page");
    assert_eq!(third.rows, Run { first: 11, last: 22, size: 33, empty_body: false, manual_break: true });
    // a list that lacks a number of its last run, and lists with numbers left
    assert_eq!(page_of(&numbers, 1, &rows[..7], &columns), Err(Refusal(11)));
    assert_eq!(page_of(&numbers, 1, &rows, &columns[..7]), Err(Refusal(11)));
    assert_eq!(page_of(&numbers, 4, &rows[..9], &columns[..11]), plan.page(4));
}

/// Indexes that no `u32` holds are the largest that it holds; a mark is any number above 0.
#[test]
fn pages_of_lists_that_were_changed() {
    let (mut rows, mut columns) = (marked(2), marked(2));
    let (_, numbers) = planned_into(&mut rows, &mut columns);
    let runs = |rows: &[u64], columns: &[u64]| {
        let page = page_of(&numbers, 4, rows, columns).expect("a page");
        (page.rows, page.columns)
    };
    let run = |first, last, size, manual_break| Run { first, last, size, empty_body: false, manual_break };
    let most = u32::MAX;
    let column = run(1, 1, 400_000, false);
    for (changed, expected) in [
        ([u64::from(most) - 1, u64::from(most), 7, 1], run(most - 1, most, 7, true)),
        ([1 << 32, 1 << 40, 1 << 63, 256], run(most, most, 1 << 63, true)),
        ([u64::MAX; 4], run(most, most, u64::MAX, true)),
        ([5, 4, 0, 1 << 32], run(5, 4, 0, true)),
        ([0; 4], run(0, 0, 0, false)),
    ] {
        rows[4..].copy_from_slice(&changed);
        assert_eq!(runs(&rows, &columns), (expected, column), "{changed:?}");
        assert_eq!(runs(&columns, &rows), (column, expected), "{changed:?}");
    }
    rows[4..].copy_from_slice(&[1 << 32, u64::MAX, 33, 0]);
    let line = "page 4 1 1 4294967295 4294967295 1 1 33 400000\n".to_string();
    assert_eq!(block(&numbers, 4, &rows, &columns), Ok((1, line)));
}

#[test]
fn lines_of_any_numbers() {
    let most = u64::MAX;
    for (answer, lines) in [
        (0, format!("plan 65535 {most}\nnotes{}\n", format!(" {most}").repeat(9))),
        (255, "no 255\n".to_string()),
    ] {
        let mut out = [UNPUT; HEAD];
        assert_eq!(head_into(answer, &[most; 60], &mut out), lines.len());
        assert_eq!(out[..lines.len()], *lines.as_bytes());
        assert!(out[lines.len()..].iter().all(|&byte| byte == UNPUT), "behind the lines of {answer}");
        assert_eq!(head_of(answer, &[most; 60]), lines);
    }
    for (number, permille) in [(2, 1000), (0, 0), (most, u16::MAX)] {
        let (line, mut out) = (format!("area {number} {permille}\n"), [UNPUT; HEAD]);
        assert_eq!(area_line_into(number, permille, &mut out), line.len());
        assert_eq!(out[..line.len()], *line.as_bytes());
        assert!(out[line.len()..].iter().all(|&byte| byte == UNPUT), "behind the line of {number}");
        assert_eq!(area_line_of(number, permille), line);
    }
}

/// A byte that stands in no line.
const UNPUT: u8 = 200;

/// How many pages a block holds, and its lines. What stands behind the lines stays, and a refusal writes nothing.
fn block(numbers: &Numbers, from: u64, rows: &[u64], columns: &[u64]) -> Result<(u64, String), Refusal> {
    let (mut block, mut out) = ([77; 2], Box::new([UNPUT; BLOCK]));
    let answer = block_into(numbers, from, rows, columns, &mut block, &mut out);
    let [pages, bytes] = if answer.is_ok() { block } else { [0, 0] };
    assert!(out[bytes as usize..].iter().all(|&byte| byte == UNPUT), "behind {bytes} bytes from page {from} on");
    answer.map(|()| (pages, String::from_utf8_lossy(&out[..bytes as usize]).into_owned())).inspect_err(|_| assert_eq!(block, [77; 2]))
}

#[test]
fn blocks_refused() {
    let most = u64::MAX;
    let lists = marked(3);
    let refused = |number: u8, numbers: Numbers, from: u64, rows: usize, columns: usize| {
        assert_eq!(block(&numbers, from, &lists[..rows], &lists[..columns]), Err(Refusal(number)), "{numbers:?} from {from}");
    };
    // 14: no page has the number; a plan of no areas or of no runs; more pages than the runs make; whatever the lists have room for
    for (from, room) in [(0, 12), (2, 12), (3, 12), (most, 12), (0, 0), (2, 0)] {
        refused(14, one_area(1, 1, 1), from, room, room);
    }
    refused(14, [0; 60], 1, 12, 12);
    refused(14, one_area(0, 3, 3), 1, 12, 12);
    refused(14, one_area(3, 3, 3), 4, 12, 12);
    for from in [5, most] {
        refused(14, one_area(2, 2, most), from, 12, 12);
    }
    // 11: more runs than the lists have room for
    refused(11, [most; 60], 1, 12, 12);
    refused(11, one_area(4, 1, 4), 1, 12, 12);
    refused(11, one_area(most, most, most), most, 12, 12);
    refused(11, one_area(2, 2, 4), 1, 7, 8);
    refused(11, one_area(2, 2, 4), 4, 8, 7);
    assert_eq!(block(&one_area(1, 1, 1), 1, &lists, &lists), Ok((1, "page 1 0 0 11 22 11 22 33 33\n".to_string())));
    assert_eq!(block(&one_area(2, 2, most), 3, &lists, &lists).map(|(pages, _)| pages), Ok(2));
}

/// A block has pages of one area, over lists that start with that area's runs, and asks 11 of these alone.
#[test]
fn blocks_end_with_their_area() {
    let bytes = areas_of(&[], &[(0, 0, 2, 1), (0, 0, 0, 0), (1, 0, 2, 1)], &[]);
    let (mut numbers, mut rows, mut columns) = ([77; 60], marked_numbers(16), marked_numbers(20));
    assert_eq!(plan_into(&bytes, &mut numbers, &mut rows, &mut columns), Ok(()));
    let lines = |from: u64, numbers_before: (usize, usize)| {
        let (row_runs, column_runs) = (&rows[numbers_before.0..], &columns[numbers_before.1..]);
        block(&numbers, from, row_runs, column_runs).map(|(pages, lines)| (pages, lines.lines().map(str::to_string).collect::<Vec<_>>()))
    };
    let plan = Plan::of(&bytes).expect("a plan");
    let expected = |from: u64, to: u64| {
        let line = |number| page_line(number, &plan.page(number).expect("a page")).trim_end().to_string();
        Ok((to - from + 1, (from..=to).map(line).collect::<Vec<_>>()))
    };
    assert_eq!((plan.pages(), lines(1, (0, 0))), (7, expected(1, 4)));
    assert_eq!(lines(3, (0, 0)), expected(3, 4));
    assert_eq!(lines(5, (8, 8)), expected(5, 5));
    assert_eq!(lines(6, (12, 12)), expected(6, 7));
    assert_eq!(lines(7, (12, 12)), expected(7, 7));
    assert_eq!((lines(8, (12, 12)), lines(7, (16, 12))), (Err(Refusal(14)), Err(Refusal(11))));
    assert_eq!((lines(1, (12, 0)), lines(1, (0, 16))), (Err(Refusal(11)), Err(Refusal(11))));
}

/// A block ends where there is no page, or where fewer than 256 bytes are left.
#[test]
fn blocks_one_after_another() {
    let lists = marked(64);
    let numbers = one_area(64, 64, 4_096);
    let mut from = 1;
    while from <= 4_096 {
        let (pages, lines) = block(&numbers, from, &lists, &lists).expect("a block");
        let by_number = |number| page_line(number, &page_of(&numbers, number, &lists, &lists).expect("a page"));
        assert_eq!(lines, (from..from + pages).map(by_number).collect::<String>());
        assert!(from + pages > 4_096 || lines.len() > BLOCK - 256, "{pages} pages from {from} on");
        from += pages;
    }
    assert_eq!(from, 4_097);
}

// ---- plans of lists

/// The kinds of record, and how many bytes stand behind the mark.
const KINDS: [(&str, usize); 20] = [
    ("PC", 2),
    ("LA", 0),
    ("MG", 48),
    ("SC", 2),
    ("FW", 2),
    ("FH", 2),
    ("FT", 1),
    ("OD", 1),
    ("HD", 0),
    ("LP", 8),
    ("UC", 8),
    ("AR", 12),
    ("TR", 8),
    ("TC", 4),
    ("RW", 12),
    ("CL", 10),
    ("MR", 12),
    ("BR", 4),
    ("BC", 2),
    ("EN", 0),
];

/// The little-endian number at some bytes.
fn number(bytes: &[u8]) -> u64 {
    bytes.iter().rev().fold(0, |number, &byte| number * 256 + u64::from(byte))
}

/// What a job asks and its lists. The job passes questions 1 to 5.
fn as_lists(mut bytes: &[u8]) -> (Request, Lists) {
    let (mut request, mut lists, mut fit) = (Request { areas: Vec::new(), ..Request::default() }, Lists::default(), None);
    while !bytes.is_empty() {
        let (mark, rest) = bytes.split_at(2);
        let &(mark, length) = KINDS.iter().find(|kind| kind.0.as_bytes() == mark).expect("a known mark");
        let (body, rest) = rest.split_at(length);
        bytes = rest;
        let short = |at: usize| number(&body[at..at + 2]) as u16;
        let index = |at: usize| number(&body[at..at + 4]) as u32;
        match mark {
            "PC" => request.paper = Some(short(0)),
            "LA" => request.landscape = true,
            "MG" => request.margins = Some(std::array::from_fn(|at| f64::from_bits(number(&body[8 * at..8 * at + 8])))),
            "SC" => request.percent = Some(short(0)),
            "FW" => request.fit_width = Some(short(0)),
            "FH" => request.fit_height = Some(short(0)),
            "FT" => fit = Some(body[0] == 1),
            "OD" => request.over_then_down = body[0] == 1,
            "HD" => request.headings = true,
            "LP" => request.page_limit = number(body),
            "UC" => request.cell_limit = Some(number(body)),
            "AR" => request.areas.push(PrintRange {
                first_row: index(0),
                first_column: short(4).into(),
                last_row: index(6),
                last_column: short(10).into(),
            }),
            "TR" => request.row_title = Some((index(0), index(4))),
            "TC" => request.column_title = Some((short(0).into(), short(2).into())),
            "RW" => {
                lists.row_indexes.push(index(0));
                lists.row_sizes.push(number(&body[4..]));
            }
            "CL" => {
                lists.column_indexes.push(short(0).into());
                lists.column_sizes.push(number(&body[2..]));
            }
            "MR" => {
                lists.merge_first_rows.push(index(0));
                lists.merge_first_columns.push(short(4).into());
                lists.merge_last_rows.push(index(6));
                lists.merge_last_columns.push(short(10).into());
            }
            "BR" => lists.row_breaks.push(index(0)),
            "BC" => lists.column_breaks.push(short(0).into()),
            _ => {}
        }
    }
    request.fit = fit.unwrap_or(request.fit_width.is_some() || request.fit_height.is_some());
    (request, lists)
}

/// The answer of both plan calls, with what they leave in the numbers and the lists, is the same.
fn same_by_lists(bytes: &[u8]) {
    let (request, lists) = as_lists(bytes);
    let (mut numbers, mut rows, mut columns) = ([77; 60], marked(MOST_RUNS), marked(MOST_RUNS));
    let by_bytes = plan_into(bytes, &mut numbers, &mut rows, &mut columns);
    let (mut others, mut other_rows, mut other_columns) = ([77; 60], marked(MOST_RUNS), marked(MOST_RUNS));
    let by_lists = plan_lists_into(&request.numbers(), &lists, &mut others, &mut other_rows, &mut other_columns);
    assert_eq!((by_lists, others), (by_bytes, numbers), "{request:?}");
    assert_eq!((other_rows, other_columns), (rows, columns), "{request:?}");
    let text = Plan::of_lists(&request, &lists).map_or_else(Refusal::text, |plan| printed(&plan));
    assert_eq!(text, told(bytes), "{request:?}");
}

/// Each setting by itself, and some together.
fn jobs_with_settings() -> Vec<Vec<u8>> {
    let short = |mark: &str, number: u16| record(mark, &[&number.to_le_bytes()]);
    let margins = |inches: [f64; 6]| record("MG", &[inches.map(f64::to_le_bytes).concat().as_slice()]);
    let pair = |first: u32, last: u32| record("TR", &[&first.to_le_bytes(), &last.to_le_bytes()]);
    let columns = |first: u16, last: u16| record("TC", &[&first.to_le_bytes(), &last.to_le_bytes()]);
    let titled = |titles: &[Vec<u8>]| {
        let slots = (0..9).map(|row| slot("RW", row, 300_000)).chain((0..5).map(|column| slot("CL", column, 250_000)));
        let merges = [area("MR", (1, 1, 2, 2)), area("MR", (4, 0, 6, 0))];
        let breaks = [record("BR", &[&5u32.to_le_bytes()]), record("BC", &[&3u16.to_le_bytes()])];
        let records = [area("AR", (0, 0, 8, 4))].into_iter().chain(titles.to_vec()).chain(slots).chain(merges).chain(breaks);
        job(&records.chain([record("EN", &[])]).collect::<Vec<_>>())
    };
    let before = |records: &[Vec<u8>]| three_by_two(records, &[]);
    vec![
        before(&[short("PC", 9), record("LA", &[])]),
        before(&[short("PC", 65_535)]),
        before(&[margins([0.25, 0.5, 1.0, 2.0, 0.3, 0.3])]),
        before(&[margins([f64::NAN, 0.5, 1.0, 2.0, 0.3, 0.3])]),
        before(&[margins([-1.0, f64::INFINITY, 1e300, 0.0, 0.0, 0.0])]),
        before(&[short("SC", 50)]),
        before(&[short("SC", 7)]),
        before(&[short("FW", 1)]),
        before(&[short("FH", 1)]),
        before(&[short("FW", 0), short("FH", 2)]),
        before(&[short("FW", 1), short("FH", 1), record("FT", &[&[0]])]),
        before(&[record("FT", &[&[1]])]),
        before(&[record("OD", &[&[1]]), record("HD", &[])]),
        titled(&[]),
        titled(&[pair(0, 1)]),
        titled(&[pair(0, 1), columns(0, 0)]),
        titled(&[columns(1, 1)]),
        titled(&[pair(3, 2), columns(0, 20_000)]),
        areas_of(&[limit("UC", 6)], &[(0, 0, 2, 1), (1, 0, 2, 0), (0, 0, 2, 1)], &[]),
        areas_of(&[record("FT", &[&[1]])], &[(0, 0, 2, 1), (2, 1, 2, 1), (9, 9, 9, 9)], &[pair(0, 0), columns(1, 1)]),
        areas_of(&[short("SC", 9), record("OD", &[&[1]])], &[(0, 0, 2, 1); 8], &[pair(1, 1)]),
    ]
}

#[test]
fn the_same_by_bytes_and_by_lists() {
    same_by_lists(&first());
    jobs_with_settings().iter().for_each(|bytes| same_by_lists(bytes));
    refused_jobs().iter().filter(|(number, _)| *number > 5).for_each(|(_, bytes)| same_by_lists(bytes));
    example_jobs().iter().for_each(|(_, bytes)| same_by_lists(bytes));
}

/// The lists of the job of document 01.
fn first_lists() -> (Request, Lists) {
    as_lists(&first())
}

#[test]
fn refusals_of_lists_write_nothing() {
    let refused = |number: u8, change: fn(&mut Request, &mut Lists)| {
        let (mut request, mut lists) = first_lists();
        change(&mut request, &mut lists);
        let (mut numbers, mut rows, mut columns) = ([77; 60], marked(2), marked(2));
        let answer = plan_lists_into(&request.numbers(), &lists, &mut numbers, &mut rows, &mut columns);
        assert_eq!(answer, Err(Refusal(number)), "{request:?} {lists:?}");
        assert_eq!((numbers, rows, columns), ([77; 60], marked(2), marked(2)), "refused with {number}");
    };
    refused(4, |request, _| request.areas.clear());
    refused(4, |request, _| request.areas = vec![PrintRange::default(); 9]);
    refused(6, |_, lists| lists.row_sizes.push(1));
    refused(6, |_, lists| lists.column_indexes.push(9));
    refused(6, |_, lists| lists.merge_first_rows.push(0));
    refused(6, |_, lists| lists.merge_last_columns.push(0));
    refused(6, |request, _| request.areas[0].first_row = 3);
    refused(6, |request, _| request.areas[0].first_column = 2);
    refused(6, |request, _| request.areas.push(PrintRange { first_row: 1, ..PrintRange::default() }));
    refused(7, |request, _| request.areas[0].last_row = 1_048_576);
    refused(7, |request, _| request.areas[0].last_column = 16_384);
    refused(7, |request, _| request.areas[0].last_row = u32::MAX);
    refused(7, |request, _| request.areas.push(PrintRange { last_column: 16_384, ..PrintRange::default() }));
    refused(15, |request, _| request.cell_limit = Some(0));
    refused(15, |request, lists| (request.cell_limit, lists.row_sizes[2]) = (Some(5), u64::MAX));
    refused(8, |_, lists| lists.row_indexes.swap(0, 1));
    refused(8, |_, lists| lists.column_indexes[1] = 16_384);
    refused(9, |_, lists| lists.row_sizes[2] = 1_073_741_824);
    refused(9, |_, lists| lists.column_sizes[0] = u64::MAX);
    refused(11, |_, lists| lists.row_sizes.fill(900_000));
    refused(11, |request, _| request.areas.push(PrintRange::default()));
    refused(12, |request, _| request.page_limit = 3);
}

/// A fit or an order that is neither 0 nor 1 is refused as the same in bytes is, before areas and lists are asked.
#[test]
fn flags_of_lists() {
    let refused = |numbers: RequestNumbers, lists: &Lists| {
        let (mut out, mut rows, mut columns) = ([77; 60], marked(2), marked(2));
        let answer = plan_lists_into(&numbers, lists, &mut out, &mut rows, &mut columns);
        assert_eq!(answer, Err(Refusal(5)), "{numbers:?}");
        assert_eq!((out, rows, columns), ([77; 60], marked(2), marked(2)));
    };
    for (mark, at) in [("FT", 12), ("OD", 17)] {
        let (mut request, mut lists) = first_lists();
        assert_eq!(told(&three_by_two(&[record(mark, &[&[2]])], &[])), "no 5\n");
        for flag in [2, 3, 255, 256, 1 << 32, u64::MAX] {
            let mut numbers = request.numbers();
            numbers[at] = flag;
            refused(numbers, &lists);
        }
        (request.areas[0].first_row, request.areas[0].last_column, request.page_limit) = (3, u32::MAX, 0);
        lists.row_sizes.push(u64::MAX);
        let mut numbers = request.numbers();
        numbers[at] = 2;
        refused(numbers, &lists);
    }
    let mut numbers = [u64::MAX; 61];
    numbers[22] = 8;
    refused(numbers, &Lists::default());
}

#[test]
fn run_lists_too_short_for_lists() {
    let (request, lists) = first_lists();
    let planned = |rows: usize, columns: usize| {
        let (mut rows, mut columns) = (marked_numbers(rows), marked_numbers(columns));
        plan_lists_into(&request.numbers(), &lists, &mut [0; 60], &mut rows, &mut columns)
    };
    assert_eq!(planned(7, 8), Err(Refusal(11)));
    assert_eq!(planned(8, 7), Err(Refusal(11)));
    assert_eq!(planned(0, 0), Err(Refusal(11)));
    assert_eq!(planned(8, 8), Ok(()));
    assert_eq!(planned(11, 9), Ok(()));
}

/// What numbers stand for that no `Request` has: any other mark above 0 is set, a number too large is the largest of its kind.
#[test]
fn request_by_any_numbers() {
    let (request, lists) = first_lists();
    let planned = |numbers: RequestNumbers| {
        let (mut out, mut rows, mut columns) = ([77; 60], marked(5), marked(5));
        let answer = plan_lists_into(&numbers, &lists, &mut out, &mut rows, &mut columns);
        (answer, out, rows, columns)
    };
    let changed = |numbers: RequestNumbers, changes: &[(usize, u64)]| {
        let mut numbers = numbers;
        changes.iter().for_each(|&(at, to)| numbers[at] = to);
        numbers
    };
    let whole = Request {
        landscape: true,
        margins: Some([0.5; 6]),
        percent: Some(u16::MAX),
        fit_width: Some(1),
        fit_height: Some(u16::MAX),
        over_then_down: true,
        headings: true,
        cell_limit: Some(6),
        row_title: Some((0, 0)),
        column_title: Some((1, u32::MAX)),
        ..request.clone()
    };
    let numbers = whole.numbers();
    let most = u64::MAX;
    let marks = [0, 2, 3, 10, 13, 15, 18, 20, 55, 58].map(|at| (at, most));
    let large = [(11, 65_536), (16, most), (60, 4_294_967_296)];
    for (fit, numbers) in [(0, numbers), (1, changed(numbers, &[(12, 1)]))] {
        let plain = planned(numbers);
        assert_eq!(plain.0, Ok(()), "fit {fit}");
        assert_eq!(planned(changed(numbers, &marks)), plain, "fit {fit}");
        assert_eq!(planned(changed(numbers, &large)), plain, "fit {fit}");
    }
    // numbers behind a mark that is not set, and areas past the count, are not looked at
    let unset = [(1, 9), (4, most), (9, 1), (11, 7), (14, 3), (16, 3), (21, 1), (27, most), (54, most), (56, 1), (57, 0), (59, 1), (60, 0)];
    let numbers = changed(request.numbers(), &[(0, 0)]);
    assert_eq!(planned(changed(numbers, &unset)), planned(numbers));
    // an area past every u32 is outside the grid, not cut off to its low bits
    assert_eq!(planned(changed(numbers, &[(25, 4_294_967_298)])).0, Err(Refusal(7)));
    assert_eq!(planned(changed(numbers, &[(23, most), (25, most)])).0, Err(Refusal(7)));
    assert_eq!(planned(changed(numbers, &[(23, 4_294_967_296)])).0, Err(Refusal(6)));
    assert_eq!(planned(changed([most; 61], &[(12, 1), (17, 0), (22, 8)])).0, Err(Refusal(7)));
    // a count that is not 1 to 8, and one that takes in areas that are zeros
    for count in [0, 9, 256, 1 << 32, most] {
        assert_eq!(planned(changed(numbers, &[(22, count)])).0, Err(Refusal(4)));
    }
    assert_eq!(planned(changed(numbers, &[(22, 2)])).1[1], 5);
    assert_eq!((planned([0; 61]).0, planned(changed([0; 61], &[(22, 1)])).0), (Err(Refusal(4)), Err(Refusal(12))));
}

/// No job has so many rows: 45 to a page.
#[test]
fn a_million_rows() {
    let rows = 1_000_000;
    let request = Request { page_limit: u64::MAX, areas: vec![PrintRange { last_row: rows - 1, ..PrintRange::default() }], ..Request::default() };
    let lists = Lists {
        row_indexes: (0..rows).collect(),
        row_sizes: vec![20_480; rows as usize],
        column_indexes: vec![0],
        column_sizes: vec![65_536],
        row_breaks: vec![500_001],
        ..Lists::default()
    };
    let plan = Plan::of_lists(&request, &lists).expect("a plan");
    let runs = only(&plan).row_runs;
    assert_eq!(plan.pages(), runs.len() as u64);
    assert_eq!((runs[0].first, runs[0].last, runs[0].size), (0, 44, 45 * 20_480));
    assert!(runs.windows(2).all(|pair| pair[0].last + 1 == pair[1].first));
    assert_eq!(runs.iter().map(|run| run.size).sum::<u64>(), 20_480 * u64::from(rows));
    let broken: Vec<u32> = runs.iter().filter(|run| run.manual_break).map(|run| run.first).collect();
    assert_eq!(broken, [500_001]);
    let fitted = Plan::of_lists(&Request { fit: true, fit_height: Some(3_000), ..request.clone() }, &lists).expect("a plan");
    assert!(fitted.pages() <= 3_000, "{} pages", fitted.pages());
    assert_eq!(fitted.notes(), [0; 9]);
    let upper = PrintRange { first_row: rows / 2, last_row: rows - 1, ..PrintRange::default() };
    let areas = vec![PrintRange { last_row: rows / 2 - 1, ..PrintRange::default() }, upper, upper];
    let halves = Plan::of_lists(&Request { areas, ..request }, &lists).expect("a plan");
    let [lower, upper, again] = <[Area; 3]>::try_from(halves.areas()).expect("three areas");
    assert_eq!((lower.pages, upper.pages, again.pages), (11_112, 11_113, 11_113));
    assert_eq!((&again.row_runs, again.first_page), (&upper.row_runs, 22_226));
}

// ---- the program over the library (`plan.rs`, which `host/test` builds)

/// The status, what was printed and what was said of an error, for a job in a file and a standard output.
fn ran(file: &str, out: Stdio) -> (Option<i32>, String, String) {
    let child = Command::new("target/host/plan").arg(file).stdout(out).stderr(Stdio::piped()).spawn().expect("the program runs");
    let ran = child.wait_with_output().expect("the program ends");
    let text = |bytes: &[u8]| String::from_utf8_lossy(bytes).into_owned();
    (ran.status.code(), text(&ran.stdout), text(&ran.stderr))
}

#[test]
fn what_failed_is_said_and_is_the_status() {
    let (planned, refused) = ("target/host/planned.job", "target/host/refused.job");
    std::fs::write(planned, first()).expect("a file");
    std::fs::write(refused, b"ZZ").expect("a file");
    let nothing = String::new;
    assert_eq!(ran(planned, Stdio::piped()), (Some(0), FIRST_TEXT.to_string(), nothing()));
    assert_eq!(ran(refused, Stdio::piped()), (Some(1), "no 2\n".to_string(), nothing()));
    for (file, full) in [("target/host", false), ("target/host/no such file", false), (planned, true), (refused, true)] {
        let out = if full { std::fs::File::create("/dev/full").expect("a full device").into() } else { Stdio::piped() };
        let (status, printed, said) = ran(file, out);
        assert_eq!((status, printed), (Some(2), nothing()), "{file}");
        assert!(said.contains(if full { "could not be written" } else { "could not be read" }), "{file}: {said}");
    }
}

/// The plan call needs room on the stack; a thread as Rust makes it has enough.
#[test]
fn threads_plan_side_by_side() {
    let threads: Vec<_> = (0..4).map(|_| std::thread::spawn(|| told(&first()))).collect();
    for thread in threads {
        assert_eq!(thread.join().expect("no panic"), FIRST_TEXT);
    }
}
