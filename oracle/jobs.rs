// Answers jobs as program `plan` does, planned by the Rust's own functions.
//
// A line of input is the number of a job's bytes as eight hexadecimal digits, and the bytes as two
// digits each. The answer is what `plan` prints for these bytes, and an empty line.
//
// The Rust has no jobs. They are read here after document 01, sections "Jobs" and "Questions in order", and
// document 02, T-02, and the questions 1 to 7, 15, 8 and 9 are put to the records, one after another. The
// chain of plans.rs does the rest, and asks 12; its 11 is met by no job, as `plan` meets none.
#![allow(dead_code)]

include!("shim.rs");
include!("standard.rs");
include!("axes.rs");
include!("plans.rs");

/// 1: the most bytes of a job.
const MOST_BYTES: usize = 60_000;

/// The runs that a list of `plan` has room for, which holds one area after another.
const RUN_ENTRIES: usize = 5_000;

/// The page limit where none is given.
const PAGE_LIMIT: u64 = 10_000;

/// The kinds of record, in order: the mark, how many bytes follow it, and whether the record may repeat.
const KINDS: [(&str, usize, bool); 20] = [
    ("PC", 2, false),
    ("LA", 0, false),
    ("MG", 48, false),
    ("SC", 2, false),
    ("FW", 2, false),
    ("FH", 2, false),
    ("FT", 1, false),
    ("OD", 1, false),
    ("HD", 0, false),
    ("LP", 8, false),
    ("UC", 8, false),
    ("AR", 12, true),
    ("TR", 8, false),
    ("TC", 4, false),
    ("RW", 12, true),
    ("CL", 10, true),
    ("MR", 12, true),
    ("BR", 4, true),
    ("BC", 2, true),
    ("EN", 0, false),
];

/// A record: the place of its kind in the order, and the bytes behind its mark.
#[derive(Clone, Copy)]
struct Record<'a> {
    kind: usize,
    body: &'a [u8],
}

/// The little-endian numbers of a record's body, one after another.
struct Body<'a>(&'a [u8]);

impl Body<'_> {
    fn take<const N: usize>(&mut self) -> [u8; N] {
        let (taken, rest) = self.0.split_at(N);
        self.0 = rest;
        taken.try_into().expect("so many bytes")
    }

    fn u8(&mut self) -> u8 {
        u8::from_le_bytes(self.take())
    }

    fn u16(&mut self) -> u16 {
        u16::from_le_bytes(self.take())
    }

    fn u32(&mut self) -> u32 {
        u32::from_le_bytes(self.take())
    }

    fn u64(&mut self) -> u64 {
        u64::from_le_bytes(self.take())
    }

    fn i64(&mut self) -> i64 {
        i64::from_le_bytes(self.take())
    }

    fn f64(&mut self) -> f64 {
        f64::from_bits(self.u64())
    }
}

/// The cells of AR and of MR: first row, first column, last row, last column.
#[derive(Clone, Copy)]
struct Cells(u32, u16, u32, u16);

/// The records of a job up to its first EN, and what follows that.
struct Read<'a> {
    records: Vec<Record<'a>>,
    rest: &'a [u8],
}

/// 2: whole known records up to an EN.
fn read(mut bytes: &[u8]) -> Option<Read<'_>> {
    let mut records = Vec::new();
    loop {
        let (mark, rest) = bytes.split_at_checked(2)?;
        let kind = KINDS.iter().position(|&(known, ..)| known.as_bytes() == mark)?;
        let (body, rest) = rest.split_at_checked(KINDS[kind].1)?;
        records.push(Record { kind, body });
        if KINDS[kind].0 == "EN" {
            return Some(Read { records, rest });
        }
        bytes = rest;
    }
}

impl<'a> Read<'a> {
    /// The bodies of the records with a mark.
    fn all(&self, mark: &'static str) -> impl Iterator<Item = Body<'a>> + '_ {
        self.records.iter().filter(move |record| KINDS[record.kind].0 == mark).map(|record| Body(record.body))
    }

    fn one(&self, mark: &'static str) -> Option<Body<'a>> {
        self.all(mark).next()
    }

    fn has(&self, mark: &'static str) -> bool {
        self.one(mark).is_some()
    }

    fn number(&self, mark: &'static str) -> Option<u16> {
        self.one(mark).map(|mut body| body.u16())
    }

    fn flag(&self, mark: &'static str) -> Option<u8> {
        self.one(mark).map(|mut body| body.u8())
    }

    fn cells(&self, mark: &'static str) -> Vec<Cells> {
        self.all(mark).map(|mut body| Cells(body.u32(), body.u16(), body.u32(), body.u16())).collect()
    }

    fn rows(&self) -> Vec<(u32, i64)> {
        self.all("RW").map(|mut body| (body.u32(), body.i64())).collect()
    }

    fn columns(&self) -> Vec<(u32, i64)> {
        self.all("CL").map(|mut body| (u32::from(body.u16()), body.i64())).collect()
    }
}

// ---- the questions

/// 8: indexes rise strictly and lie inside the grid.
fn rising(slots: &[(u32, i64)], limit: u32) -> bool {
    slots.windows(2).all(|pair| pair[0].0 < pair[1].0) && slots.iter().all(|&(index, _)| index <= limit)
}

impl Read<'_> {
    /// 4: marks ordered, repeated only where allowed, AR one to eight times there.
    fn ordered(&self) -> bool {
        let follows = |pair: &[Record]| {
            let (before, after) = (pair[0].kind, pair[1].kind);
            before < after || before == after && KINDS[after].2
        };
        self.records.windows(2).all(follows) && (1..=MOST_AREAS).contains(&self.all("AR").count())
    }

    /// 5: FT and OD are 0 or 1.
    fn flags_hold(&self) -> bool {
        ["FT", "OD"].into_iter().filter_map(|mark| self.flag(mark)).all(|flag| flag <= 1)
    }

    fn areas_and_merges(&self) -> impl Iterator<Item = Cells> {
        self.cells("AR").into_iter().chain(self.cells("MR"))
    }

    /// 6: firsts are not above lasts in every AR and every MR.
    fn firsts_first(&self) -> bool {
        self.areas_and_merges().all(|Cells(top, left, bottom, right)| top <= bottom && left <= right)
    }

    /// 7: every AR and every MR lie inside the grid.
    fn areas_inside(&self) -> bool {
        let inside = |Cells(_, _, bottom, right)| bottom <= MAX_WORKSHEET_ROW && right <= MAX_WORKSHEET_COLUMN;
        self.areas_and_merges().all(inside)
    }

    /// 15: at most as many cells in at least one AR as UC says. Asked of areas that pass 6 and 7.
    fn cells_hold(&self) -> bool {
        let ranges: Vec<RenderRange> = self.areas().iter().map(range_of).collect();
        self.one("UC").is_none_or(|mut body| union_cells(&ranges) <= body.u64())
    }

    /// 8, of both axes.
    fn slots_rising(&self) -> bool {
        rising(&self.rows(), MAX_WORKSHEET_ROW) && rising(&self.columns(), u32::from(MAX_WORKSHEET_COLUMN))
    }

    /// 9: sizes are 0 to the largest.
    fn sizes_hold(&self) -> bool {
        let largest = LARGEST_SIZE as i64;
        self.rows().into_iter().chain(self.columns()).all(|(_, size)| (0..=largest).contains(&size))
    }
}

/// The records of a job, or the first of the questions 1 to 7, 15, 8 and 9 that it does not pass.
fn questioned<'a>(bytes: &'a [u8]) -> Result<Read<'a>, Refused> {
    if bytes.len() > MOST_BYTES {
        return Err(Refused(1));
    }
    let read = read(bytes).ok_or(Refused(2))?;
    let questions: [(u8, fn(&Read<'a>) -> bool); 8] = [
        (3, |read| read.rest.is_empty()),
        (4, Read::ordered),
        (5, Read::flags_hold),
        (6, Read::firsts_first),
        (7, Read::areas_inside),
        (15, Read::cells_hold),
        (8, Read::slots_rising),
        (9, Read::sizes_hold),
    ];
    match questions.into_iter().find(|(_, holds)| !holds(&read)) {
        Some((number, _)) => Err(Refused(number)),
        None => Ok(read),
    }
}

// ---- the plan

impl Read<'_> {
    fn setup(&self) -> PageSetup {
        let margins = |mut body: Body| (body.f64(), body.f64(), body.f64(), body.f64(), body.f64(), body.f64());
        PageSetup {
            paper_size: self.number("PC"),
            landscape: self.has("LA"),
            margins: self.one("MG").map(margins),
            scale: self.number("SC"),
            fit_to_width: self.number("FW"),
            fit_to_height: self.number("FH"),
            repeat_rows: self.one("TR").map(|mut body| (body.u32(), body.u32())),
            repeat_cols: self.one("TC").map(|mut body| (body.u16(), body.u16())),
            ..PageSetup::default()
        }
    }

    fn behavior(&self) -> Behavior {
        let fit = self.flag("FT").map(|fit| fit == 1);
        Behavior {
            page_order: page_order(self.flag("OD") == Some(1)),
            fit_to_page: fit.unwrap_or(self.has("FW") || self.has("FH")),
            headings: self.has("HD"),
        }
    }

    fn areas(&self) -> Vec<Asked> {
        let area = |Cells(first_row, first_column, last_row, last_column)| Asked {
            first_row,
            first_column: u32::from(first_column),
            last_row,
            last_column: u32::from(last_column),
        };
        self.cells("AR").into_iter().map(area).collect()
    }

    /// The job, with lists that have room for so many runs.
    fn job(&self, runs: usize) -> Job {
        let merges = self.cells("MR");
        let (row_indexes, row_sizes) = self.rows().into_iter().map(|(index, size)| (index, size as u64)).unzip();
        let (column_indexes, column_sizes) =
            self.columns().into_iter().map(|(index, size)| (index, size as u64)).unzip();
        Job {
            setup: self.setup(),
            behavior: self.behavior(),
            page_limit: self.one("LP").map_or(PAGE_LIMIT, |mut body| body.u64()),
            cell_limit: self.one("UC").map(|mut body| body.u64()),
            areas: self.areas(),
            row_indexes,
            row_sizes,
            column_indexes,
            column_sizes,
            merge_first_rows: merges.iter().map(|merge| merge.0).collect(),
            merge_first_columns: merges.iter().map(|merge| u32::from(merge.1)).collect(),
            merge_last_rows: merges.iter().map(|merge| merge.2).collect(),
            merge_last_columns: merges.iter().map(|merge| u32::from(merge.3)).collect(),
            row_breaks: self.all("BR").map(|mut body| body.u32()).collect(),
            column_breaks: self.all("BC").map(|mut body| u32::from(body.u16())).collect(),
            lent_rows: Lent::zeros(runs),
            lent_columns: Lent::zeros(runs),
        }
    }
}

fn page_text(number: u64, slot: &PageSlot) -> String {
    let (rows, columns) = (&slot.rows, &slot.columns);
    let places = format!("{number} {} {}", slot.vertical_index, slot.horizontal_index);
    let indexes = format!("{} {} {} {}", rows.first, rows.last, columns.first, columns.last);
    format!("page {places} {indexes} {} {}\n", rows.size.raw(), columns.size.raw())
}

/// What `plan` prints for a job that is not refused.
fn planned(bytes: &[u8]) -> Result<String, Refused> {
    let job = questioned(bytes)?.job(MOST_AREAS * RUN_ENTRIES);
    let mut warnings = PrintWarnings::default();
    let areas = prepared(&job, &mut warnings)?;
    let mut text = format!("plan {} {}\n", areas[0].scale_permille, page_count(&areas));
    text += &format!("notes{}\n", spelt(&nine_notes(warnings)));
    let mut number = 0;
    for (before, area) in areas.iter().enumerate() {
        let (rows, columns) = (&area.row_segments, &area.column_segments);
        assert!(rows.len().max(columns.len()) <= RUN_ENTRIES, "more runs than `plan` has room for");
        if before > 0 {
            text += &format!("area {} {}\n", before + 1, area.scale_permille);
        }
        for slot in page_slots(job.behavior.page_order, rows, columns) {
            number += 1;
            text += &page_text(number, &slot);
        }
    }
    Ok(text)
}

fn job_bytes(line: &str) -> Vec<u8> {
    let (length, digits) = line.split_at(8);
    let number = |text: &str| u32::from_str_radix(text, 16).expect("hexadecimal digits");
    assert_eq!(2 * number(length) as usize, digits.len(), "another number of bytes in {line:?}");
    (0..digits.len()).step_by(2).map(|at| number(&digits[at..at + 2]) as u8).collect()
}

fn printed(line: &str) -> String {
    planned(&job_bytes(line)).unwrap_or_else(|Refused(number)| format!("no {number}\n"))
}

fn main() {
    answer_lines(printed);
}
