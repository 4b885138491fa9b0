// Plans and pages by the Rust's own functions. A driver includes this file at its root, after axes.rs.
//
// The fields of a line, each a space and so many hexadecimal digits:
//
//     p   plans
//     2   twelve flags, 0 or 1: paper given, landscape, percent given, fit, width's target given,
//         height's target given, over then down, headings, row title given, column title given,
//         margins given, cell limit given
//     2   thirteen lengths: row indexes and sizes, column indexes and sizes, the merges' first rows,
//         first columns, last rows and last columns, row breaks, column breaks, the numbers of the lent
//         lists of row runs and of column runs, and the areas
//     8   paper, percent, width's target, height's target; the row title's first and last, the column
//         title's first and last
//     16  the page limit, the cell limit
//     16  left, right, top, bottom, header and footer as the bits of an f64, if margins are given
//     8   the areas' first rows, first columns, last rows, last columns
//     8   the row indexes
//     16  the row sizes
//     8   the column indexes
//     16  the column sizes
//     8   the merges' first rows, first columns, last rows, last columns; row breaks; column breaks
//
//     n   pages by their number, of plans that are not as they were answered
//     2   a flag, 0 or 1: over then down
//     2   how many runs stand between two whose mark is 0, of rows and of columns; the first run has
//         the mark 0
//     2   how many numbers the lists of row runs and of column runs have
//     2   how many areas the line has, at most eight; those that it lacks have no runs
//     16  the numbers that the two lists start with, from which each place has one more, but for the
//         marks of 0
//     16  the count of areas, pages, and the number of the page
//     of each area:
//     2   two flags: rows empty, columns empty
//     16  row runs, column runs
//
// The answer to p is `plan`, the counts of areas and of pages, the order (1 over then down), and the nine
// notes; of each area the permille, the count of unreachable targets, the counts of row runs and column
// runs, whether rows and columns are empty; then the two lent lists, whole, each after a `;`; then
// pages, each after a `;`: the number, and an answer as to n. Of twelve pages or fewer all are answered,
// with the numbers 0 and one above the count; of more those that `asked` has. The answer to n is `page`,
// the vertical and the horizontal number, and the two runs, each with first, last, size, empty mark and
// manual mark. A refusal is `no` and its number; of p the lent lists follow here too.
//
// After the questions, which the Rust does not ask, the chain is that of prepare_sheet_print_document and
// prepare_print_area, line by line, over the slots that are given; but of five paper codes the paper is
// that of standard.rs, which a driver includes before this file.

/// The most areas.
const MOST_AREAS: usize = 8;

/// A print area as it is asked for.
#[derive(Clone, Copy)]
struct Asked {
    first_row: u32,
    first_column: u32,
    last_row: u32,
    last_column: u32,
}

/// What a line says of a plan.
struct Job {
    setup: PageSetup,
    behavior: Behavior,
    page_limit: u64,
    cell_limit: Option<u64>,
    areas: Vec<Asked>,
    row_indexes: Vec<u32>,
    row_sizes: Vec<u64>,
    column_indexes: Vec<u32>,
    column_sizes: Vec<u64>,
    merge_first_rows: Vec<u32>,
    merge_first_columns: Vec<u32>,
    merge_last_rows: Vec<u32>,
    merge_last_columns: Vec<u32>,
    row_breaks: Vec<u32>,
    column_breaks: Vec<u32>,
    lent_rows: Lent,
    lent_columns: Lent,
}

/// Of PrintBehavior what a plan looks at.
struct Behavior {
    page_order: PrintPageOrder,
    fit_to_page: bool,
    headings: bool,
}

fn page_order(over_then_down: bool) -> PrintPageOrder {
    if over_then_down {
        PrintPageOrder::OverThenDown
    } else {
        PrintPageOrder::DownThenOver
    }
}

fn job(line: &str) -> Job {
    let mut fields = Fields(&line[1..]);
    let flags: Vec<bool> = (0..12).map(|_| fields.flag()).collect();
    let lengths: Vec<usize> = (0..13).map(|_| fields.next(2) as usize).collect();
    let mut small = || u16::try_from(fields.number()).expect("a number of 16 bits");
    let (paper, percent, width, height) = (small(), small(), small(), small());
    let row_title = (fields.number(), fields.number());
    let column_title = (u16::of(fields.number()), u16::of(fields.number()));
    let (page_limit, cell_limit) = (fields.next(16), fields.next(16));
    let mut inches = || f64::from_bits(fields.next(16));
    let margins = flags[10].then(|| (inches(), inches(), inches(), inches(), inches(), inches()));
    let corners = [0; 4].map(|_| fields.numbers(lengths[12]));
    let area = |at: usize| Asked {
        first_row: corners[0][at],
        first_column: corners[1][at],
        last_row: corners[2][at],
        last_column: corners[3][at],
    };
    let job = Job {
        setup: PageSetup {
            paper_size: flags[0].then_some(paper),
            landscape: flags[1],
            margins,
            scale: flags[2].then_some(percent),
            fit_to_width: flags[4].then_some(width),
            fit_to_height: flags[5].then_some(height),
            repeat_rows: flags[8].then_some(row_title),
            repeat_cols: flags[9].then_some(column_title),
            ..PageSetup::default()
        },
        behavior: Behavior {
            fit_to_page: flags[3],
            page_order: page_order(flags[6]),
            headings: flags[7],
        },
        page_limit,
        cell_limit: flags[11].then_some(cell_limit),
        areas: (0..lengths[12]).map(area).collect(),
        row_indexes: fields.numbers(lengths[0]),
        row_sizes: fields.sizes(lengths[1]),
        column_indexes: fields.numbers(lengths[2]),
        column_sizes: fields.sizes(lengths[3]),
        merge_first_rows: fields.numbers(lengths[4]),
        merge_first_columns: fields.numbers(lengths[5]),
        merge_last_rows: fields.numbers(lengths[6]),
        merge_last_columns: fields.numbers(lengths[7]),
        row_breaks: fields.numbers(lengths[8]),
        column_breaks: fields.numbers(lengths[9]),
        lent_rows: Lent::new(lengths[10], ROWS_START),
        lent_columns: Lent::new(lengths[11], COLUMNS_START),
    };
    assert_eq!(fields.0, "", "more than the fields in {line:?}");
    job
}

// ---- the questions

impl Job {
    /// 4: one to eight areas.
    fn areas_count(&self) -> bool {
        (1..=MOST_AREAS).contains(&self.areas.len())
    }

    /// 6: slices that make up one list are equally long.
    fn lists_pair_up(&self) -> bool {
        let merges = self.merge_first_rows.len();
        let others = [
            self.merge_first_columns.len(),
            self.merge_last_rows.len(),
            self.merge_last_columns.len(),
        ];
        self.row_indexes.len() == self.row_sizes.len()
            && self.column_indexes.len() == self.column_sizes.len()
            && others == [merges; 3]
    }

    /// 6: firsts are not above lasts.
    fn pairs_ordered(&self) -> bool {
        let mut rows = self.merge_first_rows.iter().zip(&self.merge_last_rows);
        let mut columns = self.merge_first_columns.iter().zip(&self.merge_last_columns);
        self.areas.iter().all(|area| area.first_row <= area.last_row && area.first_column <= area.last_column)
            && rows.all(|(first, last)| first <= last)
            && columns.all(|(first, last)| first <= last)
    }

    /// 7: the areas and every merge lie inside the grid.
    fn inside(&self) -> bool {
        let columns = u32::from(MAX_WORKSHEET_COLUMN);
        self.areas.iter().all(|area| area.last_row <= MAX_WORKSHEET_ROW && area.last_column <= columns)
            && self.merge_last_rows.iter().all(|&row| row <= MAX_WORKSHEET_ROW)
            && self.merge_last_columns.iter().all(|&column| column <= columns)
    }

    /// 15: the areas have at most as many cells as the limit, each counted once. Asked of areas that pass 6 and 7.
    fn cells_hold(&self) -> bool {
        let ranges: Vec<RenderRange> = self.areas.iter().map(range_of).collect();
        self.cell_limit.is_none_or(|most| union_cells(&ranges) <= most)
    }

    /// 8: slot indexes rise strictly and lie inside the grid.
    fn slots_rise(&self) -> bool {
        let rises = |indexes: &[u32], limit: u32| {
            indexes.windows(2).all(|pair| pair[0] < pair[1]) && indexes.iter().all(|&index| index <= limit)
        };
        rises(&self.row_indexes, MAX_WORKSHEET_ROW)
            && rises(&self.column_indexes, u32::from(MAX_WORKSHEET_COLUMN))
    }

    /// 9: sizes are at most the largest.
    fn sizes_small(&self) -> bool {
        self.row_sizes.iter().chain(&self.column_sizes).all(|&size| size <= LARGEST_SIZE)
    }

    /// The first of the questions 4, 6, 7, 15, 8 and 9 that the input does not pass.
    fn refused(&self) -> Option<u8> {
        let questions: [(u8, fn(&Self) -> bool); 6] = [
            (4, Self::areas_count),
            (6, |job| job.lists_pair_up() && job.pairs_ordered()),
            (7, Self::inside),
            (15, Self::cells_hold),
            (8, Self::slots_rise),
            (9, Self::sizes_small),
        ];
        questions.into_iter().find(|(_, holds)| !holds(self)).map(|(number, _)| number)
    }
}

fn range_of(area: &Asked) -> RenderRange {
    RenderRange {
        first_row: area.first_row,
        first_col: u16::of(area.first_column),
        last_row: area.last_row,
        last_col: u16::of(area.last_column),
    }
}

/// The cells that lie in at least one range, as the Rust counts them; a second count is the same.
fn union_cells(ranges: &[RenderRange]) -> u64 {
    let cells = rectangle_union_count(ranges).expect("a count within u64");
    assert_eq!(cells, cells_in_and_out(ranges), "two counts of the cells in {ranges:?}");
    cells
}

/// The same count by the ranges' intersections: those of an odd number of ranges less those of an even number.
fn cells_in_and_out(ranges: &[RenderRange]) -> u64 {
    let (mut odd, mut even) = (0, 0);
    for chosen in 1..1usize << ranges.len() {
        let is_chosen = |(at, _): &(usize, _)| chosen >> at & 1 == 1;
        let among = || ranges.iter().enumerate().filter(is_chosen).map(|(_, range)| range);
        let last_row = among().map(|range| u64::from(range.last_row)).min().expect("one range");
        let last_col = among().map(|range| u64::from(range.last_col)).min().expect("one range");
        let first_row = among().map(|range| u64::from(range.first_row)).max().expect("one range");
        let first_col = among().map(|range| u64::from(range.first_col)).max().expect("one range");
        let cells = (last_row + 1).saturating_sub(first_row) * (last_col + 1).saturating_sub(first_col);
        if chosen.count_ones() % 2 == 1 {
            odd += cells;
        } else {
            even += cells;
        }
    }
    odd - even
}

/// A refusal's number.
struct Refused(u8);

impl From<RenderError> for Refused {
    fn from(error: RenderError) -> Self {
        match error {
            RenderError::CoordinateOverflow => Self(10),
            RenderError::LimitExceeded { .. } => Self(12),
            other => panic!("another refusal: {other:?}"),
        }
    }
}

// ---- the chain

impl Job {
    fn sheet(&self) -> Sheet {
        let merge = |at: usize| {
            (
                self.merge_first_rows[at],
                u16::of(self.merge_first_columns[at]),
                self.merge_last_rows[at],
                u16::of(self.merge_last_columns[at]),
            )
        };
        Sheet((0..self.merge_first_rows.len()).map(merge).collect())
    }
}

/// What the pages of an area are made of.
struct Area {
    scale_permille: u16,
    unreachable: u64,
    row_segments: Vec<AxisSegment<u32>>,
    column_segments: Vec<AxisSegment<u16>>,
    logical_pages: u64,
}

/// As prepare_sheet_print_document: paper, content and titles, then the areas, with question 11 before the
/// page limit. The Rust asks the limit after each area, of the pages so far; asked once, of all, it has the
/// same answer.
fn prepared(job: &Job, warnings: &mut PrintWarnings) -> Result<Vec<Area>, Refused> {
    let (sheet, setup) = (job.sheet(), &job.setup);
    let paper = paper_of(setup.paper_size, setup.landscape, warnings)?;
    let (content_rect, _, _) = content_geometry(paper, setup.margins, warnings)?;
    let repeat_rows = normalize_repeat_rows(setup.repeat_rows, warnings);
    let repeat_rows = expand_repeat_rows_for_merges(&sheet, repeat_rows, warnings);
    let repeat_cols = normalize_repeat_cols(setup.repeat_cols, warnings);
    let repeat_cols = expand_repeat_cols_for_merges(&sheet, repeat_cols, warnings);
    let mut areas = Vec::new();
    for range in job.areas.iter().map(range_of) {
        areas.push(prepared_area(job, &sheet, range, repeat_rows, repeat_cols, content_rect, warnings)?);
    }
    let (rows, columns) = run_counts(&areas);
    if rows > job.lent_rows.room() || columns > job.lent_columns.room() {
        return Err(Refused(11));
    }
    enforce_print_limit(LimitKind::LogicalPages, job.page_limit, page_count(&areas))?;
    Ok(areas)
}

/// How many runs of rows and of columns the areas have together.
fn run_counts(areas: &[Area]) -> (usize, usize) {
    let rows = areas.iter().map(|area| area.row_segments.len()).sum();
    (rows, areas.iter().map(|area| area.column_segments.len()).sum())
}

/// The pages' total.
fn page_count(areas: &[Area]) -> u64 {
    areas.iter().map(|area| area.logical_pages).sum()
}

/// The notes so far on targets that no permille meets.
fn unreachable_so_far(warnings: &PrintWarnings) -> u64 {
    warnings.0.get(&PrintWarningCode::FitTargetUnreachable).copied().unwrap_or(0)
}

/// As prepare_print_area, up to its count of pages.
fn prepared_area(
    job: &Job,
    sheet: &Sheet,
    range: RenderRange,
    repeat_rows: Option<(u32, u32)>,
    repeat_cols: Option<(u16, u16)>,
    content_rect: Rect,
    warnings: &mut PrintWarnings,
) -> Result<Area, Refused> {
    let (setup, behavior) = (&job.setup, &job.behavior);
    let mut body_first_row = Some(range.first_row);
    let mut body_first_col = Some(range.first_col);
    if let Some((first, last)) = repeat_rows {
        if first <= range.first_row && last >= range.first_row {
            body_first_row = last.checked_add(1);
        }
    }
    if let Some((first, last)) = repeat_cols {
        if first <= range.first_col && last >= range.first_col {
            body_first_col = last.checked_add(1);
        }
    }
    let measured_rows: Vec<MeasuredAxisSlot<u32>> = measured(&job.row_indexes, &job.row_sizes);
    let measured_columns: Vec<MeasuredAxisSlot<u16>> = measured(&job.column_indexes, &job.column_sizes);
    let body_rows = body_first_row
        .filter(|&first| first <= range.last_row)
        .map_or_else(Vec::new, |first| measured_axis_range(&measured_rows, first, range.last_row));
    let body_columns = body_first_col
        .filter(|&first| first <= range.last_col)
        .map_or_else(Vec::new, |first| measured_axis_range(&measured_columns, first, range.last_col));
    let repeated_rows = match repeat_rows {
        Some((first, last)) => measured_axis_range(&measured_rows, first, last),
        None => Vec::new(),
    };
    let repeated_columns = match repeat_cols {
        Some((first, last)) => measured_axis_range(&measured_columns, first, last),
        None => Vec::new(),
    };
    let repeated_height = axis_total(&repeated_rows)?;
    let repeated_width = axis_total(&repeated_columns)?;
    let headings_width = if behavior.headings {
        ROW_HEADING_WIDTH
    } else {
        Fixed::ZERO
    };
    let headings_height = if behavior.headings {
        COLUMN_HEADING_HEIGHT
    } else {
        Fixed::ZERO
    };
    let row_merges = body_first_row
        .filter(|&first| first <= range.last_row)
        .map_or_else(Vec::new, |first| merge_intervals_rows(sheet, first, range.last_row));
    let col_merges = body_first_col
        .filter(|&first| first <= range.last_col)
        .map_or_else(Vec::new, |first| merge_intervals_columns(sheet, first, range.last_col));

    let unreachable_before = unreachable_so_far(warnings);
    let scale_permille = choose_scale(
        setup,
        behavior.fit_to_page,
        &body_rows,
        &body_columns,
        repeated_height,
        repeated_width,
        repeat_rows,
        repeat_cols,
        headings_height,
        headings_width,
        content_rect,
        &row_merges,
        &col_merges,
        warnings,
    )?;
    let manual_col_breaks: Vec<u16> = job.column_breaks.iter().map(|&number| u16::of(number)).collect();
    let row_breaks: &[u32] = if behavior.fit_to_page { &[] } else { &job.row_breaks };
    let col_breaks: &[u16] = if behavior.fit_to_page { &[] } else { &manual_col_breaks };
    let body_capacity_height =
        unscaled_capacity(content_rect.height, scale_permille, repeated_height, headings_height)?;
    let untitled_capacity_height =
        unscaled_capacity(content_rect.height, scale_permille, Fixed::ZERO, headings_height)?;
    let body_capacity_width =
        unscaled_capacity(content_rect.width, scale_permille, repeated_width, headings_width)?;
    let untitled_capacity_width =
        unscaled_capacity(content_rect.width, scale_permille, Fixed::ZERO, headings_width)?;
    let (row_segments, row_expansions, row_break_shifts) = partition_axis_with_breaks(
        &body_rows,
        untitled_capacity_height,
        body_capacity_height,
        &row_merges,
        row_breaks,
        repeat_rows,
    )?;
    let (column_segments, column_expansions, column_break_shifts) = partition_axis_with_breaks(
        &body_columns,
        untitled_capacity_width,
        body_capacity_width,
        &col_merges,
        col_breaks,
        repeat_cols,
    )?;
    warnings.add_count(
        PrintWarningCode::MergeExpandedPage,
        row_expansions.saturating_add(column_expansions),
    );
    warnings.add_count(
        PrintWarningCode::ManualBreakShiftedForMerge,
        row_break_shifts.saturating_add(column_break_shifts),
    );
    let row_segments = ensure_row_segment(row_segments, range);
    let column_segments = ensure_column_segment(column_segments, range);
    let row_overflows = axis_overflow_count(
        &row_segments,
        repeated_height,
        repeat_rows,
        headings_height,
        scale_permille,
        content_rect.height,
    )?;
    let column_overflows = axis_overflow_count(
        &column_segments,
        repeated_width,
        repeat_cols,
        headings_width,
        scale_permille,
        content_rect.width,
    )?;
    warnings.add_count(
        PrintWarningCode::PageContentOverflow,
        row_overflows.saturating_add(column_overflows),
    );
    let logical_pages = (row_segments.len() as u64)
        .checked_mul(column_segments.len() as u64)
        .ok_or(RenderError::CoordinateOverflow)?;
    Ok(Area {
        scale_permille,
        unreachable: unreachable_so_far(warnings) - unreachable_before,
        row_segments,
        column_segments,
        logical_pages,
    })
}

/// The page loop, where no page is omitted.
fn page_slots(
    page_order: PrintPageOrder,
    row_segments: &[AxisSegment<u32>],
    column_segments: &[AxisSegment<u16>],
) -> Vec<PageSlot> {
    let mut slots = Vec::new();
    match page_order {
        PrintPageOrder::OverThenDown => {
            for (vertical_index, rows) in row_segments.iter().copied().enumerate() {
                for (horizontal_index, columns) in column_segments.iter().copied().enumerate() {
                    slots.push(PageSlot {
                        horizontal_index,
                        vertical_index,
                        rows,
                        columns,
                    });
                }
            }
        }
        _ => {
            for (horizontal_index, columns) in column_segments.iter().copied().enumerate() {
                for (vertical_index, rows) in row_segments.iter().copied().enumerate() {
                    slots.push(PageSlot {
                        horizontal_index,
                        vertical_index,
                        rows,
                        columns,
                    });
                }
            }
        }
    }
    slots
}

// ---- the answer

const NOTES: [PrintWarningCode; 9] = [
    PrintWarningCode::UnknownPaperSizeFallback,
    PrintWarningCode::InvalidMarginsFallback,
    PrintWarningCode::PrintScaleClamped,
    PrintWarningCode::FitTargetUnreachable,
    PrintWarningCode::InvalidPrintTitlesIgnored,
    PrintWarningCode::PrintTitlesExpandedForMerge,
    PrintWarningCode::MergeExpandedPage,
    PrintWarningCode::ManualBreakShiftedForMerge,
    PrintWarningCode::PageContentOverflow,
];

/// The nine notes in document 01's order; any other note is a fault of the driver.
fn nine_notes(warnings: PrintWarnings) -> [u64; 9] {
    let mut counts = [0; 9];
    for warning in warnings.finish() {
        let at = NOTES.iter().position(|&code| code == warning.code);
        counts[at.expect("one of the nine notes")] += warning.occurrences;
    }
    counts
}

fn run_text<I: Index>(run: &AxisSegment<I>) -> String {
    let (first, last, size) = (run.first.number(), run.last.number(), run.size.raw());
    let (empty, manual) = (u8::from(run.body_is_empty), u8::from(run.manual_break_before));
    format!(" {first} {last} {size} {empty} {manual}")
}

fn slot_text(slot: &PageSlot) -> String {
    let (rows, columns) = (run_text(&slot.rows), run_text(&slot.columns));
    format!("page {} {}{rows}{columns}", slot.vertical_index, slot.horizontal_index)
}

/// The page with a number, from 1 to the count, or `no 14`.
fn numbered(slots: &[PageSlot], number: u64) -> String {
    let before = number.checked_sub(1).and_then(|before| usize::try_from(before).ok());
    let slot = before.and_then(|before| slots.get(before));
    slot.map_or_else(|| "no 14".to_string(), slot_text)
}

/// The numbers of the pages that are answered.
fn asked(pages: u64) -> Vec<u64> {
    if pages <= 12 {
        return (0..=pages + 1).collect();
    }
    let middle = [pages / 2, pages / 2 + 1];
    (0..=6).chain(middle).chain(pages - 5..=pages + 1).collect()
}

/// The pages of all areas, in order.
fn slots_of(order: PrintPageOrder, areas: &[Area]) -> Vec<PageSlot> {
    areas.iter().flat_map(|area| page_slots(order, &area.row_segments, &area.column_segments)).collect()
}

/// Permille, unreachable targets, counts of runs, and whether the bodies are empty.
fn area_text(area: &Area) -> String {
    let (rows, columns) = (&area.row_segments, &area.column_segments);
    let empties = [rows[0].body_is_empty, columns[0].body_is_empty].map(u8::from);
    let counts = [rows.len(), columns.len()];
    format!(" {} {}{}{}", area.scale_permille, area.unreachable, spelt(&counts), spelt(&empties))
}

/// The runs of all areas on an axis, in job order.
fn joined<I: Index>(areas: &[Area], segments: fn(&Area) -> &[AxisSegment<I>]) -> Vec<AxisSegment<u32>> {
    areas.iter().flat_map(|area| plain(segments(area).to_vec())).collect()
}

fn plan(mut job: Job) -> String {
    let mut warnings = PrintWarnings::default();
    let planned = match job.refused() {
        Some(number) => Err(Refused(number)),
        None => prepared(&job, &mut warnings),
    };
    let areas = match planned {
        Ok(areas) => areas,
        Err(Refused(number)) => {
            return format!("no {number}{}{}", job.lent_rows.text(), job.lent_columns.text());
        }
    };
    let (order, pages) = (job.behavior.page_order, page_count(&areas));
    let over_then_down = u8::from(order == PrintPageOrder::OverThenDown);
    let head = format!("plan {} {pages} {over_then_down}{}", areas.len(), spelt(&nine_notes(warnings)));
    let each: String = areas.iter().map(area_text).collect();
    let slots = slots_of(order, &areas);
    let by_number = asked(pages).into_iter().map(|n| format!("; {n} {}", numbered(&slots, n)));
    let by_number: String = by_number.collect();
    job.lent_rows.write(&joined(&areas, |area| &area.row_segments));
    job.lent_columns.write(&joined(&areas, |area| &area.column_segments));
    format!("{head}{each}{}{}{by_number}", job.lent_rows.text(), job.lent_columns.text())
}

// ---- pages by their number

/// A number of a list as an index: the largest that a u32 holds stands for any above it.
fn index_in(number: u64) -> u32 {
    u32::try_from(number).unwrap_or(u32::MAX)
}

/// The run of a list at a place.
fn run_in(list: &Lent, at: usize, empty: bool) -> String {
    let run = &list.0[RUN_NUMBERS * at..];
    let (first, last) = (index_in(run[0]), index_in(run[1]));
    format!(" {first} {last} {} {} {}", run[2], u8::from(empty), u8::from(run[3] > 0))
}

/// An area of a plan that is not as it was answered.
#[derive(Clone, Copy, Default)]
struct Counted {
    empties: [bool; 2],
    runs: [u64; 2],
}

/// The places of an area's pages, in order: the numbers of their two runs.
fn places_in(over_then_down: bool, [rows, columns]: [usize; 2]) -> Vec<(usize, usize)> {
    if over_then_down {
        (0..rows).flat_map(|v| (0..columns).map(move |h| (v, h))).collect()
    } else {
        (0..columns).flat_map(|h| (0..rows).map(move |v| (v, h))).collect()
    }
}

/// The pages of areas whose runs the lists have one after another, in order.
fn pages_in(over_then_down: bool, areas: &[Counted], lists: [&Lent; 2]) -> Vec<String> {
    let (mut pages, mut before) = (Vec::new(), [0, 0]);
    for area in areas {
        let runs = area.runs.map(|runs| runs as usize);
        pages.extend(places_in(over_then_down, runs).into_iter().map(|(v, h)| {
            let rows = run_in(lists[0], before[0] + v, area.empties[0]);
            let columns = run_in(lists[1], before[1] + h, area.empties[1]);
            format!("page {v} {h}{rows}{columns}")
        }));
        before = [before[0] + runs[0], before[1] + runs[1]];
    }
    pages
}

/// 11 of all areas' runs, then the page with the number out of the first `pages` pages, or 14.
fn page(line: &str) -> String {
    let mut fields = Fields(&line[1..]);
    let over_then_down = fields.flag();
    let others = [fields.next(2) as usize, fields.next(2) as usize];
    let lengths = [fields.next(2) as usize, fields.next(2) as usize];
    let given = fields.next(2) as usize;
    let starts = [fields.next(16), fields.next(16)];
    let (count, pages, number) = (fields.next(16), fields.next(16), fields.next(16));
    let mut areas = [Counted::default(); MOST_AREAS];
    for area in &mut areas[..given] {
        *area = Counted { empties: [fields.flag(), fields.flag()], runs: [fields.next(16), fields.next(16)] };
    }
    assert_eq!(fields.0, "", "more than the fields in {line:?}");
    let areas = &areas[..count.min(MOST_AREAS as u64) as usize];
    let lists = [0, 1].map(|axis| Lent::new(lengths[axis], starts[axis]).marked(others[axis]));
    let runs = |axis: usize| areas.iter().map(|area| u128::from(area.runs[axis])).sum::<u128>();
    if (0..2).any(|axis| runs(axis) > lists[axis].room() as u128) {
        return "no 11".to_string();
    }
    let all = pages_in(over_then_down, areas, [&lists[0], &lists[1]]);
    let kept = all.len().min(usize::try_from(pages).expect("64 bits"));
    match (1..=kept as u64).position(|n| n == number) {
        Some(at) => all[at].clone(),
        None => "no 14".to_string(),
    }
}
