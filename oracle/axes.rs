// Titles and runs by the Rust's own functions, and what plans.rs takes of them. A driver includes this
// file at its root.
//
// The fields of a line, each a space and so many hexadecimal digits:
//
//     2   axis, 0 rows or 1 columns; title, 0 absent or 1 given
//     2   six lengths: indexes, sizes, merges' firsts, merges' lasts, breaks, and the numbers of the
//         lent list of runs
//     8   the range's first and last, the title's first and last
//     16  capacity untitled, capacity titled
//     8   the indexes
//     16  the sizes
//     8   the merges' firsts, the merges' lasts, the breaks
//
//     t   titles: normalize_repeat and expand_repeat_for_merges, of title and merges alone
//     r   runs: the body as prepare_print_area makes it, and partition_axis_with_breaks
//
// A lent list of runs has four numbers a run: first, last, size, and 1 where a manual break stands
// before it. It starts with numbers of its own, each place another. The answer to t is `title`, first
// and last, or `absent`, and then the notes of titles ignored and expanded. The answer to r is `runs`,
// the counts of runs, expansions and shifts, and then the lent list, whole, after a `;`. A refusal is
// `no` and its number; of r the lent list follows here too.
//
// The Rust has no counterpart of the questions: they are asked here. Its columns are u16 and its
// capacities i64. A title or a break beyond u16, or a capacity beyond i64, is handed over as the
// largest: that lies beyond every column, or every sum, too.

const LARGEST_SIZE: u64 = 1_073_741_823;

/// An index of an axis, as the Rust has it there.
trait Index: Copy + Ord {
    fn of(number: u32) -> Self;
    fn number(self) -> u32;
    fn after(self) -> Option<Self>;
    fn sheet(firsts: &[u32], lasts: &[u32]) -> Sheet;
    fn widened(
        title: Option<(Self, Self)>,
        sheet: &Sheet,
        warnings: &mut PrintWarnings,
    ) -> Option<(Self, Self)>;
    fn merges(sheet: &Sheet, first: Self, last: Self) -> Vec<(Self, Self)>;
}

impl Index for u32 {
    fn of(number: u32) -> Self {
        number
    }

    fn number(self) -> u32 {
        self
    }

    fn after(self) -> Option<Self> {
        self.checked_add(1)
    }

    fn sheet(firsts: &[u32], lasts: &[u32]) -> Sheet {
        Sheet(firsts.iter().zip(lasts).map(|(&first, &last)| (first, 3, last, 4)).collect())
    }

    fn widened(
        title: Option<(Self, Self)>,
        sheet: &Sheet,
        warnings: &mut PrintWarnings,
    ) -> Option<(Self, Self)> {
        let title = normalize_repeat_rows(title, warnings);
        expand_repeat_rows_for_merges(sheet, title, warnings)
    }

    fn merges(sheet: &Sheet, first: Self, last: Self) -> Vec<(Self, Self)> {
        merge_intervals_rows(sheet, first, last)
    }
}

impl Index for u16 {
    fn of(number: u32) -> Self {
        u16::try_from(number).unwrap_or(u16::MAX)
    }

    fn number(self) -> u32 {
        u32::from(self)
    }

    fn after(self) -> Option<Self> {
        self.checked_add(1)
    }

    fn sheet(firsts: &[u32], lasts: &[u32]) -> Sheet {
        let columns = |(&first, &last)| (3, Self::of(first), 4, Self::of(last));
        Sheet(firsts.iter().zip(lasts).map(columns).collect())
    }

    fn widened(
        title: Option<(Self, Self)>,
        sheet: &Sheet,
        warnings: &mut PrintWarnings,
    ) -> Option<(Self, Self)> {
        let title = normalize_repeat_cols(title, warnings);
        expand_repeat_cols_for_merges(sheet, title, warnings)
    }

    fn merges(sheet: &Sheet, first: Self, last: Self) -> Vec<(Self, Self)> {
        merge_intervals_columns(sheet, first, last)
    }
}

/// What a line says.
struct Input {
    columns: bool,
    title: Option<(u32, u32)>,
    first: u32,
    last: u32,
    untitled: u64,
    titled: u64,
    indexes: Vec<u32>,
    sizes: Vec<u64>,
    merge_firsts: Vec<u32>,
    merge_lasts: Vec<u32>,
    breaks: Vec<u32>,
    lent: Lent,
}

/// How many numbers a run has in a list.
const RUN_NUMBERS: usize = 4;

/// The numbers that lent lists start with.
const ROWS_START: u64 = 2_000_000;
const COLUMNS_START: u64 = 2_500_000;

/// A lent list of runs.
struct Lent(Vec<u64>);

impl Lent {
    /// So many numbers, from one on.
    fn new(length: usize, start: u64) -> Self {
        Self((start..).take(length).collect())
    }

    /// Zeros, with room for so many runs.
    fn zeros(runs: usize) -> Self {
        Self(vec![0; RUN_NUMBERS * runs])
    }

    /// The list with a mark of 0 on the first run, and after so many others again.
    fn marked(mut self, others: usize) -> Self {
        for run in self.0.chunks_exact_mut(RUN_NUMBERS).step_by(others + 1) {
            run[3] = 0;
        }
        self
    }

    /// How many runs the list has room for.
    fn room(&self) -> usize {
        self.0.len() / RUN_NUMBERS
    }

    fn write(&mut self, runs: &[AxisSegment<u32>]) {
        for (numbers, run) in self.0.chunks_exact_mut(RUN_NUMBERS).zip(runs) {
            let mark = u64::from(run.manual_break_before);
            numbers.copy_from_slice(&[run.first.into(), run.last.into(), run.size.raw() as u64, mark]);
        }
    }

    fn text(&self) -> String {
        format!(";{}", spelt(&self.0))
    }
}

fn spelt<T: fmt::Display>(list: &[T]) -> String {
    list.iter().map(|number| format!(" {number}")).collect()
}

/// The fields of a line, one after another.
struct Fields<'a>(&'a str);

impl Fields<'_> {
    fn next(&mut self, digits: usize) -> u64 {
        let (field, rest) = self.0.split_at(digits + 1);
        assert!(field.starts_with(' '), "no space before {field:?}");
        self.0 = rest;
        u64::from_str_radix(&field[1..], 16).expect("hexadecimal digits")
    }

    fn flag(&mut self) -> bool {
        match self.next(2) {
            0 => false,
            1 => true,
            other => panic!("a flag of {other}"),
        }
    }

    fn number(&mut self) -> u32 {
        self.next(8) as u32
    }

    fn numbers(&mut self, count: usize) -> Vec<u32> {
        (0..count).map(|_| self.number()).collect()
    }

    fn sizes(&mut self, count: usize) -> Vec<u64> {
        (0..count).map(|_| self.next(16)).collect()
    }
}

fn input(line: &str) -> Input {
    let mut fields = Fields(&line[1..]);
    let columns = fields.flag();
    let given = fields.flag();
    let lengths: Vec<usize> = (0..6).map(|_| fields.next(2) as usize).collect();
    let (first, last) = (fields.number(), fields.number());
    let title = (fields.number(), fields.number());
    let input = Input {
        columns,
        title: given.then_some(title),
        first,
        last,
        untitled: fields.next(16),
        titled: fields.next(16),
        indexes: fields.numbers(lengths[0]),
        sizes: fields.sizes(lengths[1]),
        merge_firsts: fields.numbers(lengths[2]),
        merge_lasts: fields.numbers(lengths[3]),
        breaks: fields.numbers(lengths[4]),
        lent: Lent::new(lengths[5], ROWS_START),
    };
    assert_eq!(fields.0, "", "more than the fields in {line:?}");
    input
}

// ---- the questions

impl Input {
    fn limit(&self) -> u32 {
        if self.columns {
            u32::from(MAX_WORKSHEET_COLUMN)
        } else {
            MAX_WORKSHEET_ROW
        }
    }

    fn merges_pair_up(&self) -> bool {
        let mut pairs = self.merge_firsts.iter().zip(&self.merge_lasts);
        self.merge_firsts.len() == self.merge_lasts.len() && pairs.all(|(first, last)| first <= last)
    }

    fn merges_inside(&self) -> bool {
        self.merge_lasts.iter().all(|&last| last <= self.limit())
    }

    fn indexes_rise_inside(&self) -> bool {
        self.indexes.windows(2).all(|pair| pair[0] < pair[1])
            && self.indexes.iter().all(|&index| index <= self.limit())
    }

    /// The first question that a title's input does not pass.
    fn title_refused(&self) -> Option<u8> {
        let passed = [(6, self.merges_pair_up()), (7, self.merges_inside())];
        passed.into_iter().find(|(_, ok)| !ok).map(|(number, _)| number)
    }

    /// The first question that an axis does not pass, but for 11.
    fn runs_refused(&self) -> Option<u8> {
        let passed = [
            (6, self.indexes.len() == self.sizes.len() && self.first <= self.last && self.merges_pair_up()),
            (7, self.last <= self.limit() && self.merges_inside()),
            (8, self.indexes_rise_inside()),
            (9, self.sizes.iter().all(|&size| size <= LARGEST_SIZE)),
        ];
        passed.into_iter().find(|(_, ok)| !ok).map(|(number, _)| number)
    }
}

// ---- titles

fn titled<I: Index>(input: &Input) -> String {
    let sheet = I::sheet(&input.merge_firsts, &input.merge_lasts);
    let title = input.title.map(|(first, last)| (I::of(first), I::of(last)));
    let mut warnings = PrintWarnings::default();
    let title = I::widened(title, &sheet, &mut warnings);
    let (mut ignored, mut expanded) = (0, 0);
    for warning in warnings.finish() {
        match warning.code {
            PrintWarningCode::InvalidPrintTitlesIgnored => ignored += warning.occurrences,
            PrintWarningCode::PrintTitlesExpandedForMerge => expanded += warning.occurrences,
            other => panic!("another note: {other:?}"),
        }
    }
    match title {
        Some((first, last)) => format!("title {} {} {ignored} {expanded}", first.number(), last.number()),
        None => format!("absent {ignored} {expanded}"),
    }
}

fn title(input: &Input) -> String {
    match input.title_refused() {
        Some(number) => format!("no {number}"),
        None if input.columns => titled::<u16>(input),
        None => titled::<u32>(input),
    }
}

// ---- runs

/// Runs, expansions, shifts.
type Cut = (Vec<AxisSegment<u32>>, u64, u64);

fn capacity(value: u64) -> Fixed {
    Fixed::from_raw(i64::try_from(value).unwrap_or(i64::MAX))
}

fn measured<I: Index>(indexes: &[u32], sizes: &[u64]) -> Vec<MeasuredAxisSlot<I>> {
    let slot = |(&index, &size)| MeasuredAxisSlot {
        index: I::of(index),
        size: Fixed::from_raw(size as i64),
    };
    indexes.iter().zip(sizes).map(slot).collect()
}

/// The slots and the merges of the body, as prepare_print_area makes them.
fn body<I: Index>(input: &Input, repeat: Option<(I, I)>) -> (Vec<MeasuredAxisSlot<I>>, Vec<(I, I)>) {
    let sheet = I::sheet(&input.merge_firsts, &input.merge_lasts);
    let measured = measured(&input.indexes, &input.sizes);
    let (range_first, range_last) = (I::of(input.first), I::of(input.last));
    let mut body_first = Some(range_first);
    if let Some((first, last)) = repeat {
        if first <= range_first && last >= range_first {
            body_first = last.after();
        }
    }
    let start = body_first.filter(|&first| first <= range_last);
    (
        start.map_or_else(Vec::new, |first| measured_axis_range(&measured, first, range_last)),
        start.map_or_else(Vec::new, |first| I::merges(&sheet, first, range_last)),
    )
}

fn cut<I: Index>(input: &Input) -> Cut {
    let repeat = input.title.map(|(first, last)| (I::of(first), I::of(last)));
    let (slots, merges) = body(input, repeat);
    let breaks: Vec<I> = input.breaks.iter().map(|&number| I::of(number)).collect();
    let (untitled, titled) = (capacity(input.untitled), capacity(input.titled));
    let (segments, expansions, shifts) =
        partition_axis_with_breaks(&slots, untitled, titled, &merges, &breaks, repeat).expect("sums within i64");
    (plain(segments), expansions, shifts)
}

/// The runs with their indexes as u32.
fn plain<I: Index>(segments: Vec<AxisSegment<I>>) -> Vec<AxisSegment<u32>> {
    let runs = segments.into_iter().map(|run| AxisSegment {
        first: run.first.number(),
        last: run.last.number(),
        size: run.size,
        body_is_empty: run.body_is_empty,
        manual_break_before: run.manual_break_before,
    });
    runs.collect()
}

fn runs(mut input: Input) -> String {
    if let Some(number) = input.runs_refused() {
        return format!("no {number}{}", input.lent.text());
    }
    let (runs, expansions, shifts) = if input.columns {
        cut::<u16>(&input)
    } else {
        cut::<u32>(&input)
    };
    if runs.len() > input.lent.room() {
        return format!("no 11{}", input.lent.text());
    }
    input.lent.write(&runs);
    format!("runs {} {expansions} {shifts}{}", runs.len(), input.lent.text())
}
