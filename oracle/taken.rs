// Taken unchanged from rxls at commit 04f9f004cc (licence MIT, see NOTICE).
// Made by oracle/take.py; not to be edited.

// render/src/error.rs:6
/// A bounded resource category.
#[derive(Debug, Clone, Copy, PartialEq, Eq, Hash)]
pub enum LimitKind {
    /// Source rows in the selected range.
    Rows,
    /// Source columns in the selected range.
    Columns,
    /// Rectangular source cells before hidden-row filtering.
    Cells,
    /// Conditional-formatting rules retained for one worksheet.
    ConditionalRules,
    /// Cell/rule evaluations performed while resolving conditional formatting.
    ConditionalEvaluations,
    /// Drawing, chart, image, and sparkline objects retained for one worksheet.
    DrawingObjects,
    /// Embedded image payload bytes inspected before placeholder rendering.
    MediaBytes,
    /// Width or height declared by one decoded embedded image.
    ImageDimension,
    /// Decoded pixels declared by one embedded image.
    ImagePixels,
    /// Aggregate decoded RGBA bytes retained for embedded images.
    DecodedMediaBytes,
    /// Data series retained across charts on one worksheet.
    ChartSeries,
    /// Resolved source points retained across charts and sparklines.
    ChartPoints,
    /// Accumulated UTF-8 display-text bytes.
    TextBytes,
    /// Unicode scalar values passed to the text backend.
    Glyphs,
    /// Shaped visual text runs.
    TextRuns,
    /// Laid-out text lines.
    TextLines,
    /// Vector path commands generated from glyph outlines.
    PathCommands,
    /// Backend-neutral scene nodes.
    SceneNodes,
    /// Canvas width or height in raw 1/1024-pixel units.
    Dimension,
    /// Serialized SVG bytes.
    OutputBytes,
    /// Logical page slots before sparse omission.
    LogicalPages,
    /// Emitted print pages.
    Pages,
    /// Scene nodes on one print page.
    PageSceneNodes,
    /// Scene nodes accumulated across a print document.
    TotalSceneNodes,
    /// Backend vector commands.
    BackendCommands,
    /// Serialized PDF bytes.
    PdfBytes,
    /// Raster width or height in pixels.
    RasterDimension,
    /// Raster pixels on one page.
    RasterPixels,
    /// Encoded PNG bytes on one page.
    PngBytes,
}

// render/src/error.rs:106
/// A typed layout or serialization error.
#[derive(Debug, Clone, PartialEq, Eq)]
pub enum RenderError {
    /// The requested sheet does not exist.
    SheetIndexOutOfRange {
        /// Requested zero-based sheet index.
        requested: usize,
        /// Number of available sheets.
        sheet_count: usize,
    },
    /// The requested inclusive rectangle is reversed.
    InvalidRange {
        /// First row.
        first_row: u32,
        /// First column.
        first_col: u16,
        /// Last row.
        last_row: u32,
        /// Last column.
        last_col: u16,
    },
    /// The requested rectangle exceeds the spreadsheet grid.
    RangeOutsideGrid {
        /// Requested final row.
        last_row: u32,
        /// Requested final column.
        last_col: u16,
        /// Largest supported zero-based row.
        max_row: u32,
        /// Largest supported zero-based column.
        max_col: u16,
    },
    /// A configured resource cap was exceeded.
    LimitExceeded {
        /// Resource category.
        kind: LimitKind,
        /// Configured inclusive upper bound.
        limit: u64,
        /// Required amount, when exactly known.
        actual: u64,
    },
    /// Fixed-point coordinate arithmetic overflowed.
    CoordinateOverflow,
    /// The verified typography backend rejected otherwise bounded input.
    Typography {
        /// Stable, path-free reason code.
        reason: &'static str,
    },
    /// A deterministic output backend rejected the bounded scene.
    Backend {
        /// Stable, path-free reason code.
        reason: &'static str,
    },
}

// render/src/scene.rs:8
/// Number of fixed-point units in one CSS pixel.
pub const FIXED_UNITS_PER_PIXEL: i64 = 1_024;

// render/src/scene.rs:11
/// A deterministic signed fixed-point CSS-pixel coordinate.
///
/// Geometry uses 1/1024 pixel units. This avoids backend-specific floating-point
/// formatting and gives SVG, raster, and PDF backends one shared layout surface.
#[derive(Clone, Copy, Default, PartialEq, Eq, PartialOrd, Ord, Hash)]
pub struct Fixed(i64);

// render/src/scene.rs:18
impl Fixed {
    /// Zero pixels.
    pub const ZERO: Self = Self(0);

    /// Construct a coordinate from raw 1/1024-pixel units.
    pub const fn from_raw(raw: i64) -> Self {
        Self(raw)
    }

    /// Construct a coordinate from a whole number of CSS pixels.
    pub const fn from_pixels(pixels: i64) -> Self {
        Self(pixels.saturating_mul(FIXED_UNITS_PER_PIXEL))
    }

    /// Return the raw 1/1024-pixel value.
    pub const fn raw(self) -> i64 {
        self.0
    }

    pub(crate) fn checked_add(self, other: Self) -> Option<Self> {
        self.0.checked_add(other.0).map(Self)
    }

    pub(crate) fn checked_sub(self, other: Self) -> Option<Self> {
        self.0.checked_sub(other.0).map(Self)
    }

    pub(crate) fn max(self, other: Self) -> Self {
        Self(self.0.max(other.0))
    }
}

// render/src/scene.rs:50
impl fmt::Debug for Fixed {
    fn fmt(&self, f: &mut fmt::Formatter<'_>) -> fmt::Result {
        write!(f, "Fixed({})", format_fixed(*self))
    }
}

// render/src/scene.rs:56
/// Format a fixed value as the shortest exact decimal representation.
pub(crate) fn format_fixed(value: Fixed) -> String {
    let raw = i128::from(value.raw());
    if raw == 0 {
        return "0".to_string();
    }
    let negative = raw < 0;
    let magnitude = raw.unsigned_abs();
    let scale = FIXED_UNITS_PER_PIXEL as u128;
    let whole = magnitude / scale;
    let mut remainder = magnitude % scale;
    let mut out = String::new();
    if negative {
        out.push('-');
    }
    out.push_str(&whole.to_string());
    if remainder != 0 {
        out.push('.');
        while remainder != 0 {
            remainder *= 10;
            out.push(char::from(b'0' + (remainder / scale) as u8));
            remainder %= scale;
        }
    }
    out
}

// render/src/scene.rs:108
/// A fixed-point rectangle.
#[derive(Debug, Clone, Copy, PartialEq, Eq, Hash)]
pub struct Rect {
    /// Left coordinate.
    pub x: Fixed,
    /// Top coordinate.
    pub y: Fixed,
    /// Width.
    pub width: Fixed,
    /// Height.
    pub height: Fixed,
}

// src/model/print.rs:48
/// Authored order used to traverse a worksheet's printed pages.
#[derive(Debug, Clone, Copy, PartialEq, Eq, Hash)]
#[non_exhaustive]
pub enum PrintPageOrder {
    /// Print down the worksheet first, then move to the next page column.
    DownThenOver,
    /// Print across the worksheet first, then move to the next page row.
    OverThenDown,
}

// src/model/print.rs:426
/// Print / page setup for a worksheet (authoring). All fields optional; an
/// unset field uses Excel's default.
#[derive(Debug, Clone, Default, PartialEq)]
pub struct PageSetup {
    /// Landscape orientation (default portrait).
    pub landscape: bool,
    /// Page margins in inches: `(left, right, top, bottom, header, footer)`.
    pub margins: Option<(f64, f64, f64, f64, f64, f64)>,
    /// Print area `(r0, c0, r1, c1)` (0-based, inclusive).
    pub print_area: Option<(u32, u16, u32, u16)>,
    /// Rows to repeat at the top of every printed page, `first..=last` (0-based).
    pub repeat_rows: Option<(u32, u32)>,
    /// Columns to repeat at the left of every printed page, `first..=last`
    /// (0-based).
    pub repeat_cols: Option<(u16, u16)>,
    /// Scale to fit this many pages wide (`fit_to_width`) / tall (`fit_to_height`).
    pub fit_to_width: Option<u16>,
    /// See [`Self::fit_to_width`].
    pub fit_to_height: Option<u16>,
    /// Header text (Excel `&`-codes, e.g. `&C&"Bold"Title`).
    pub header: Option<String>,
    /// Footer text (e.g. `&CPage &P of &N`).
    pub footer: Option<String>,
    /// Paper size code (Excel's `paperSize`, e.g. `1` = Letter, `9` = A4).
    pub paper_size: Option<u16>,
    /// Print scale as a percentage (10–400); ignored when fit-to-page is set.
    pub scale: Option<u16>,
    /// Center the print area horizontally on the page (`<printOptions
    /// horizontalCentered="1">`).
    pub center_horizontally: bool,
    /// Center the print area vertically on the page (`<printOptions
    /// verticalCentered="1">`).
    pub center_vertically: bool,
    /// First printed page number; emits `firstPageNumber="N" useFirstPageNumber="1"`
    /// on `<pageSetup>`. `None` uses Excel's default (auto).
    pub first_page_number: Option<u16>,
}

// render/src/print.rs:31
const ROW_HEADING_WIDTH: Fixed = Fixed::from_pixels(38);

// render/src/print.rs:32
const COLUMN_HEADING_HEIGHT: Fixed = Fixed::from_pixels(17);

// render/src/print.rs:28
const DEFAULT_LEFT_RIGHT_INCHES: f64 = 0.7;

// render/src/print.rs:29
const DEFAULT_TOP_BOTTOM_INCHES: f64 = 0.75;

// render/src/print.rs:30
const DEFAULT_HEADER_FOOTER_INCHES: f64 = 0.3;

// render/src/print.rs:40
const MIN_PRINT_SCALE_PERMILLE: u16 = 100;

// render/src/print.rs:41
const MAX_PRINT_SCALE_PERMILLE: u16 = 4_000;

// render/src/print.rs:42
const MAX_FIT_SCALE_PERMILLE: u16 = 1_000;

// render/src/print.rs:125
/// Stable typed print approximation or recovery.
#[derive(Debug, Clone, Copy, PartialEq, Eq, PartialOrd, Ord, Hash)]
pub enum PrintWarningCode {
    /// A source print-area reference was malformed and omitted by the reader.
    SourceInvalidPrintArea,
    /// A source manual page break was malformed and omitted by the reader.
    SourceInvalidPageBreak,
    /// Source print metadata referenced a missing definition or relationship.
    SourcePrintReferenceMissing,
    /// A source print property could not be represented by the reader.
    SourcePrintPropertyUnsupported,
    /// Malformed source header/footer content could not be retained exactly.
    SourceHeaderFooterMalformed,
    /// A source or rxls print-metadata retention limit was reached.
    SourcePrintMetadataLimitExceeded,
    /// An unknown paper code used the deterministic Letter fallback.
    UnknownPaperSizeFallback,
    /// Invalid margins used deterministic Excel-compatible defaults.
    InvalidMarginsFallback,
    /// An explicit percentage was outside 10-400% and was clamped.
    PrintScaleClamped,
    /// Fit-to-page could not satisfy its target at the minimum scale.
    FitTargetUnreachable,
    /// A repeated-title range was reversed, outside the grid, or unusable.
    InvalidPrintTitlesIgnored,
    /// Legacy warning identifier for a repeated-title range in the middle of
    /// a print area. Current page composition deduplicates these overlaps.
    MidAreaPrintTitlesDuplicated,
    /// A merge larger than the available body box forced one page to overflow.
    MergeExpandedPage,
    /// Repeated title axes expanded so a merge was never split at the title/body
    /// seam.
    PrintTitlesExpandedForMerge,
    /// A manual page break was moved to a merge boundary so the merge remained
    /// indivisible.
    ManualBreakShiftedForMerge,
    /// One or more indivisible rows, columns, or merges exceed the printable
    /// body box at the selected scale.
    PageContentOverflow,
    /// Logical blank pages were omitted after scale and breaks were finalized.
    SparsePagesOmitted,
    /// A volatile header/footer date or time field was omitted.
    VolatileHeaderFooterFieldOmitted,
    /// Header/footer font/style control codes were flattened.
    HeaderFooterFormattingSimplified,
    /// A filename/path/picture field could not be resolved from the public
    /// workbook model and was omitted.
    HeaderFooterSourceFieldOmitted,
    /// Multiple authored print areas selected different fit scales; page-map
    /// entries retain each exact scale.
    MultipleAreaScales,
}

// render/src/print.rs:207
/// Aggregated print warning.
#[derive(Debug, Clone, PartialEq, Eq)]
pub struct PrintWarning {
    /// Warning category.
    pub code: PrintWarningCode,
    /// Occurrence count.
    pub occurrences: u64,
}

// render/src/print.rs:216
/// Deterministic paper geometry in fixed-point CSS pixels.
#[derive(Debug, Clone, Copy, PartialEq, Eq)]
pub struct PaperGeometry {
    /// Source paper code after fallback. Zero denotes the content-sized canvas
    /// used by [`PrintLayoutOverride::SinglePageSheets`].
    pub paper_code: u16,
    /// Page width after orientation.
    pub width: Fixed,
    /// Page height after orientation.
    pub height: Fixed,
}

// render/src/print.rs:430
#[derive(Default)]
struct PrintWarnings(BTreeMap<PrintWarningCode, u64>);

// render/src/print.rs:433
impl PrintWarnings {
    fn add(&mut self, code: PrintWarningCode) {
        self.add_count(code, 1);
    }

    fn add_count(&mut self, code: PrintWarningCode, count: u64) {
        if count != 0 {
            let entry = self.0.entry(code).or_default();
            *entry = entry.saturating_add(count);
        }
    }

    fn finish(self) -> Vec<PrintWarning> {
        self.0
            .into_iter()
            .map(|(code, occurrences)| PrintWarning { code, occurrences })
            .collect()
    }
}

// render/src/print.rs:513
#[derive(Debug, Clone, Copy, PartialEq, Eq)]
struct AxisSegment<I> {
    first: I,
    last: I,
    size: Fixed,
    body_is_empty: bool,
    manual_break_before: bool,
}

// render/src/print.rs:522
#[derive(Debug, Clone, Copy, PartialEq, Eq)]
struct PageSlot {
    horizontal_index: usize,
    vertical_index: usize,
    rows: AxisSegment<u32>,
    columns: AxisSegment<u16>,
}

// render/src/print.rs:2919
fn normalize_repeat_rows(
    range: Option<(u32, u32)>,
    warnings: &mut PrintWarnings,
) -> Option<(u32, u32)> {
    match range {
        Some((first, last)) if first <= last && last <= MAX_WORKSHEET_ROW => Some((first, last)),
        Some(_) => {
            warnings.add(PrintWarningCode::InvalidPrintTitlesIgnored);
            None
        }
        None => None,
    }
}

// render/src/print.rs:2933
fn normalize_repeat_cols(
    range: Option<(u16, u16)>,
    warnings: &mut PrintWarnings,
) -> Option<(u16, u16)> {
    match range {
        Some((first, last)) if first <= last && last <= MAX_WORKSHEET_COLUMN => Some((first, last)),
        Some(_) => {
            warnings.add(PrintWarningCode::InvalidPrintTitlesIgnored);
            None
        }
        None => None,
    }
}

// render/src/print.rs:2947
fn expand_repeat_rows_for_merges(
    sheet: &Sheet,
    range: Option<(u32, u32)>,
    warnings: &mut PrintWarnings,
) -> Option<(u32, u32)> {
    let (mut first, mut last) = range?;
    loop {
        let previous = (first, last);
        for &(merge_first, _, merge_last, _) in sheet.merged_ranges() {
            if merge_first <= last && merge_last >= first {
                first = first.min(merge_first);
                last = last.max(merge_last);
            }
        }
        if (first, last) == previous {
            break;
        }
        warnings.add(PrintWarningCode::PrintTitlesExpandedForMerge);
    }
    Some((first, last))
}

// render/src/print.rs:2969
fn expand_repeat_cols_for_merges(
    sheet: &Sheet,
    range: Option<(u16, u16)>,
    warnings: &mut PrintWarnings,
) -> Option<(u16, u16)> {
    let (mut first, mut last) = range?;
    loop {
        let previous = (first, last);
        for &(_, merge_first, _, merge_last) in sheet.merged_ranges() {
            if merge_first <= last && merge_last >= first {
                first = first.min(merge_first);
                last = last.max(merge_last);
            }
        }
        if (first, last) == previous {
            break;
        }
        warnings.add(PrintWarningCode::PrintTitlesExpandedForMerge);
    }
    Some((first, last))
}

// render/src/print.rs:2991
fn paper_geometry(
    code: Option<u16>,
    landscape: bool,
    warnings: &mut PrintWarnings,
) -> Result<PaperGeometry, RenderError> {
    let requested = code.unwrap_or(1);
    let (resolved, width_in, height_in) = match requested {
        1 => (1, 8.5, 11.0),
        2 => (2, 8.5, 11.0),
        3 => (3, 11.0, 17.0),
        4 => (4, 17.0, 11.0),
        5 => (5, 8.5, 14.0),
        6 => (6, 5.5, 8.5),
        7 => (7, 7.25, 10.5),
        8 => (8, 11.692_913_385_8, 16.535_433_070_9),
        9 => (9, 8.267_716_535_4, 11.692_913_385_8),
        10 => (10, 8.267_716_535_4, 11.692_913_385_8),
        11 => (11, 5.826_771_653_5, 8.267_716_535_4),
        12 => (12, mm_to_inches(257.0), mm_to_inches(364.0)),
        13 => (13, mm_to_inches(182.0), mm_to_inches(257.0)),
        14 => (14, 8.5, 13.0),
        15 => (15, mm_to_inches(215.0), mm_to_inches(275.0)),
        16 => (16, 10.0, 14.0),
        17 => (17, 11.0, 17.0),
        18 => (18, 8.5, 11.0),
        19 => (19, 3.875, 8.875),
        20 => (20, 4.125, 9.5),
        21 => (21, 4.5, 10.375),
        22 => (22, 4.75, 11.0),
        23 => (23, 5.0, 11.5),
        27 => (27, mm_to_inches(110.0), mm_to_inches(220.0)),
        28 => (28, mm_to_inches(162.0), mm_to_inches(229.0)),
        29 => (29, mm_to_inches(324.0), mm_to_inches(458.0)),
        30 => (30, mm_to_inches(229.0), mm_to_inches(324.0)),
        31 => (31, mm_to_inches(114.0), mm_to_inches(162.0)),
        42 => (42, mm_to_inches(250.0), mm_to_inches(353.0)),
        43 => (43, mm_to_inches(100.0), mm_to_inches(148.0)),
        66 => (66, mm_to_inches(420.0), mm_to_inches(594.0)),
        70 => (70, mm_to_inches(105.0), mm_to_inches(148.0)),
        _ => {
            warnings.add(PrintWarningCode::UnknownPaperSizeFallback);
            (1, 8.5, 11.0)
        }
    };
    let mut width = inches_to_fixed(width_in)?;
    let mut height = inches_to_fixed(height_in)?;
    if landscape {
        std::mem::swap(&mut width, &mut height);
    }
    Ok(PaperGeometry {
        paper_code: resolved,
        width,
        height,
    })
}

// render/src/print.rs:3047
const fn mm_to_inches(millimeters: f64) -> f64 {
    millimeters / 25.4
}

// render/src/print.rs:3051
fn content_geometry(
    paper: PaperGeometry,
    margins: Option<(f64, f64, f64, f64, f64, f64)>,
    warnings: &mut PrintWarnings,
) -> Result<(Rect, Fixed, Fixed), RenderError> {
    let defaults = (
        DEFAULT_LEFT_RIGHT_INCHES,
        DEFAULT_LEFT_RIGHT_INCHES,
        DEFAULT_TOP_BOTTOM_INCHES,
        DEFAULT_TOP_BOTTOM_INCHES,
        DEFAULT_HEADER_FOOTER_INCHES,
        DEFAULT_HEADER_FOOTER_INCHES,
    );
    let valid = margins.filter(|values| {
        let all = [values.0, values.1, values.2, values.3, values.4, values.5];
        all.iter().all(|value| value.is_finite() && *value >= 0.0)
            && (values.0 + values.1) * 96.0
                < paper.width.raw() as f64 / FIXED_UNITS_PER_PIXEL as f64
            && (values.2 + values.3) * 96.0
                < paper.height.raw() as f64 / FIXED_UNITS_PER_PIXEL as f64
            && values.4 * 96.0 < paper.height.raw() as f64 / FIXED_UNITS_PER_PIXEL as f64
            && values.5 * 96.0 < paper.height.raw() as f64 / FIXED_UNITS_PER_PIXEL as f64
    });
    if margins.is_some() && valid.is_none() {
        warnings.add(PrintWarningCode::InvalidMarginsFallback);
    }
    let (left, right, top, bottom, header, footer) = valid.unwrap_or(defaults);
    let left = inches_to_fixed(left)?;
    let right = inches_to_fixed(right)?;
    let top = inches_to_fixed(top)?;
    let bottom = inches_to_fixed(bottom)?;
    let header = inches_to_fixed(header)?;
    let footer = inches_to_fixed(footer)?;
    let width = paper
        .width
        .checked_sub(left)
        .and_then(|value| value.checked_sub(right))
        .ok_or(RenderError::CoordinateOverflow)?;
    let height = paper
        .height
        .checked_sub(top)
        .and_then(|value| value.checked_sub(bottom))
        .ok_or(RenderError::CoordinateOverflow)?;
    let header_y = header;
    let footer_y = paper
        .height
        .checked_sub(footer)
        .and_then(|value| value.checked_sub(Fixed::from_pixels(16)))
        .ok_or(RenderError::CoordinateOverflow)?;
    Ok((
        Rect {
            x: left,
            y: top,
            width,
            height,
        },
        header_y,
        footer_y,
    ))
}

// render/src/print.rs:3112
#[allow(clippy::too_many_arguments)]
fn choose_scale(
    setup: &PageSetup,
    fit_to_page: bool,
    rows: &[MeasuredAxisSlot<u32>],
    columns: &[MeasuredAxisSlot<u16>],
    repeated_height: Fixed,
    repeated_width: Fixed,
    repeat_rows: Option<(u32, u32)>,
    repeat_cols: Option<(u16, u16)>,
    headings_height: Fixed,
    headings_width: Fixed,
    content: Rect,
    row_merges: &[(u32, u32)],
    col_merges: &[(u16, u16)],
    warnings: &mut PrintWarnings,
) -> Result<u16, RenderError> {
    if !fit_to_page {
        let requested = setup.scale.unwrap_or(100);
        let clamped = requested.clamp(MIN_PRINT_SCALE_PERMILLE / 10, MAX_PRINT_SCALE_PERMILLE / 10);
        if requested != clamped {
            warnings.add(PrintWarningCode::PrintScaleClamped);
        }
        return Ok(clamped.saturating_mul(10));
    }
    // CT_PageSetup defaults omitted fit dimensions to 1. Excel-compatible
    // explicit zero leaves that dimension unconstrained.
    let fit_width = match setup.fit_to_width.unwrap_or(1) {
        0 => None,
        value => Some(value),
    };
    let fit_height = match setup.fit_to_height.unwrap_or(1) {
        0 => None,
        value => Some(value),
    };
    let fits = |scale| -> Result<bool, RenderError> {
        let row_capacity =
            unscaled_capacity(content.height, scale, repeated_height, headings_height)?;
        let untitled_row_capacity =
            unscaled_capacity(content.height, scale, Fixed::ZERO, headings_height)?;
        let col_capacity = unscaled_capacity(content.width, scale, repeated_width, headings_width)?;
        let untitled_col_capacity =
            unscaled_capacity(content.width, scale, Fixed::ZERO, headings_width)?;
        let (row_pages, _) = partition_axis(
            rows,
            untitled_row_capacity,
            row_capacity,
            row_merges,
            repeat_rows,
        )?;
        let (col_pages, _) = partition_axis(
            columns,
            untitled_col_capacity,
            col_capacity,
            col_merges,
            repeat_cols,
        )?;
        Ok(axis_segments_fit(
            &row_pages,
            repeated_height,
            repeat_rows,
            headings_height,
            scale,
            content.height,
        )? && axis_segments_fit(
            &col_pages,
            repeated_width,
            repeat_cols,
            headings_width,
            scale,
            content.width,
        )? && fit_height.is_none_or(|target| row_pages.len() <= usize::from(target))
            && fit_width.is_none_or(|target| col_pages.len() <= usize::from(target)))
    };
    if !fits(MIN_PRINT_SCALE_PERMILLE)? {
        warnings.add(PrintWarningCode::FitTargetUnreachable);
        return Ok(MIN_PRINT_SCALE_PERMILLE);
    }
    let mut low = MIN_PRINT_SCALE_PERMILLE;
    let mut high = MAX_FIT_SCALE_PERMILLE;
    while low < high {
        let middle = low + (high - low).div_ceil(2);
        if fits(middle)? {
            low = middle;
        } else {
            high = middle - 1;
        }
    }
    Ok(low)
}

// render/src/print.rs:3207
fn unscaled_capacity(
    page_capacity: Fixed,
    scale_permille: u16,
    repeated: Fixed,
    headings: Fixed,
) -> Result<Fixed, RenderError> {
    let raw = i128::from(page_capacity.raw())
        .checked_mul(1_000)
        .and_then(|value| value.checked_div(i128::from(scale_permille)))
        .ok_or(RenderError::CoordinateOverflow)?;
    let raw = i64::try_from(raw).map_err(|_| RenderError::CoordinateOverflow)?;
    Ok(Fixed::from_raw(raw)
        .checked_sub(repeated)
        .and_then(|value| value.checked_sub(headings))
        .unwrap_or(Fixed::from_raw(1))
        .max(Fixed::from_raw(1)))
}

// render/src/print.rs:3225
fn axis_segment_repeats_titles<I>(segment: &AxisSegment<I>, repeat: Option<(I, I)>) -> bool
where
    I: Copy + Ord,
{
    segment.body_is_empty || repeat.is_some_and(|(_, repeat_last)| segment.first > repeat_last)
}

// render/src/print.rs:3232
fn axis_rendered_size<I>(
    segment: &AxisSegment<I>,
    repeated: Fixed,
    repeat: Option<(I, I)>,
    headings: Fixed,
) -> Result<Fixed, RenderError>
where
    I: Copy + Ord,
{
    segment
        .size
        .checked_add(if axis_segment_repeats_titles(segment, repeat) {
            repeated
        } else {
            Fixed::ZERO
        })
        .and_then(|value| value.checked_add(headings))
        .ok_or(RenderError::CoordinateOverflow)
}

// render/src/print.rs:3252
#[allow(clippy::too_many_arguments)]
fn axis_overflow_count<I>(
    segments: &[AxisSegment<I>],
    repeated: Fixed,
    repeat: Option<(I, I)>,
    headings: Fixed,
    scale_permille: u16,
    page_capacity: Fixed,
) -> Result<u64, RenderError>
where
    I: Copy + Ord,
{
    segments.iter().try_fold(0_u64, |count, segment| {
        let rendered = axis_rendered_size(segment, repeated, repeat, headings)?;
        Ok(count + u64::from(scale_fixed(rendered, scale_permille)? > page_capacity))
    })
}

// render/src/print.rs:3270
#[allow(clippy::too_many_arguments)]
fn axis_segments_fit<I>(
    segments: &[AxisSegment<I>],
    repeated: Fixed,
    repeat: Option<(I, I)>,
    headings: Fixed,
    scale_permille: u16,
    page_capacity: Fixed,
) -> Result<bool, RenderError>
where
    I: Copy + Ord,
{
    if segments.is_empty() {
        let title_only = repeated
            .checked_add(headings)
            .ok_or(RenderError::CoordinateOverflow)?;
        return Ok(scale_fixed(title_only, scale_permille)? <= page_capacity);
    }
    Ok(axis_overflow_count(
        segments,
        repeated,
        repeat,
        headings,
        scale_permille,
        page_capacity,
    )? == 0)
}

// render/src/print.rs:3298
fn partition_axis<I>(
    slots: &[MeasuredAxisSlot<I>],
    untitled_capacity: Fixed,
    titled_capacity: Fixed,
    merges: &[(I, I)],
    repeat: Option<(I, I)>,
) -> Result<(Vec<AxisSegment<I>>, u64), RenderError>
where
    I: Copy + Ord,
{
    if slots.is_empty() {
        return Ok((Vec::new(), 0));
    }
    let mut output = Vec::new();
    let mut position = 0_usize;
    let mut expansions = 0_u64;
    while position < slots.len() {
        let mut next = position;
        let mut size = Fixed::ZERO;
        // Calc treats a middle title band as ordinary sheet content until a
        // page starts beyond it. Only those later pages reserve title space.
        let capacity = if repeat.is_some_and(|(_, repeat_last)| slots[position].index > repeat_last)
        {
            titled_capacity
        } else {
            untitled_capacity
        };
        while next < slots.len() {
            let candidate = size
                .checked_add(slots[next].size)
                .ok_or(RenderError::CoordinateOverflow)?;
            if next > position && candidate > capacity {
                break;
            }
            size = candidate;
            next += 1;
        }
        if next == position {
            next += 1;
            size = slots[position].size;
        }
        if next < slots.len() {
            let boundary = slots[next].index;
            let repeated_interval =
                repeat.filter(|(first, last)| *first < boundary && boundary <= *last);
            let merged_interval = merges
                .iter()
                .copied()
                .find(|(first, last)| *first < boundary && boundary <= *last);
            if let Some((_, repeated_last)) = repeated_interval {
                // Calc removes an automatic break that lands strictly inside
                // the title band, resets the running page size at that point,
                // and applies the reduced titled-page capacity from then on.
                // The natural page may consequently exceed its physical box.
                let repeated_end = slots
                    .iter()
                    .rposition(|slot| slot.index <= repeated_last)
                    .map_or(next, |index| index + 1);
                let resumed_at = next;
                let mut resumed_size = Fixed::ZERO;
                while next < slots.len() {
                    let candidate = resumed_size
                        .checked_add(slots[next].size)
                        .ok_or(RenderError::CoordinateOverflow)?;
                    if next > resumed_at && candidate > titled_capacity {
                        if next >= repeated_end {
                            break;
                        }
                        // Preserve the complete title band even if more than
                        // one of its indivisible slots exceeds the body box.
                        resumed_size = slots[next].size;
                        next += 1;
                        continue;
                    }
                    resumed_size = candidate;
                    next += 1;
                }
                if next < slots.len() {
                    let resumed_boundary = slots[next].index;
                    if let Some((merge_first, merge_last)) =
                        merges.iter().copied().find(|(first, last)| {
                            *first < resumed_boundary && resumed_boundary <= *last
                        })
                    {
                        let merge_start = slots
                            .iter()
                            .position(|slot| slot.index >= merge_first)
                            .unwrap_or(position);
                        if merge_start > position {
                            next = merge_start;
                        } else {
                            let merge_end = slots
                                .iter()
                                .rposition(|slot| slot.index <= merge_last)
                                .map_or(next, |index| index + 1);
                            if merge_end > next {
                                next = merge_end;
                                expansions = expansions.saturating_add(1);
                            }
                        }
                    }
                }
                size = axis_slice_total(&slots[position..next])?;
            } else if let Some((merge_first, merge_last)) = merged_interval {
                let merge_start = slots
                    .iter()
                    .position(|slot| slot.index >= merge_first)
                    .unwrap_or(position);
                if merge_start > position {
                    next = merge_start;
                } else {
                    let merge_end = slots
                        .iter()
                        .rposition(|slot| slot.index <= merge_last)
                        .map_or(next, |index| index + 1);
                    if merge_end > next {
                        next = merge_end;
                        expansions = expansions.saturating_add(1);
                    }
                }
                size = axis_slice_total(&slots[position..next])?;
            }
        }
        output.push(AxisSegment {
            first: slots[position].index,
            last: slots[next - 1].index,
            size,
            body_is_empty: false,
            manual_break_before: false,
        });
        position = next;
    }
    Ok((output, expansions))
}

// render/src/print.rs:3433
fn partition_axis_with_breaks<I>(
    slots: &[MeasuredAxisSlot<I>],
    untitled_capacity: Fixed,
    titled_capacity: Fixed,
    merges: &[(I, I)],
    manual_breaks: &[I],
    repeat: Option<(I, I)>,
) -> Result<(Vec<AxisSegment<I>>, u64, u64), RenderError>
where
    I: Copy + Ord,
{
    if slots.is_empty() {
        return Ok((Vec::new(), 0, 0));
    }

    let mut cuts = vec![(0_usize, false)];
    let mut shifted_breaks = 0_u64;
    for &manual_break in manual_breaks {
        let position = slots.partition_point(|slot| slot.index < manual_break);
        if position == 0 || position == slots.len() {
            continue;
        }
        let boundary = slots[position].index;
        // Calc removes a manual break that lands strictly inside repeated
        // rows. Apply the same protected-band rule to both axes.
        if repeat.is_some_and(|(first, last)| first < boundary && boundary <= last) {
            continue;
        }
        let previous = cuts.last().map_or(0, |(position, _)| *position);
        let mut adjusted = position;
        let protected_interval = merges
            .iter()
            .copied()
            .find(|(first, last)| *first < boundary && boundary <= *last);
        if let Some((merge_first, merge_last)) = protected_interval {
            let merge_start = slots.partition_point(|slot| slot.index < merge_first);
            let merge_end = slots.partition_point(|slot| slot.index <= merge_last);
            adjusted = if merge_start > previous {
                merge_start
            } else {
                merge_end
            };
            shifted_breaks = shifted_breaks.saturating_add(1);
        }
        if adjusted <= previous || adjusted >= slots.len() {
            continue;
        }
        cuts.push((adjusted, true));
    }
    cuts.push((slots.len(), false));

    let mut output = Vec::new();
    let mut expansions = 0_u64;
    for window in cuts.windows(2) {
        let (start, manual_break_before) = window[0];
        let end = window[1].0;
        if start >= end {
            continue;
        }
        let (mut segments, slice_expansions) = partition_axis(
            &slots[start..end],
            untitled_capacity,
            titled_capacity,
            merges,
            repeat,
        )?;
        if let Some(first) = segments.first_mut() {
            first.manual_break_before = manual_break_before;
        }
        expansions = expansions.saturating_add(slice_expansions);
        output.extend(segments);
    }
    Ok((output, expansions, shifted_breaks))
}

// render/src/print.rs:3657
fn merge_intervals_rows(sheet: &Sheet, first: u32, last: u32) -> Vec<(u32, u32)> {
    if first > last {
        return Vec::new();
    }
    let mut values = BTreeSet::new();
    for &(r0, _, r1, _) in sheet.merged_ranges() {
        if r0 < r1 && r0 <= last && r1 >= first {
            values.insert((r0.max(first), r1.min(last)));
        }
    }
    values.into_iter().collect()
}

// render/src/print.rs:3670
fn merge_intervals_columns(sheet: &Sheet, first: u16, last: u16) -> Vec<(u16, u16)> {
    if first > last {
        return Vec::new();
    }
    let mut values = BTreeSet::new();
    for &(_, c0, _, c1) in sheet.merged_ranges() {
        if c0 < c1 && c0 <= last && c1 >= first {
            values.insert((c0.max(first), c1.min(last)));
        }
    }
    values.into_iter().collect()
}

// render/src/print.rs:3508
fn ensure_row_segment(
    segments: Vec<AxisSegment<u32>>,
    range: RenderRange,
) -> Vec<AxisSegment<u32>> {
    if segments.is_empty() {
        vec![AxisSegment {
            first: range.first_row,
            last: range.first_row,
            size: Fixed::ZERO,
            body_is_empty: true,
            manual_break_before: false,
        }]
    } else {
        segments
    }
}

// render/src/print.rs:3525
fn ensure_column_segment(
    segments: Vec<AxisSegment<u16>>,
    range: RenderRange,
) -> Vec<AxisSegment<u16>> {
    if segments.is_empty() {
        vec![AxisSegment {
            first: range.first_col,
            last: range.first_col,
            size: Fixed::ZERO,
            body_is_empty: true,
            manual_break_before: false,
        }]
    } else {
        segments
    }
}

// render/src/print.rs:3683
fn measured_axis_range<I>(
    slots: &[MeasuredAxisSlot<I>],
    first: I,
    last: I,
) -> Vec<MeasuredAxisSlot<I>>
where
    I: Copy + Ord,
{
    slots
        .iter()
        .copied()
        .filter(|slot| slot.index >= first && slot.index <= last)
        .collect()
}

// render/src/print.rs:3840
fn interval_union_count(
    intervals: impl IntoIterator<Item = (u64, u64)>,
) -> Result<u64, RenderError> {
    let mut intervals = intervals.into_iter().collect::<Vec<_>>();
    intervals.sort_unstable();
    let mut total = 0_u64;
    let mut current: Option<(u64, u64)> = None;
    for (start, end) in intervals {
        if start >= end {
            continue;
        }
        match current {
            Some((current_start, current_end)) if start <= current_end => {
                current = Some((current_start, current_end.max(end)));
            }
            Some((current_start, current_end)) => {
                total = total
                    .checked_add(current_end - current_start)
                    .ok_or(RenderError::CoordinateOverflow)?;
                current = Some((start, end));
            }
            None => current = Some((start, end)),
        }
    }
    if let Some((start, end)) = current {
        total = total
            .checked_add(end - start)
            .ok_or(RenderError::CoordinateOverflow)?;
    }
    Ok(total)
}

// render/src/print.rs:3872
fn rectangle_union_count(ranges: &[RenderRange]) -> Result<u64, RenderError> {
    let mut row_boundaries = ranges
        .iter()
        .flat_map(|range| [u64::from(range.first_row), u64::from(range.last_row) + 1])
        .collect::<Vec<_>>();
    row_boundaries.sort_unstable();
    row_boundaries.dedup();
    let mut total = 0_u64;
    for band in row_boundaries.windows(2) {
        let first = band[0];
        let last = band[1];
        let columns = interval_union_count(ranges.iter().filter_map(|range| {
            let range_first = u64::from(range.first_row);
            let range_last = u64::from(range.last_row) + 1;
            (range_first < last && range_last > first)
                .then_some((u64::from(range.first_col), u64::from(range.last_col) + 1))
        }))?;
        total = total
            .checked_add(
                (last - first)
                    .checked_mul(columns)
                    .ok_or(RenderError::CoordinateOverflow)?,
            )
            .ok_or(RenderError::CoordinateOverflow)?;
    }
    Ok(total)
}

// render/src/print.rs:3900
fn axis_total<I>(slots: &[MeasuredAxisSlot<I>]) -> Result<Fixed, RenderError> {
    axis_slice_total(slots)
}

// render/src/print.rs:3904
fn axis_slice_total<I>(slots: &[MeasuredAxisSlot<I>]) -> Result<Fixed, RenderError> {
    slots.iter().try_fold(Fixed::ZERO, |sum, slot| {
        sum.checked_add(slot.size)
            .ok_or(RenderError::CoordinateOverflow)
    })
}

// render/src/print.rs:4092
fn scale_fixed(value: Fixed, scale_permille: u16) -> Result<Fixed, RenderError> {
    let product = i128::from(value.raw())
        .checked_mul(i128::from(scale_permille))
        .ok_or(RenderError::CoordinateOverflow)?;
    let adjusted = if product >= 0 {
        product + 500
    } else {
        product - 500
    };
    let raw = adjusted / 1_000;
    Ok(Fixed::from_raw(
        i64::try_from(raw).map_err(|_| RenderError::CoordinateOverflow)?,
    ))
}

// render/src/print.rs:4111
fn inches_to_fixed(inches: f64) -> Result<Fixed, RenderError> {
    let raw = (inches * 96.0 * FIXED_UNITS_PER_PIXEL as f64).round();
    if !raw.is_finite() || raw < 0.0 || raw > i64::MAX as f64 {
        return Err(RenderError::CoordinateOverflow);
    }
    Ok(Fixed::from_raw(raw as i64))
}

// render/src/print.rs:4138
fn enforce_print_limit(kind: LimitKind, limit: u64, actual: u64) -> Result<(), RenderError> {
    if actual > limit {
        Err(RenderError::LimitExceeded {
            kind,
            limit,
            actual,
        })
    } else {
        Ok(())
    }
}
