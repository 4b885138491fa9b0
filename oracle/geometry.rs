// Answers lines of input by the Rust's own functions: units, paper and content geometry. Of five paper
// codes the answer is that of standard.rs.
//
// A line of input is a letter and eight fields, each a space and 16 hexadecimal digits; fields that
// a letter does not use are zeros. An i64 stands as two's complement, an f64 as its bits.
//
//     i  inches_to_fixed    inches
//     c  unscaled_capacity  side, permille, titles, headings
//     s  scale_fixed        size, permille
//     p  paper_geometry     0 absent or 1 given, code, landscape 0 or 1
//     m  content_geometry   width, height, left, right, top, bottom, header, footer
//     a  content_geometry   width, height; margins absent
//
// The answer is the numbers, with the count of notes last for p, m and a, or `no 10`.
#![allow(dead_code)]

include!("shim.rs");
include!("standard.rs");

/// The bytes of a line with its line end.
const LINE: usize = 138;

struct Fields([u64; 8]);

impl Fields {
    fn fixed(&self, at: usize) -> Fixed {
        Fixed::from_raw(self.0[at] as i64)
    }

    fn float(&self, at: usize) -> f64 {
        f64::from_bits(self.0[at])
    }

    fn small(&self, at: usize) -> u16 {
        u16::try_from(self.0[at]).expect("a number of 16 bits")
    }

    fn flag(&self, at: usize) -> bool {
        match self.0[at] {
            0 => false,
            1 => true,
            other => panic!("a flag of {other}"),
        }
    }

    /// The paper that the first two fields measure. Its code is not looked at.
    fn paper(&self) -> PaperGeometry {
        PaperGeometry {
            paper_code: 0,
            width: self.fixed(0),
            height: self.fixed(1),
        }
    }

    fn margins(&self) -> (f64, f64, f64, f64, f64, f64) {
        (
            self.float(2),
            self.float(3),
            self.float(4),
            self.float(5),
            self.float(6),
            self.float(7),
        )
    }
}

fn fields(line: &str) -> Fields {
    assert_eq!(line.len() + 1, LINE, "the length of {line:?}");
    let mut words = line[1..].split(' ');
    assert_eq!(words.next(), Some(""), "no space after the letter of {line:?}");
    let mut out = [0; 8];
    for field in &mut out {
        let word = words.next().expect("eight fields");
        assert_eq!(word.len(), 16, "the width of a field of {line:?}");
        *field = u64::from_str_radix(word, 16).expect("hexadecimal digits");
    }
    assert_eq!(words.next(), None, "more than eight fields in {line:?}");
    Fields(out)
}

/// How often the one code was noted; any other note is a fault of the driver.
fn noted(warnings: PrintWarnings, code: PrintWarningCode) -> u64 {
    let mut count = 0;
    for warning in warnings.finish() {
        assert_eq!(warning.code, code, "another note");
        count += warning.occurrences;
    }
    count
}

/// The answer, or `no 10`; any other refusal is a fault of the driver.
fn answered(result: Result<String, RenderError>) -> String {
    match result {
        Ok(text) => text,
        Err(RenderError::CoordinateOverflow) => "no 10".to_string(),
        Err(other) => panic!("another refusal: {other:?}"),
    }
}

fn length(result: Result<Fixed, RenderError>) -> String {
    answered(result.map(|value| value.raw().to_string()))
}

fn paper(code: Option<u16>, landscape: bool) -> String {
    let mut warnings = PrintWarnings::default();
    let paper = paper_of(code, landscape, &mut warnings).expect("a paper");
    let note = noted(warnings, PrintWarningCode::UnknownPaperSizeFallback);
    let (width, height) = (paper.width.raw(), paper.height.raw());
    format!("{} {width} {height} {note}", paper.paper_code)
}

fn content(paper: PaperGeometry, margins: Option<(f64, f64, f64, f64, f64, f64)>) -> String {
    let mut warnings = PrintWarnings::default();
    let result = content_geometry(paper, margins, &mut warnings);
    let note = noted(warnings, PrintWarningCode::InvalidMarginsFallback);
    answered(result.map(|(content, header_y, footer_y)| {
        format!(
            "{} {} {} {} {} {} {note}",
            content.x.raw(),
            content.y.raw(),
            content.width.raw(),
            content.height.raw(),
            header_y.raw(),
            footer_y.raw()
        )
    }))
}

fn answer(line: &str) -> String {
    let f = fields(line);
    match &line[..1] {
        "i" => length(inches_to_fixed(f.float(0))),
        "c" => length(unscaled_capacity(f.fixed(0), f.small(1), f.fixed(2), f.fixed(3))),
        "s" => length(scale_fixed(f.fixed(0), f.small(1))),
        "p" => paper(f.flag(0).then(|| f.small(1)), f.flag(2)),
        "m" => content(f.paper(), Some(f.margins())),
        "a" => content(f.paper(), None),
        other => panic!("an unknown letter: {other:?}"),
    }
}

fn main() {
    answer_lines(answer);
}
