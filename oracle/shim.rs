// What the taken items name and do not hold. A driver includes this file at its root, so that it
// sees the private items too.
use std::collections::{BTreeMap, BTreeSet};
use std::fmt;
use std::io::{self, BufRead, BufWriter, Write};

include!("taken.rs");

const MAX_WORKSHEET_ROW: u32 = 1_048_575;
const MAX_WORKSHEET_COLUMN: u16 = 16_383;

/// Of a sheet its merges alone: first row, first column, last row, last column.
struct Sheet(Vec<(u32, u16, u32, u16)>);

impl Sheet {
    fn merged_ranges(&self) -> &[(u32, u16, u32, u16)] {
        &self.0
    }
}

#[derive(Debug, Clone, Copy, PartialEq, Eq)]
struct RenderRange {
    first_row: u32,
    first_col: u16,
    last_row: u32,
    last_col: u16,
}

#[derive(Debug, Clone, Copy, PartialEq, Eq)]
struct MeasuredAxisSlot<I> {
    index: I,
    size: Fixed,
}

/// Answers each line of standard input by a line of standard output.
fn answer_lines(answer: fn(&str) -> String) {
    let mut out = BufWriter::new(io::stdout().lock());
    for line in io::stdin().lock().lines() {
        let line = line.expect("a line of text");
        writeln!(out, "{}", answer(&line)).expect("room for the answer");
    }
    out.flush().expect("room for the answers");
}
