// Answers lines of input by the Rust's own functions: titles, runs, plans and pages.
//
// A line of input is a letter and fields; those of titles and runs stand in axes.rs, those of plans
// and pages in plans.rs.
#![allow(dead_code)]

include!("shim.rs");
include!("standard.rs");
include!("axes.rs");
include!("plans.rs");

fn answer(line: &str) -> String {
    match &line[..1] {
        "t" => title(&input(line)),
        "r" => runs(input(line)),
        "p" => plan(job(line)),
        "n" => page(line),
        other => panic!("an unknown letter: {other:?}"),
    }
}

fn main() {
    answer_lines(answer);
}
