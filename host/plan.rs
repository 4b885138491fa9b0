//! Plans the job in a file and prints the plan, as program `plan` does, area by area: an example of a program over the static library.
//!
//!     plan FILE
//!
//! Its status is 0 where the job was planned, 1 where it was refused, and 2 where something could not be read or written, or no file was
//! named: then standard error says what, and standard output may hold a part of a plan.

use std::ffi::OsStr;
use std::io::{self, Write};
use std::process::ExitCode;

/// Prints the plan or the refusal, and says whether there is a plan. An error is a message.
fn planned(file: &OsStr) -> Result<bool, String> {
    let bytes = std::fs::read(file).map_err(|error| format!("{} could not be read: {error}", file.to_string_lossy()))?;
    let counted = yuzhbani::Counted::of(&bytes);
    let mut out = io::stdout().lock();
    let written = match &counted {
        Ok(counted) => counted.print(&mut out),
        Err(refusal) => out.write_all(refusal.text().as_bytes()),
    };
    written.and_then(|()| out.flush()).map_err(|error| format!("standard output could not be written: {error}"))?;
    Ok(counted.is_ok())
}

fn main() -> ExitCode {
    let Some(file) = std::env::args_os().nth(1) else {
        eprintln!("usage: plan FILE");
        return ExitCode::from(2);
    };
    match planned(&file) {
        Ok(true) => ExitCode::SUCCESS,
        Ok(false) => ExitCode::from(1),
        Err(message) => {
            eprintln!("plan: {message}");
            ExitCode::from(2)
        }
    }
}
