//! The command line of a cell.

mod commands;
mod faults;
mod files;
mod holding;
mod input;
mod operating;
mod output;
mod running;
mod waiting;
mod watching;
mod words;

use clap::Parser;
use faults::tell;
use std::process::ExitCode;
use words::Words;

fn main() -> ExitCode {
    // (help, the version and a wrong command line end here, with 0 or 2)
    let words = Words::parse();
    match commands::run(&words) {
        Ok(status) => ExitCode::from(status),
        Err(fault) => {
            tell(&words, None, &fault);
            ExitCode::from(fault.status())
        }
    }
}
