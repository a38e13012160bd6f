//! check_sheet FILE: checks a sheet, prints the line that `recheck` prints and, if it is accepted, each station with its row.
//!
//! At the repository's root, after `sh tools/library.sh`:
//!   cargo run --offline --manifest-path rust/Cargo.toml --example check_sheet -- FILE
use std::process::ExitCode;

mod table;

fn main() -> ExitCode {
    let Some(name) = std::env::args().nth(1) else {
        eprintln!("usage: check_sheet FILE");
        return ExitCode::from(2);
    };
    match std::fs::read(&name).and_then(|bytes| table::print(&bytes)) {
        Ok(true) => ExitCode::SUCCESS,
        Ok(false) => ExitCode::from(1),
        Err(error) => {
            eprintln!("{name}: {error}");
            ExitCode::from(2)
        }
    }
}
