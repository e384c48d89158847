//! The naive filter. With `--view`, the record after the log instead.

use peer::model;
use std::io::{self, Read, Write};
use std::process::ExitCode;

fn main() -> ExitCode {
    let arguments: Vec<String> = std::env::args().skip(1).collect();
    let view = match arguments.as_slice() {
        [] => false,
        [one] if one == "--view" => true,
        _ => {
            eprintln!("usage: model [--view] < log");
            return ExitCode::from(2);
        }
    };
    match filter(view) {
        Ok(()) => ExitCode::SUCCESS,
        Err(error) => {
            eprintln!("model: {error}");
            ExitCode::FAILURE
        }
    }
}

fn filter(view: bool) -> io::Result<()> {
    let mut log = Vec::new();
    io::stdin().lock().read_to_end(&mut log)?;
    let text = if view {
        model::view(&log).to_string()
    } else {
        model::text(&log)
    };
    let mut out = io::stdout().lock();
    out.write_all(text.as_bytes())?;
    out.flush()
}
