//! The incremental filter.

use std::fs::File;
use std::io;
use std::os::fd::AsFd;
use std::process::ExitCode;

const BUFFER: usize = 256 * 1024;

fn main() -> ExitCode {
    match filter() {
        Ok(()) => ExitCode::SUCCESS,
        Err(error) => {
            eprintln!("fast: {error}");
            ExitCode::FAILURE
        }
    }
}

/// Plain files in place of the standard streams: `run` has its own buffers.
fn filter() -> io::Result<()> {
    let input = File::from(io::stdin().as_fd().try_clone_to_owned()?);
    let output = File::from(io::stdout().as_fd().try_clone_to_owned()?);
    peer::fast::run(input, output, BUFFER)
}
