//! sixt, fast and cat on the same logs.

mod logs;
mod measure;

use logs::{Kind, KINDS};
use measure::{Program, Times};
use std::io;
use std::path::{Path, PathBuf};
use std::process::ExitCode;
use std::time::Duration;

const USAGE: &str = "usage: benchmark [--sixt PATH] [--largest EVENTS]";
/// Events and repetitions.
const SIZES: [(u64, usize); 4] = [(10_000, 21), (100_000, 15), (1_000_000, 15), (10_000_000, 5)];

struct Options {
    sixt: Option<PathBuf>,
    largest: u64,
}

fn options() -> Option<Options> {
    let mut options = Options {
        sixt: None,
        largest: 10_000_000,
    };
    let mut arguments = std::env::args().skip(1);
    while let Some(name) = arguments.next() {
        let value = arguments.next()?;
        match name.as_str() {
            "--sixt" => options.sixt = Some(PathBuf::from(value)),
            "--largest" => options.largest = value.parse().ok()?,
            _ => return None,
        }
    }
    Some(options)
}

/// cat first, so that the file is read from memory by the others.
fn programs(sixt: Option<PathBuf>) -> io::Result<Vec<Program>> {
    let mut programs = vec![
        Program {
            name: "cat",
            path: PathBuf::from("cat"),
        },
        Program {
            name: "fast",
            path: std::env::current_exe()?.with_file_name("fast"),
        },
    ];
    if let Some(path) = sixt {
        programs.push(Program { name: "sixt", path });
    }
    Ok(programs)
}

/// Each program's times, runs taken in turn.
fn times(programs: &[Program], log: &Path, repetitions: usize) -> io::Result<Vec<Times>> {
    let mut runs = vec![Vec::new(); programs.len()];
    programs[0].time(log)?;
    for _ in 0..repetitions {
        for (program, list) in programs.iter().zip(&mut runs) {
            list.push(program.time(log)?);
        }
    }
    Ok(runs.into_iter().map(Times::of).collect())
}

const HEADING: &str = "log         events prog.    ms median     events/s \
    ns/event  ns best  sixt/fast     best  peak kB";

fn row(kind: &str, events: u64, name: &str, time: Times, fast: Times, peak: u64) {
    let per_event = |time: Duration| match events {
        0 => "-".to_string(),
        _ => format!("{:.1}", time.as_secs_f64() * 1e9 / events as f64),
    };
    let ratio = |ours: Duration, theirs: Duration| match name {
        "sixt" => format!("{:.2}", ours.as_secs_f64() / theirs.as_secs_f64()),
        _ => "-".to_string(),
    };
    println!(
        "{kind:<8} {events:>9} {name:<5} {:>11.3} {:>12.0} {:>8} {:>8} {:>10} {:>8} {peak:>8}",
        time.median.as_secs_f64() * 1e3,
        events as f64 / time.median.as_secs_f64(),
        per_event(time.median),
        per_event(time.best),
        ratio(time.median, fast.median),
        ratio(time.best, fast.best),
    );
}

/// One size of one kind; answers the peaks.
fn measure(
    kind: Kind,
    (events, repetitions): (u64, usize),
    programs: &[Program],
    log: &Path,
) -> io::Result<Vec<u64>> {
    logs::write(kind, events, log)?;
    let times = times(programs, log, repetitions)?;
    let mut peaks = Vec::new();
    for (program, &time) in programs.iter().zip(&times) {
        let peak = program.peak(log)?;
        let name = format!("{kind:?}").to_lowercase();
        row(&name, events, program.name, time, times[1], peak);
        peaks.push(peak);
    }
    Ok(peaks)
}

/// Bytes of peak memory that each event adds, from the smallest log to the
/// largest.
fn growth(sizes: &[(u64, usize)], peaks: &[Vec<u64>], programs: &[Program]) {
    let (Some(first), Some(last)) = (sizes.first(), sizes.last()) else {
        return;
    };
    let events = (last.0 - first.0).max(1) as f64;
    for (index, program) in programs.iter().enumerate() {
        let kilobytes = peaks[peaks.len() - 1][index] as f64 - peaks[0][index] as f64;
        let bytes = kilobytes * 1024.0 / events;
        println!("growth of {}: {bytes:.4} bytes per event", program.name);
    }
}

fn benchmark(options: Options, directory: &Path) -> io::Result<()> {
    let programs = programs(options.sixt)?;
    let log = directory.join("log");
    let sizes: Vec<_> = SIZES
        .into_iter()
        .filter(|(events, _)| *events <= options.largest)
        .collect();
    println!("{HEADING}");
    std::fs::write(&log, [1])?;
    let empty = times(&programs, &log, 21)?;
    for (program, &time) in programs.iter().zip(&empty) {
        row(
            "empty",
            0,
            program.name,
            time,
            empty[1],
            program.peak(&log)?,
        );
    }
    for kind in KINDS {
        let mut peaks = Vec::new();
        for &size in &sizes {
            peaks.push(measure(kind, size, &programs, &log)?);
        }
        growth(&sizes, &peaks, &programs);
    }
    Ok(())
}

fn main() -> ExitCode {
    let Some(options) = options() else {
        eprintln!("{USAGE}");
        return ExitCode::from(2);
    };
    let name = format!("benchmark-{}", std::process::id());
    let directory = std::env::temp_dir().join(name);
    let result = std::fs::create_dir(&directory).and_then(|()| benchmark(options, &directory));
    let removed = std::fs::remove_dir_all(&directory);
    match result.and(removed) {
        Ok(()) => ExitCode::SUCCESS,
        Err(error) => {
            eprintln!("benchmark: {error}");
            ExitCode::FAILURE
        }
    }
}
