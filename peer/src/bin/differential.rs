//! Random logs through both engines and, if named, a program.

use peer::model::Tally;
use peer::view::View;
use peer::{fast, generate, model};
use std::io::{Read, Write};
use std::ops::Range;
use std::path::{Path, PathBuf};
use std::process::{Command, ExitCode, Stdio};

const USAGE: &str = "usage: differential [--seeds FROM..TO] [--sixt PATH] [--events N]";

struct Options {
    seeds: Range<u64>,
    sixt: Option<PathBuf>,
    events: usize,
}

fn options() -> Option<Options> {
    let mut options = Options {
        seeds: 0..1_000,
        sixt: None,
        events: 300,
    };
    let mut arguments = std::env::args().skip(1);
    while let Some(name) = arguments.next() {
        let value = arguments.next()?;
        match name.as_str() {
            "--seeds" => {
                let (from, to) = value.split_once("..")?;
                options.seeds = from.parse().ok()?..to.parse().ok()?;
            }
            "--sixt" => options.sixt = Some(PathBuf::from(value)),
            "--events" => options.events = value.parse().ok()?,
            _ => return None,
        }
    }
    Some(options)
}

struct Report {
    differences: u64,
}

impl Report {
    fn differ(&mut self, seed: u64, what: &str, place: usize, left: &str, right: &str) {
        self.differences += 1;
        println!("seed {seed}, event {place}: {what}");
        println!("  model: {}", left.escape_default());
        println!("  other: {}", right.escape_default());
    }

    /// The first line in which two texts differ.
    fn texts(&mut self, seed: u64, what: &str, ours: &str, theirs: &str) {
        if ours == theirs {
            return;
        }
        let nothing = "(no line)";
        let mut left = ours.lines();
        let mut right = theirs.lines();
        let mut place = 1;
        loop {
            let pair = (left.next(), right.next());
            if pair.0 != pair.1 || pair == (None, None) {
                let (a, b) = (pair.0.unwrap_or(nothing), pair.1.unwrap_or(nothing));
                return self.differ(seed, what, place, a, b);
            }
            place += 1;
        }
    }

    fn views(&mut self, seed: u64, ours: &[View], theirs: &[View]) {
        if ours.len() != theirs.len() {
            let (a, b) = (ours.len().to_string(), theirs.len().to_string());
            self.differ(seed, "number of records", 0, &a, &b);
        }
        let pair = ours
            .iter()
            .zip(theirs)
            .enumerate()
            .find(|(_, (a, b))| a != b);
        if let Some((index, (a, b))) = pair {
            let (a, b) = (a.to_string(), b.to_string());
            let line = a.lines().zip(b.lines()).find(|(a, b)| a != b);
            let (a, b) = line.unwrap_or(("", ""));
            self.differ(seed, "record after fast", index + 1, a, b);
        }
    }
}

/// The program's text; a death by signal adds a line. Exit codes are free.
fn program_text(path: &Path, log: &[u8]) -> std::io::Result<String> {
    let mut child = Command::new(path)
        .stdin(Stdio::piped())
        .stdout(Stdio::piped())
        .spawn()?;
    let input = child.stdin.take();
    let mut output = child.stdout.take().expect("a piped output");
    let mut bytes = Vec::new();
    std::thread::scope(|scope| {
        // The program may stop reading early; that is not a fault.
        scope.spawn(move || input.map(|mut input| input.write_all(log)));
        output.read_to_end(&mut bytes)
    })?;
    let status = child.wait()?;
    let mut text = String::from_utf8_lossy(&bytes).into_owned();
    if status.code().is_none() {
        text.push_str(&format!("({status})\n"));
    }
    Ok(text)
}

fn run_seed(seed: u64, options: &Options, report: &mut Report) -> std::io::Result<Tally> {
    let log = generate::log(seed, options.events);
    let ours = model::text(&log);
    let buffer = 33 + (seed % 97) as usize * 13;
    report.texts(seed, "text of fast", &ours, &fast::text(&log, buffer));
    report.views(seed, &model::views(&log), &fast::views(&log));
    let (a, b) = (model::view(&log).to_string(), fast::view(&log).to_string());
    report.texts(seed, "last record of fast", &a, &b);
    if let Some(path) = &options.sixt {
        report.texts(seed, "text of sixt", &ours, &program_text(path, &log)?);
    }
    Ok(model::tally(&log))
}

fn print_tally(tally: &Tally) {
    println!("accepted {}", tally.refusals[0]);
    for number in 6..=10 {
        println!("refused {number}: {}", tally.refusals[number]);
    }
    let untimely = tally.parkings[6] + tally.parkings[7];
    println!("parked from Maintenance {}", tally.parkings[0]);
    println!("parkings refused as untimely {untimely}");
    println!("logs that end: {}", tally.stops[0]);
    for number in 1..=4 {
        println!("stop {number}: {}", tally.stops[number]);
    }
    let total = |list: &[u64]| list.iter().sum::<u64>();
    println!("trips {} {:?}", total(&tally.trips), tally.trips);
    println!("releases {} {:?}", total(&tally.releases), tally.releases);
    println!("failed tests after an event {}", tally.failed_tests);
    println!("closed after an event {}", tally.closed);
    println!("closed with trips lifted {}", tally.closed_lifted);
    println!("trips past a full long-term store {}", tally.past_long);
    println!("entries past a full short-term store {}", tally.past_short);
    let [above, below] = tally.odd;
    println!("neighbours of odd product above zero {above}, below {below}");
    println!("neighbours whose currents cancel {}", tally.cancelled);
}

fn main() -> ExitCode {
    let Some(options) = options() else {
        eprintln!("{USAGE}");
        return ExitCode::from(2);
    };
    let mut tally = Tally::default();
    let mut report = Report { differences: 0 };
    let logs = options.seeds.clone().count();
    for seed in options.seeds.clone() {
        match run_seed(seed, &options, &mut report) {
            Ok(one) => tally.add(&one),
            Err(error) => {
                eprintln!("differential: {error}");
                return ExitCode::from(2);
            }
        }
    }
    print_tally(&tally);
    let differences = report.differences;
    println!(
        "{logs} logs, {} events, {differences} differences",
        tally.events
    );
    ExitCode::from(u8::from(differences > 0))
}
