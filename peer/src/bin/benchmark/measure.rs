//! Time and peak memory of a filter on a file.

use std::fs::{self, File};
use std::io;
use std::path::{Path, PathBuf};
use std::process::{Child, Command, Stdio};
use std::time::{Duration, Instant};

const GNU_TIME: &str = "/usr/bin/time";

pub struct Program {
    pub name: &'static str,
    pub path: PathBuf,
}

impl Program {
    /// Wall time from start to end, standard output to the null device.
    pub fn time(&self, log: &Path) -> io::Result<Duration> {
        let mut command = Command::new(&self.path);
        command.stdin(File::open(log)?).stdout(Stdio::null());
        let start = Instant::now();
        let status = command.spawn()?.wait()?;
        let elapsed = start.elapsed();
        if status.code().is_none() {
            return Err(io::Error::other(format!("{}: {status}", self.name)));
        }
        Ok(elapsed)
    }

    /// The largest resident set in kilobytes.
    pub fn peak(&self, log: &Path) -> io::Result<u64> {
        if Path::new(GNU_TIME).exists() {
            if let Some(peak) = self.peak_by_time(log)? {
                return Ok(peak);
            }
        }
        self.peak_by_proc(log)
    }

    fn peak_by_time(&self, log: &Path) -> io::Result<Option<u64>> {
        let output = Command::new(GNU_TIME)
            .arg("-v")
            .arg(&self.path)
            .stdin(File::open(log)?)
            .stdout(Stdio::null())
            .stderr(Stdio::piped())
            .output()?;
        let text = String::from_utf8_lossy(&output.stderr);
        let line = text.lines().find(|l| l.contains("Maximum resident set"));
        Ok(line.and_then(|l| l.rsplit(' ').next()?.parse().ok()))
    }

    /// The high-water mark read once the program has taken the whole log but
    /// has not seen its end, and again until it is done.
    fn peak_by_proc(&self, log: &Path) -> io::Result<u64> {
        let mut child = Command::new(&self.path)
            .stdin(Stdio::piped())
            .stdout(Stdio::null())
            .spawn()?;
        let mut input = child.stdin.take().expect("a piped input");
        let fed = io::copy(&mut File::open(log)?, &mut input);
        std::thread::sleep(Duration::from_millis(20));
        let mut peak = high_water(&child);
        drop(input);
        while child.try_wait()?.is_none() {
            peak = peak.max(high_water(&child));
            std::thread::sleep(Duration::from_micros(100));
        }
        fed?;
        Ok(peak)
    }
}

fn high_water(child: &Child) -> u64 {
    let text = fs::read_to_string(format!("/proc/{}/status", child.id())).unwrap_or_default();
    text.lines()
        .find_map(|line| line.strip_prefix("VmHWM:"))
        .and_then(|rest| rest.split_whitespace().next()?.parse().ok())
        .unwrap_or(0)
}

/// What repeated runs took.
#[derive(Clone, Copy)]
pub struct Times {
    pub median: Duration,
    pub best: Duration,
}

impl Times {
    pub fn of(mut runs: Vec<Duration>) -> Times {
        runs.sort();
        Times {
            median: runs[runs.len() / 2],
            best: runs[0],
        }
    }
}
