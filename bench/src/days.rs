//! How fast a feed is kept in a day file and written out again, beside `cp`, in one run and from a warm cache.
//!
//! `cp` leaves its bytes to the system; `desk keep` waits until they are on the disk, so it stands beside a copy that
//! does so too. Each job makes its file anew; the best of seven times counts. Memory is the most that the process held when
//! it had taken all of a feed from a pipe, or when the most of its output had been taken.

use crate::{held, RUNS};
use std::fs::{self, File};
use std::io::{self, Read, Write};
use std::process::{Command, Stdio};
use std::time::{Duration, Instant};

/// As many as a day file takes.
pub const LINES: usize = 65_535;
/// What is left in the program's pipe when its memory is looked at: more than a pipe takes.
const LEFT: u64 = 200_000;

/// A program with its words, what it reads as standard input, and the file that it makes; by its standard output, or by itself.
struct Job<'a> {
    words: Vec<&'a str>,
    input: Option<&'a str>,
    makes: &'a str,
    by_output: bool,
}

impl Job<'_> {
    fn command(&self) -> io::Result<Command> {
        let mut command = Command::new(self.words[0]);
        command.args(&self.words[1..]);
        if let Some(input) = self.input {
            command.stdin(File::open(input)?);
        }
        // What is said of the feed is not part of the table.
        command.stdout(Stdio::null()).stderr(Stdio::null());
        if self.by_output {
            command.stdout(File::create(self.makes)?);
        }
        Ok(command)
    }

    /// The best time, and that each run made as many bytes as it should.
    fn time(&self, bytes: u64) -> io::Result<Duration> {
        let failed = |why: &str| io::Error::other(format!("{}: {why}", self.words.join(" ")));
        let mut best = Duration::MAX;
        for _ in 0..RUNS {
            if fs::exists(self.makes)? {
                fs::remove_file(self.makes)?;
            }
            let mut command = self.command()?;
            let begun = Instant::now();
            let status = command.status()?;
            best = best.min(begun.elapsed());
            if !status.success() {
                return Err(failed("it failed"));
            }
            let made = fs::metadata(self.makes).map_err(|_| failed("it made no file"))?;
            if made.len() != bytes {
                return Err(failed("the file has not the bytes that it should"));
            }
        }
        Ok(best)
    }
}

/// The memory of `desk keep`, with a feed from a pipe.
fn memory_of_keep(desk: &str, feed: &str, file: &str) -> io::Result<Option<u64>> {
    fs::remove_file(file)?;
    let mut child = Command::new(desk)
        .args(["keep", file])
        .stdin(Stdio::piped())
        .stderr(Stdio::null())
        .spawn()?;
    let mut input = child.stdin.take().expect("a pipe");
    input.write_all(&fs::read(feed)?)?;
    let memory = held(&child);
    drop(input);
    child.wait()?;
    Ok(memory)
}

/// The memory of `desk lines`, when so many bytes of its output but for the last had been taken.
fn memory_of_lines(desk: &str, file: &str, bytes: u64) -> io::Result<Option<u64>> {
    let mut child = Command::new(desk).args(["lines", file]).stdout(Stdio::piped()).spawn()?;
    let mut output = child.stdout.take().expect("a pipe");
    io::copy(&mut (&mut output).take(bytes - LEFT), &mut io::sink())?;
    let memory = held(&child);
    io::copy(&mut output, &mut io::sink())?;
    child.wait()?;
    Ok(memory)
}

/// One row. `beside` are the times of the copies that it is measured by.
fn print(place: &str, name: &str, bytes: u64, time: Duration, beside: [Option<Duration>; 2], memory: Option<u64>) {
    let seconds = time.as_secs_f64();
    let times = beside.map(|other| other.map_or("-".to_string(), |other| format!("{:.1}", seconds / other.as_secs_f64())));
    println!(
        "| {place} | {name} | {bytes} | {:.2} | {} | {} | {:.0} | {} |",
        seconds * 1e3,
        times[0],
        times[1],
        bytes as f64 / seconds / 1e6,
        memory.map_or("-".to_string(), |k| k.to_string())
    );
}

/// The jobs in one folder: a feed of so many bytes copied, copied and flushed, kept; then its day file copied, and written out as lines.
fn run_in(place: &str, folder: &str, desk: &str, feed: &str, bytes: u64) -> io::Result<()> {
    let [copy, file, other] = ["copy", "day", "lines"].map(|name| format!("{folder}/{name}"));
    let kept = bytes + 4 * LINES as u64 + 8;
    let job = |words, input, makes, by_output| Job { words, input, makes, by_output };

    let plain = job(vec!["cp", feed, &copy], None, &copy, false).time(bytes)?;
    print(place, "cp of the feed", bytes, plain, [Some(plain), None], None);
    let (from, to) = (format!("if={feed}"), format!("of={copy}"));
    let words = vec!["dd", &from, &to, "bs=131072", "conv=fsync", "status=none"];
    let flushed = job(words, None, &copy, false).time(bytes)?;
    print(place, "dd of the feed, flushed", bytes, flushed, [Some(plain), Some(flushed)], None);
    let time = job(vec![desk, "keep", &file], Some(feed), &file, false).time(kept)?;
    let memory = memory_of_keep(desk, feed, &file)?;
    print(place, "desk keep", bytes, time, [Some(plain), Some(flushed)], memory);

    let plain = job(vec!["cp", &file, &copy], None, &copy, false).time(kept)?;
    print(place, "cp of the day file", kept, plain, [Some(plain), None], None);
    let time = job(vec![desk, "lines", &file], None, &other, true).time(bytes)?;
    let memory = memory_of_lines(desk, &file, bytes)?;
    print(place, "desk lines", kept, time, [Some(plain), None], memory);
    for made in [&copy, &file, &other] {
        fs::remove_file(made)?;
    }
    Ok(())
}

/// The table, for a folder on the disk and, if there is one, for a folder in memory.
pub fn run(desk: &str, feed: &str, bytes: u64, folder: &str, memory: Option<&str>) -> io::Result<()> {
    println!("| where | job, {LINES} lines | bytes | milliseconds | times cp | times the flushed copy | megabytes a second | kilobytes held |");
    println!("|---|---|---|---|---|---|---|---|");
    run_in("disk", folder, desk, feed, bytes)?;
    match memory {
        Some(folder) => run_in("memory", folder, desk, feed, bytes),
        None => Ok(()),
    }
}
