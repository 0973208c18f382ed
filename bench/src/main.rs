//! How fast the proved board printer is, beside the plain reference and `wc -l`, on the same feeds in one run; then how fast
//! day files are, beside `cp` (`days`).
//!
//! `bench FLIGHTS DESK REFERENCE FOLDER [MEMORY]`: the programs, a folder for the feeds, and one in memory. Each program reads each feed
//! from its file, seven times, and the best time counts: once as it is, and once without the start of a process, which is the time that
//! the program takes for an empty feed. Memory is the most that the process held when it had read all of a feed from a pipe.

#![forbid(unsafe_code)]

mod days;

use std::env;
use std::fs::{self, File};
use std::io::{self, BufWriter, Write};
use std::process::{Child, Command, ExitCode, Stdio};
use std::time::{Duration, Instant};

const SIZES: [usize; 3] = [10_000, 100_000, 1_000_000];
const RUNS: usize = 7;
const FLIGHTS: u64 = 200;

/// Numbers that are the same on every machine.
struct Chance(u64);

impl Chance {
    fn below(&mut self, n: u64) -> u64 {
        self.0 = self.0.wrapping_add(0x9E37_79B9_7F4A_7C15);
        let mut z = self.0;
        z = (z ^ (z >> 30)).wrapping_mul(0xBF58_476D_1CE4_E5B9);
        z = (z ^ (z >> 27)).wrapping_mul(0x94D0_49BB_1331_11EB);
        (z ^ (z >> 31)) % n
    }
}

/// A line of the feed, 60 bytes or so: 60 of 100 a TZ, the rest a DZ, an AZ, an FZ or a heartbeat.
fn line(n: usize, chance: &mut Chance) -> String {
    let flight = chance.below(FLIGHTS);
    let letter = char::from(b'A' + (flight % 26) as u8);
    let ident = format!("{letter}VL{:03}/1{:02}", flight, flight % 100);
    let (hour, minute) = (n / 3600 % 24, n / 60 % 60);
    let head = format!("{:04X}06{hour:02}{minute:02}{:02}KZNY", n % 65_536, n % 60);
    let body = match chance.below(100) {
        0..=59 => format!(
            "TZ {ident} {} {:03}C {:02}{:02}N/{:03}{:02}W",
            100 + chance.below(500),
            10 + chance.below(400),
            25 + chance.below(24),
            chance.below(60),
            65 + chance.below(60),
            chance.below(60)
        ),
        60..=74 => format!("DZ {ident} T/B738/G BOS D{hour:02}{minute:02} ALB {hour:02}{minute:02}"),
        75..=89 => format!("AZ {ident} BOSTON ALBANY E{hour:02}{minute:02}"),
        90..=94 => format!("FZ {ident} B738/G 452 BOSOX P{hour:02}{minute:02} 330 BOS..BOSOX..ALB"),
        _ => "HB".to_string(),
    };
    head + &body
}

fn write_feed(path: &str, lines: usize) -> io::Result<u64> {
    let mut chance = Chance(1998);
    let mut out = BufWriter::new(File::create(path)?);
    for n in 0..lines {
        writeln!(out, "{}", line(n, &mut chance))?;
    }
    out.flush()?;
    Ok(fs::metadata(path)?.len())
}

fn best_time(command: &[&str], path: &str) -> io::Result<Duration> {
    let mut best = Duration::MAX;
    for _ in 0..RUNS {
        let begun = Instant::now();
        let status = Command::new(command[0]).args(&command[1..]).arg(path).stdout(Stdio::null()).status()?;
        best = best.min(begun.elapsed());
        if !status.success() {
            return Err(io::Error::other(format!("{} failed", command[0])));
        }
    }
    Ok(best)
}

/// The most memory that the process held, in kilobytes, once it had taken all of the feed; nothing where the system does not say.
fn memory(command: &[&str], path: &str) -> io::Result<Option<u64>> {
    let mut child = Command::new(command[0]).args(&command[1..]).stdin(Stdio::piped()).stdout(Stdio::null()).spawn()?;
    let mut input = child.stdin.take().expect("a pipe");
    input.write_all(&fs::read(path)?)?;
    let memory = held(&child);
    drop(input);
    child.wait()?;
    Ok(memory)
}

/// The most memory that the process held so far, in kilobytes.
fn held(child: &Child) -> Option<u64> {
    let status = fs::read_to_string(format!("/proc/{}/status", child.id())).unwrap_or_default();
    let line = status.lines().find_map(|l| l.strip_prefix("VmHWM:"));
    line.and_then(|l| l.split_whitespace().next()?.parse().ok())
}

fn run(flights: &str, reference: &str, folder: &str) -> io::Result<()> {
    println!("| lines | bytes | program | ns a line | without the start | lines a second | megabytes a second | kilobytes held |");
    println!("|---|---|---|---|---|---|---|---|");
    let empty = format!("{folder}/0.feed");
    write_feed(&empty, 0)?;
    for lines in SIZES {
        let path = format!("{folder}/{lines}.feed");
        let bytes = write_feed(&path, lines)?;
        let programs: [(&str, Vec<&str>); 3] =
            [("flights, proved", vec![flights]), ("reference, plain", vec![reference, "report"]), ("wc -l", vec!["wc", "-l"])];
        for (name, command) in &programs {
            let seconds = best_time(command, &path)?.as_secs_f64();
            let start = best_time(command, &empty)?.as_secs_f64();
            let held = memory(command, &path)?.map_or("-".to_string(), |k| k.to_string());
            println!(
                "| {lines} | {bytes} | {name} | {:.0} | {:.0} | {:.0} | {:.0} | {held} |",
                seconds * 1e9 / lines as f64,
                (seconds - start) * 1e9 / lines as f64,
                lines as f64 / seconds,
                bytes as f64 / seconds / 1e6
            );
        }
    }
    Ok(())
}

fn main() -> ExitCode {
    let arguments: Vec<String> = env::args().skip(1).collect();
    let (Some([flights, desk, reference, folder]), memory) = (arguments.first_chunk(), arguments.get(4)) else {
        eprintln!("usage: bench FLIGHTS DESK REFERENCE FOLDER [MEMORY]");
        return ExitCode::from(2);
    };
    let feed = format!("{folder}/{}.feed", days::LINES);
    let done = run(flights, reference, folder).and_then(|()| {
        println!();
        let bytes = write_feed(&feed, days::LINES)?;
        days::run(desk, &feed, bytes, folder, memory.map(String::as_str))
    });
    match done {
        Ok(()) => ExitCode::SUCCESS,
        Err(error) => {
            eprintln!("bench: {error}");
            ExitCode::FAILURE
        }
    }
}
