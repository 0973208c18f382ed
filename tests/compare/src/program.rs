//! The program under test: started anew for each feed, which it gets through a pipe in parts.

use crate::chance::Chance;
use std::fmt;
use std::io::{self, Read, Write};
use std::path::Path;
use std::process::{Command, Stdio};
use std::thread::{self, sleep, JoinHandle};
use std::time::Duration;

/// Parts up to this many are written slowly, so that the program reads them apart; more of them
/// run together in the pipe as it happens.
const MOST_SLOW_PARTS: usize = 300;
/// How long to wait for the program's start, and for its work on a part and on each byte of it.
const START: Duration = Duration::from_millis(5);
const PART: Duration = Duration::from_micros(20);
const BYTE: Duration = Duration::from_nanos(50);

/// The sizes of the parts that a feed is written in: of some feeds at the limits of their long
/// lines, of the others any, single bytes for short feeds only, and up to 100,000.
pub fn parts(chance: &mut Chance, feed: &[u8]) -> Vec<usize> {
    let limits = limits(feed);
    if !limits.is_empty() && chance.in_hundred(40) {
        let share = chance.one_of(&[20, 50, 80]);
        let mut parts = Vec::new();
        let mut from = 0;
        for place in limits {
            if place > from && place < feed.len() && chance.in_hundred(share) {
                parts.push(place - from);
                from = place;
            }
        }
        parts.push(feed.len() - from);
        return parts;
    }
    let mosts: &[usize] = match feed.len() {
        0..=2_000 => &[1, 1, 7, 100, 2_000],
        2_001..=20_000 => &[16, 100, 2_500, 20_000],
        _ => &[300, 3_000, 9_000, 70_000, 100_000],
    };
    let most = chance.one_of(mosts);
    let mut parts = Vec::new();
    let mut left = feed.len();
    while left > 0 {
        let part = chance.between(1, most).min(left);
        parts.push(part);
        left -= part;
    }
    parts
}

/// The places, in order, where the long lines of a feed have the most bytes of a line or about so
/// many, and where they end.
fn limits(feed: &[u8]) -> Vec<usize> {
    let mut places = Vec::new();
    let mut start = 0;
    for line in feed.split_inclusive(|&byte| byte == b'\n') {
        let end = start + line.len();
        if line.len() > 2040 {
            let about = (2046..=2051).map(|width| start + width);
            places.extend(about.filter(|&place| place < end - 1));
            places.extend([end - 1, end]);
        }
        start = end;
    }
    places
}

/// A program: the script that runs those that are built, its name, the words that it is given, and the
/// folder that it runs in, if it matters.
pub struct Program<'a> {
    pub proved: &'a Path,
    pub name: &'a str,
    pub words: &'a [&'a str],
    pub folder: Option<&'a Path>,
}

impl fmt::Display for Program<'_> {
    fn fmt(&self, out: &mut fmt::Formatter) -> fmt::Result {
        out.write_str(&[&[self.name], self.words].concat().join(" "))
    }
}

/// What the program printed for a feed, what it said on standard error, and, if it ended badly, how.
pub struct Printed {
    pub text: Vec<u8>,
    pub said: Vec<u8>,
    pub bad_end: Option<String>,
}

/// Reads all that comes from a pipe, in a thread.
fn read_all(mut pipe: impl Read + Send + 'static) -> JoinHandle<io::Result<Vec<u8>>> {
    thread::spawn(move || {
        let mut text = Vec::new();
        pipe.read_to_end(&mut text).map(|_| text)
    })
}

/// What a thread read.
fn joined(reader: JoinHandle<io::Result<Vec<u8>>>) -> io::Result<Vec<u8>> {
    let read = reader.join();
    read.map_err(|_| io::Error::other("reading what the program writes failed"))?
}

/// Runs a program on a feed. The feed is written here and the report read in other threads, so that
/// neither waits for the other.
pub fn run(program: &Program, feed: &[u8], parts: &[usize]) -> io::Result<Printed> {
    let mut command = Command::new(program.proved);
    if let Some(folder) = program.folder {
        command.current_dir(folder);
    }
    let mut child = command
        .arg(program.name)
        .args(program.words)
        .stdin(Stdio::piped())
        .stdout(Stdio::piped())
        .stderr(Stdio::piped())
        .spawn()?;
    let pipes = (child.stdin.take(), child.stdout.take(), child.stderr.take());
    let (Some(mut to_program), Some(output), Some(error)) = pipes else {
        return Err(io::Error::other("the program has no pipes"));
    };
    let (text, said) = (read_all(output), read_all(error));
    let mut rest = feed;
    for (turn, &size) in parts.iter().enumerate() {
        let (part, after) = rest.split_at(size);
        // A program that no longer reads will show in what it printed, or in how it ended.
        if to_program.write_all(part).is_err() {
            break;
        }
        rest = after;
        if parts.len() <= MOST_SLOW_PARTS && !rest.is_empty() {
            let start = if turn == 0 { START } else { Duration::ZERO };
            sleep(start + PART + BYTE * size as u32);
        }
    }
    drop(to_program);
    let (text, said) = (joined(text)?, joined(said)?);
    let status = child.wait()?;
    Ok(Printed {
        text,
        said,
        bad_end: (!status.success()).then(|| status.to_string()),
    })
}
