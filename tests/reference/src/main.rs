//! The command line of the reference:
//! - `reference report [FILE]` prints the board printer's report of a feed
//! - `reference lines [--old] [FILE]` prints one line for each line of a feed, with the values of its
//!   fields
//! - `reference check [--refused] [--old] [FILE]` prints one line for each line of a feed, or for each
//!   that was refused: why; and on standard error how many there were
//! - `reference keep FILE` makes the day file of a feed, and says on standard error what it did not keep
//! - `reference day-lines FILE` prints the lines of a day file, or says on standard error why it is none
//!
//! The feed is standard input where no file is named, and always for `keep`. With `--old`, which may
//! stand before `--refused` too, its lines are those of the old feed (document 02, request l).

#![forbid(unsafe_code)]

use reference::dayfile::{keep, lines_text, THERE_ALREADY};
use reference::print::{check, check_counts, list, report, MOST_LINES};
use reference::rule::Rule;
use std::env;
use std::fs;
use std::io::{self, Read, Write};
use std::process::ExitCode;

/// What is asked of a feed.
enum Asked {
    Report,
    Lines(Rule),
    Check { rule: Rule, refused_only: bool },
}

impl Asked {
    /// What is printed.
    fn print(&self, feed: &[u8]) -> Vec<u8> {
        match *self {
            Asked::Report => report(feed, MOST_LINES),
            Asked::Lines(rule) => list(rule, feed),
            Asked::Check { rule, refused_only } => check(rule, feed, refused_only),
        }
    }

    /// What is said on standard error.
    fn sums(&self, feed: &[u8]) -> Vec<u8> {
        match *self {
            Asked::Check { rule, .. } => check_counts(rule, feed),
            _ => Vec::new(),
        }
    }
}

fn checked(rule: Rule, refused_only: bool) -> Asked {
    Asked::Check { rule, refused_only }
}

fn main() -> ExitCode {
    let arguments: Vec<String> = env::args().skip(1).collect();
    let words: Vec<&str> = arguments.iter().map(String::as_str).collect();
    let (asked, file): (Asked, &[&str]) = match words.as_slice() {
        ["keep", name] => return keep_feed(name),
        ["day-lines", name] => return print_lines(name),
        ["report", file @ ..] => (Asked::Report, file),
        ["lines", "--old", file @ ..] => (Asked::Lines(Rule::Old), file),
        ["lines", file @ ..] => (Asked::Lines(Rule::New), file),
        ["check", "--old", "--refused", file @ ..] => (checked(Rule::Old, true), file),
        ["check", "--refused", "--old", file @ ..] => (checked(Rule::Old, true), file),
        ["check", "--old", file @ ..] => (checked(Rule::Old, false), file),
        ["check", "--refused", file @ ..] => (checked(Rule::New, true), file),
        ["check", file @ ..] => (checked(Rule::New, false), file),
        _ => return usage(),
    };
    let feed = match file {
        [] => read_feed(None),
        [name] => read_feed(Some(name)),
        _ => return usage(),
    };
    let feed = match feed {
        Ok(feed) => feed,
        Err(error) => return failed("the feed cannot be read", &error),
    };
    if let Err(error) = io::stdout().write_all(&asked.print(&feed)) {
        return failed("the output cannot be written", &error);
    }
    eprint!("{}", String::from_utf8_lossy(&asked.sums(&feed)));
    ExitCode::SUCCESS
}

fn read_feed(file: Option<&str>) -> io::Result<Vec<u8>> {
    match file {
        Some(name) => fs::read(name),
        None => {
            let mut feed = Vec::new();
            io::stdin().read_to_end(&mut feed)?;
            Ok(feed)
        }
    }
}

/// Makes the day file of standard input. One that is there already is never replaced.
fn keep_feed(name: &str) -> ExitCode {
    if fs::symlink_metadata(name).is_ok() {
        eprintln!("{name}: {THERE_ALREADY}");
        return ExitCode::FAILURE;
    }
    let feed = match read_feed(None) {
        Ok(feed) => feed,
        Err(error) => return failed("the feed cannot be read", &error),
    };
    let kept = keep(&feed);
    if let Err(error) = fs::write(name, &kept.file) {
        return failed("the day file cannot be written", &error);
    }
    eprint!("{}", kept.said);
    ExitCode::SUCCESS
}

/// Prints the lines of a day file, and nothing of a file that is none.
fn print_lines(name: &str) -> ExitCode {
    let file = match fs::read(name) {
        Ok(file) => file,
        Err(error) => {
            eprintln!("{name}: {}", system_words(&error));
            return ExitCode::FAILURE;
        }
    };
    match lines_text(&file) {
        Ok(text) => match io::stdout().write_all(&text) {
            Ok(()) => ExitCode::SUCCESS,
            Err(error) => failed("the output cannot be written", &error),
        },
        Err(why) => {
            eprintln!("{name}: {why}");
            ExitCode::FAILURE
        }
    }
}

/// What the system says of an error, without its number.
fn system_words(error: &io::Error) -> String {
    let words = error.to_string();
    match words.split_once(" (os error") {
        Some((words, _)) => words.to_string(),
        None => words,
    }
}

fn usage() -> ExitCode {
    eprintln!("usage: reference report [FILE]");
    eprintln!("       reference lines [--old] [FILE]");
    eprintln!("       reference check [--refused] [--old] [FILE]");
    eprintln!("       reference keep FILE");
    eprintln!("       reference day-lines FILE");
    ExitCode::from(2)
}

fn failed(what: &str, error: &io::Error) -> ExitCode {
    eprintln!("reference: {what}: {error}");
    ExitCode::FAILURE
}
