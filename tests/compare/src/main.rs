//! The comparison: `compare PROVED FOLDER [SEED [LINES [CASES [FILES]]]]` hands random feeds to the proved
//! programs and to the reference until so many lines were compared, then so many calls on random
//! boards, states, values and day files, then so many feeds to be kept in day files, and shows the first
//! difference. It is started by the script `run` beside this folder. `compare record FOLDER` writes the cases that stand beside `damage`, and
//! `compare once NAME SEED BYTES FOLDER [WORD..]` one feed, or cases, for a program that is given these
//! words, with the expected output.

#![forbid(unsafe_code)]

mod blocks;
mod boards;
mod calls;
mod cases;
mod chance;
mod damage;
mod days;
mod direct;
mod feeds;
mod fields;
mod keeping;
mod lines;
mod old;
mod once;
mod program;
#[cfg(test)]
mod recorded;
mod states;
mod tally;
mod values;

use chance::Chance;
use program::{parts, run, Printed, Program};
use reference::print::{check, list, report, MOST_LINES};
use reference::rule::Rule;
use std::env;
use std::fs;
use std::io;
use std::path::Path;
use std::process::ExitCode;
use tally::Tally;

const SEED: u64 = 1;
const LINES: u64 = 200_000;
const CASES: u64 = 20_000;
const FILES: u64 = 300;
/// The seed of the cases that stand beside the program `damage`, and how many of each call and number.
const RECORDED: u64 = 1;
const RECORDED_OF_EACH: usize = 2;

/// What the reference prints for a feed under a rule.
type Reference = fn(Rule, &[u8]) -> Vec<u8>;

/// What is compared: a program, and what the reference prints for the same feed.
struct Pair<'a> {
    program: Program<'a>,
    /// The rule by which both read it.
    rule: Rule,
    reference: Reference,
    /// The longest feed that the program takes.
    most: usize,
}

impl Pair<'_> {
    fn expected(&self, feed: &[u8]) -> Vec<u8> {
        (self.reference)(self.rule, feed)
    }
}

/// The board printer; the program that lists of each line the answer, the place and the values; and the
/// desk's check, of all lines and of those that are refused; the two last under each rule.
fn pairs(proved: &Path) -> [Pair<'_>; 8] {
    let pair = |name, words, rule, reference| Pair {
        program: Program {
            proved,
            name,
            words,
            folder: None,
        },
        rule,
        reference,
        most: match name {
            "readings" => feeds::MOST_BYTES,
            _ => usize::MAX,
        },
    };
    let board: Reference = |_, feed| report(feed, MOST_LINES);
    let all: Reference = |rule, feed| check(rule, feed, false);
    let refused: Reference = |rule, feed| check(rule, feed, true);
    [
        pair("flights", &[], Rule::New, board),
        pair("readings", &[], Rule::New, list),
        pair("readings", &["--old"], Rule::Old, list),
        pair("desk", &["check"], Rule::New, all),
        pair("desk", &["check", "--refused"], Rule::New, refused),
        pair("desk", &["check", "--old"], Rule::Old, all),
        pair("desk", &["check", "--old", "--refused"], Rule::Old, refused),
        pair("desk", &["check", "--refused", "--old"], Rule::Old, refused),
    ]
}

fn pair_of<'a>(proved: &'a Path, name: &str, words: &[&str]) -> Option<Pair<'a>> {
    let same = |pair: &Pair| pair.program.name == name && pair.program.words == words;
    pairs(proved).into_iter().find(same)
}

fn main() -> ExitCode {
    let arguments: Vec<String> = env::args().skip(1).collect();
    match asked(&arguments) {
        Ok(true) => ExitCode::SUCCESS,
        Ok(false) => ExitCode::FAILURE,
        Err(error) => {
            eprintln!("compare: {error}");
            ExitCode::from(2)
        }
    }
}

/// Does what the arguments ask. Whether there was no difference.
fn asked(arguments: &[String]) -> io::Result<bool> {
    let usage = || io::Error::other("usage: run [SEED [LINES [CASES [FILES]]]], whole numbers");
    match arguments {
        [what, folder] if what == "record" => {
            let (read, written) = direct::record(RECORDED, RECORDED_OF_EACH, |_| true);
            fs::write(Path::new(folder).join("stdin"), read)?;
            fs::write(Path::new(folder).join("stdout"), written)?;
            Ok(true)
        }
        [what, name, seed, bytes, folder, words @ ..] if what == "once" => {
            let number = |text: &String| text.parse::<u64>().map_err(|_| usage());
            let words: Vec<&str> = words.iter().map(String::as_str).collect();
            once::write(
                name,
                &words,
                number(seed)?,
                number(bytes)? as usize,
                Path::new(folder),
            )?;
            Ok(true)
        }
        [proved, folder, numbers @ ..] if numbers.len() <= 4 => {
            let number = |index: usize, otherwise: u64| match numbers.get(index) {
                Some(text) => text.parse::<u64>().map_err(|_| usage()),
                None => Ok(otherwise),
            };
            let (proved, folder) = (Path::new(proved), Path::new(folder));
            let (seed, lines) = (number(0, SEED)?, number(1, LINES)?);
            let (cases, files) = (number(2, CASES)?, number(3, FILES)?);
            println!("seed {seed}, {lines} lines, {cases} calls, {files} feeds to keep");
            Ok((lines == 0 || compare(proved, folder, seed, lines)?)
                && (cases == 0 || direct::compare(proved, folder, seed, cases)?)
                && (files == 0 || keeping::compare(proved, folder, seed, files)?))
        }
        _ => Err(usage()),
    }
}

/// Compares the blocks of levels and the fixed lines of the old feed, then random feed after feed.
/// Whether there was no difference.
fn compare(proved: &Path, folder: &Path, seed: u64, lines: u64) -> io::Result<bool> {
    let pairs = pairs(proved);
    let mut listed: u64 = 0;
    let mut seeds = Chance::of_seed(seed);
    let mut tally = Tally::default();
    let fixed = [blocks::feeds(), old::feeds()].concat();
    let lines = lines + fixed.iter().map(|feed| line_feeds(feed)).sum::<u64>();
    let mut fixed = fixed.into_iter();
    while tally.lines < lines {
        let mut chance = Chance::of_seed(seeds.draw());
        let most = usize::try_from(lines - tally.lines).unwrap_or(usize::MAX);
        let feed = fixed.next().unwrap_or_else(|| {
            let rule = chance.one_of(&[Rule::New, Rule::New, Rule::Old]);
            feeds::feed(&mut chance, rule, most)
        });
        let parts = parts(&mut chance, &feed);
        tally.count(&feed);
        for pair in pairs.iter().filter(|pair| feed.len() <= pair.most) {
            let printed = run(&pair.program, &feed, &parts)?;
            let expected = pair.expected(&feed);
            if differs(&printed, &expected) {
                println!("feed {} differs in {}", tally.feeds, pair.program);
                show(&printed, &expected);
                keep(pair, folder, &feed)?;
                return Ok(false);
            }
            if pair.program.name == "readings" {
                listed += line_feeds(&expected);
            }
        }
    }
    tally.print();
    println!(
        "compared {} feeds, {} lines, {} taken, {} read as old ones, {listed} lists of values: no difference",
        tally.feeds,
        tally.lines,
        tally.taken(),
        tally.read_as_old()
    );
    Ok(true)
}

fn line_feeds(text: &[u8]) -> u64 {
    text.iter().filter(|&&byte| byte == b'\n').count() as u64
}

fn differs(printed: &Printed, expected: &[u8]) -> bool {
    printed.bad_end.is_some() || printed.text != expected
}

/// Shows the first line that differs, and two lines around it on each side.
fn show(printed: &Printed, expected: &[u8]) {
    if let Some(status) = &printed.bad_end {
        println!("the program ended badly: {status}");
    }
    let expected: Vec<&[u8]> = expected.split_inclusive(|&byte| byte == b'\n').collect();
    let got: Vec<&[u8]> = printed
        .text
        .split_inclusive(|&byte| byte == b'\n')
        .collect();
    let same = expected
        .iter()
        .zip(&got)
        .take_while(|(line, other)| line == other)
        .count();
    for (name, lines) in [("expected", &expected), ("got", &got)] {
        println!(
            "{name}, from line {} of {}:",
            same.saturating_sub(2) + 1,
            lines.len()
        );
        for (index, line) in lines.iter().enumerate() {
            if (same.saturating_sub(2)..=same + 2).contains(&index) {
                let mark = if index == same { '>' } else { ' ' };
                println!("{mark} {}", line.escape_ascii());
            }
        }
    }
}

/// Keeps the feed, and beside it the least part of it that was found to differ.
fn keep(pair: &Pair, folder: &Path, feed: &[u8]) -> io::Result<()> {
    let whole = folder.join("difference.feed");
    fs::write(&whole, feed)?;
    println!("the feed: {}", whole.display());
    if !differs_whole(pair, feed)? {
        println!("given in one part it does not differ");
        return Ok(());
    }
    let small = lessen(pair, feed)?;
    let least = folder.join("difference-least.feed");
    fs::write(&least, &small)?;
    println!("its least part: {}", least.display());
    for line in small.split_inclusive(|&byte| byte == b'\n').take(5) {
        println!("  {}", line[..line.len().min(300)].escape_ascii());
    }
    Ok(())
}

/// Whether a feed differs when it is given in one part.
fn differs_whole(pair: &Pair, feed: &[u8]) -> io::Result<bool> {
    let printed = run(&pair.program, feed, &[feed.len()])?;
    Ok(differs(&printed, &pair.expected(feed)))
}

/// Takes lines away, many at once and then fewer, as long as the feed still differs.
fn lessen(pair: &Pair, feed: &[u8]) -> io::Result<Vec<u8>> {
    let mut lines: Vec<&[u8]> = feed.split_inclusive(|&byte| byte == b'\n').collect();
    let mut width = lines.len();
    while width > 1 {
        width = width.div_ceil(2);
        let mut from = 0;
        while from < lines.len() && lines.len() > 1 {
            let to = (from + width).min(lines.len());
            let fewer = [&lines[..from], &lines[to..]].concat();
            if differs_whole(pair, &fewer.concat())? {
                lines = fewer;
            } else {
                from = to;
            }
        }
    }
    Ok(lines.concat())
}
