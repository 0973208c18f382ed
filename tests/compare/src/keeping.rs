//! The third part of the comparison: `desk keep` on random feeds, and `desk lines` on the day files that it
//! makes and on what damage makes of them. A file's bytes, what is written and what is said must be the
//! reference's.

use crate::chance::Chance;
use crate::days;
use crate::feeds;
use crate::program::{parts, run, Printed, Program};
use reference::dayfile::{keep, lines_text, open, Kept, MOST_LINES, THERE_ALREADY};
use reference::rule::Rule;
use std::collections::BTreeMap;
use std::fs;
use std::io::{self, Write};
use std::path::{Path, PathBuf};
use std::process::{Command, Stdio};
use std::thread::sleep;
use std::time::Duration;

/// The names of a file that is made and of one that is damaged.
const MADE: &str = "day";
const DAMAGED: &str = "damaged";
/// How many times a file is damaged.
const DAMAGES: usize = 4;
/// What a file is called until it is whole.
const UNDER_WAY: &str = "day.part";
/// How long to wait for the program's work on half of a feed.
const HALF: Duration = Duration::from_millis(200);

/// How often each word of `desk` met each answer number.
type Tally = BTreeMap<(&'static str, u8), u64>;

/// The place where the programs run, and the script that runs them.
struct Place {
    proved: PathBuf,
    folder: PathBuf,
}

impl Place {
    fn run(&self, words: &[&str], feed: &[u8], parts: &[usize]) -> io::Result<Printed> {
        let program = Program {
            proved: &self.proved,
            name: "desk",
            words,
            folder: Some(&self.folder),
        };
        run(&program, feed, parts)
    }

    /// Makes the folder an empty one.
    fn clear(&self) -> io::Result<()> {
        if self.folder.exists() {
            fs::remove_dir_all(&self.folder)?;
        }
        fs::create_dir_all(&self.folder)
    }

    /// What stands in the folder, by name.
    fn names(&self) -> io::Result<Vec<String>> {
        let mut names = Vec::new();
        for entry in fs::read_dir(&self.folder)? {
            names.push(entry?.file_name().to_string_lossy().into_owned());
        }
        names.sort();
        Ok(names)
    }
}

/// Compares feed after feed. Whether there was no difference.
pub fn compare(proved: &Path, folder: &Path, seed: u64, files: u64) -> io::Result<bool> {
    // They run in a folder of their own.
    let place = Place {
        proved: fs::canonicalize(proved)?,
        folder: folder.join("days"),
    };
    if let Some(difference) = stopped(&place)? {
        println!("{difference}");
        return Ok(false);
    }
    let mut seeds = Chance::of_seed(seed);
    let mut tally = Tally::new();
    let mut lines = 0;
    for turn in 1..=files {
        let mut chance = Chance::of_seed(seeds.draw());
        let feed = feed(&mut chance);
        let parts = parts(&mut chance, &feed);
        let kept = keep(&feed);
        let mut difference = keeps(&place, &feed, &parts, &kept)?;
        *tally.entry(("keep", 0)).or_default() += 1;
        for number in [2, 17, 24] {
            let said = kept.said.matches(&format!("(answer {number})")).count();
            *tally.entry(("keep", number)).or_default() += said as u64;
        }
        let mut file = kept.file.clone();
        for turn in 0..=DAMAGES {
            if difference.is_some() {
                break;
            }
            if turn > 0 {
                file = days::damage(&kept.file, &mut chance);
            }
            difference = lists(&place, &file)?;
            let number = open(&file).map_or_else(|number| number, |_| 0);
            *tally.entry(("lines", number)).or_default() += 1;
        }
        if let Some(difference) = difference {
            println!("feed {turn} to be kept differs: {difference}");
            for (name, bytes) in [("difference.feed", &feed), ("difference.day", &file)] {
                let path = folder.join(name);
                fs::write(&path, bytes)?;
                println!("kept: {}", path.display());
            }
            return Ok(false);
        }
        lines += open(&kept.file).map_or(0, |opened| opened.count);
    }
    print(&tally);
    println!(
        "compared {files} day files, {lines} lines, each damaged {DAMAGES} times: no difference"
    );
    Ok(true)
}

/// Stops the program when it has half of a feed. There must be no file of that name before, and none
/// after.
fn stopped(place: &Place) -> io::Result<Option<String>> {
    place.clear()?;
    let feed = b"000006143655KZMAHB\n".repeat(20_000);
    let mut child = Command::new(&place.proved)
        .args(["desk", "keep", MADE])
        .current_dir(&place.folder)
        .stdin(Stdio::piped())
        .stdout(Stdio::null())
        .stderr(Stdio::null())
        .spawn()?;
    if let Some(to_program) = child.stdin.as_mut() {
        // A program that no longer reads has ended by itself.
        let _ = to_program.write_all(&feed);
    }
    sleep(HALF);
    let before = place.names()?;
    child.kill()?;
    child.wait()?;
    let after = place.names()?;
    let is_right = before == [UNDER_WAY] && after == before;
    Ok((!is_right)
        .then(|| format!("desk keep, stopped: the folder has {before:?}, then {after:?}")))
}

/// Keeps a feed, and then, with the file there, once more. What is not as the reference does it.
fn keeps(place: &Place, feed: &[u8], parts: &[usize], kept: &Kept) -> io::Result<Option<String>> {
    place.clear()?;
    let there = format!("{MADE}: {THERE_ALREADY}\n");
    for said in [&kept.said, &there] {
        let printed = place.run(&["keep", MADE], feed, parts)?;
        if let Some(difference) = differs(&printed, b"", said) {
            return Ok(Some(format!("desk keep: {difference}")));
        }
        let names = place.names()?;
        if names != [MADE] {
            return Ok(Some(format!("desk keep: the folder has {names:?}")));
        }
        let made = fs::read(place.folder.join(MADE))?;
        if let Some(difference) = first(&kept.file, &made) {
            return Ok(Some(format!("desk keep: the file, {difference}")));
        }
    }
    Ok(None)
}

/// Writes the lines of a file, which stays as it is. What is not as the reference does it.
fn lists(place: &Place, file: &[u8]) -> io::Result<Option<String>> {
    let path = place.folder.join(DAMAGED);
    fs::write(&path, file)?;
    let printed = place.run(&["lines", DAMAGED], b"", &[])?;
    let (text, said) = match lines_text(file) {
        Ok(text) => (text, String::new()),
        Err(why) => (Vec::new(), format!("{DAMAGED}: {why}\n")),
    };
    let difference = match differs(&printed, &text, &said) {
        None if fs::read(&path)? != file => Some("the file is another now".to_string()),
        other => other,
    };
    Ok(difference.map(|difference| format!("desk lines: {difference}")))
}

/// What of a run is not as expected.
fn differs(printed: &Printed, text: &[u8], said: &str) -> Option<String> {
    if let Some(status) = &printed.bad_end {
        return Some(format!("it ended badly: {status}"));
    }
    if let Some(difference) = first(said.as_bytes(), &printed.said) {
        return Some(format!("standard error, {difference}"));
    }
    let difference = first(text, &printed.text)?;
    Some(format!("standard output, {difference}"))
}

/// Where two texts begin to differ, and what each has there.
fn first(expected: &[u8], got: &[u8]) -> Option<String> {
    if expected == got {
        return None;
    }
    let pairs = expected.iter().zip(got);
    let same = pairs.take_while(|(one, other)| one == other).count();
    let from = same.saturating_sub(20);
    let part = |text: &[u8]| {
        let to = text.len().min(same + 60);
        text[from..to].escape_ascii().to_string()
    };
    Some(format!(
        "from byte {from}: expected {} ({} bytes in all), got {} ({})",
        part(expected),
        expected.len(),
        part(got),
        got.len()
    ))
}

/// A feed to keep: the lines of a morning; or any bytes in lines of all widths, few or many; or about
/// as many lines as a day file takes, each of a byte or of none.
fn feed(chance: &mut Chance) -> Vec<u8> {
    let mut feed = Vec::new();
    match chance.below(20) {
        0..=5 => return feeds::feed(chance, Rule::New, 3000),
        6 | 7 => {
            let count = chance.between(MOST_LINES - 1, MOST_LINES + 2);
            let wide = chance.one_of(&[0, 50, 100]);
            let overlong = chance.below(count);
            for turn in 0..count {
                if chance.in_hundred(wide) {
                    feed.push(b'x');
                }
                if turn == overlong && wide == 50 {
                    put_overlong(&mut feed, chance);
                }
                feed.push(b'\n');
            }
        }
        kind => {
            let most = 1 << chance.between(0, if kind < 9 { 10 } else { 4 });
            for _ in 0..chance.between(0, most) {
                if chance.in_hundred(4) {
                    put_overlong(&mut feed, chance);
                } else {
                    feed.extend(days::line(chance));
                }
                feed.push(b'\n');
            }
        }
    }
    if chance.in_hundred(30) {
        // A rest that has no line feed.
        if chance.in_hundred(20) {
            put_overlong(&mut feed, chance);
        } else {
            feed.extend(days::line(chance));
        }
    }
    feed
}

fn put_overlong(feed: &mut Vec<u8>, chance: &mut Chance) {
    let width = chance.one_of(&[2049, 2049, 2050, 4096, 70_000]);
    feed.resize(feed.len() + width, b'x');
}

/// Prints how often each word met each number, and the numbers that did not come up.
fn print(tally: &Tally) {
    let mut missing = Vec::new();
    for (word, numbers) in [
        ("keep", &[0, 2, 17, 24][..]),
        ("lines", &[0, 20, 21, 22, 23]),
    ] {
        let count = |number: &u8| tally.get(&(word, *number)).copied().unwrap_or(0);
        let all: Vec<String> = numbers
            .iter()
            .map(|number| format!("{number}: {}", count(number)))
            .collect();
        println!("desk {word:5}  {}", all.join(", "));
        let none = numbers.iter().filter(|number| count(number) == 0);
        missing.extend(none.map(|number| format!("{word} {number}")));
    }
    if !missing.is_empty() {
        println!("did not come up: {}", missing.join(", "));
    }
}
