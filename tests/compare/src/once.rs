//! One feed, or cases of calls, written out as a program's input, with what the reference answers as its
//! expected output: for `rt try`, which runs a program that is not proved yet.

use crate::chance::Chance;
use crate::direct;
use crate::feeds;
use crate::pair_of;
use reference::dayfile::{keep, lines_text};
use reference::rule::Rule;
use std::fs;
use std::io;
use std::path::Path;

/// Random feeds of this rule one after another, cut after so many bytes.
fn feed(seed: u64, rule: Rule, bytes: usize) -> Vec<u8> {
    let mut seeds = Chance::of_seed(seed);
    let mut feed = Vec::with_capacity(bytes);
    while feed.len() < bytes {
        let mut chance = Chance::of_seed(seeds.draw());
        feed.extend(feeds::feed(&mut chance, rule, usize::MAX));
    }
    feed.truncate(bytes);
    feed
}

/// Writes `stdin` and `stdout` of a program with these words into a folder, and the words, a line each, as
/// its `args`. `damage` gets a case of each call and number, but for those that the interpreter has no
/// steps for. `desk lines` gets a day file in the folder `data`, where the program finds it; of `desk keep`
/// the file that it must make is written as `made`.
pub fn write(name: &str, words: &[&str], seed: u64, bytes: usize, folder: &Path) -> io::Result<()> {
    let (read, written) = match (name, words) {
        ("damage", _) => direct::record(seed, 1, |case| !case.is_long()),
        ("desk", ["keep", _]) => {
            let feed = feed(seed, Rule::New, bytes);
            fs::write(folder.join("made"), keep(&feed).file)?;
            (feed, Vec::new())
        }
        ("desk", ["lines", file]) => {
            let kept = keep(&feed(seed, Rule::New, bytes)).file;
            let lines = lines_text(&kept).map_err(io::Error::other)?;
            fs::create_dir_all(folder.join("data"))?;
            fs::write(folder.join("data").join(file), kept)?;
            (Vec::new(), lines)
        }
        _ => {
            let no_program = || format!("no program {name} {}", words.join(" "));
            let pair = pair_of(Path::new(""), name, words)
                .ok_or_else(|| io::Error::other(no_program()))?;
            let feed = feed(seed, pair.rule, bytes.min(pair.most));
            let report = pair.expected(&feed);
            (feed, report)
        }
    };
    println!(
        "{name}: seed {seed}, {} bytes in, {} bytes out",
        read.len(),
        written.len()
    );
    if !words.is_empty() {
        fs::write(folder.join("args"), words.join("\n") + "\n")?;
    }
    fs::write(folder.join("stdin"), read)?;
    fs::write(folder.join("stdout"), written)
}

#[cfg(test)]
mod tests {
    use super::*;
    use reference::print::{check, check_counts};

    /// A program with words gets these, a line each, and what the reference answers to them.
    #[test]
    fn a_program_with_words() {
        let folder = std::env::temp_dir().join(format!("compare-once-{}", std::process::id()));
        fs::create_dir_all(&folder).unwrap();
        let part = |name: &str| fs::read(folder.join(name)).unwrap();
        write("readings", &[], 3, 5_000, &folder).unwrap();
        assert!(!folder.join("args").exists());
        for (words, rule, refused_only) in [
            (&["check"][..], Rule::New, false),
            (&["check", "--refused"], Rule::New, true),
            (&["check", "--old"], Rule::Old, false),
            (&["check", "--old", "--refused"], Rule::Old, true),
            (&["check", "--refused", "--old"], Rule::Old, true),
        ] {
            write("desk", words, 3, 20_000, &folder).unwrap();
            assert_eq!(part("args"), (words.join("\n") + "\n").as_bytes());
            assert_eq!(part("stdin").len(), 20_000);
            assert_eq!(part("stdout"), check(rule, &part("stdin"), refused_only));
            // Its lines are of that rule: some of them read.
            let sums = String::from_utf8(check_counts(rule, &part("stdin"))).unwrap();
            assert!(!sums.contains("READ 0 "), "{sums}");
        }
        assert!(write("desk", &[], 3, 20_000, &folder).is_err());
        write("desk", &["keep", "day"], 3, 20_000, &folder).unwrap();
        let made = part("made");
        assert_eq!(made, keep(&part("stdin")).file);
        assert_eq!(part("stdout"), b"");
        write("desk", &["lines", "day"], 3, 20_000, &folder).unwrap();
        assert_eq!(part("data/day"), made);
        assert_eq!(part("stdout"), lines_text(&made).unwrap());
        fs::remove_dir_all(&folder).unwrap();
    }
}
