//! The second part of the comparison: the calls themselves, on what no feed can bring. Many cases go to
//! the proved program `damage` at once, and what it writes must be what the reference answers.

use crate::blocks;
use crate::calls::{Answer, Case, CALLS};
use crate::cases::case;
use crate::chance::Chance;
use crate::old;
use crate::program::{run, Program};
use std::collections::BTreeMap;
use std::fs;
use std::io;
use std::iter;
use std::path::Path;

/// How many cases one run of the program is given.
const AT_ONCE: u64 = 500;

/// How often each call gave each answer number.
type Tally = BTreeMap<(usize, u8), u64>;

/// Compares the blocks of levels and the fixed messages of the old feed as values to write, then random
/// case after case. Whether there was no difference.
pub fn compare(proved: &Path, folder: &Path, seed: u64, cases: u64) -> io::Result<bool> {
    let program = Program {
        proved,
        name: "damage",
        words: &[],
        folder: None,
    };
    let mut seeds = Chance::of_seed(seed);
    let mut tally = Tally::new();
    let fixed = [blocks::writes(), old::writes()].concat();
    let cases = cases + fixed.len() as u64;
    let random = iter::from_fn(|| Some(case(&mut Chance::of_seed(seeds.draw()))));
    let mut all = fixed.into_iter().chain(random);
    let mut done = 0;
    while done < cases {
        let count = AT_ONCE.min(cases - done);
        let made: Vec<Case> = all.by_ref().take(count as usize).collect();
        let answers: Vec<Answer> = made.iter().map(Case::answer).collect();
        let input: Vec<u8> = made.iter().flat_map(Case::bytes).collect();
        let printed = run(&program, &input, &[input.len()])?;
        let mut rest = &printed.text[..];
        for (index, (case, answer)) in made.iter().zip(&answers).enumerate() {
            let Some(after) = rest.strip_prefix(&answer.bytes[..]) else {
                println!("case {} differs", done + index as u64 + 1);
                show(&program, folder, case, answer)?;
                return Ok(false);
            };
            rest = after;
            *tally.entry((case.call(), answer.number)).or_default() += 1;
        }
        if let Some(status) = printed.bad_end {
            println!(
                "the program ended badly after case {}: {status}",
                done + count
            );
            return Ok(false);
        }
        if !rest.is_empty() {
            println!("{} bytes too many after case {}", rest.len(), done + count);
            return Ok(false);
        }
        done += count;
    }
    print(&tally);
    println!("compared {done} calls on boards, states, values and day files: no difference");
    Ok(true)
}

/// Keeps a case that differs and what is expected, and shows the first byte that differs.
fn show(program: &Program, folder: &Path, case: &Case, answer: &Answer) -> io::Result<()> {
    let bytes = case.bytes();
    let got = run(program, &bytes, &[bytes.len()])?;
    if let Some(status) = got.bad_end {
        println!("the program ended badly: {status}");
    }
    let pairs = answer.bytes.iter().zip(&got.text);
    let same = pairs.take_while(|(one, other)| one == other).count();
    println!(
        "{}: expected answer {}, {} bytes in all; got {} bytes, the first {same} of them the same",
        CALLS[case.call()].0,
        answer.number,
        answer.bytes.len(),
        got.text.len()
    );
    for (name, text) in [("expected", &answer.bytes), ("got", &got.text)] {
        let end = text.len().min(same + 24);
        println!(
            "{name:>8} from byte {same}: {}",
            text[same..end].escape_ascii()
        );
    }
    let text = format!("{case:?}");
    println!("{}", &text[..text.len().min(2000)]);
    for (name, text) in [
        ("difference.case", &bytes),
        ("difference.expected", &answer.bytes),
        ("difference.got", &got.text),
    ] {
        let path = folder.join(name);
        fs::write(&path, text)?;
        println!("kept: {}", path.display());
    }
    Ok(())
}

/// Prints how often each call gave each number, and the numbers that did not come up.
fn print(tally: &Tally) {
    println!("call          count  answers");
    let mut missing = Vec::new();
    for (call, (name, numbers)) in CALLS.iter().enumerate() {
        let counts = tally.range((call, 0)..=(call, u8::MAX));
        let all: Vec<String> = counts
            .clone()
            .map(|((_, number), count)| format!("{number}: {count}"))
            .collect();
        let sum: u64 = counts.map(|(_, count)| count).sum();
        println!("{name:9} {sum:9}  {}", all.join(", "));
        for number in *numbers {
            if !tally.contains_key(&(call, *number)) {
                missing.push(format!("{name} {number}"));
            }
        }
    }
    if missing.is_empty() {
        println!("every number that these calls can give came up");
    } else {
        println!("did not come up: {}", missing.join(", "));
    }
}

/// Cases to keep. What the program reads, and what it must write.
pub fn record(seed: u64, most: usize, is_allowed: fn(&Case) -> bool) -> (Vec<u8>, Vec<u8>) {
    let kept = kept(seed, most, is_allowed);
    let cases: Vec<&Case> = kept.values().flatten().map(|(case, _)| case).collect();
    let read = cases.iter().flat_map(|case| case.bytes()).collect();
    let written = cases.iter().flat_map(|case| case.answer().bytes).collect();
    (read, written)
}

/// Of each call and answer number cases with their sizes: the first that are small, at most so many, or
/// the smallest; of those that are allowed.
type Kept = BTreeMap<(usize, u8), Vec<(Case, usize)>>;

fn kept(seed: u64, most: usize, is_allowed: fn(&Case) -> bool) -> Kept {
    const SMALL: usize = 5000;
    let mut seeds = Chance::of_seed(seed);
    let mut kept = Kept::new();
    for _ in 0..6000 {
        let case = case(&mut Chance::of_seed(seeds.draw()));
        if !is_allowed(&case) {
            continue;
        }
        let answer = case.answer();
        let size = case.bytes().len() + answer.bytes.len();
        let alike = kept.entry((case.call(), answer.number)).or_default();
        match alike.first() {
            None => alike.push((case, size)),
            Some(&(_, first)) if first > SMALL && size < first => alike[0] = (case, size),
            Some(_) if size <= SMALL && alike.len() < most => alike.push((case, size)),
            Some(_) => {}
        }
    }
    kept
}

#[cfg(test)]
mod tests {
    use super::*;
    use crate::{RECORDED, RECORDED_OF_EACH};

    /// What stands beside the program is what would be recorded now.
    #[test]
    fn the_recorded_run() {
        let folder = Path::new(env!("CARGO_MANIFEST_DIR")).join("../../crates/damage");
        let (read, written) = record(RECORDED, RECORDED_OF_EACH, |_| true);
        assert!(fs::read(folder.join("stdin")).unwrap() == read);
        assert!(fs::read(folder.join("stdout")).unwrap() == written);
    }

    /// Every number that a call can give is among them.
    #[test]
    fn every_number_is_recorded() {
        let kept = kept(RECORDED, RECORDED_OF_EACH, |_| true);
        for (call, (name, numbers)) in CALLS.iter().enumerate() {
            for number in *numbers {
                assert!(kept.contains_key(&(call, *number)), "{name} {number}");
            }
        }
    }
}
