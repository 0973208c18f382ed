//! Feeds by chance: some flights, and the lines of a morning about them, of the new or of the old feed.

use crate::chance::Chance;
use crate::damage::damage;
use crate::fields;
use crate::lines::{line, long_line, types, Wrongs, NO_WRONGS, TYPES};
use reference::rule::Rule;

/// The most lines that a feed is made of.
pub const MOST_LINES: usize = 5000;

/// A feed that every program takes has at most so many bytes.
pub const MOST_BYTES: usize = 131_072;

/// These lines in feeds that every program takes.
pub fn of_lines(lines: impl IntoIterator<Item = Vec<u8>>) -> Vec<Vec<u8>> {
    let mut all = vec![Vec::new()];
    for line in lines {
        if all[all.len() - 1].len() + line.len() + 1 > MOST_BYTES {
            all.push(Vec::new());
        }
        let last = all.len() - 1;
        all[last].extend_from_slice(&line);
        all[last].push(b'\n');
    }
    all
}

/// A feed of at most so many lines, most of them of this rule, its last with or without a line feed.
/// (Damage may put line feeds inside lines, so that it has more.)
pub fn feed(chance: &mut Chance, rule: Rule, most: usize) -> Vec<u8> {
    let count = line_count(chance).min(most);
    let flights = flights(chance, count);
    // What this morning is like: how many of a hundred lines are wrong, damaged, long, of the other rule.
    let wrong = chance.one_of(&[0, 10, 30, 60]);
    let damaged = chance.one_of(&[0, 2, 10, 40]);
    let long = chance.one_of(&[0, 0, 1, 3]);
    let strange = chance.one_of(&[0, 0, 2, 30]);
    let for_the_board = chance.in_hundred(60);

    let mut feed = Vec::with_capacity(count * 80);
    for turn in 0..count {
        // The flights in turn at first, so that all come, then by chance.
        let flight = match flights.get(turn) {
            Some(flight) if flights.len() > 8 => flight,
            _ => &flights[chance.below(flights.len())],
        };
        let rule = match chance.in_hundred(strange) {
            true => other(rule),
            false => rule,
        };
        let message_type = if for_the_board && chance.in_hundred(75) {
            chance.one_of(&[b"AZ", b"DZ", b"TZ"])
        } else {
            chance.one_of(types(rule))
        };
        let mut line = if chance.in_hundred(long) {
            long_line(chance, rule, flight)
        } else if chance.in_hundred(wrong) {
            let wrongs = wrongs(chance);
            // Of any type now and then, so also of one that the old feed has not.
            let any = chance.one_of(&TYPES);
            let message_type = chance.one_of(&[message_type, message_type, message_type, any]);
            line(chance, rule, message_type, flight, wrongs)
        } else {
            line(chance, rule, message_type, flight, NO_WRONGS)
        };
        if chance.in_hundred(damaged) {
            for _ in 0..chance.one_of(&[1, 1, 1, 2, 3]) {
                damage(&mut line, chance);
            }
        }
        feed.extend_from_slice(&line);
        feed.push(b'\n');
    }
    if chance.in_hundred(2) {
        put_endless_line(&mut feed, chance, rule);
    }
    if chance.in_hundred(15) {
        feed.pop();
    }
    feed
}

fn other(rule: Rule) -> Rule {
    match rule {
        Rule::New => Rule::Old,
        Rule::Old => Rule::New,
    }
}

/// Few or many: each doubling is as likely as another.
fn line_count(chance: &mut Chance) -> usize {
    let most = 1 << chance.between(0, 13);
    chance.between(most / 2, most).min(MOST_LINES)
}

/// The keys of the flights: few in most feeds, in some more than the board has rows. Some keys
/// begin others.
fn flights(chance: &mut Chance, lines: usize) -> Vec<Vec<u8>> {
    let count = match chance.below(10) {
        0..=5 => chance.between(1, 8),
        6 => chance.between(9, 250),
        _ if lines < 200 => chance.between(1, 30),
        7 => chance.between(254, 258),
        _ => chance.between(257, 700),
    };
    let mut flights: Vec<Vec<u8>> = Vec::with_capacity(count);
    for _ in 0..count {
        let mut key = fields::key(chance);
        if !flights.is_empty() && chance.in_hundred(30) {
            let near = &flights[chance.below(flights.len())];
            if near.len() < 7 && chance.in_hundred(60) {
                key.splice(..1, near.iter().copied());
                key.truncate(near.len() + 1);
            } else if near.len() > 2 {
                key = near[..near.len() - 1].to_vec();
            }
        }
        flights.push(key);
    }
    flights
}

/// What is wrong with a wrong line: a field or two, most often.
fn wrongs(chance: &mut Chance) -> Wrongs {
    match chance.below(10) {
        0 => Wrongs {
            front: 25,
            field: 0,
            spacing: 0,
        },
        1 => Wrongs {
            front: 0,
            field: 0,
            spacing: 60,
        },
        2 => Wrongs {
            front: 10,
            field: 20,
            spacing: 20,
        },
        3 => Wrongs {
            front: 0,
            field: 50,
            spacing: 0,
        },
        _ => Wrongs {
            front: 0,
            field: 15,
            spacing: 0,
        },
    }
}

/// A line longer than any block that a program would read at once, somewhere at the end.
fn put_endless_line(feed: &mut Vec<u8>, chance: &mut Chance, rule: Rule) {
    let width = chance.between(60_000, 300_000);
    let byte = chance.between(32, 126) as u8;
    feed.resize(feed.len() + width, byte);
    feed.push(b'\n');
    if chance.in_hundred(50) {
        let line = line(chance, rule, b"TZ", b"N5AB", NO_WRONGS);
        feed.extend_from_slice(&line);
        feed.push(b'\n');
    }
}

#[cfg(test)]
mod tests {
    use super::*;
    use reference::line::{read_body, Type, MOST_FZ, MOST_LINE};
    use std::collections::BTreeSet;

    /// What feeds of the old rule bring: every type, every number but 4, lines around the limits of a line
    /// and of an FZ, AF with all amendments, and lines of the new rule. No line reads under both.
    #[test]
    fn feeds_of_the_old_rule() {
        let mut seeds = Chance::of_seed(1);
        let (mut types, mut numbers) = (BTreeSet::new(), BTreeSet::new());
        let (mut widths, mut plans) = (BTreeSet::new(), BTreeSet::new());
        let (mut new, mut all_amended) = (0, 0);
        for _ in 0..150 {
            let feed = feed(&mut Chance::of_seed(seeds.draw()), Rule::Old, 2000);
            for line in feed.split(|&byte| byte == b'\n') {
                widths.insert(line.len());
                if line.get(7..9) == Some(b"FZ") {
                    plans.insert(line.len() - 7);
                }
                let is_new = read_body(Rule::New, line).is_ok();
                new += usize::from(is_new);
                match read_body(Rule::Old, line) {
                    Ok(body) => {
                        assert!(!is_new);
                        types.insert(body.message_type.text());
                        let is_whole = body.message_type == Type::AF && body.marks == 0xff;
                        all_amended += usize::from(is_whole);
                    }
                    Err(refusal) => {
                        numbers.insert(refusal.number);
                    }
                }
            }
        }
        assert_eq!(types.len(), 7, "{types:?}");
        assert_eq!(
            numbers.into_iter().collect::<Vec<u8>>(),
            [1, 2, 3, 5, 6, 7, 8, 9, 10, 11]
        );
        for width in [8, 9, MOST_LINE, MOST_LINE + 1] {
            assert!(widths.contains(&width), "{width}");
        }
        assert!(plans.contains(&MOST_FZ) && plans.contains(&(MOST_FZ + 1)));
        assert!(new > 100 && all_amended > 10, "{new} {all_amended}");
    }
}
