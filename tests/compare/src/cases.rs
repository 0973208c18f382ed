//! Cases by chance: a call, most often near to a right one.

use crate::boards;
use crate::calls::{Case, MOST_BYTES};
use crate::chance::Chance;
use crate::damage::damage;
use crate::days::{self, Lent};
use crate::fields::{self, Form};
use crate::lines::{line, long_line, types, Wrongs, NO_WRONGS};
use crate::states;
use crate::values;
use reference::rule::Rule;
use reference::text::number;
use reference::{print, values as written, words};

/// A case of any call; those of the board, of the writer and of day files more often than the others.
pub fn case(chance: &mut Chance) -> Case {
    match chance.below(50) {
        0..=7 => {
            let board = boards::board(chance);
            let line = board_line(chance, &board);
            Case::Apply { board, line }
        }
        8..=11 => {
            let board = boards::board(chance);
            let key = struck(chance, &board);
            Case::Strike { board, key }
        }
        12..=15 => {
            let board = boards::board(chance);
            let text = words::board(&board).and_then(|board| print::print(&board).ok());
            let (out, at) = buffer(chance, text.map_or(9, |text| text.len()));
            Case::Print { board, out, at }
        }
        16..=18 => {
            let begun = any_line(chance, b"N5");
            let (held, begun) = states::state(chance, &begun);
            let part = states::part(chance, begun);
            Case::Cut { held, begun, part }
        }
        19 => {
            let (held, begun) = states::state(chance, b"0001");
            Case::End { held, begun }
        }
        20..=22 => feed(chance),
        23 => age(chance),
        24 => {
            let mut count = || {
                let drawn = chance.draw() as u32;
                chance.one_of(&[0, 9, 10, 999, u32::MAX, drawn])
            };
            let (lines, taken) = (count(), count());
            let text = print::counts(u64::from(lines), u64::from(taken));
            let (out, at) = buffer(chance, text.len());
            Case::Counts {
                lines,
                taken,
                out,
                at,
            }
        }
        25..=31 => {
            let (values, free) = values::values(chance);
            let line = written::write(&values, &free);
            let (out, at) = buffer(chance, line.map_or(60, |line| line.len()));
            Case::Write {
                values,
                free,
                out,
                at,
            }
        }
        32..=34 => Case::Open {
            file: days::file(chance),
        },
        35 | 36 => day_line(chance),
        37..=39 => keep_line(chance),
        40 | 41 => end_file(chance),
        42 => end_many(chance),
        _ => {
            let (values, free) = values::old_values(chance);
            let line = written::write_old(&values, &free);
            let (out, at) = buffer(chance, line.map_or(60, |line| line.len()));
            let drawn = chance.draw();
            let sequence = number(b"0001").unwrap_or_default();
            Case::WriteOld {
                unused: chance.one_of(&[0, 0, sequence, drawn]),
                values,
                free,
                out,
                at,
            }
        }
    }
}

/// One of the board's keys, or another one.
fn flight(chance: &mut Chance, board: &[u64]) -> Vec<u8> {
    let keys = boards::keys(board);
    // A full board has no room for another one.
    let other = if keys.len() == 256 { 60 } else { 35 };
    if keys.is_empty() || chance.in_hundred(other) {
        return fields::key(chance);
    }
    keys[chance.below(keys.len())].clone()
}

/// A line, right most often; a few are of the old feed.
fn any_line(chance: &mut Chance, flight: &[u8]) -> Vec<u8> {
    let rule = match chance.in_hundred(4) {
        true => Rule::Old,
        false => Rule::New,
    };
    if chance.in_hundred(4) {
        return long_line(chance, rule, flight);
    }
    let message_type = if chance.in_hundred(70) {
        chance.one_of(&[b"AZ", b"DZ", b"TZ"])
    } else {
        chance.one_of(types(rule))
    };
    let wrongs = Wrongs {
        front: 8,
        field: 8,
        spacing: 5,
    };
    let wrongs = chance.one_of(&[NO_WRONGS, NO_WRONGS, NO_WRONGS, wrongs]);
    let mut line = line(chance, rule, message_type, flight, wrongs);
    if chance.in_hundred(8) {
        damage(&mut line, chance);
    }
    line
}

fn board_line(chance: &mut Chance, board: &[u64]) -> Vec<u8> {
    let flight = flight(chance, board);
    any_line(chance, &flight)
}

/// A key to strike: listed, or not, or none.
fn struck(chance: &mut Chance, board: &[u64]) -> Vec<u8> {
    let mut key = flight(chance, board);
    match chance.below(12) {
        0 => key = near_key(chance),
        1 => key.extend_from_slice(b"/123"),
        2 => {
            key.pop();
        }
        3 => key.push(chance.one_of(b"0Z /\n\0\xff")),
        4 => damage(&mut key, chance),
        _ => {}
    }
    key
}

/// A text that is just no ident.
fn near_key(chance: &mut Chance) -> Vec<u8> {
    let mut text = Vec::new();
    fields::put(&mut text, chance, Form::Ident, b"N5", true);
    text
}

/// A whole part of a feed, on a board and a state.
fn feed(chance: &mut Chance) -> Case {
    let board = boards::board(chance);
    let flight = flight(chance, &board);
    let first = any_line(chance, &flight);
    let (held, begun) = states::state(chance, &first);
    let mut part = match begun {
        // The rest of the begun line, if it is that line's beginning.
        reference::buffer::Begun::Held(count) if count <= first.len() => first[count..].to_vec(),
        _ => states::part(chance, begun),
    };
    part.push(b'\n');
    for _ in 0..chance.one_of(&[0, 1, 2, 5, 12]) {
        part.extend(board_line(chance, &board));
        part.push(b'\n');
    }
    if chance.in_hundred(50) {
        part.extend(board_line(chance, &board));
    }
    part.truncate(chance.one_of(&[0, 1, MOST_BYTES, MOST_BYTES, MOST_BYTES, MOST_BYTES]));
    let ends = part.iter().filter(|&&byte| byte == b'\n').count();
    let most = chance.one_of(&[0, 1, 2, ends, ends + 1, ends.max(1) - 1, usize::MAX]);
    Case::Feed {
        board,
        held,
        begun,
        most,
        part,
    }
}

/// Now and a stamp, often of one day or of two that follow each other; some out of range.
fn age(chance: &mut Chance) -> Case {
    let day = chance.one_of(&[1, 1, 2, 15, 28, 29, 30, 31]);
    let wrong = chance.one_of(&[0, 27, 32, 30 + 256, u64::MAX]);
    let last = chance.one_of(&[28, 29, 29, 30, 30, 30, 31, 31, 31, wrong]);
    let other = chance.one_of(&[day, day, day.max(2) - 1, last.min(99), day % 31 + 1]);
    let mut word = |day: u64| {
        let mut text = format!("{day:02}").into_bytes();
        let mut clock = Vec::new();
        fields::put_stamp(&mut clock, chance);
        text.extend_from_slice(&clock[2..]);
        let word = reference::text::number(&text).unwrap_or_default();
        match chance.below(24) {
            0 => boards::near(chance, word),
            1 => boards::stamp(chance, true),
            _ => word,
        }
    };
    let (now, mut stamp) = (word(day), word(other));
    if chance.in_hundred(10) {
        stamp = now;
    }
    Case::Age { now, last, stamp }
}

/// A line of a day file by its number: one that it has, the next, or another one.
fn day_line(chance: &mut Chance) -> Case {
    let file = days::file(chance);
    let count = reference::dayfile::open(&file).map_or(1, |opened| opened.count);
    let number = match chance.below(8) {
        0 => 0,
        1 => count + 1,
        2 => chance.one_of(&[65_535, 65_536, 1 << 32, usize::MAX]),
        _ => chance.near_ends(1, count.max(1)),
    };
    Case::Line { file, number }
}

/// A line to keep, one that may be most often, after others.
fn keep_line(chance: &mut Chance) -> Case {
    let mut parts = days::whole(chance);
    if chance.in_hundred(15) {
        days::damage_lines(&mut parts, chance);
    }
    let line = match chance.below(5) {
        0 => days::wrong_line(chance),
        _ => days::line(chance),
    };
    let Lent {
        out,
        offsets,
        place,
        count,
    } = days::lend(chance, parts, line.len() + 1, 1);
    Case::KeepLine {
        line,
        out,
        offsets,
        place,
        count,
    }
}

/// A file to end, its lines and offsets in order most often.
fn end_file(chance: &mut Chance) -> Case {
    let mut parts = days::whole(chance);
    if chance.in_hundred(35) {
        days::damage_lines(&mut parts, chance);
    }
    let index = 4 * parts.offsets.len() + 8;
    let Lent {
        out,
        offsets,
        place,
        count,
    } = days::lend(chance, parts, index, 0);
    Case::EndFile {
        out,
        offsets,
        place,
        count,
    }
}

/// Empty lines to end a file with: few, or the most or about that many.
fn end_many(chance: &mut Chance) -> Case {
    let lines = match chance.below(4) {
        0 => chance.between(0, 5),
        _ => chance.between(65_534, 65_537),
    };
    let index = 4 * lines + 8;
    let room = match chance.below(6) {
        0 => index,
        1 => index - 1,
        2 => index + 1,
        _ => chance.between(0, 40),
    };
    let shifted = match chance.below(3) {
        0 => chance.near_ends(0, lines),
        _ => usize::MAX,
    };
    Case::EndMany {
        lines,
        room,
        shifted,
    }
}

/// A buffer with any contents and a place, for so many bytes: often just room for them, or one byte
/// too little, or a place past the end.
fn buffer(chance: &mut Chance, needed: usize) -> (Vec<u8>, usize) {
    let at = chance.one_of(&[0, 0, 1, 18, 100]);
    let size = match chance.below(10) {
        0..=2 => at + needed,
        3 | 4 => (at + needed).saturating_sub(1),
        5 | 6 => at + needed + chance.between(1, 40),
        7 => at,
        8 => at.saturating_sub(1),
        _ => chance.between(0, at + needed),
    };
    let byte = chance.one_of(b".\n\0\xff");
    let mut out = vec![byte; size];
    if chance.in_hundred(50) {
        out.fill_with(|| chance.draw() as u8);
    }
    // Places that a sum with the size would wrap around.
    let at = match chance.below(16) {
        0 => usize::MAX - needed.saturating_sub(1),
        1 => chance.one_of(&[usize::MAX, size + 1, 1 << 63]),
        _ => at,
    };
    (out, at)
}

#[cfg(test)]
mod tests {
    use super::*;

    /// No case is larger than the program's room.
    #[test]
    fn every_case_has_room() {
        let mut chance = Chance::of_seed(3);
        for _ in 0..3000 {
            let bytes = case(&mut chance).bytes();
            let number = |place: usize| {
                let mut eight = [0; 8];
                eight.copy_from_slice(&bytes[place * 8..place * 8 + 8]);
                u64::from_le_bytes(eight) as usize
            };
            assert!(number(1) <= 4096 && number(2) <= number(1));
            assert!(number(3) <= MOST_BYTES && number(4) <= MOST_BYTES);
            assert_eq!(bytes.len(), 64 + number(2) * 8 + number(3) + number(4));
        }
    }
}
