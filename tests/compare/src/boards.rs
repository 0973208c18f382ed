//! Boards by chance: allowed ones, ones that are a little damaged, and any words.

use crate::chance::Chance;
use crate::fields::{self, one_text, Form};
use reference::text::{number, text};
use reference::words::{ROW, WORDS};
use std::collections::BTreeSet;

/// Stamps that just miss and are short texts all the same.
const WRONG_STAMPS: &str = "\
    00081500|32081500|06240000|06236000|06235960|0608150|060815000|0608150A|A6081500|\
    06/81500|99999999|39000000|06300000";

/// A board: allowed, or damaged once or more, or any words.
pub fn board(chance: &mut Chance) -> Vec<u64> {
    match chance.below(20) {
        0 => any_words(chance),
        1..=9 => {
            let mut words = allowed(chance);
            for _ in 0..chance.one_of(&[1, 1, 1, 1, 2]) {
                damage(&mut words, chance);
            }
            words
        }
        _ => allowed(chance),
    }
}

/// The keys that a board has, or would have if it were allowed.
pub fn keys(words: &[u64]) -> Vec<Vec<u8>> {
    let keys = words.iter().skip(1).step_by(ROW);
    keys.take_while(|&&key| key != 0)
        .filter_map(|&key| text(key))
        .collect()
}

fn allowed(chance: &mut Chance) -> Vec<u64> {
    let count = match chance.below(20) {
        0 => 0,
        1..=9 => chance.between(1, 4),
        10..=15 => chance.between(5, 20),
        16 => chance.between(21, 254),
        17 => 255,
        _ => 256,
    };
    let mut keys: BTreeSet<Vec<u8>> = BTreeSet::new();
    while keys.len() < count {
        let mut key = fields::key(chance);
        // Keys that begin others.
        while keys.len() < count && chance.in_hundred(30) && key.len() > 2 {
            keys.insert(key.clone());
            key.pop();
        }
        if keys.len() < count {
            keys.insert(key);
        }
    }
    let mut words = vec![count as u64];
    for key in keys {
        put_row(&mut words, chance, &key);
    }
    words.resize(WORDS, 0);
    words
}

fn put_row(words: &mut Vec<u64>, chance: &mut Chance, key: &[u8]) {
    let kind = chance.below(3);
    for column in 0..ROW {
        let missing = match column {
            1..=4 => kind == 0,
            5..=8 => kind == 1,
            9.. => true,
            _ => false,
        };
        words.push(match column {
            0 => number(key).unwrap_or_default(),
            _ if missing => 0,
            _ => column_word(chance, column, false),
        });
    }
}

/// A word of this column of a row: right, or the number of a text that just misses.
fn column_word(chance: &mut Chance, column: usize, wrong: bool) -> u64 {
    let form = match column {
        0 => Form::Ident,
        1 | 2 => Form::Point,
        3 => Form::ArrivalClock,
        5 => Form::GroundSpeed,
        6 => Form::TrackLevel,
        7 => Form::Position,
        _ => return stamp(chance, wrong),
    };
    let mut text = Vec::new();
    fields::put(&mut text, chance, form, b"N5", wrong);
    number(&text).unwrap_or_else(|| chance.draw())
}

/// The number of a stamp, or of a text that just misses.
pub fn stamp(chance: &mut Chance, wrong: bool) -> u64 {
    let mut text = Vec::new();
    if wrong {
        text.extend_from_slice(one_text(chance, WRONG_STAMPS));
    } else {
        fields::put_stamp(&mut text, chance);
    }
    number(&text).unwrap_or_default()
}

/// A word that is near to another one, or far from all.
pub fn near(chance: &mut Chance, word: u64) -> u64 {
    let top = 38_u64.pow(12);
    match chance.below(10) {
        0 => word.wrapping_add(1),
        1 => word.wrapping_sub(1),
        2 => word.wrapping_add(top),
        3 => word ^ (1 << chance.below(64)),
        4 => word / 38,
        5 => word.wrapping_mul(38) % top,
        6 => 0,
        7 => chance.one_of(&[1, 38, 256, 257, top, top - 1, u64::MAX]),
        8 => chance.draw(),
        _ => word.wrapping_add(38_u64.pow(chance.below(12) as u32)),
    }
}

/// The place of a word of a row, if the board has rows.
fn place(chance: &mut Chance, words: &[u64]) -> Option<usize> {
    let rows = keys(words).len();
    if rows == 0 {
        return None;
    }
    Some(1 + chance.near_ends(0, rows - 1) * ROW + chance.below(ROW))
}

/// Damages a board once. (Now and then it is allowed all the same.)
fn damage(words: &mut Vec<u64>, chance: &mut Chance) {
    if words.len() != WORDS {
        return;
    }
    let Some(place) = place(chance, words) else {
        return damage_anywhere(words, chance);
    };
    let row = place - (place - 1) % ROW;
    match chance.below(14) {
        0..=2 => words[place] = near(chance, words[place]),
        3..=5 => words[place] = column_word(chance, place - row, true),
        // Another column's word.
        6 => words[place] = words[row + chance.below(ROW)],
        7 => swap_rows(words, chance, row),
        // The row a second time, in the place of the next or of the last one.
        8 => words.copy_within(row..row + ROW, (row + ROW).min(WORDS - ROW)),
        9 => words[row + 1..row + 5].fill(0),
        10 => words[row + 5..row + 9].fill(0),
        11 => words[row + 9 + chance.below(2)] = chance.one_of(&[1, number(b"N5").unwrap_or(2)]),
        _ => damage_anywhere(words, chance),
    }
}

/// Exchanges a row's words with those of the next one, or its key alone.
fn swap_rows(words: &mut [u64], chance: &mut Chance, row: usize) {
    if row + 2 * ROW > words.len() {
        return;
    }
    let width = chance.one_of(&[1, ROW, ROW]);
    for place in row..row + width {
        words.swap(place, place + ROW);
    }
}

/// Damages the count, the unused words, or the size.
fn damage_anywhere(words: &mut Vec<u64>, chance: &mut Chance) {
    let rows = keys(words).len();
    let count = rows as u64;
    match chance.below(8) {
        0 => words[0] = count + 1,
        1 => words[0] = count.wrapping_sub(1),
        2 => words[0] = chance.one_of(&[0, 256, 257, u64::MAX, count + (1 << 32), 1 << 63]),
        3 => {
            let place = chance.one_of(&[1 + ROW * rows, WORDS - 1]);
            if place < WORDS {
                words[place] = chance.one_of(&[1, u64::MAX, number(b"ZZZZZZZ").unwrap_or(2)]);
            }
        }
        4 => {
            let place = chance.below(WORDS);
            words[place] = near(chance, words[place]);
        }
        5 => words.truncate(WORDS - chance.one_of(&[1, 1, 11])),
        6 => {
            // A row more than there is room for, counted or not.
            words.resize(WORDS + chance.one_of(&[1, ROW]), 0);
            if chance.in_hundred(50) {
                words[0] = 257;
            }
        }
        _ => words.truncate(chance.one_of(&[0, 1, 12])),
    }
}

/// Any words at all, few or as many as a board has.
fn any_words(chance: &mut Chance) -> Vec<u64> {
    let size = chance.one_of(&[0, 1, 2, 12, 23, WORDS, WORDS, WORDS]);
    let drawn = chance.one_of(&[1, 12, size.max(1)]).min(size);
    let mut words: Vec<u64> = (0..drawn).map(|_| chance.draw()).collect();
    words.resize(size, 0);
    if size > 0 && chance.in_hundred(80) {
        words[0] = chance.between(0, 256) as u64;
    }
    words
}

#[cfg(test)]
mod tests {
    use super::*;
    use reference::words::{board as shown, words as words_of};

    #[test]
    fn what_is_made_to_be_allowed_is() {
        let mut chance = Chance::of_seed(1);
        for _ in 0..200 {
            let words = allowed(&mut chance);
            let board = shown(&words).unwrap();
            assert_eq!(board.rows().len(), keys(&words).len());
            assert_eq!(words_of(&board), words);
        }
    }

    #[test]
    fn damage_is_seen_most_often() {
        let mut chance = Chance::of_seed(2);
        let mut refused = 0;
        for _ in 0..500 {
            let mut words = allowed(&mut chance);
            damage(&mut words, &mut chance);
            refused += usize::from(shown(&words).is_none());
        }
        assert!((350..500).contains(&refused), "{refused}");
    }
}
