//! A board as the words that a caller lends (docs/DECISIONS.md, "The board is words that the
//! caller lends"): 2,817 of them, the count of rows, then 256 rows of eleven words, unused words
//! 0. A row is its key; departure, destination, clock and stamp; speed, level, position and
//! stamp; two words that are 0. A missing entry is zero words and nothing else.

use crate::board::{Arrival, Board, Row, Track, MOST_ROWS};
use crate::field::Stamp;
use crate::line::read;
use crate::print;
use crate::text::{number, text};
use std::collections::BTreeMap;

/// The words of a row.
pub const ROW: usize = 11;
/// The words of a board.
pub const WORDS: usize = 1 + ROW * MOST_ROWS;

/// The board that words show, if they show one that is allowed.
pub fn board(words: &[u64]) -> Option<Board> {
    if words.len() != WORDS || words[0] > MOST_ROWS as u64 {
        return None;
    }
    let (used, unused) = words[1..].split_at(ROW * words[0] as usize);
    if unused.iter().any(|&word| word != 0) {
        return None;
    }
    let mut rows: BTreeMap<Vec<u8>, Row> = BTreeMap::new();
    for words in used.chunks(ROW) {
        let (key, row) = row(words)?;
        // "strictly rising"
        if rows.keys().next_back().is_some_and(|last| *last >= key) {
            return None;
        }
        rows.insert(key, row);
    }
    let board = Board::of_rows(rows);
    board.is_allowed().then_some(board)
}

/// The key and the entries of a row, if its words are texts.
fn row(words: &[u64]) -> Option<(Vec<u8>, Row)> {
    let key = text(words[0])?;
    let is_none = |words: &[u64]| words.iter().all(|&word| word == 0);
    let arrival = match &words[1..5] {
        none if is_none(none) => None,
        entry => Some(Arrival {
            departure: text(entry[0])?,
            destination: text(entry[1])?,
            clock: text(entry[2])?,
            stamp: stamp(entry[3])?,
        }),
    };
    let track = match &words[5..9] {
        none if is_none(none) => None,
        entry => Some(Track {
            speed: text(entry[0])?,
            level: text(entry[1])?,
            position: text(entry[2])?,
            stamp: stamp(entry[3])?,
        }),
    };
    is_none(&words[9..]).then_some((key, Row { arrival, track }))
}

/// The stamp whose text the number is.
pub fn stamp(word: u64) -> Option<Stamp> {
    Stamp::read(&text(word)?)
}

/// The words of an allowed board.
pub fn words(board: &Board) -> Vec<u64> {
    // The texts of an allowed board are short ones.
    let word = |text: &[u8]| number(text).unwrap_or_default();
    let mut words = vec![board.rows().len() as u64];
    for (key, row) in board.rows() {
        words.push(word(key));
        match &row.arrival {
            Some(arrival) => {
                let texts = [&arrival.departure, &arrival.destination, &arrival.clock];
                words.extend(texts.map(|text| word(text)));
                words.push(word(arrival.stamp.text().as_bytes()));
            }
            None => words.extend([0; 4]),
        }
        match &row.track {
            Some(track) => {
                let texts = [&track.speed, &track.level, &track.position];
                words.extend(texts.map(|text| word(text)));
                words.push(word(track.stamp.text().as_bytes()));
            }
            None => words.extend([0; 4]),
        }
        words.extend([0; 2]);
    }
    words.resize(WORDS, 0);
    words
}

/// Applies a line: its own answer, then 13, then 12. Words that refuse stay as they were.
pub fn apply(words: &mut [u64], line: &[u8]) -> (u8, usize) {
    if let Err(refusal) = read(line) {
        return (refusal.number, refusal.place);
    }
    change(words, |board| board.apply(line))
}

/// Strikes a flight: 9 with place 1, then 13, then 14. Words that refuse stay as they were.
pub fn strike(words: &mut [u64], key: &[u8]) -> (u8, usize) {
    if !crate::field::is_key(key) {
        return (9, 1);
    }
    change(words, |board| board.strike(key))
}

/// 13 for words that show no allowed board; else what the call does to it.
fn change(words: &mut [u64], call: impl Fn(&mut Board) -> (u8, usize)) -> (u8, usize) {
    let Some(mut board) = board(words) else {
        return (13, 0);
    };
    let answer = call(&mut board);
    words.copy_from_slice(&self::words(&board));
    answer
}

/// Prints the board that words show into `out` from the place `at` on, and tells how many bytes
/// it has: 13, then 15.
pub fn print_into(words: &[u64], out: &mut [u8], at: usize) -> Result<usize, u8> {
    let board = board(words).ok_or(13)?;
    print::print_into(&board, out, at)
}

#[cfg(test)]
mod tests {
    use super::*;

    const TAKEN: (u8, usize) = (0, 0);

    fn line(text: &str) -> Vec<u8> {
        format!("000106081500KZAA{text}").into_bytes()
    }

    fn word(text: &str) -> u64 {
        number(text.as_bytes()).unwrap()
    }

    /// A board of two flights, N5 with both entries and N6 with an arrival entry.
    fn two() -> Vec<u64> {
        let mut words = vec![0; WORDS];
        assert_eq!(
            apply(&mut words, &line("TZ N5/123 310 240C 3015N/08430W")),
            TAKEN
        );
        assert_eq!(apply(&mut words, &line("AZ N6 AB CD A0930")), TAKEN);
        assert_eq!(apply(&mut words, &line("AZ N5 GHI JKL 0810")), TAKEN);
        words
    }

    #[test]
    fn word_by_word() {
        let mut expected = vec![2];
        expected.extend(["N5", "GHI", "JKL", "0810", "06081500"].map(word));
        expected.extend(["310", "240C", "3015N/08430W", "06081500"].map(word));
        expected.extend([0, 0]);
        expected.extend(["N6", "AB", "CD", "A0930", "06081500"].map(word));
        expected.resize(WORDS, 0);
        assert_eq!(two(), expected);
        assert_eq!(words(&board(&expected).unwrap()), expected);
    }

    #[test]
    fn the_empty_board() {
        assert_eq!(board(&[0; WORDS]), Some(Board::empty()));
        assert_eq!(words(&Board::empty()), [0; WORDS]);
    }

    /// Answers 13 to each call but one with an answer of its own, and changes nothing.
    fn is_refused(words: &[u64]) {
        let mut after = words.to_vec();
        assert_eq!(board(words), None);
        assert_eq!(apply(&mut after, &line("HB")), (13, 0));
        assert_eq!(apply(&mut after, &line("AZ N6 AB CD A0930")), (13, 0));
        assert_eq!(apply(&mut after, &line("AZ N6 AB CD A2430")), (9, 4));
        assert_eq!(strike(&mut after, b"N5"), (13, 0));
        assert_eq!(strike(&mut after, b"N"), (9, 1));
        let mut out = [b'.'; 200];
        assert_eq!(print_into(words, &mut out, 300), Err(13));
        assert_eq!(out, [b'.'; 200]);
        assert_eq!(after, words);
    }

    fn with(place: usize, word: u64) -> Vec<u64> {
        let mut words = two();
        assert_ne!(words[place], word);
        words[place] = word;
        words
    }

    #[test]
    fn words_of_another_size() {
        for size in [0, 1, 23, WORDS - 1, WORDS + 1] {
            let mut words = two();
            words.resize(size, 0);
            is_refused(&words);
        }
        is_refused(&[]);
    }

    /// Each word changed to a text that is none of its form, to the number of no text, to 0.
    #[test]
    fn words_that_no_row_has() {
        for place in 0..=ROW * 2 {
            // A place after an empty one, a number beyond the places.
            for wrong in [1, 38_u64.pow(12), 38_u64.pow(12) + two()[place], u64::MAX] {
                if (place, wrong) != (0, 1) {
                    is_refused(&with(place, wrong));
                }
            }
            is_refused(&with(place, word("/")));
            if two()[place] != 0 {
                is_refused(&with(place, 0));
                is_refused(&with(place, two()[place] + 1));
            }
        }
        for place in [3 * ROW - 1, 3 * ROW + 1, WORDS - 1] {
            is_refused(&with(place, 1));
            is_refused(&with(place, word("N7")));
        }
    }

    #[test]
    fn counts_that_are_not_those_of_the_rows() {
        for count in [0, 1, 3, 256, 257, u64::MAX, 2 + (1 << 32)] {
            is_refused(&with(0, count));
        }
    }

    #[test]
    fn texts_that_are_not_of_their_form() {
        for (place, texts) in [
            (1, ["N", "5N", "N5/123", "ABCDEFGH"]),
            (2, ["A", "AB/C", "/", "0/0"]),
            (4, ["2400", "D0810", "0860", "810"]),
            (5, ["06240000", "00081500", "32081500", "0608150"]),
            (6, ["31", "M31", "3100", "SC"]),
            (7, ["24", "24C", "240CC", "2405"]),
            (8, ["9001N/00000E", "AB", "3015N/18001W", "3060N/08430W"]),
            (9, ["06081560", "06086000", "6081500", "A6081500"]),
        ] {
            for text in texts {
                is_refused(&with(place, word(text)));
            }
        }
    }

    #[test]
    fn rows_that_do_not_rise() {
        let mut exchanged = two();
        exchanged[1..=ROW * 2].rotate_left(ROW);
        is_refused(&exchanged);
        is_refused(&with(1 + ROW, word("N5")));
        is_refused(&with(1, word("N6")));
        assert!(board(&with(1, word("N60"))).is_none());
        assert!(board(&with(1, word("N50"))).is_some());
        assert!(board(&with(1 + ROW, word("N50"))).is_some());
    }

    /// "not both none": a row without entries, and an entry of which a part is missing.
    #[test]
    fn rows_without_entries() {
        let mut words = two();
        words[2 + ROW..6 + ROW].fill(0);
        is_refused(&words);
        words[6 + ROW..10 + ROW].copy_from_slice(&two()[6..10]);
        assert!(board(&words).is_some());
    }

    #[test]
    fn a_full_board() {
        let mut words = vec![0; WORDS];
        for flight in (0..256).rev() {
            let az = line(&format!("AZ N{flight:03} AB CD A0930"));
            assert_eq!(apply(&mut words, &az), TAKEN);
        }
        assert!(words.iter().skip(1).step_by(ROW).all(|&key| key != 0));
        let before = words.clone();
        assert_eq!(apply(&mut words, &line("AZ N256 AB CD A0930")), (12, 0));
        assert_eq!(strike(&mut words, b"N256"), (14, 0));
        assert_eq!(words, before);
        assert_eq!(strike(&mut words, b"N017"), TAKEN);
        assert_eq!(words[0], 255);
        assert_eq!(words[WORDS - ROW..], [0; ROW]);
        assert_eq!(apply(&mut words, &line("AZ N017 AB CD A0930")), TAKEN);
        assert_eq!(words, before);
    }

    #[test]
    fn printing() {
        let mut out = vec![b'.'; 120];
        let text =
            "FLIGHTS 2\nN5 GHI JKL 0810 06081500 310 240C 3015N/08430W\nN6 AB CD A0930 - - - -\n";
        assert_eq!(print_into(&two(), &mut out, 3), Ok(text.len()));
        assert_eq!(&out[3..3 + text.len()], text.as_bytes());
        assert_eq!(print_into(&two(), &mut out[..text.len() - 1], 0), Err(15));
        assert_eq!(print_into(&two(), &mut out, usize::MAX), Err(15));
    }
}
