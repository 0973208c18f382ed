//! The board (document 01, "Board"): one row per listed flight, at most 256, in byte order of
//! the key. A row has an arrival entry or none, and a track or none.

use crate::field::{self, Stamp};
use crate::line::{read, Message, Type};
use crate::rule::Rule;
use std::collections::BTreeMap;

/// "One row per listed flight, at most 256"
pub const MOST_ROWS: usize = 256;

/// "an arrival entry (two points, clock, stamp of its line)"
#[derive(Clone, Debug, PartialEq, Eq)]
pub struct Arrival {
    pub departure: Vec<u8>,
    pub destination: Vec<u8>,
    pub clock: Vec<u8>,
    pub stamp: Stamp,
}

/// "a track (speed, level, position, stamp)"
#[derive(Clone, Debug, PartialEq, Eq)]
pub struct Track {
    pub stamp: Stamp,
    pub speed: Vec<u8>,
    pub level: Vec<u8>,
    pub position: Vec<u8>,
}

#[derive(Clone, Debug, Default, PartialEq, Eq)]
pub struct Row {
    pub arrival: Option<Arrival>,
    pub track: Option<Track>,
}

/// The rows by their keys. The map keeps the keys strictly rising in byte order, "a key that
/// begins another comes first".
///
/// Whether the rows are allowed is judged when a board is made. After that only `apply` and
/// `strike` change it, which keep an allowed board allowed and leave any other as it is.
/// So two boards are equal exactly if their rows are.
#[derive(Clone, Debug, PartialEq, Eq)]
pub struct Board {
    rows: BTreeMap<Vec<u8>, Row>,
    allowed: bool,
}

impl Board {
    /// The board without a flight.
    pub fn empty() -> Board {
        Board::of_rows(BTreeMap::new())
    }

    /// A board of any rows, allowed or not.
    pub fn of_rows(rows: BTreeMap<Vec<u8>, Row>) -> Board {
        let allowed = are_allowed(&rows);
        Board { rows, allowed }
    }

    pub fn rows(&self) -> &BTreeMap<Vec<u8>, Row> {
        &self.rows
    }

    pub fn is_allowed(&self) -> bool {
        self.allowed
    }

    /// Applies one line of the new feed and gives the answer number and the place (0 where it has
    /// none). The line's own answer, "then 13, then 12". "Old lines never touch a board" (document 02,
    /// l): none of them reads here.
    pub fn apply(&mut self, line: &[u8]) -> (u8, usize) {
        let message = match read(line) {
            Ok(message) => message,
            Err(refusal) => return (refusal.number, refusal.place),
        };
        // For every readable line, HB too (docs/DECISIONS.md).
        if !self.allowed {
            return (13, 0);
        }
        match message.body.message_type {
            Type::AZ | Type::DZ | Type::TZ => {}
            // "Other types change nothing and need no room."
            _ => return (0, 0),
        }
        let key = field::key_of_ident(message.body.fields[0]);
        if !self.rows.contains_key(key) {
            if self.rows.len() == MOST_ROWS {
                return (12, 0);
            }
            self.rows.insert(key.to_vec(), Row::default());
        }
        if let Some(row) = self.rows.get_mut(key) {
            write_row(row, &message);
        }
        (0, 0)
    }

    /// Removes a flight: "9 for a key not of that form, place 1, then 13, 14". The form is
    /// the board's key without a computer number (docs/DECISIONS.md).
    pub fn strike(&mut self, key: &[u8]) -> (u8, usize) {
        if !field::is_key(key) {
            return (9, 1);
        }
        if !self.allowed {
            return (13, 0);
        }
        match self.rows.remove(key) {
            Some(_) => (0, 0),
            None => (14, 0),
        }
    }
}

/// What a taken AZ, DZ or TZ does to its flight's row. "Order is order of arrival; stamps may
/// go back": no stamp is looked at.
fn write_row(row: &mut Row, message: &Message) {
    let text = |place: usize| message.body.fields[place - 1].to_vec();
    match message.body.message_type {
        // AZ: ident, point, point, arrival clock. "AZ writes the arrival entry."
        Type::AZ => {
            row.arrival = Some(Arrival {
                departure: text(2),
                destination: text(3),
                clock: text(4),
                stamp: message.stamp,
            });
        }
        // DZ: ident, aircraft, point, time, point, clock. "DZ writes the arrival entry and
        // empties the track."
        Type::DZ => {
            row.arrival = Some(Arrival {
                departure: text(3),
                destination: text(5),
                clock: text(6),
                stamp: message.stamp,
            });
            row.track = None;
        }
        // TZ: ident, ground speed, track level, position. "TZ writes the track."
        Type::TZ => {
            row.track = Some(Track {
                stamp: message.stamp,
                speed: text(2),
                level: text(3),
                position: text(4),
            });
        }
        _ => {}
    }
}

/// "A board is allowed exactly if it has at most 256 rows, keys of ident form without slash or
/// computer number, strictly rising, entries such as a line could give, and no row with both
/// none." That the keys rise strictly the map sees to.
fn are_allowed(rows: &BTreeMap<Vec<u8>, Row>) -> bool {
    rows.len() <= MOST_ROWS
        && rows
            .iter()
            .all(|(key, row)| field::is_key(key) && is_allowed_row(row))
}

/// Each entry is judged alone (docs/DECISIONS.md).
fn is_allowed_row(row: &Row) -> bool {
    let arrival_is_allowed = match &row.arrival {
        Some(arrival) => {
            field::is_point(&arrival.departure)
                && field::is_point(&arrival.destination)
                && field::is_arrival_clock(Rule::New, &arrival.clock)
                && arrival.stamp.in_range()
        }
        None => true,
    };
    let track_is_allowed = match &row.track {
        Some(track) => {
            field::is_ground_speed(&track.speed)
                && field::is_track_level(&track.level)
                && field::is_position(&track.position)
                && track.stamp.in_range()
        }
        None => true,
    };
    let both_none = row.arrival.is_none() && row.track.is_none();
    arrival_is_allowed && track_is_allowed && !both_none
}

#[cfg(test)]
mod tests {
    use super::*;

    const TAKEN: (u8, usize) = (0, 0);

    fn apply(board: &mut Board, text: &str) -> (u8, usize) {
        let before = board.clone();
        let answer = board.apply(format!("0001{text}").as_bytes());
        if answer != TAKEN {
            assert_eq!(*board, before, "a refused line changes nothing");
        }
        assert_eq!(board.is_allowed(), are_allowed(board.rows()));
        answer
    }

    fn row<'a>(board: &'a Board, key: &str) -> &'a Row {
        &board.rows()[key.as_bytes()]
    }

    fn arrival(departure: &str, destination: &str, clock: &str, stamp: &str) -> Option<Arrival> {
        Some(Arrival {
            departure: departure.into(),
            destination: destination.into(),
            clock: clock.into(),
            stamp: Stamp::read(stamp.as_bytes()).unwrap(),
        })
    }

    fn track(stamp: &str, speed: &str, level: &str, position: &str) -> Option<Track> {
        Some(Track {
            stamp: Stamp::read(stamp.as_bytes()).unwrap(),
            speed: speed.into(),
            level: level.into(),
            position: position.into(),
        })
    }

    /// The error of the trade "letting a new DZ keep the old track", and what each type writes.
    #[test]
    fn what_each_type_writes() {
        let mut board = Board::empty();
        assert_eq!(
            apply(&mut board, "06081500KZAATZ QQX12/101 310 240 3015N/08430W"),
            TAKEN
        );
        let old_track = track("06081500", "310", "240", "3015N/08430W");
        assert_eq!(
            *row(&board, "QQX12"),
            Row {
                arrival: None,
                track: old_track.clone()
            }
        );
        assert_eq!(
            apply(&mut board, "06081530KZAAAZ QQX12 GHI JKL A0810"),
            TAKEN
        );
        let first_arrival = arrival("GHI", "JKL", "A0810", "06081530");
        assert_eq!(
            *row(&board, "QQX12"),
            Row {
                arrival: first_arrival,
                track: old_track
            }
        );
        assert_eq!(
            apply(
                &mut board,
                "06081600KZAADZ QQX12/101 C172/A ABC D0816 DEF 0930"
            ),
            TAKEN
        );
        let second_arrival = arrival("ABC", "DEF", "0930", "06081600");
        assert_eq!(
            *row(&board, "QQX12"),
            Row {
                arrival: second_arrival.clone(),
                track: None
            }
        );
        assert_eq!(
            apply(&mut board, "06081700KZAATZ QQX12/101 315 250C 3020N/08430W"),
            TAKEN
        );
        let new_track = track("06081700", "315", "250C", "3020N/08430W");
        assert_eq!(
            *row(&board, "QQX12"),
            Row {
                arrival: second_arrival,
                track: new_track
            }
        );
        assert_eq!(board.rows().len(), 1);
    }

    /// "Other types change nothing and need no room": on an empty board, on a listed flight,
    /// and on a full board.
    #[test]
    fn other_types_change_nothing() {
        let others = [
            "06081500KZAARZ N5 AB CD",
            "06081500KZAAFZ N5 C172 120 AB D0816 050 AB..CD",
            "06081500KZAAUZ N5 C172 120 AB D0816 050 AB..CD",
            "06081500KZAAAF N5 AB CD 02 N6",
            "06081500KZAART N5",
            "06081500KZAATO",
            "06081500KZAAHB",
        ];
        let mut listed = Board::empty();
        apply(&mut listed, "06081500KZAATZ N5/123 310 240 3015N/08430W");
        for mut board in [Board::empty(), listed, full()] {
            let before = board.clone();
            for other in others {
                assert_eq!(apply(&mut board, other), TAKEN, "{other}");
                assert_eq!(board, before);
            }
        }
    }

    /// The error of the trade "choosing the later stamp instead of the later line": the
    /// samples of 003 hold a 06143648 after a 06143656.
    #[test]
    fn stamps_may_go_back() {
        let mut board = Board::empty();
        assert_eq!(
            apply(&mut board, "06143656LLONTZ EIN523/000 400 340 5100N/00100E"),
            TAKEN
        );
        assert_eq!(
            apply(&mut board, "06143648LLONTZ EIN523/000 426 350 5108N/00101E"),
            TAKEN
        );
        assert_eq!(
            row(&board, "EIN523").track,
            track("06143648", "426", "350", "5108N/00101E")
        );
        assert_eq!(apply(&mut board, "06143640LLONAZ EIN523 AB CD 1200"), TAKEN);
        assert_eq!(apply(&mut board, "06143630LLONAZ EIN523 AB CD 1100"), TAKEN);
        assert_eq!(
            row(&board, "EIN523").arrival,
            arrival("AB", "CD", "1100", "06143630")
        );
        assert_eq!(
            apply(&mut board, "06143600LLONDZ EIN523 C172 AB D1000 CD 1000"),
            TAKEN
        );
        assert_eq!(row(&board, "EIN523").track, None);
    }

    /// "The flight's key is the part before the slash": other computer number, same flight.
    #[test]
    fn the_computer_number_is_no_part_of_the_key() {
        let mut board = Board::empty();
        apply(&mut board, "06081500KZAATZ N5/123 310 240 3015N/08430W");
        apply(&mut board, "06081500KZAATZ N5/456 320 240 3015N/08430W");
        apply(&mut board, "06081500KZAAAZ N5 AB CD 0930");
        assert_eq!(board.rows().len(), 1);
        assert_eq!(row(&board, "N5").track.as_ref().unwrap().speed, b"320");
    }

    /// "in byte order of the key (a key that begins another comes first)"
    #[test]
    fn order_of_the_keys() {
        let mut board = Board::empty();
        for key in ["N5B", "N5", "NA", "N50", "A9", "N5A", "ZZZZZZZ"] {
            apply(&mut board, &format!("06081500KZAAAZ {key} AB CD 0930"));
        }
        let keys: Vec<&[u8]> = board.rows().keys().map(|key| key.as_slice()).collect();
        assert_eq!(
            keys,
            [&b"A9"[..], b"N5", b"N50", b"N5A", b"N5B", b"NA", b"ZZZZZZZ"]
        );
    }

    fn track_line(flight: usize) -> String {
        format!("06081500KZAATZ N{flight:03}/123 310 240 3015N/08430W")
    }

    /// A board of 256 flights, N000 to N255.
    fn full() -> Board {
        let mut board = Board::empty();
        for flight in 0..256 {
            assert_eq!(apply(&mut board, &track_line(flight)), TAKEN);
        }
        assert_eq!(board.rows().len(), 256);
        board
    }

    /// Known: "At 256 flights a TZ for a listed one is taken, for another answers 12; after a
    /// strike it is taken."
    #[test]
    fn known_reading_full_board() {
        let mut board = full();
        assert_eq!(
            apply(&mut board, "06090000KZAATZ N017/123 999 240 3015N/08430W"),
            TAKEN
        );
        assert_eq!(row(&board, "N017").track.as_ref().unwrap().speed, b"999");
        assert_eq!(apply(&mut board, &track_line(256)), (12, 0));
        assert_eq!(apply(&mut board, "06081500KZAAAZ N256 AB CD 0930"), (12, 0));
        assert_eq!(
            apply(&mut board, "06081500KZAADZ N256 C172 AB D0816 CD 0930"),
            (12, 0)
        );
        assert_eq!(
            apply(&mut board, "06081500KZAADZ N255 C172 AB D0816 CD 0930"),
            TAKEN
        );
        assert_eq!(board.strike(b"N100"), TAKEN);
        assert_eq!(board.rows().len(), 255);
        assert_eq!(apply(&mut board, &track_line(256)), TAKEN);
        assert_eq!(apply(&mut board, &track_line(257)), (12, 0));
        assert_eq!(apply(&mut board, &track_line(100)), (12, 0));
        // The line's own answer comes before 12.
        assert_eq!(
            apply(&mut board, "06081500KZAATZ N257 310 240 3015N/08430W"),
            (9, 1)
        );
    }

    #[test]
    fn strikes() {
        let mut board = Board::empty();
        apply(&mut board, "06081500KZAATZ N5/123 310 240 3015N/08430W");
        let before = board.clone();
        for key in ["", "N", "5N", "ABCDEFGH", "N5/123", "n5", "N5 ", "N5\n"] {
            assert_eq!(board.strike(key.as_bytes()), (9, 1), "{key:?}");
        }
        for key in ["N6", "N50", "ABCDEFG"] {
            assert_eq!(board.strike(key.as_bytes()), (14, 0), "{key}");
        }
        assert_eq!(board, before);
        assert_eq!(board.strike(b"N5"), TAKEN);
        assert_eq!(board, Board::empty());
        assert_eq!(board.strike(b"N5"), (14, 0));
    }

    /// A struck flight comes back without its old entries.
    #[test]
    fn a_struck_flight_is_forgotten() {
        let mut board = Board::empty();
        apply(&mut board, "06081500KZAATZ N5/123 310 240 3015N/08430W");
        board.strike(b"N5");
        apply(&mut board, "06081500KZAAAZ N5 AB CD 0930");
        assert_eq!(row(&board, "N5").track, None);
    }

    fn board_of(key: &str, row: Row) -> Board {
        Board::of_rows(BTreeMap::from([(key.as_bytes().to_vec(), row)]))
    }

    fn good_arrival() -> Arrival {
        arrival("AB", "CD", "A0930", "06081500").unwrap()
    }

    fn good_track() -> Track {
        track("06081500", "310", "240C", "3015N/08430W").unwrap()
    }

    /// 13: a key, a row or an entry that these rules do not allow; and docs/DECISIONS.md.
    #[test]
    fn boards_that_are_not_allowed() {
        let good_row = Row {
            arrival: Some(good_arrival()),
            track: Some(good_track()),
        };
        for key in ["N5", "ABCDEFG"] {
            assert!(board_of(key, good_row.clone()).is_allowed());
        }
        for key in ["", "N", "5N", "N5/123", "ABCDEFGH", "n5"] {
            assert!(!board_of(key, good_row.clone()).is_allowed(), "{key}");
        }
        assert!(!board_of("N5", Row::default()).is_allowed());
        let arrival_changes: [fn(&mut Arrival); 6] = [
            |arrival| arrival.departure = b"A".to_vec(),
            |arrival| arrival.destination = b"ABCDEFGHIJKLM".to_vec(),
            |arrival| arrival.clock = b"2400".to_vec(),
            |arrival| arrival.clock = b"D0930".to_vec(),
            |arrival| arrival.stamp.day = 0,
            |arrival| arrival.stamp.second = 60,
        ];
        for change in arrival_changes {
            let mut wrong = good_arrival();
            change(&mut wrong);
            assert!(!board_of(
                "N5",
                Row {
                    arrival: Some(wrong),
                    track: Some(good_track())
                }
            )
            .is_allowed());
        }
        let track_changes: [fn(&mut Track); 6] = [
            |track| track.speed = b"0310".to_vec(),
            |track| track.speed = b"M85".to_vec(),
            |track| track.level = b"05".to_vec(),
            |track| track.position = b"9001N/00000E".to_vec(),
            |track| track.stamp.hour = 24,
            |track| track.stamp.day = 32,
        ];
        for change in track_changes {
            let mut wrong = good_track();
            change(&mut wrong);
            assert!(!board_of(
                "N5",
                Row {
                    arrival: Some(good_arrival()),
                    track: Some(wrong)
                }
            )
            .is_allowed());
        }
    }

    #[test]
    fn at_most_256_rows_are_allowed() {
        let good_row = Row {
            arrival: Some(good_arrival()),
            track: None,
        };
        let rows = |count: usize| -> BTreeMap<Vec<u8>, Row> {
            (0..count)
                .map(|flight| (format!("N{flight:03}").into_bytes(), good_row.clone()))
                .collect()
        };
        assert!(Board::of_rows(rows(256)).is_allowed());
        assert!(!Board::of_rows(rows(257)).is_allowed());
    }

    /// docs/DECISIONS.md: every readable line answers 13, a line with an answer of its own keeps it.
    /// Strike: 9, then 13, then 14. The board stays as it was.
    #[test]
    fn answers_on_a_board_that_is_not_allowed() {
        let mut board = board_of("N5", Row::default());
        let before = board.clone();
        assert_eq!(apply(&mut board, "06081500KZAAHB"), (13, 0));
        assert_eq!(apply(&mut board, "06081500KZAARZ N5 AB CD"), (13, 0));
        assert_eq!(
            apply(&mut board, "06081500KZAATZ N5/123 310 240 3015N/08430W"),
            (13, 0)
        );
        assert_eq!(
            apply(&mut board, "06081500KZAATZ N5 310 240 3015N/08430W"),
            (9, 1)
        );
        assert_eq!(apply(&mut board, "06081500KZAAXX"), (7, 0));
        assert_eq!(board.strike(b"N5"), (13, 0));
        assert_eq!(board.strike(b"N6"), (13, 0));
        assert_eq!(board.strike(b"N"), (9, 1));
        assert_eq!(board, before);
        // 13 before 12, on a board that is too full.
        let row = Row {
            arrival: Some(good_arrival()),
            track: None,
        };
        let rows = (0..300)
            .map(|flight| (format!("N{flight:03}").into_bytes(), row.clone()))
            .collect();
        let mut board = Board::of_rows(rows);
        assert_eq!(apply(&mut board, &track_line(900)), (13, 0));
    }
}
