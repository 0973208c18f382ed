//! The forms of the fields (document 01, "Fields"): one question for each form, answered yes
//! or no, and the values of those fields that tell more than their text: the ident's key,
//! the aircraft's parts, the position's minutes, the stamp's numbers. Two forms are narrower in the
//! old feed (document 02, request l), and ask which rule is meant.

use crate::rule::Rule;

// ---- the classes of bytes ----

pub fn is_digit(byte: u8) -> bool {
    byte.is_ascii_digit()
}

/// "a letter is a capital"
pub fn is_letter(byte: u8) -> bool {
    byte.is_ascii_uppercase()
}

/// "Alnum is a capital or a digit"
pub fn is_alnum(byte: u8) -> bool {
    is_letter(byte) || is_digit(byte)
}

fn digits(text: &[u8], least: usize, most: usize) -> bool {
    least <= text.len() && text.len() <= most && text.iter().all(|&byte| is_digit(byte))
}

fn alnums(text: &[u8], least: usize, most: usize) -> bool {
    least <= text.len() && text.len() <= most && text.iter().all(|&byte| is_alnum(byte))
}

/// The number that a few digits stand for. Asked only of texts already known to be digits.
fn number(text: &[u8]) -> u32 {
    text.iter()
        .fold(0, |value, &byte| value * 10 + u32::from(byte - b'0'))
}

/// What stands before and what stands after the first `mark`, if there is one.
fn around(text: &[u8], mark: u8) -> Option<(&[u8], &[u8])> {
    let place = text.iter().position(|&byte| byte == mark)?;
    Some((&text[..place], &text[place + 1..]))
}

// ---- ident ----

/// The flight's key: "a letter and one to six alnum", without slash or computer number.
pub fn is_key(text: &[u8]) -> bool {
    alnums(text, 2, 7) && is_letter(text[0])
}

/// "a computer number: digit, digit, alnum"; so 000's /FFF is none (docs/DECISIONS.md)
fn is_computer_number(text: &[u8]) -> bool {
    text.len() == 3 && is_digit(text[0]) && is_digit(text[1]) && is_alnum(text[2])
}

/// ident: the key, "then optionally a slash and a computer number".
pub fn is_ident(text: &[u8]) -> bool {
    is_key(text) || is_track_ident(text)
}

/// "In TZ the number is required."
pub fn is_track_ident(text: &[u8]) -> bool {
    match around(text, b'/') {
        Some((key, computer_number)) => is_key(key) && is_computer_number(computer_number),
        None => false,
    }
}

/// "The flight's key is the part before the slash."
pub fn key_of_ident(ident: &[u8]) -> &[u8] {
    match around(ident, b'/') {
        Some((key, _)) => key,
        None => ident,
    }
}

// ---- aircraft ----

/// One reading of an aircraft field.
#[derive(Clone, Copy, Debug, PartialEq, Eq)]
pub struct Aircraft<'a> {
    pub prefix: Option<&'a [u8]>,
    pub aircraft_type: &'a [u8],
    pub letter: Option<u8>,
}

/// "A prefix is one alnum, or a digit and an alnum."
fn is_prefix(text: &[u8]) -> bool {
    match text {
        [only] => is_alnum(*only),
        [first, second] => is_digit(*first) && is_alnum(*second),
        _ => false,
    }
}

/// "type of 2 to 4 alnum; optional slash and letter", after this prefix.
fn type_and_letter<'a>(prefix: Option<&'a [u8]>, text: &'a [u8]) -> Option<Aircraft<'a>> {
    let (aircraft_type, letter) = match text {
        [front @ .., b'/', last] if is_letter(*last) => (front, Some(*last)),
        _ => (text, None),
    };
    alnums(aircraft_type, 2, 4).then_some(Aircraft {
        prefix,
        aircraft_type,
        letter,
    })
}

fn prefixed(text: &[u8]) -> Option<Aircraft<'_>> {
    let (prefix, rest) = around(text, b'/')?;
    if is_prefix(prefix) {
        type_and_letter(Some(prefix), rest)
    } else {
        None
    }
}

/// aircraft: "optional prefix and slash; type of 2 to 4 alnum; optional slash and letter".
/// None is answer 9. No text reads both ways (document 02, request h), so it is the same which of
/// them is tried first.
pub fn read_aircraft(text: &[u8]) -> Option<Aircraft<'_>> {
    prefixed(text).or_else(|| type_and_letter(None, text))
}

/// Whether an aircraft field has a reading. In an old line "an aircraft field with a last letter .. has
/// no reading" (document 02, l).
pub fn is_aircraft(rule: Rule, text: &[u8]) -> bool {
    match read_aircraft(text) {
        Some(reading) => rule == Rule::New || reading.letter.is_none(),
        None => false,
    }
}

// ---- speeds ----

/// filed speed: "2 to 4 digits, or a letter and 3 digits (Mach), or SC"
pub fn is_filed_speed(text: &[u8]) -> bool {
    let mach = text.len() == 4 && is_letter(text[0]) && digits(&text[1..], 3, 3);
    digits(text, 2, 4) || mach || text == b"SC"
}

/// ground speed (TZ): "3 digits"
pub fn is_ground_speed(text: &[u8]) -> bool {
    digits(text, 3, 3)
}

// ---- point and fix ----

/// point: "2 to 12 alnum"
pub fn is_point(text: &[u8]) -> bool {
    alnums(text, 2, 12)
}

/// fix: "2 to 11 alnum, or 2 to 5, a slash, 1 to 6", all of them alnum (docs/DECISIONS.md)
pub fn is_fix(text: &[u8]) -> bool {
    let with_slash = match around(text, b'/') {
        Some((front, back)) => alnums(front, 2, 5) && alnums(back, 1, 6),
        None => false,
    };
    alnums(text, 2, 11) || with_slash
}

// ---- time and clocks ----

/// "a clock of four digits, 0000 to 2359, minutes to 59"
pub fn is_clock(text: &[u8]) -> bool {
    digits(text, 4, 4) && number(text) <= 2359 && number(&text[2..]) <= 59
}

/// time: "D, E or P and a clock"
pub fn is_time(text: &[u8]) -> bool {
    match text {
        [b'D' | b'E' | b'P', clock @ ..] => is_clock(clock),
        _ => false,
    }
}

/// arrival clock of an AZ: a clock, "optionally A or E before it". In an old line "an AZ clock with a
/// prefix has no reading" (document 02, l).
pub fn is_arrival_clock(rule: Rule, text: &[u8]) -> bool {
    match text {
        [b'A' | b'E', clock @ ..] => rule == Rule::New && is_clock(clock),
        _ => is_clock(text),
    }
}

// ---- levels ----

/// level (AF, FZ, UZ): "2 or 3 digits, or two such with B between", where "the second number must
/// be no smaller than the first as a number; equal is allowed" (document 02, d)
pub fn is_level(text: &[u8]) -> bool {
    let block = match around(text, b'B') {
        Some((front, back)) => {
            digits(front, 2, 3) && digits(back, 2, 3) && number(front) <= number(back)
        }
        None => false,
    };
    digits(text, 2, 3) || block
}

/// track level (TZ): "3 digits and optionally a letter"
pub fn is_track_level(text: &[u8]) -> bool {
    let with_letter = text.len() == 4 && digits(&text[..3], 3, 3) && is_letter(text[3]);
    digits(text, 3, 3) || with_letter
}

// ---- position ----

/// position: "ddmm, N or S, slash, dddmm, E or W; minutes to 59, at most 9000 and 18000".
/// Gives its signed minutes, latitude then longitude, "north and east are positive".
pub fn position_minutes(text: &[u8]) -> Option<(i32, i32)> {
    if text.len() != 12 || text[5] != b'/' {
        return None;
    }
    let north = match text[4] {
        b'N' => 1,
        b'S' => -1,
        _ => return None,
    };
    let east = match text[11] {
        b'E' => 1,
        b'W' => -1,
        _ => return None,
    };
    let (latitude, longitude) = (&text[..4], &text[6..11]);
    if !digits(latitude, 4, 4) || number(&latitude[2..]) > 59 || number(latitude) > 9000 {
        return None;
    }
    if !digits(longitude, 5, 5) || number(&longitude[3..]) > 59 || number(longitude) > 18000 {
        return None;
    }
    let minutes = |degrees: &[u8], minutes: &[u8]| (number(degrees) * 60 + number(minutes)) as i32;
    Some((
        north * minutes(&latitude[..2], &latitude[2..]),
        east * minutes(&longitude[..3], &longitude[3..]),
    ))
}

pub fn is_position(text: &[u8]) -> bool {
    position_minutes(text).is_some()
}

// ---- route ----

/// route: "one or more bytes 33 to 126"
pub fn is_route(text: &[u8]) -> bool {
    !text.is_empty() && text.iter().all(|byte| (33..=126).contains(byte))
}

// ---- the fields of the line's front ----

/// "four characters 0-9 or A-F: sequence number"
pub fn is_sequence(text: &[u8]) -> bool {
    text.len() == 4
        && text
            .iter()
            .all(|&byte| is_digit(byte) || (b'A'..=b'F').contains(&byte))
}

/// "four characters of facility, right justified: zero to three spaces, then one to four
/// capitals or digits"
pub fn is_facility(text: &[u8]) -> bool {
    let spaces = text.iter().take_while(|&&byte| byte == b' ').count();
    text.len() == 4 && alnums(&text[spaces..], 1, 4)
}

/// A stamp, DDHHMMSS, as its four numbers.
#[derive(Clone, Copy, Debug, PartialEq, Eq)]
pub struct Stamp {
    pub day: u8,
    pub hour: u8,
    pub minute: u8,
    pub second: u8,
}

impl Stamp {
    /// "eight digits DDHHMMSS", in range.
    pub fn read(text: &[u8]) -> Option<Stamp> {
        if !digits(text, 8, 8) {
            return None;
        }
        let pair = |place: usize| number(&text[place..place + 2]) as u8;
        let stamp = Stamp {
            day: pair(0),
            hour: pair(2),
            minute: pair(4),
            second: pair(6),
        };
        if stamp.in_range() {
            Some(stamp)
        } else {
            None
        }
    }

    /// "day 01 to 31, hour 00 to 23, minute and second 00 to 59"
    pub fn in_range(&self) -> bool {
        1 <= self.day && self.day <= 31 && self.hour <= 23 && self.minute <= 59 && self.second <= 59
    }

    /// The eight digits; more, and no stamp any longer, where a number is over 99.
    pub fn text(&self) -> String {
        format!(
            "{:02}{:02}{:02}{:02}",
            self.day, self.hour, self.minute, self.second
        )
    }

    pub fn second_of_day(&self) -> u32 {
        u32::from(self.hour) * 3600 + u32::from(self.minute) * 60 + u32::from(self.second)
    }
}

// ---- the fields of an old line's front (document 02, l) ----

/// "one capital for the center"; so the digits, small letters and signs that 003 lists are none
/// (docs/DECISIONS.md)
pub fn is_center(byte: u8) -> bool {
    is_letter(byte)
}

/// A stamp of the old feed, HHMMSS, as its three numbers. It has no day.
#[derive(Clone, Copy, Debug, PartialEq, Eq)]
pub struct OldStamp {
    pub hour: u8,
    pub minute: u8,
    pub second: u8,
}

impl OldStamp {
    /// "six digits HHMMSS", in range: hour to 23, minute and second to 59 (docs/DECISIONS.md).
    pub fn read(text: &[u8]) -> Option<OldStamp> {
        if !digits(text, 6, 6) {
            return None;
        }
        let pair = |place: usize| number(&text[place..place + 2]) as u8;
        let stamp = OldStamp {
            hour: pair(0),
            minute: pair(2),
            second: pair(4),
        };
        stamp.in_range().then_some(stamp)
    }

    pub fn in_range(&self) -> bool {
        self.hour <= 23 && self.minute <= 59 && self.second <= 59
    }

    /// The six digits; more, and no stamp any longer, where a number is over 99.
    pub fn text(&self) -> String {
        format!("{:02}{:02}{:02}", self.hour, self.minute, self.second)
    }
}

#[cfg(test)]
mod tests {
    use super::*;

    /// Asks one form of many texts: those of `yes` read, those of `no` do not.
    fn asked(form: fn(&[u8]) -> bool, yes: &[&str], no: &[&str]) {
        for text in yes {
            assert!(form(text.as_bytes()), "{text} reads");
        }
        for text in no {
            assert!(!form(text.as_bytes()), "{text} has no reading");
        }
    }

    #[test]
    fn known_reading_ident() {
        asked(is_ident, &["N5", "ABCDEFG/12Z"], &["N", "ABCDEFGH", "1AB"]);
    }

    #[test]
    fn ident_and_its_computer_number() {
        asked(
            is_ident,
            &["N5/123", "AB/000", "A1/99A", "ABCDEFG"],
            &[
                "",
                "/",
                "N5/",
                "N5/12",
                "N5/1234",
                "N5/1A3",
                "N5/A23",
                "N5/12a",
                "/123",
                "N/123",
                "N5//123",
                "N5/123/",
                "N5/123/456",
                "n5",
                "N5-",
                "N 5",
                "JAL85/FFF",
                "ABCDEFGH/123",
            ],
        );
        asked(
            is_track_ident,
            &["N5/123", "ABCDEFG/12Z"],
            &["N5", "ABCDEFG", "N5/", "N5/FFF"],
        );
        asked(
            is_key,
            &["N5", "ABCDEFG"],
            &["", "N", "ABCDEFGH", "5N", "N5/123", "N5/"],
        );
        assert_eq!(key_of_ident(b"QQX12/101"), b"QQX12");
        assert_eq!(key_of_ident(b"QQX12"), b"QQX12");
    }

    fn reading<'a>(prefix: &'a str, aircraft_type: &'a str, letter: &str) -> Aircraft<'a> {
        Aircraft {
            prefix: if prefix.is_empty() {
                None
            } else {
                Some(prefix.as_bytes())
            },
            aircraft_type: aircraft_type.as_bytes(),
            letter: letter.bytes().next(),
        }
    }

    /// Also the error of the trade: taking C172 of C172/A for a prefix.
    #[test]
    fn known_reading_aircraft() {
        assert_eq!(read_aircraft(b"C172/A"), Some(reading("", "C172", "A")));
        assert_eq!(read_aircraft(b"T/AB"), Some(reading("T", "AB", "")));
        assert_eq!(read_aircraft(b"AB/CD"), None);
        assert_eq!(read_aircraft(b"T/B73S/F"), Some(reading("T", "B73S", "F")));
    }

    #[test]
    fn aircraft_forms() {
        assert_eq!(read_aircraft(b"SW2/A"), Some(reading("", "SW2", "A")));
        assert_eq!(read_aircraft(b"B747"), Some(reading("", "B747", "")));
        assert_eq!(read_aircraft(b"2H/B747"), Some(reading("2H", "B747", "")));
        let all_three = Some(reading("22", "B747", "R"));
        assert_eq!(read_aircraft(b"22/B747/R"), all_three);
        assert_eq!(read_aircraft(b"1/23/A"), Some(reading("1", "23", "A")));
        // Two characters and a letter: the prefix would leave a type of one character.
        assert_eq!(read_aircraft(b"2H/A"), Some(reading("", "2H", "A")));
        for none in [
            "",
            "A",
            "/",
            "ABCDE",
            "T/",
            "/AB",
            "T/A",
            "T/A/B",
            "H2/B747/R",
            "C172/1",
            "C172/a",
            "C172/",
            "C172/AB",
            "T/C172/AB",
            "T/C172/A/",
            "T//C172",
            "/C172/A",
            "T/C172//A",
            "ABC/C172",
            "T/ABCDE",
            "1/2/3/4",
        ] {
            assert_eq!(read_aircraft(none.as_bytes()), None, "{none}");
        }
    }

    /// Under the old rule an aircraft reads exactly if it has no last letter, and reads the same.
    #[test]
    fn aircraft_of_the_old_feed() {
        let (new, old) = (
            |text: &[u8]| is_aircraft(Rule::New, text),
            |text: &[u8]| is_aircraft(Rule::Old, text),
        );
        let bare = [
            "C172", "AB", "12", "T/AB", "T/B73S", "2H/B747", "22/B747", "1/23",
        ];
        asked(new, &bare, &[]);
        asked(old, &bare, &[]);
        for text in bare {
            let lettered = format!("{text}/A");
            asked(new, &[&lettered], &[]);
            asked(old, &[], &[&lettered]);
        }
        let none = ["", "A", "T/A", "AB/CD", "C172/", "C172/1", "2H/A", "T/"];
        asked(old, &[], &none);
    }

    /// Document 02, request h: no text has two different readings. All texts of a letter, a digit and
    /// a slash, up to ten bytes; an aircraft field has at most nine.
    #[test]
    fn aircraft_never_reads_both_ways() {
        let mut texts: Vec<Vec<u8>> = vec![Vec::new()];
        for _ in 0..10 {
            let mut longer = Vec::new();
            for text in &texts {
                for byte in *b"A1/" {
                    longer.push([text.as_slice(), &[byte]].concat());
                }
            }
            for text in &longer {
                assert!(prefixed(text).is_none() || type_and_letter(None, text).is_none());
            }
            texts = longer;
        }
    }

    #[test]
    fn speeds() {
        asked(
            is_filed_speed,
            &[
                "12", "123", "1234", "0440", "9999", "M085", "M999", "Z000", "SC",
            ],
            &[
                "", "1", "12345", "M08", "M0855", "m085", "MM85", "SC1", "S", "CS", "sc", "12A",
                "-12",
            ],
        );
        asked(
            is_ground_speed,
            &["000", "310", "999"],
            &["", "31", "3100", "M085", "SC", "31A", "0310"],
        );
    }

    #[test]
    fn points_and_fixes() {
        asked(
            is_point,
            &["AB", "3WO", "1234", "ABCDEFGHIJKL"],
            &["", "A", "ABCDEFGHIJKLM", "ab", "AB/C", "A.B", "AB-"],
        );
        asked(
            is_fix,
            &[
                "AB",
                "ABCDEFGHIJK",
                "AB/C",
                "ABCDE/F",
                "ABCDE/FGHIJK",
                "12/3",
                "3015N/08430W",
                "9001N/00000E",
                "8960N/00000E",
                "LTS251072",
            ],
            &[
                "",
                "A",
                "ABCDEFGHIJKL",
                "A/B",
                "AB/",
                "/AB",
                "ABCDEF/G",
                "AB/CDEFGHI",
                "AB/C/D",
                "AB//C",
                "AB/C.D",
                "ab",
            ],
        );
    }

    #[test]
    fn known_reading_clock() {
        asked(is_clock, &["2359"], &["2400"]);
    }

    #[test]
    fn clocks_and_times() {
        asked(
            is_clock,
            &["0000", "0059", "0959", "1959"],
            &[
                "", "0060", "2360", "9999", "000", "00000", "A0930", "1A00", " 000",
            ],
        );
        asked(
            is_time,
            &["D0816", "E0000", "P2359"],
            &[
                "", "D", "0816", "A0816", "d0816", "D2400", "D0860", "D816", "D08160", "DD816",
                "D0816A",
            ],
        );
        let wrong = [
            "", "A", "D0930", "P0930", "A2400", "AE0930", "AA0930", "A930", "930", "0960", "0930A",
        ];
        asked(
            |text| is_arrival_clock(Rule::New, text),
            &["0930", "A0930", "E0930", "A2359"],
            &wrong,
        );
        let old = |text: &[u8]| is_arrival_clock(Rule::Old, text);
        asked(old, &["0930", "0000", "2359"], &wrong);
        asked(old, &[], &["A0930", "E0930", "A2359", "E0000"]);
    }

    #[test]
    fn known_reading_level() {
        asked(is_level, &["05"], &["5"]);
    }

    #[test]
    fn levels() {
        asked(
            is_level,
            &[
                "005", "350", "110B130", "310B310", "05B005", "005B05", "05B10", "99B100",
            ],
            &[
                "", "B", "0350", "350C", "350B", "B350", "350B1", "5B350", "350B3500", "1B2B3",
                "310BB350", "OTP/350", "350B310", "100B99", "06B005", "006B05",
            ],
        );
        asked(
            is_track_level,
            &["240", "250C", "070T", "000", "999Z"],
            &[
                "", "05", "24", "2400", "24C", "250c", "250CC", "C250", "110B130", "OTP/110",
                "250 ",
            ],
        );
    }

    /// Two numbers, each with 2 and with 3 digits where it has so few: a block is a level exactly if
    /// the second is no smaller.
    #[test]
    fn every_block() {
        for first in 0..1000 {
            for second in 0..1000 {
                for (width, other) in [(2, 2), (2, 3), (3, 2), (3, 3)] {
                    let block = format!("{first:0width$}B{second:0other$}");
                    assert_eq!(is_level(block.as_bytes()), first <= second, "{block}");
                }
            }
        }
    }

    #[test]
    fn known_reading_position_in_range() {
        asked(
            is_position,
            &["9000N/18000W"],
            &["9001N/00000E", "8960N/00000E"],
        );
    }

    #[test]
    fn known_reading_position_minutes() {
        assert_eq!(position_minutes(b"3015N/08430W"), Some((1815, -5070)));
        assert_eq!(position_minutes(b"0000S/00000W"), Some((0, 0)));
    }

    #[test]
    fn positions() {
        assert_eq!(position_minutes(b"9000S/18000E"), Some((-5400, 10800)));
        assert_eq!(position_minutes(b"0001S/00001E"), Some((-1, 1)));
        assert_eq!(position_minutes(b"8959N/17959W"), Some((5399, -10799)));
        asked(
            is_position,
            &["0000N/00000E", "0000S/00000W"],
            &[
                "",
                "0000N/18001E",
                "0000N/17960E",
                "0000N/19000E",
                "9100N/00000E",
                "0000E/00000N",
                "0000n/00000E",
                "0000N/00000e",
                "000N/00000E",
                "0000N/0000E",
                "0000N00000E",
                "0000N/00000",
                "00000N/00000E",
                "0000N/000000E",
                "0000N 00000E",
                "00A0N/00000E",
                "0000N/00A00E",
                "0000N/00000E ",
                "9000N/1800/W",
            ],
        );
    }

    #[test]
    fn routes() {
        asked(
            is_route,
            &["A", "FTW./.3139N/09717W..ALI..T18/1523", "!", "~", "a"],
            &["", " ", "A B", "\u{7f}"],
        );
    }

    #[test]
    fn sequence_and_facility() {
        asked(
            is_sequence,
            &["0000", "9AFB", "FFFF"],
            &["", "000", "00000", "000G", "000a", " 000", "00 0"],
        );
        asked(
            is_facility,
            &["KZAA", " ZAA", "  AA", "   A", "   1", "1234"],
            &[
                "", "    ", "KZA ", "K ZA", " K A", "kzaa", "KZA-", "KZAAA", " KZAA", "KZA", "A",
            ],
        );
    }

    #[test]
    fn stamps() {
        let stamp = Stamp::read(b"06081500");
        assert_eq!(
            stamp,
            Some(Stamp {
                day: 6,
                hour: 8,
                minute: 15,
                second: 0
            })
        );
        assert!(Stamp::read(b"01000000").is_some());
        assert!(Stamp::read(b"31235959").is_some());
        for wrong in [
            "00000000",
            "32000000",
            "01240000",
            "01006000",
            "01000060",
            "0100000",
            "010000000",
            "0100000A",
            " 1000000",
            "",
        ] {
            assert_eq!(Stamp::read(wrong.as_bytes()), None, "{wrong}");
        }
        assert_eq!(
            Stamp {
                day: 1,
                hour: 2,
                minute: 3,
                second: 4
            }
            .text(),
            "01020304"
        );
        assert_eq!(
            Stamp {
                day: 1,
                hour: 2,
                minute: 3,
                second: 4
            }
            .second_of_day(),
            7384
        );
    }

    #[test]
    fn fronts_of_the_old_feed() {
        for byte in 0..=255_u8 {
            assert_eq!(is_center(byte), (65..=90).contains(&byte), "byte {byte}");
        }
        let stamp = OldStamp {
            hour: 14,
            minute: 36,
            second: 5,
        };
        assert_eq!(OldStamp::read(b"143605"), Some(stamp));
        assert_eq!(stamp.text(), "143605");
        for right in ["000000", "235959", "090000"] {
            assert_eq!(OldStamp::read(right.as_bytes()).unwrap().text(), right);
        }
        for wrong in [
            "240000", "236000", "235960", "990000", "14365", "1436555", "14365A", " 43655",
            "14365 ", "", "06143655",
        ] {
            assert_eq!(OldStamp::read(wrong.as_bytes()), None, "{wrong}");
        }
    }
}
