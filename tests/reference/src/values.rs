//! A message of the new or of the old feed as the numbers that a caller may hand to the writer
//! (docs/DECISIONS.md, "A field is its text, held as one number", "A facility is four bytes to the base
//! 256", "AF holds eight slots in order"). A route and the body of RT, TO and HB are no values: they are
//! the free text beside them.

use crate::field::{key_of_ident, read_aircraft};
use crate::line::{read, read_old, Amendment, Body, Message, OldMessage, Type};
use crate::text::{number, text};
use crate::write::put;

/// The value of a field: a text's number; or of an ident the key's and the computer number's; or of
/// an aircraft those of prefix, type and letter. A missing part is 0.
#[derive(Clone, Copy, Debug, PartialEq, Eq)]
pub enum Value {
    Text(u64),
    Ident(u64, u64),
    Aircraft(u64, u64, u64),
    /// The content of amendment 10, which is the free text.
    Route,
}

/// One of AF's eight slots: the amendment's number, 2 to 10, and its content.
#[derive(Clone, Copy, Debug, PartialEq, Eq)]
pub struct Amended {
    pub number: u8,
    pub content: Value,
}

/// The values of a message of the new feed.
#[derive(Clone, Debug, PartialEq, Eq)]
pub struct Values {
    pub sequence: u64,
    pub stamp: u64,
    pub facility: u64,
    pub body: BodyValues,
}

/// The values of a message of the old feed: the number of its six digits, and the center's byte.
#[derive(Clone, Debug, PartialEq, Eq)]
pub struct OldValues {
    pub stamp: u64,
    pub center: u32,
    pub body: BodyValues,
}

/// The values of a message of either feed from its type on.
#[derive(Clone, Debug, PartialEq, Eq)]
pub struct BodyValues {
    pub message_type: Type,
    /// The fields in the table's order but for a route, of AF the first three; none for RT, TO and
    /// HB.
    pub fields: Vec<Value>,
    /// AF's alone: the marks, the lowest bit for 02, and the slots. Else 0 and nothing.
    pub marks: u8,
    pub amendments: [Option<Amended>; 8],
    pub space_at_end: bool,
}

impl Values {
    /// The values of a message that was read. (The texts of its fields are short ones.)
    pub fn of(message: &Message) -> Values {
        Values {
            sequence: word(message.sequence),
            stamp: word(message.stamp.text().as_bytes()),
            facility: message
                .facility
                .iter()
                .fold(0, |value, &byte| value * 256 + u64::from(byte)),
            body: BodyValues::of(&message.body),
        }
    }

    /// The line that these values and a free text would make, whatever they hold; nothing where a
    /// number is that of no text or of no four bytes.
    fn line(&self, free: &[u8]) -> Option<Vec<u8>> {
        let mut line = [text(self.sequence)?, text(self.stamp)?].concat();
        line.extend_from_slice(&u32::try_from(self.facility).ok()?.to_be_bytes());
        line.extend(self.body.text(free)?);
        Some(line)
    }
}

impl OldValues {
    /// The values of a message that was read.
    pub fn of(message: &OldMessage) -> OldValues {
        OldValues {
            stamp: word(message.stamp.text().as_bytes()),
            center: u32::from(message.center),
            body: BodyValues::of(&message.body),
        }
    }

    /// The line that these values and a free text would make, whatever they hold; nothing where a
    /// number is that of no text or of no byte.
    fn line(&self, free: &[u8]) -> Option<Vec<u8>> {
        let mut line = text(self.stamp)?;
        line.push(u8::try_from(self.center).ok()?);
        line.extend(self.body.text(free)?);
        Some(line)
    }
}

impl BodyValues {
    fn of(body: &Body) -> BodyValues {
        let mut amendments = [None; 8];
        for (slot, amendment) in amendments.iter_mut().zip(&body.amendments) {
            *slot = Some(amended(amendment));
        }
        let has_aircraft = matches!(body.message_type, Type::DZ | Type::FZ | Type::UZ);
        let has_route = matches!(body.message_type, Type::FZ | Type::UZ);
        let fields = body.fields.iter().enumerate();
        BodyValues {
            message_type: body.message_type,
            fields: fields
                .filter(|(index, _)| !(has_route && *index == 6))
                .map(|(index, text)| match index {
                    0 => ident(text),
                    1 if has_aircraft => aircraft(text),
                    _ => Value::Text(word(text)),
                })
                .collect(),
            marks: body.marks,
            amendments,
            space_at_end: body.space_at_end,
        }
    }

    /// The line's text from its type on.
    fn text(&self, free: &[u8]) -> Option<Vec<u8>> {
        let mut text = self.message_type.text().as_bytes().to_vec();
        for &value in &self.fields {
            text.push(b' ');
            text.extend(field(value, free)?);
        }
        match self.message_type {
            Type::FZ | Type::UZ => {
                text.push(b' ');
                text.extend_from_slice(free);
            }
            Type::RT | Type::TO | Type::HB => text.extend_from_slice(free),
            _ => {}
        }
        for amended in self.amendments.iter().flatten() {
            text.extend_from_slice(format!(" {:02} ", amended.number).as_bytes());
            text.extend(field(amended.content, free)?);
        }
        if self.space_at_end {
            text.push(b' ');
        }
        Some(text)
    }
}

/// The free text of a message: a route, or a body that is kept whole, or none.
pub fn free(body: &Body) -> Vec<u8> {
    let route = match body.message_type {
        Type::FZ | Type::UZ => body.fields.get(6).copied(),
        _ => {
            let mut amendments = body.amendments.iter();
            let route = amendments.find(|amendment| amendment.number == b"10");
            route.map(|amendment| amendment.content)
        }
    };
    route.unwrap_or(body.kept_body).to_vec()
}

/// The line of these values and this free text, or 16: "values to write that no line has". A line
/// that has them can only be their texts put one after another, so these are put together and read
/// again: either they read as these very values, or no line does.
pub fn write(values: &Values, free: &[u8]) -> Result<Vec<u8>, u8> {
    let line = values.line(free).ok_or(16)?;
    match read(&line) {
        Ok(again) if Values::of(&again) == *values && self::free(&again.body) == free => Ok(line),
        _ => Err(16),
    }
}

/// The line of these values of the old feed and this free text, or 16, in the same way.
pub fn write_old(values: &OldValues, free: &[u8]) -> Result<Vec<u8>, u8> {
    let line = values.line(free).ok_or(16)?;
    match read_old(&line) {
        Ok(again) if OldValues::of(&again) == *values && self::free(&again.body) == free => {
            Ok(line)
        }
        _ => Err(16),
    }
}

/// Writes the line into `out` from the place `at` on, and tells how many bytes it has: 16, then 15.
pub fn write_into(values: &Values, free: &[u8], out: &mut [u8], at: usize) -> Result<usize, u8> {
    put(&write(values, free)?, out, at)
}

/// Writes the line of the old feed, in the same way.
pub fn write_old_into(
    values: &OldValues,
    free: &[u8],
    out: &mut [u8],
    at: usize,
) -> Result<usize, u8> {
    put(&write_old(values, free)?, out, at)
}

/// The number of a text that is known to be a short one.
fn word(text: &[u8]) -> u64 {
    number(text).unwrap_or_default()
}

fn ident(text: &[u8]) -> Value {
    let key = key_of_ident(text);
    let number = text.get(key.len() + 1..).unwrap_or_default();
    Value::Ident(word(key), word(number))
}

fn aircraft(text: &[u8]) -> Value {
    let Some(reading) = read_aircraft(text) else {
        return Value::Aircraft(0, 0, 0);
    };
    Value::Aircraft(
        word(reading.prefix.unwrap_or_default()),
        word(reading.aircraft_type),
        reading.letter.map_or(0, |letter| word(&[letter])),
    )
}

fn amended(amendment: &Amendment) -> Amended {
    let content = match amendment.number {
        b"02" => ident(amendment.content),
        b"03" => aircraft(amendment.content),
        b"10" => Value::Route,
        _ => Value::Text(word(amendment.content)),
    };
    let digits = amendment.number.iter();
    Amended {
        number: digits.fold(0, |value, &byte| value * 10 + (byte - b'0')),
        content,
    }
}

/// The text of a value; nothing where a number is that of no text.
fn field(value: Value, free: &[u8]) -> Option<Vec<u8>> {
    Some(match value {
        Value::Text(word) => text(word)?,
        Value::Ident(key, 0) => text(key)?,
        Value::Ident(key, number) => [text(key)?, text(number)?].join(&b'/'),
        Value::Aircraft(prefix, aircraft_type, letter) => {
            let mut parts = Vec::new();
            if prefix != 0 {
                parts.push(text(prefix)?);
            }
            parts.push(text(aircraft_type)?);
            if letter != 0 {
                parts.push(text(letter)?);
            }
            parts.join(&b'/')
        }
        Value::Route => free.to_vec(),
    })
}

#[cfg(test)]
mod tests {
    use super::*;

    const LINES: [&str; 14] = [
        "000006143655KZMAHB",
        "000106143655  ZARTany {}[] text ",
        "00FF31235959   ATO ",
        "000106143655KZMADZ N733QE/143 2H/C172/A OPF D1437 TMB 1457",
        "000106143655KZMADZ N733QE C172 OPF D1437 TMB 1457",
        "004C06143653KZMPAZ N64943 UES 3WO 1441",
        "000406081800KZAARZ N5AB GHI JKL ",
        "005606143657KZFWTZ N4065D/590 259 070T 0000S/00000W ",
        "000206143655KZMAFZ USA995/313 T/B73S/F 0440 PBI P1640 330 PBI..TBIRD..CLT/0127",
        "005106143653KZMEUZ N872AT T/BA10/R SC 3424N/08700W E1437 390B410 AHN./.DEHAN..SPS",
        "002006143656KZHUAF N22T FTW T18 06 3139N/09717W 07 E1437 10 FTW./.3139N/09717W..ALI",
        "000106081500KZAAAF N5 AB CD 10 A 09 60 08 05B005 07 P0816 06 AB/C 05 SC 03 2H/C172 02 N6",
        "000106081500KZAAAF N5/12A AB CD 02 N6/123 03 C172/A ",
        "000106081500KZAAAF N5 AB CD 08 005",
    ];

    fn values(line: &str) -> (Values, Vec<u8>) {
        let message = read(line.as_bytes()).unwrap();
        (Values::of(&message), free(&message.body))
    }

    #[test]
    fn what_was_read_is_written_back() {
        for line in LINES {
            let (values, free) = values(line);
            assert_eq!(write(&values, &free).unwrap(), line.as_bytes());
            let mut out = vec![b'.'; line.len() + 4];
            assert_eq!(write_into(&values, &free, &mut out, 3), Ok(line.len()));
            assert_eq!(out, [b"...", line.as_bytes(), b"."].concat());
            assert_eq!(write_into(&values, &free, &mut out, 5), Err(15));
            assert_eq!(write_into(&values, &free, &mut out, usize::MAX), Err(15));
        }
    }

    #[test]
    fn number_by_number() {
        let (values, free) = values(LINES[12]);
        let word = |text: &str| number(text.as_bytes()).unwrap();
        let content = Value::Ident(word("N6"), word("123"));
        let second = Value::Aircraft(0, word("C172"), word("A"));
        let mut amendments = [None; 8];
        amendments[0] = Some(Amended { number: 2, content });
        amendments[1] = Some(Amended {
            number: 3,
            content: second,
        });
        let expected = Values {
            sequence: word("0001"),
            stamp: word("06081500"),
            facility: 0x4b5a_4141,
            body: BodyValues {
                message_type: Type::AF,
                fields: vec![
                    Value::Ident(word("N5"), word("12A")),
                    Value::Text(word("AB")),
                    Value::Text(word("CD")),
                ],
                marks: 3,
                amendments,
                space_at_end: true,
            },
        };
        assert_eq!(values, expected);
        assert_eq!(free, b"");
    }

    /// Changes the values of a line, and asserts that no line has them, and that nothing is written.
    fn no_line_has(line: &str, change: fn(&mut Values, &mut Vec<u8>)) {
        let (mut values, mut free) = values(line);
        change(&mut values, &mut free);
        let mut out = [b'.'; 2100];
        for at in [0, 2100, 2101] {
            assert_eq!(write_into(&values, &free, &mut out, at), Err(16), "{line}");
        }
        assert_eq!(out, [b'.'; 2100]);
    }

    #[test]
    fn numbers_that_are_those_of_no_text() {
        for line in LINES {
            no_line_has(line, |values, _| values.sequence += 1);
            no_line_has(line, |values, _| values.stamp += 38_u64.pow(12));
            no_line_has(line, |values, _| values.stamp = 0);
            no_line_has(line, |values, _| values.facility += 0x20);
            no_line_has(line, |values, _| values.facility = 0);
            no_line_has(line, |values, _| values.facility += 1 << 32);
        }
        for line in &LINES[3..8] {
            no_line_has(line, |values, _| values.body.fields[0] = Value::Ident(1, 0));
            no_line_has(line, |values, _| {
                values.body.fields[1] = Value::Text(u64::MAX)
            });
            no_line_has(line, |values, free| {
                values.body.fields.pop();
                free.push(b'X');
            });
        }
    }

    /// Parts that together look like another field's text: no line reads as these.
    #[test]
    fn parts_that_are_not_parted_so() {
        let word = |text: &str| number(text.as_bytes()).unwrap();
        let (mut values, free) = values(LINES[3]);
        values.body.fields[0] = Value::Ident(word("N733QE/143"), 0);
        assert_eq!(write(&values, &free), Err(16));
        values.body.fields[0] = Value::Ident(word("N733QE"), word("143"));
        for (prefix, aircraft_type, letter, number) in [
            ("2H", "C172", "A", 0),
            ("", "2H/C172", "A", 16),
            ("2H", "C172/A", "", 16),
            ("2H/C172", "A", "", 16),
            ("", "2H/C172/A", "", 16),
            ("", "2H", "A", 0),
            ("2H", "A", "", 16),
        ] {
            let parts = [prefix, aircraft_type, letter].map(word);
            values.body.fields[1] = Value::Aircraft(parts[0], parts[1], parts[2]);
            let answer = write(&values, &free).err().unwrap_or_default();
            assert_eq!(answer, number, "{prefix} {aircraft_type} {letter}");
        }
    }

    #[test]
    fn the_free_text() {
        for line in &LINES[3..8] {
            no_line_has(line, |_, free| free.push(b'X'));
        }
        for (line, wrongs) in [
            (LINES[0], &["\n", "\x1f", "\x7f", "\u{e9}"][..]),
            (LINES[8], &["", " ", "A B", "A ", " A", "A\n", "\n"]),
            (LINES[10], &["", " ", "A B", "A ", "A\r"]),
        ] {
            let (values, _) = values(line);
            for wrong in wrongs {
                assert_eq!(write(&values, wrong.as_bytes()), Err(16), "{wrong:?}");
            }
        }
        no_line_has(LINES[12], |_, free| free.push(b'X'));
        no_line_has(LINES[0], |_, free| free.extend([b'X'; 2031]));
        no_line_has(LINES[8], |_, free| free.extend([b'X'; 400]));
        let (values, _) = values(LINES[0]);
        assert_eq!(
            write(&values, &[b'X'; 2030]).map(|line| line.len()),
            Ok(2048)
        );
    }

    #[test]
    fn spaces_at_the_end() {
        for line in &LINES[..3] {
            no_line_has(line, |values, _| values.body.space_at_end = true);
        }
        let (mut values, free) = values(LINES[6]);
        values.body.space_at_end = false;
        let text = LINES[6].trim_end();
        assert_eq!(write(&values, &free).unwrap(), text.as_bytes());
    }

    /// Marks that are not those of the amendments, an amendment after a gap, a number come twice.
    #[test]
    fn slots_and_marks() {
        for line in &LINES[10..] {
            no_line_has(line, |values, _| values.body.marks ^= 1);
            no_line_has(line, |values, _| values.body.marks = 0);
            no_line_has(line, |values, _| values.body.amendments = [None; 8]);
            no_line_has(line, |values, _| {
                values.body.amendments = [None; 8];
                values.body.marks = 0;
            });
        }
        no_line_has(LINES[12], |values, _| values.body.amendments.swap(1, 2));
        no_line_has(LINES[12], |values, _| values.body.amendments.swap(0, 7));
        no_line_has(LINES[12], |values, _| {
            values.body.amendments[1] = values.body.amendments[0]
        });
        no_line_has(LINES[12], |values, _| {
            values.body.amendments[2] = values.body.amendments[0]
        });
        let (mut values, free) = values(LINES[12]);
        values.body.amendments.swap(0, 1);
        let line = write(&values, &free).unwrap();
        assert!(line.ends_with(b" 03 C172/A 02 N6/123 "));
    }

    /// The E rule: with an E the fix is a position.
    #[test]
    fn the_e_rule() {
        let word = |text: &str| number(text.as_bytes()).unwrap();
        for (fix, time, number) in [
            ("3424N/08700W", "E1437", 0),
            ("AHN", "E1437", 16),
            ("9001N/00000E", "E1437", 16),
            ("AHN", "D1437", 0),
            ("9001N/00000E", "P1437", 0),
        ] {
            let (mut values, free) = values(LINES[9]);
            values.body.fields[3] = Value::Text(word(fix));
            values.body.fields[4] = Value::Text(word(time));
            let answer = write(&values, &free).err().unwrap_or_default();
            assert_eq!(answer, number, "{fix} {time}");
        }
    }
}
