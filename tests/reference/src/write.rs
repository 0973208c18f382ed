//! The writer (document 01, "Answer numbers", 15 and 16; document 02, request l): from a message of
//! the new or of the old feed to its line, without a line feed (docs/DECISIONS.md).

use crate::line::{read, read_old, Body, Message, OldMessage};

/// The line of a message, or 16: "values to write that no line has".
///
/// A message is allowed exactly if some line reads as it (docs/DECISIONS.md). A line that does so
/// can only be the message's own parts put one after another, so these are put together and
/// read again: either they read as this very message, or no line does.
pub fn write(message: &Message) -> Result<Vec<u8>, u8> {
    let mut line = message.sequence.to_vec();
    line.extend_from_slice(message.stamp.text().as_bytes());
    line.extend_from_slice(message.facility);
    put_body(&message.body, &mut line);
    match read(&line) {
        Ok(again) if again == *message => Ok(line),
        _ => Err(16),
    }
}

/// The line of a message of the old feed, or 16, in the same way.
pub fn write_old(message: &OldMessage) -> Result<Vec<u8>, u8> {
    let mut line = message.stamp.text().into_bytes();
    line.push(message.center);
    put_body(&message.body, &mut line);
    match read_old(&line) {
        Ok(again) if again == *message => Ok(line),
        _ => Err(16),
    }
}

/// Writes the line into `out` from the place `at` on, and tells how many bytes it has.
/// "Writing: 16, then 15; the bytes go in from the given place, and all others stay."
pub fn write_into(message: &Message, out: &mut [u8], at: usize) -> Result<usize, u8> {
    put(&write(message)?, out, at)
}

/// Writes the line of a message of the old feed, in the same way.
pub fn write_old_into(message: &OldMessage, out: &mut [u8], at: usize) -> Result<usize, u8> {
    put(&write_old(message)?, out, at)
}

/// Puts bytes into `out` from the place `at` on, and tells how many. 15: "output doesn't fit
/// from the given place to the buffer's end; past that end, even empty output doesn't".
pub fn put(bytes: &[u8], out: &mut [u8], at: usize) -> Result<usize, u8> {
    if at > out.len() || bytes.len() > out.len() - at {
        return Err(15);
    }
    out[at..at + bytes.len()].copy_from_slice(bytes);
    Ok(bytes.len())
}

/// Type and body in the document's order, whatever they hold.
fn put_body(body: &Body, line: &mut Vec<u8>) {
    line.extend_from_slice(body.message_type.text().as_bytes());
    line.extend_from_slice(body.kept_body);
    for text in &body.fields {
        line.push(b' ');
        line.extend_from_slice(text);
    }
    for amendment in &body.amendments {
        line.push(b' ');
        line.extend_from_slice(amendment.number);
        line.push(b' ');
        line.extend_from_slice(amendment.content);
    }
    if body.space_at_end {
        line.push(b' ');
    }
}

#[cfg(test)]
mod tests {
    use super::*;
    use crate::field::Stamp;
    use crate::line::{Amendment, Type};

    const LINES: [&str; 14] = [
        "000006143655KZMAHB",
        "000106143655  ZARTany {}[] text ",
        "00FF31235959   ATO ",
        "000106143655KZMADZ N733QE/143 C172/A OPF D1437 TMB 1457",
        "004C06143653KZMPAZ N64943 UES 3WO 1441",
        "000406081800KZAAAZ N5AB GHI JKL A0810 ",
        "000406081800KZAARZ N5AB GHI JKL",
        "000306143655KZMATZ AAL508/118 463 350 2012N/06849W",
        "005606143657KZFWTZ N4065D/590 259 070T 0000S/00000W ",
        "000206143655KZMAFZ USA995/313 T/B73S/F 0440 PBI P1640 330 PBI..TBIRD..CLT/0127",
        "005106143653KZMEUZ N872AT T/BA10/R 0440 3424N/08700W E1437 390 AHN./.DEHAN..SPS",
        "002006143656KZHUAF N22T FTW T18 06 3139N/09717W 07 E1437 10 FTW./.3139N/09717W..ALI",
        "000106081500KZAAAF N5 AB CD 10 A 09 60 08 05B005 07 P0816 06 AB/C 05 SC 03 2H/C172 02 N6",
        "000106081500KZAAAF N5 AB CD 08 005 ",
    ];

    #[test]
    fn what_was_read_is_written_back() {
        for line in LINES {
            let message = read(line.as_bytes()).unwrap();
            assert_eq!(write(&message).unwrap(), line.as_bytes());
        }
    }

    /// Every line one byte away from one of the lines above: refused, or written back.
    #[test]
    fn every_line_nearby_is_refused_or_written_back() {
        for line in LINES {
            for place in 0..line.len() {
                for byte in 0..=255 {
                    let mut changed = line.as_bytes().to_vec();
                    changed[place] = byte;
                    if let Ok(message) = read(&changed) {
                        assert_eq!(write(&message), Ok(changed.clone()));
                    }
                }
            }
        }
    }

    /// "05 and 005 differ, so do 0000N and 0000S"; the error of the trade "storing a position
    /// as signed minutes only, and writing 0000N for 0000S".
    #[test]
    fn digits_and_hemispheres_belong_to_the_message() {
        let north = read(b"000106081500KZAATZ N5/123 310 240 0000N/00000E").unwrap();
        let south = read(b"000106081500KZAATZ N5/123 310 240 0000S/00000W").unwrap();
        assert_eq!(north.body.position_minutes(), south.body.position_minutes());
        assert_ne!(north, south);
        assert!(write(&north).unwrap().ends_with(b"0000N/00000E"));
        assert!(write(&south).unwrap().ends_with(b"0000S/00000W"));
        let two = read(b"000106081500KZAAAF N5 AB CD 08 05").unwrap();
        let three = read(b"000106081500KZAAAF N5 AB CD 08 005").unwrap();
        assert_ne!(two, three);
        assert!(write(&two).unwrap().ends_with(b" 05"));
        assert!(write(&three).unwrap().ends_with(b" 005"));
    }

    /// Whether a space stood at the end is part of the message.
    #[test]
    fn space_at_the_end() {
        let mut message = read(b"000406081800KZAARZ N5AB GHI JKL").unwrap();
        message.body.space_at_end = true;
        assert_eq!(
            write(&message).unwrap(),
            b"000406081800KZAARZ N5AB GHI JKL "
        );
        let mut message = read(b"000006143655KZMAHB").unwrap();
        message.body.space_at_end = true;
        assert_eq!(write(&message), Err(16));
    }

    /// Changes what was read from a line, and asserts that no line has that.
    fn no_line_has(line: &str, change: fn(&mut Message)) {
        let mut message = read(line.as_bytes()).unwrap();
        change(&mut message);
        assert_eq!(write(&message), Err(16), "{line}");
    }

    #[test]
    fn values_of_the_front_that_no_line_has() {
        let heartbeat = "000006143655KZMAHB";
        no_line_has(heartbeat, |message| message.sequence = b"000G");
        no_line_has(heartbeat, |message| message.sequence = b"000");
        no_line_has(heartbeat, |message| message.sequence = b"00000");
        no_line_has(heartbeat, |message| message.facility = b"KZA ");
        no_line_has(heartbeat, |message| message.facility = b"KZA");
        no_line_has(heartbeat, |message| message.facility = b"    ");
        no_line_has(heartbeat, |message| message.facility = b"KZMAHBKZMA");
        no_line_has(heartbeat, |message| message.stamp.day = 0);
        no_line_has(heartbeat, |message| message.stamp.day = 32);
        no_line_has(heartbeat, |message| message.stamp.hour = 24);
        no_line_has(heartbeat, |message| message.stamp.minute = 60);
        no_line_has(heartbeat, |message| message.stamp.second = 60);
        no_line_has(heartbeat, |message| message.stamp.second = 200);
        // Two wrongs that together look like a good front.
        no_line_has(heartbeat, |message| {
            message.sequence = b"000";
            message.stamp = Stamp {
                day: 101,
                hour: 1,
                minute: 1,
                second: 1,
            };
        });
        no_line_has(heartbeat, |message| message.body.kept_body = b"\n");
        no_line_has(heartbeat, |message| message.body.fields = vec![&b"N5"[..]]);
        no_line_has(heartbeat, |message| message.body.marks = 1);
        no_line_has(heartbeat, |message| message.body.message_type = Type::RZ);
    }

    #[test]
    fn values_of_the_body_that_no_line_has() {
        let removed = "000406081800KZAARZ N5AB GHI JKL";
        no_line_has(removed, |message| message.body.fields[0] = b"5N");
        no_line_has(removed, |message| message.body.fields[1] = b"");
        no_line_has(removed, |message| message.body.fields[2] = b"JKL ");
        no_line_has(removed, |message| message.body.fields[1] = b"GHI JKL");
        no_line_has(removed, |message| {
            message.body.fields = vec![&b"N5AB"[..], b"GHI JKL"]
        });
        no_line_has(removed, |message| message.body.fields.push(b"MNO"));
        no_line_has(removed, |message| message.body.fields.clear());
        no_line_has(removed, |message| message.body.kept_body = b" N5AB");
        no_line_has(removed, |message| message.body.message_type = Type::HB);
        no_line_has(removed, |message| message.body.message_type = Type::AF);
        no_line_has(removed, |message| message.body.marks = 1);
        no_line_has(removed, |message| {
            message.body.amendments = vec![Amendment {
                number: b"08",
                content: b"050",
            }];
            message.body.marks = 1 << 5;
        });
        // The E rule.
        no_line_has(
            "000106081500KZAAUZ N5 C172 120 AB D0816 050 AB",
            |message| message.body.fields[4] = b"E0816",
        );
    }

    /// docs/DECISIONS.md: marks that are not those of the amendments, and a number that comes twice.
    #[test]
    fn amendments_that_no_line_has() {
        let amended = "000106081500KZAAAF N5 AB CD 08 050 09 060";
        no_line_has(amended, |message| message.body.marks = 0);
        no_line_has(amended, |message| message.body.marks = 0xff);
        no_line_has(amended, |message| message.body.amendments[0].number = b"04");
        no_line_has(amended, |message| message.body.amendments[0].number = b"09");
        no_line_has(amended, |message| message.body.amendments[1].content = b"5");
        no_line_has(amended, |message| message.body.amendments.clear());
        no_line_has(amended, |message| {
            message.body.amendments.pop();
        });
        no_line_has(amended, |message| {
            message.body.amendments.clear();
            message.body.marks = 0;
        });
        // As fields instead of amendments the same line would come out, but it reads otherwise.
        no_line_has(amended, |message| {
            message.body.fields.extend([&b"08"[..], b"050"]);
            message.body.amendments.remove(0);
        });
    }

    /// docs/DECISIONS.md: a line over 2,048 bytes, and an FZ over 439.
    #[test]
    fn lines_too_long_to_be_written() {
        let long = vec![b'X'; 3000];
        let mut message = read(b"000006143655KZMAHB").unwrap();
        message.body.kept_body = &long[..2030];
        assert_eq!(write(&message).unwrap().len(), 2048);
        message.body.kept_body = &long[..2031];
        assert_eq!(write(&message), Err(16));
        let mut message = read(b"000106081500KZAAFZ N5 C172 120 AB D0816 050 AB").unwrap();
        let front = "FZ N5 C172 120 AB D0816 050 ".len();
        message.body.fields[6] = &long[..439 - front];
        assert_eq!(write(&message).unwrap().len(), 16 + 439);
        message.body.space_at_end = true;
        assert_eq!(write(&message), Err(16));
        message.body.space_at_end = false;
        message.body.fields[6] = &long[..440 - front];
        assert_eq!(write(&message), Err(16));
        message.body.message_type = Type::UZ;
        assert_eq!(write(&message).unwrap().len(), 16 + 440);
    }

    /// "the bytes go in from the given place, and all others stay"
    #[test]
    fn writing_into_a_buffer() {
        let message = read(b"000006143655KZMAHB").unwrap();
        let mut out = [b'.'; 24];
        assert_eq!(write_into(&message, &mut out, 3), Ok(18));
        assert_eq!(&out, b"...000006143655KZMAHB...");
        let mut out = [b'.'; 20];
        assert_eq!(write_into(&message, &mut out, 2), Ok(18));
        assert_eq!(&out, b"..000006143655KZMAHB");
        for at in [3, 19, 20, 21, 22, usize::MAX] {
            let mut out = [b'.'; 20];
            assert_eq!(write_into(&message, &mut out, at), Err(15), "{at}");
            assert_eq!(out, [b'.'; 20]);
        }
    }

    #[test]
    fn answer_16_comes_before_15_and_writes_nothing() {
        let mut message = read(b"000006143655KZMAHB").unwrap();
        message.sequence = b"WXYZ";
        for at in [0, 2, 20, 21] {
            let mut out = [b'.'; 20];
            assert_eq!(write_into(&message, &mut out, at), Err(16));
            assert_eq!(out, [b'.'; 20]);
        }
    }

    /// "past that end, even empty output doesn't" fit
    #[test]
    fn empty_output() {
        let mut out = [b'.'; 4];
        assert_eq!(put(b"", &mut out, 4), Ok(0));
        assert_eq!(put(b"", &mut out, 5), Err(15));
        assert_eq!(put(b"", &mut [], 0), Ok(0));
        assert_eq!(put(b"X", &mut out, 4), Err(15));
        assert_eq!(out, [b'.'; 4]);
    }
}
