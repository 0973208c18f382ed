//! The old feed (document 02, request l): what its paragraph says, and what must not pass, for the
//! reader, the writer, the values and the lists.

use crate::board::Board;
use crate::field::OldStamp;
use crate::line::{read_body, read_old, Amendment, OldMessage, Type, MOST_LINE};
use crate::print::{check, check_counts, list};
use crate::rule::Rule;
use crate::text::number;
use crate::values::{self, free, Amended, BodyValues, OldValues, Value};
use crate::write::{write_old, write_old_into};

/// Lines of the old feed: samples of document 003 as that feed had them, and a few others.
const LINES: [&str; 12] = [
    "143655RFZ N811BC/043 SW2 0270 MYNN P1445 210 MYNN.A555.GTK.A554.PTA.A554.CDO..MDSD/0230",
    "143655RDZ N733QE/143 C172 OPF D1437 TMB 1457",
    "143655RFZ USA995/313 T/B73S 0440 PBI P1640 330B350 PBI..TBIRD..ORL.J53.CRG.J51.SAV/0127",
    "143655RTZ AAL508/118 463 350 2012N/06849W",
    "143657FTZ N4065D/590 259 070T 0000S/00000W ",
    "143656HAF N22T FTW T18 06 3139N/09717W 07 E1437 10 FTW./.3139N/09717W..ALI..T18/1523",
    "143653PAZ N64943 UES 3WO 1441",
    "143653MUZ N872AT T/BA10 0440 3424N/08700W E1437 390 AHN./.DEHAN..SPS.J72.TXO/1749",
    "000000ARZ N5AB GHI JKL ",
    "235959ZRZ N5AB GHI JKL",
    "081500AAF N5 AB CD 10 A 09 60 08 05B005 07 P0816 06 AB/C 05 SC 03 2H/C172 02 N6/123",
    "081500AAF N5/12A AB CD 03 C172 ",
];

/// Types and bodies of lines of either feed.
const OF_BOTH: [&str; 5] = [
    "DZ N5 C172 AB D0816 CD 0930",
    "AZ N5 AB CD 0930",
    "UZ N5 2H/AB 120 AB P0816 050 AB..CD",
    "AF N5 AB CD 03 T/AB",
    "RZ N5 AB CD",
];

/// Types and bodies of lines of the new feed alone.
const OF_NEW: [&str; 10] = [
    "DZ N5 C172/A AB D0816 CD 0930",
    "DZ N5 T/B73S/F AB D0816 CD 0930",
    "AZ N5 AB CD A0930",
    "AZ N5 AB CD E0930",
    "UZ N5 2H/AB/Z 120 AB P0816 050 AB..CD",
    "FZ N5 AB/A 120 AB P0816 050 AB..CD",
    "AF N5 AB CD 03 T/AB/C",
    "AF N5 AB CD 08 050 03 12/B 10 AB..CD ",
    "HB",
    "RT N5 AB CD",
];

/// The answer number and place of a line under a rule.
fn answer(rule: Rule, line: &[u8]) -> (u8, usize) {
    match read_body(rule, line) {
        Ok(_) => (0, 0),
        Err(refusal) => (refusal.number, refusal.place),
    }
}

fn old(line: &str) -> (u8, usize) {
    answer(Rule::Old, line.as_bytes())
}

/// The answer to a type and body with a good front of the old feed before them.
fn body(text: &str) -> (u8, usize) {
    old(&format!("081500A{text}"))
}

#[test]
fn front_type_and_body() {
    let message = read_old(LINES[0].as_bytes()).unwrap();
    let stamp = OldStamp {
        hour: 14,
        minute: 36,
        second: 55,
    };
    assert_eq!((message.stamp, message.center), (stamp, b'R'));
    assert_eq!(message.body.message_type, Type::FZ);
    assert_eq!(message.body.key(), Some(&b"N811BC"[..]));
    assert_eq!(message.body.fields[1], b"SW2");
    assert_eq!(message.body.level_is_requested(), Some(true));
    for line in LINES {
        assert_eq!(old(line), (0, 0), "{line}");
    }
    let message = read_old(LINES[10].as_bytes()).unwrap();
    assert_eq!(message.body.marks, 0xff);
    let last = Amendment {
        number: b"02",
        content: b"N6/123",
    };
    assert_eq!(message.body.amendments[7], last);
    assert_eq!(message.body.aircraft().unwrap().prefix, Some(&b"2H"[..]));
}

/// Each of the seven types reads; no other two letters do.
#[test]
fn our_seven_types() {
    let seven = ["AF", "AZ", "DZ", "FZ", "RZ", "TZ", "UZ"];
    for first in 'A'..='Z' {
        for second in 'A'..='Z' {
            let letters = format!("{first}{second}");
            // A line of nine bytes passes 1, and has no field.
            let expected = match seven.contains(&&letters[..]) {
                true => (8, 0),
                false => (7, 0),
            };
            assert_eq!(body(&letters), expected, "{letters}");
            assert_eq!(body(&format!("{letters} ")), expected, "{letters}");
        }
    }
    let read: Vec<&str> = LINES.iter().map(|line| &line[7..9]).collect();
    assert!(seven.iter().all(|letters| read.contains(letters)));
    for letters in ["az", "Az", "A ", " A", "  ", "12"] {
        assert_eq!(body(letters), (7, 0), "{letters}");
    }
}

/// "our seven, no RT, TO or HB": whatever their bodies are.
#[test]
fn must_not_pass_a_kept_body() {
    for letters in ["RT", "TO", "HB"] {
        for kept in ["", " ", "X", " N5 AB CD", "  a  b~ "] {
            assert_eq!(body(&format!("{letters}{kept}")), (7, 0), "{letters}{kept}");
        }
    }
}

/// "1 under nine bytes"; docs/DECISIONS.md: a line of exactly nine answers 8.
#[test]
fn shortest_lines() {
    let line = "143655RRZ N5 AB CD";
    for width in 0..9 {
        assert_eq!(old(&line[..width]), (1, 0), "{width}");
    }
    for width in 9..11 {
        assert_eq!(old(&line[..width]), (8, 0), "{width}");
    }
    assert_eq!(old(line), (0, 0));
    // Under nine bytes and every later fault besides.
    assert_eq!(answer(Rule::Old, &[0; 8]), (1, 0));
    assert_eq!(answer(Rule::Old, &[0; 9]), (3, 0));
}

/// 5: "six digits HHMMSS" of a clock.
#[test]
fn stamps() {
    for stamp in ["000000", "235959", "095959"] {
        assert_eq!(old(&format!("{stamp}ARZ N5 AB CD")), (0, 0), "{stamp}");
    }
    for stamp in [
        "240000", "236000", "235960", "999999", "14365A", "A43655", " 43655", "14365 ", "14:655",
        "1436.5", "00FF00",
    ] {
        assert_eq!(old(&format!("{stamp}ARZ N5 AB CD")), (5, 0), "{stamp}");
    }
}

/// 6: "one capital for the center"; no digit, small letter or sign of 003's list.
#[test]
fn centers() {
    for byte in 0..=255_u8 {
        let line = [b"143655", &[byte][..], b"RZ N5 AB CD"].concat();
        let expected = match byte {
            b'A'..=b'Z' => (0, 0),
            32..=126 => (6, 0),
            _ => (3, 0),
        };
        assert_eq!(answer(Rule::Old, &line), expected, "byte {byte}");
    }
}

/// 2 over 2,048 bytes, and 11 for an FZ over 439 counted from its type, the eighth byte.
#[test]
fn longest_lines() {
    let filed = |letters: &str, width: usize, end: &str| {
        let front = format!("143655R{letters} N5 C172 120 AB D0816 050 ");
        let route = "X".repeat(7 + width - front.len() - end.len());
        let line = format!("{front}{route}{end}");
        assert_eq!(line.len(), 7 + width);
        old(&line)
    };
    assert_eq!(filed("FZ", 439, ""), (0, 0));
    assert_eq!(filed("FZ", 440, ""), (11, 0));
    assert_eq!(filed("FZ", 439, " "), (0, 0));
    assert_eq!(filed("FZ", 440, " "), (11, 0));
    assert_eq!(filed("UZ", 440, ""), (0, 0));
    assert_eq!(filed("UZ", MOST_LINE - 7, ""), (0, 0));
    assert_eq!(filed("UZ", MOST_LINE - 6, ""), (2, 0));
    assert_eq!(filed("FZ", MOST_LINE - 6, ""), (2, 0));
    // 11 whatever the body is, and before 8; not for 448 bytes in all and fewer.
    assert_eq!(body(&format!("FZ{}", "X".repeat(438))), (11, 0));
    assert_eq!(body(&format!("FZ{}", "X".repeat(437))), (8, 0));
    assert_eq!(answer(Rule::Old, &[0; 2049]), (2, 0));
    assert_eq!(answer(Rule::Old, &[0; 2048]), (3, 0));
}

/// Of two faults the lower of 1, 2, 3, 5, 6, 7, then 11, 8, and the fields from the left.
#[test]
fn order_of_two_faults() {
    assert_eq!(old("240000\u{7f}R"), (1, 0));
    assert_eq!(old("240000RRZ\u{7f}"), (3, 0));
    assert_eq!(old("240000rRZ N5 AB CD"), (5, 0));
    assert_eq!(old("240000RHB"), (5, 0));
    assert_eq!(old("143655rHB"), (6, 0));
    assert_eq!(old("143655rRZ"), (6, 0));
    assert_eq!(old("143655RHB  "), (7, 0));
    assert_eq!(old(&format!("143655RFX {}", "X".repeat(438))), (7, 0));
    assert_eq!(old(&format!("143655RFZ N {}", "X".repeat(438))), (11, 0));
    assert_eq!(body("RZ N AB"), (8, 0));
    assert_eq!(body("RZ N AB CD"), (9, 1));
    assert_eq!(body("DZ N C172/A AB D0816 CD 0930"), (9, 1));
    assert_eq!(body("DZ N5 C172/A A D0816 CD 0930"), (9, 2));
    assert_eq!(body("AZ N5 AB C A0930"), (9, 3));
    assert_eq!(body("AF N5 AB CD 03 C172/A 04 1"), (9, 5));
    assert_eq!(body("AF N5 AB CD 04 1 03 C172/A"), (10, 4));
    assert_eq!(body("AF N5 AB CD 03 C172 03 C172/A"), (10, 6));
}

/// "An aircraft field with a last letter .. has no reading there", in an amendment neither.
#[test]
fn must_not_pass_an_aircrafts_letter() {
    for (bare, lettered) in [
        ("C172", "C172/A"),
        ("T/B73S", "T/B73S/F"),
        ("2H/AB", "2H/AB/Z"),
        ("12", "12/B"),
    ] {
        for (text, place) in [
            ("DZ N5 AIRCRAFT AB D0816 CD 0930", 2),
            ("FZ N5 AIRCRAFT 120 AB D0816 050 AB", 2),
            ("UZ N5 AIRCRAFT 120 AB D0816 050 AB", 2),
            ("AF N5 AB CD 03 AIRCRAFT", 5),
            ("AF N5 AB CD 08 050 03 AIRCRAFT 10 AB", 7),
        ] {
            let with = |aircraft: &str| text.replace("AIRCRAFT", aircraft);
            assert_eq!(body(&with(bare)), (0, 0), "{text} {bare}");
            assert_eq!(body(&with(lettered)), (9, place), "{text} {lettered}");
        }
    }
}

/// ".. or an AZ clock with a prefix"
#[test]
fn must_not_pass_a_prefix_of_an_az_clock() {
    for clock in ["0930", "0000", "2359"] {
        assert_eq!(body(&format!("AZ N5 AB CD {clock}")), (0, 0));
        for prefix in ["A", "E"] {
            assert_eq!(body(&format!("AZ N5 AB CD {prefix}{clock}")), (9, 4));
        }
    }
    assert_eq!(body("AZ N5 AB CD 2400"), (9, 4));
    // The letter of a time is another thing.
    assert_eq!(body("DZ N5 C172 AB E0816 CD 0930"), (0, 0));
    assert_eq!(body("AF N5 AB CD 07 E0816"), (0, 0));
}

/// The fields are otherwise those of the new feed: both rules answer the same to a type and body, but
/// for a last letter, a prefix, and the three types.
#[test]
fn the_same_fields() {
    let new = |text: &str| answer(Rule::New, format!("000106081500KZAA{text}").as_bytes());
    for text in [
        "TZ N5/123 310 240C 3015N/08430W",
        "TZ N5 310 240 3015N/08430W",
        "TZ N5/123 310 240 9001N/00000E",
        "FZ N5 C172 120 AB E0816 050 AB",
        "FZ N5 C172 120 3015N/08430W E0816 050 AB",
        "FZ N5 C172 120 AB P0816 350B310 AB",
        "UZ N5 C172 120 AB P0816 100B99 AB",
        "UZ N5 C172 120 AB P0816 05B005 AB ",
        "AF N5 AB CD 08 350B310",
        "AF N5 AB CD 09 310B350 08 310B310",
        "AF N5 AB CD 08 050 08 050",
        "AF N5 AB CD 08 050 09",
        "AF N5 AB CD",
        "RZ  N5 AB CD",
        "RZ N5 AB CD  ",
        "DZ N5 AB/CD AB D0816 CD 0930",
        "DZ N5 C172 AB D0816 CD A0930",
        "AZ N5 AB CD D0930",
    ] {
        assert_eq!(body(text), new(text), "{text}");
    }
    for text in OF_BOTH {
        assert_eq!((new(text), body(text)), ((0, 0), (0, 0)), "{text}");
    }
    for text in OF_NEW {
        assert_eq!(new(text), (0, 0), "{text}");
        assert_ne!(body(text), (0, 0), "{text}");
    }
}

/// Every line one byte away from one of the lines above, and every beginning of one.
fn nearby(mut each: impl FnMut(&[u8])) {
    for line in LINES {
        for place in 0..line.len() {
            each(&line.as_bytes()[..place]);
            for byte in 0..=255 {
                let mut changed = line.as_bytes().to_vec();
                changed[place] = byte;
                each(&changed);
            }
        }
    }
}

/// "Demand 2 holds under each rule": refused, or the same bytes written back. And 4 is not given.
#[test]
fn every_line_nearby_is_refused_or_written_back() {
    let mut answers = [0; 20];
    nearby(|line| {
        match read_old(line) {
            Ok(message) => assert_eq!(write_old(&message).as_deref(), Ok(line)),
            Err(refusal) => answers[usize::from(refusal.number)] += 1,
        }
        // No line reads under both rules: the seventh byte is a digit in one and a capital in the other.
        assert!(answer(Rule::Old, line) != (0, 0) || answer(Rule::New, line) != (0, 0));
    });
    for number in [1, 3, 5, 6, 7, 8, 9, 10] {
        assert_ne!(answers[number], 0, "{number}");
    }
    assert_eq!(answers[4], 0);
}

/// A new line is none of the old feed, nor an old line one of the new feed, and none touches a board.
#[test]
fn must_not_pass_a_line_of_the_other_feed() {
    for text in OF_BOTH.into_iter().chain(OF_NEW) {
        for front in ["000106081500KZAA", "235906081500KZAA", "FFFF06081500   A"] {
            let line = format!("{front}{text}");
            assert_eq!(answer(Rule::New, line.as_bytes()), (0, 0));
            assert!([(5, 0), (6, 0)].contains(&old(&line)), "{line}");
        }
    }
    for line in LINES {
        assert_eq!(answer(Rule::New, line.as_bytes()), (5, 0), "{line}");
        let mut board = Board::empty();
        assert_eq!(board.apply(line.as_bytes()), (5, 0));
        assert_eq!(board, Board::empty());
    }
    assert_eq!(answer(Rule::New, b"143655RRZ N5 AB "), (1, 0));
}

/// A route is a part of the caller's line.
#[test]
fn no_copies() {
    let line = b"143655RUZ N5 C172 120 AB D0816 050 AB..CD".to_vec();
    let message = read_old(&line).unwrap();
    assert_eq!(message.body.fields[6], b"AB..CD");
    let place = line[line.len() - 6..].as_ptr();
    assert_eq!(message.body.fields[6].as_ptr(), place);
}

// ---- the writer ----

#[test]
fn what_was_read_is_written_back() {
    for line in LINES {
        let message = read_old(line.as_bytes()).unwrap();
        assert_eq!(write_old(&message).unwrap(), line.as_bytes());
        let mut out = vec![b'.'; line.len() + 4];
        assert_eq!(write_old_into(&message, &mut out, 3), Ok(line.len()));
        assert_eq!(out, [b"...", line.as_bytes(), b"."].concat());
        let before = out.clone();
        for at in [5, line.len() + 4, line.len() + 5, usize::MAX] {
            assert_eq!(write_old_into(&message, &mut out, at), Err(15));
        }
        assert_eq!(out, before);
    }
}

/// Changes what was read from a line, and asserts that no line of the old feed has that: 16 before 15,
/// and nothing is written.
fn no_line_has(line: &str, change: fn(&mut OldMessage)) {
    let mut message = read_old(line.as_bytes()).unwrap();
    change(&mut message);
    let mut out = [b'.'; 300];
    for at in [0, 300, 301] {
        assert_eq!(write_old_into(&message, &mut out, at), Err(16), "{line}");
    }
    assert_eq!(out, [b'.'; 300]);
}

#[test]
fn messages_that_no_line_has() {
    for line in LINES {
        no_line_has(line, |message| message.stamp.hour = 24);
        no_line_has(line, |message| message.stamp.minute = 60);
        no_line_has(line, |message| message.stamp.second = 100);
        no_line_has(line, |message| message.center = b'a');
        no_line_has(line, |message| message.center = b'1');
        no_line_has(line, |message| message.center = b'<');
        no_line_has(line, |message| message.center = 0);
        no_line_has(line, |message| message.body.message_type = Type::HB);
        no_line_has(line, |message| message.body.kept_body = b" N5");
        no_line_has(line, |message| message.body.marks ^= 1);
    }
    no_line_has(LINES[1], |message| message.body.fields[1] = b"C172/A");
    no_line_has(LINES[6], |message| message.body.fields[3] = b"A1441");
    no_line_has(LINES[6], |message| message.body.fields[3] = b"E1441");
    no_line_has(LINES[2], |message| message.body.fields[5] = b"350B330");
    no_line_has(LINES[7], |message| message.body.fields[3] = b"AHN");
    no_line_has(LINES[11], |message| {
        message.body.amendments[0].content = b"C172/A"
    });
    // A body that the new feed would keep whole.
    no_line_has(LINES[8], |message| {
        message.body.message_type = Type::RT;
        message.body.fields.clear();
        message.body.space_at_end = false;
    });
    // Two fields as one: the same line would come out, but it reads otherwise.
    no_line_has("143655RRZ N5 AB CD", |message| {
        message.body.fields = vec![&b"N5 AB"[..], b"CD"]
    });
}

// ---- the values ----

fn word(text: &str) -> u64 {
    number(text.as_bytes()).unwrap()
}

fn values(line: &str) -> (OldValues, Vec<u8>) {
    let message = read_old(line.as_bytes()).unwrap();
    (OldValues::of(&message), free(&message.body))
}

#[test]
fn number_by_number() {
    let (values, free) = values(LINES[11]);
    let mut amendments = [None; 8];
    amendments[0] = Some(Amended {
        number: 3,
        content: Value::Aircraft(0, word("C172"), 0),
    });
    let expected = OldValues {
        stamp: word("081500"),
        center: 65,
        body: BodyValues {
            message_type: Type::AF,
            fields: vec![
                Value::Ident(word("N5"), word("12A")),
                Value::Text(word("AB")),
                Value::Text(word("CD")),
            ],
            marks: 2,
            amendments,
            space_at_end: true,
        },
    };
    assert_eq!((values, free), (expected, Vec::new()));
}

#[test]
fn values_are_written_back() {
    for line in LINES {
        let (values, free) = values(line);
        assert_eq!(values::write_old(&values, &free).unwrap(), line.as_bytes());
        let mut out = vec![b'.'; line.len() + 4];
        let written = values::write_old_into(&values, &free, &mut out, 3);
        assert_eq!(written, Ok(line.len()));
        assert_eq!(out, [b"...", line.as_bytes(), b"."].concat());
        let written = values::write_old_into(&values, &free, &mut out, 5);
        assert_eq!(written, Err(15));
    }
}

/// Changes the values of a line, and asserts that no line has them, and that nothing is written.
fn no_line_has_values(line: &str, change: impl Fn(&mut OldValues, &mut Vec<u8>)) {
    let (mut values, mut free) = values(line);
    change(&mut values, &mut free);
    let mut out = [b'.'; 300];
    for at in [0, 300, 301] {
        let written = values::write_old_into(&values, &free, &mut out, at);
        assert_eq!(written, Err(16), "{line} {values:?}");
    }
    assert_eq!(out, [b'.'; 300]);
}

#[test]
fn values_that_no_line_has() {
    for line in LINES {
        for wrong in ["240000", "06143655", "14365", "1436555", "14365A", ""] {
            no_line_has_values(line, |values, _| values.stamp = word(wrong));
        }
        no_line_has_values(line, |values, _| values.stamp += 1);
        no_line_has_values(line, |values, _| values.stamp += 38_u64.pow(12));
        for center in (0..256).filter(|center| !(65..=90).contains(center)) {
            no_line_has_values(line, |values, _| values.center = center);
        }
        no_line_has_values(line, |values, _| values.center += 256);
        no_line_has_values(line, |values, _| values.center <<= 8);
        no_line_has_values(line, |values, _| values.center <<= 24);
        no_line_has_values(line, |values, _| values.center = u32::MAX);
        for kept in [Type::RT, Type::TO, Type::HB] {
            no_line_has_values(line, |values, _| values.body.message_type = kept);
            no_line_has_values(line, |values, free| {
                values.body = BodyValues {
                    message_type: kept,
                    fields: Vec::new(),
                    marks: 0,
                    amendments: [None; 8],
                    space_at_end: false,
                };
                free.clear();
            });
        }
    }
    no_line_has_values(LINES[1], |values, _| {
        values.body.fields[1] = Value::Aircraft(0, word("C172"), word("A"))
    });
    no_line_has_values(LINES[11], |values, _| {
        values.body.amendments[0] = Some(Amended {
            number: 3,
            content: Value::Aircraft(word("T"), word("C172"), word("A")),
        })
    });
    for prefix in ["A", "E"] {
        let clock = word(&format!("{prefix}1441"));
        no_line_has_values(LINES[6], |values, _| {
            values.body.fields[3] = Value::Text(clock)
        });
    }
    no_line_has_values(LINES[1], |_, free| free.push(b'X'));
    no_line_has_values(LINES[2], |values, _| {
        values.body.fields[5] = Value::Text(word("350B330"))
    });
}

/// A line of 2,048 bytes, an FZ of 439 from its type, and a byte more.
#[test]
fn values_of_the_longest_lines() {
    let (mut values, _) = values("143655RFZ N5 C172 120 AB D0816 050 AB");
    let front = "FZ N5 C172 120 AB D0816 050 ".len();
    let mut width = |letters: Type, width: usize| {
        values.body.message_type = letters;
        let line = values::write_old(&values, &vec![b'X'; width - front]);
        line.map(|line| line.len())
    };
    assert_eq!(width(Type::FZ, 439), Ok(7 + 439));
    assert_eq!(width(Type::FZ, 440), Err(16));
    assert_eq!(width(Type::UZ, 440), Ok(7 + 440));
    assert_eq!(width(Type::UZ, 2041), Ok(2048));
    assert_eq!(width(Type::UZ, 2042), Err(16));
}

// ---- the lists ----

const FEED: &str = "\
143655RDZ N733QE/143 C172 OPF D1437 TMB 1457
143655RDZ N733QE/143 C172/A OPF D1437 TMB 1457
143653PAZ N64943 UES 3WO 1441
143653PAZ N64943 UES 3WO A1441
143655RHB
143656HAF N22T FTW T18 03 T/AB 10 FTW..T18
143655R
240000RRZ N5 AB CD
143655rRZ N5 AB CD
000106143655KZMARZ N5 AB CD
143655R";

#[test]
fn a_feed_checked() {
    let checked = |refused_only: bool| {
        String::from_utf8(check(Rule::Old, FEED.as_bytes(), refused_only)).unwrap()
    };
    let refused = [
        "2 9 2 - -",
        "4 9 4 - -",
        "5 7 0 - -",
        "7 1 0 - -",
        "8 5 0 - -",
        "9 6 0 - -",
        "10 6 0 - -",
        "11 17 0 - -",
    ];
    assert_eq!(checked(true), refused.join("\n") + "\n");
    let all = checked(false);
    for line in refused
        .iter()
        .chain(&["1 0 0 DZ N733QE", "3 0 0 AZ N64943", "6 0 0 AF N22T"])
    {
        assert!(all.lines().any(|other| other == *line), "{line}");
    }
    assert_eq!(all.lines().count(), 11);
    assert_eq!(
        check_counts(Rule::Old, FEED.as_bytes()),
        b"LINES 10 READ 3 REFUSED 7\n"
    );
    let overlong = format!("{}\n", "x".repeat(2049));
    assert_eq!(check(Rule::Old, overlong.as_bytes(), false), b"1 2 0 - -\n");
}

#[test]
fn a_feed_listed() {
    assert_eq!(
        String::from_utf8(list(Rule::Old, FEED.as_bytes())).unwrap(),
        "0 0 DZ N733QE same N733QE,143,- -,C172,- OPF,-,- D1437,-,- TMB,-,- 1457,-,-\n\
         9 2\n\
         0 0 AZ N64943 same N64943,-,- UES,-,- 3WO,-,- 1441,-,-\n\
         9 4\n\
         7 0\n\
         0 0 AF N22T same N22T,-,- FTW,-,- T18,-,- #2,-,- T,AB,- #128,-,- -,-,-\n\
         1 0\n5 0\n6 0\n6 0\n"
    );
}
