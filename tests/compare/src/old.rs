//! Fixed lines of the old feed (document 02, l): one of each type and each of its beginnings, every byte
//! as the center, every pair of digits in each part of the stamp, every two letters as the type, every
//! last letter of an aircraft and prefix of an arrival clock, the limits of a line and of an FZ; and lines
//! of the new feed. Of messages to write, the same.

use crate::calls::Case;
use crate::feeds;
use reference::line::{read_old, Type};
use reference::text::number;
use reference::values::{self, OldValues, Value};

/// One line of each type, with an AF of all amendments.
const LINES: [&str; 7] = [
    "143655RAF N5/12A AB CD 02 N6/123 03 2H/C172 05 SC 06 AB/C 07 P0816 08 05B005 09 60 10 AB..CD ",
    "143653PAZ N64943 UES 3WO 1441",
    "143655RDZ N733QE/143 C172 OPF D1437 TMB 1457",
    "143655RFZ USA995/313 T/B73S 0440 PBI P1640 330 PBI..TBIRD..ORL.J53.CRG.J51.SAV..FLO/0127",
    "000000ARZ N5AB GHI JKL",
    "235959ZTZ AAL508/118 463 350C 2012N/06849W ",
    "143653MUZ N872AT T/BA10 0440 3424N/08700W E1437 390B410 AHN./.DEHAN..SPS.J72.TXO/1749",
];

/// Lines that the new feed alone has.
const NEW: [&str; 6] = [
    "000106143655KZMADZ N733QE/143 C172/A OPF D1437 TMB 1457",
    "235906143655KZMADZ N733QE/143 C172 OPF D1437 TMB 1457",
    "000406081800KZAAAZ N5AB GHI JKL A0810",
    "000006143655KZMAHB",
    "143606143655ETMSRT N5AB",
    "002306143648 LONTZ EIN523/000 426 350 5108N/00101E",
];

fn letters() -> impl Iterator<Item = char> {
    'A'..='Z'
}

/// A line of this type that has so many bytes from its type on.
fn wide(message_type: &str, width: usize, end: &str) -> String {
    let front = match message_type {
        "AF" => "143655RAF N5 AB CD 08 050 10 ".to_string(),
        other => format!("143655R{other} N5 C172 120 AB D0816 050 "),
    };
    let route = "X".repeat(7 + width - front.len() - end.len());
    front + &route + end
}

/// All of these lines, without their line feeds.
fn lines() -> Vec<Vec<u8>> {
    let mut all: Vec<Vec<u8>> = Vec::new();
    for byte in (0..=255).filter(|&byte| byte != b'\n') {
        all.push([b"143655", &[byte][..], b"RZ N5AB GHI JKL"].concat());
    }
    let mut texts: Vec<String> = Vec::new();
    for line in LINES {
        texts.extend((0..=line.len()).map(|width| line[..width].to_string()));
    }
    for pair in 0..100 {
        texts.push(format!("{pair:02}3655RRZ N5AB GHI JKL"));
        texts.push(format!("14{pair:02}55RRZ N5AB GHI JKL"));
        texts.push(format!("1436{pair:02}RRZ N5AB GHI JKL"));
    }
    for first in letters() {
        texts.extend(letters().map(|second| format!("143655R{first}{second}")));
        texts.push(format!("143655RAZ N5 AB CD {first}1441"));
        texts.push(format!("143655RDZ N5 C172/{first} AB D0816 CD 0930"));
        texts.push(format!("143655RDZ N5 2H/AB/{first} AB D0816 CD 0930"));
        texts.push(format!("143655RFZ N5 T/C172/{first} 120 AB P0816 050 AB"));
        texts.push(format!("143655RUZ N5 12/{first} 120 AB P0816 050 AB"));
        texts.push(format!("143655RAF N5 AB CD 08 050 03 C172/{first}"));
    }
    for kept in ["RT", "TO", "HB"] {
        texts.extend(["", " ", "X", " N5 AB CD"].map(|body| format!("143655R{kept}{body}")));
    }
    for block in ["310B350", "310B310", "05B005", "350B310", "100B99"] {
        texts.push(format!("143655RFZ N5 C172 120 AB P0816 {block} AB"));
        texts.push(format!("143655RAF N5 AB CD 09 {block}"));
    }
    texts.extend(["04 050", "08 050 08 050"].map(|end| format!("143655RAF N5 AB CD {end}")));
    for width in 437..=441 {
        texts.extend(["", " "].map(|end| wide("FZ", width, end)));
        texts.extend(["", " "].map(|end| wide("UZ", width, end)));
    }
    for width in 2046..=2050 {
        texts.extend(["UZ", "AF", "FZ"].map(|message_type| wide(message_type, width - 7, "")));
    }
    texts.extend(NEW.map(str::to_string));
    all.extend(texts.into_iter().map(String::into_bytes));
    all
}

/// All of these lines, in feeds that every program takes.
pub fn feeds() -> Vec<Vec<u8>> {
    feeds::of_lines(lines())
}

/// Messages to write: of every type right ones, and with one thing that no line of the old feed has.
pub fn writes() -> Vec<Case> {
    let mut all = Vec::new();
    let word = |text: &str| number(text.as_bytes()).unwrap_or_default();
    for line in LINES {
        let Ok(message) = read_old(line.as_bytes()) else {
            continue;
        };
        let mut put = |unused: u64, change: &dyn Fn(&mut OldValues)| {
            let mut values = OldValues::of(&message);
            change(&mut values);
            all.push(Case::WriteOld {
                unused,
                values,
                free: values::free(&message.body),
                out: vec![b'.'; line.len() + 3],
                at: 1,
            });
        };
        // The first word is not looked at.
        for unused in [0, 1, word("0001"), word("000G"), u64::MAX] {
            put(unused, &|_| {});
        }
        let far = [256, 1 << 8, 1 << 16, 1 << 24, 1 << 31, u32::MAX];
        let centers = far.into_iter().flat_map(|far| [far, far.wrapping_add(65)]);
        for center in (0..256).chain(centers) {
            put(0, &|values| values.center = center);
        }
        for center in [65 << 8, 65 << 16, 65 << 24] {
            put(0, &|values| values.center = center);
        }
        for stamp in [
            "000000", "235959", "240000", "236000", "235960", "14365", "1436550", "06143655", "",
        ] {
            put(0, &|values| values.stamp = word(stamp));
        }
        put(0, &|values| values.stamp += 1);
        put(0, &|values| values.stamp += 38_u64.pow(12));
        for kept in [Type::RT, Type::TO, Type::HB] {
            put(0, &|values| values.body.message_type = kept);
            put(0, &|values| {
                values.body.message_type = kept;
                values.body.fields.clear();
                values.body.amendments = [None; 8];
                values.body.marks = 0;
                values.body.space_at_end = false;
            });
        }
        for letter in letters() {
            let letter = word(&letter.to_string());
            put(0, &|values| {
                let slots = values.body.amendments.iter_mut().flatten();
                let contents = slots.map(|slot| &mut slot.content);
                for value in values.body.fields.iter_mut().chain(contents) {
                    if let Value::Aircraft(_, _, last) = value {
                        *last = letter;
                    }
                }
            });
        }
        for clock in ["1441", "A1441", "E1441", "D1441", "2400"] {
            put(0, &|values| {
                if values.body.message_type == Type::AZ {
                    values.body.fields[3] = Value::Text(word(clock));
                }
            });
        }
    }
    all
}

#[cfg(test)]
mod tests {
    use super::*;
    use reference::line::read_body;
    use reference::rule::Rule;

    /// How many of the lines have each answer number under a rule.
    fn answers(rule: Rule) -> [usize; 20] {
        let mut numbers = [0; 20];
        for line in lines() {
            let answer = read_body(rule, &line).map_or_else(|refusal| refusal.number, |_| 0);
            numbers[usize::from(answer)] += 1;
        }
        numbers
    }

    /// Every number comes but 4, and none of these lines reads under both rules.
    #[test]
    fn every_number_comes() {
        let (new, old) = (answers(Rule::New), answers(Rule::Old));
        for number in [0, 1, 2, 3, 5, 6, 7, 8, 9, 10, 11] {
            assert_ne!(old[number], 0, "{number}");
        }
        assert_eq!(old[4], 0);
        assert_eq!(new[0], NEW.len());
        let reads = |rule, line: &[u8]| read_body(rule, line).is_ok();
        let both = |line: &Vec<u8>| reads(Rule::New, line) && reads(Rule::Old, line);
        assert!(!lines().iter().any(both));
        assert!(NEW.iter().all(|line| !reads(Rule::Old, line.as_bytes())));
        assert!(LINES.iter().all(|line| reads(Rule::Old, line.as_bytes())));
    }

    /// How many of the lines read that have this text: the fronts, and the limits.
    #[test]
    fn those_that_read() {
        let count = |text: &str, expected: usize| {
            let reads = |line: &Vec<u8>| {
                String::from_utf8_lossy(line).contains(text) && read_body(Rule::Old, line).is_ok()
            };
            assert_eq!(lines().iter().filter(|line| reads(line)).count(), expected);
        };
        // 26 centers; 24 hours, 60 minutes and 60 seconds; and the RZ itself.
        count("RZ N5AB GHI JKL", 26 + 24 + 60 + 60 + 1);
        // FZ and UZ of 437 to 441 bytes, UZ and AF of 2,046 to 2,048.
        count("XXXXXXXX", 6 + 10 + 6);
    }

    #[test]
    fn what_is_written() {
        let cases = writes();
        let numbers: Vec<u8> = cases.iter().map(|case| case.answer().number).collect();
        let written = numbers.iter().filter(|&&number| number == 0).count();
        // Of each line: 5 as it is, 26 centers, 2 stamps; 26 letters where there is no aircraft, and 5
        // clocks where there is no AZ, of which one is right.
        let letters = 3 * 26;
        let clocks = 6 * 5 + 1;
        assert_eq!(written, 7 * (5 + 26 + 2) + letters + clocks);
        assert!(numbers.iter().all(|number| [0, 16].contains(number)));
    }
}
