//! The reader (document 01, "The line", "Fields", "Answer numbers"; document 02, request l): from a
//! line of the new or of the old feed to its message, or to the number that refuses it and the place.
//! What a message holds is a part of the caller's line and never a copy.

use crate::field::{self, Aircraft, OldStamp, Stamp};
use crate::rule::Rule;

/// "line over 2,048 bytes" is answer 2.
pub const MOST_LINE: usize = 2048;
/// "FZ over 439 bytes, counted from its type" is answer 11.
pub const MOST_FZ: usize = 439;

/// "two letters of type: AF AZ DZ FZ RZ TZ UZ RT TO HB"
#[derive(Clone, Copy, Debug, PartialEq, Eq)]
pub enum Type {
    AF,
    AZ,
    DZ,
    FZ,
    RZ,
    TZ,
    UZ,
    RT,
    TO,
    HB,
}

impl Type {
    /// The type of these letters; in an old line "our seven, no RT, TO or HB" (document 02, l).
    pub fn read(rule: Rule, text: &[u8]) -> Option<Type> {
        let message_type = Type::known(text)?;
        (rule == Rule::New || message_type.fields().is_some()).then_some(message_type)
    }

    fn known(text: &[u8]) -> Option<Type> {
        match text {
            b"AF" => Some(Type::AF),
            b"AZ" => Some(Type::AZ),
            b"DZ" => Some(Type::DZ),
            b"FZ" => Some(Type::FZ),
            b"RZ" => Some(Type::RZ),
            b"TZ" => Some(Type::TZ),
            b"UZ" => Some(Type::UZ),
            b"RT" => Some(Type::RT),
            b"TO" => Some(Type::TO),
            b"HB" => Some(Type::HB),
            _ => None,
        }
    }

    pub fn text(self) -> &'static str {
        match self {
            Type::AF => "AF",
            Type::AZ => "AZ",
            Type::DZ => "DZ",
            Type::FZ => "FZ",
            Type::RZ => "RZ",
            Type::TZ => "TZ",
            Type::UZ => "UZ",
            Type::RT => "RT",
            Type::TO => "TO",
            Type::HB => "HB",
        }
    }

    /// The table "fields in order"; nothing for the three types whose bodies are kept whole.
    /// Of AF these are the fields before the amendments.
    pub(crate) fn fields(self) -> Option<&'static [Form]> {
        use Form::*;
        match self {
            Type::AZ => Some(&[Ident, Point, Point, ArrivalClock]),
            Type::DZ => Some(&[Ident, Aircraft, Point, Time, Point, Clock]),
            Type::RZ => Some(&[Ident, Point, Point]),
            Type::TZ => Some(&[TrackIdent, GroundSpeed, TrackLevel, Position]),
            Type::FZ | Type::UZ => Some(&[Ident, Aircraft, FiledSpeed, Fix, Time, Level, Route]),
            Type::AF => Some(&[Ident, Point, Point]),
            Type::RT | Type::TO | Type::HB => None,
        }
    }
}

/// The forms of the fields.
#[derive(Clone, Copy, Debug, PartialEq, Eq)]
pub(crate) enum Form {
    Ident,
    TrackIdent,
    Aircraft,
    FiledSpeed,
    GroundSpeed,
    Point,
    Fix,
    Time,
    ArrivalClock,
    Clock,
    Level,
    TrackLevel,
    Position,
    Route,
}

impl Form {
    /// What a field of this form says, in at most three parts: an ident its key and its computer
    /// number, an aircraft its prefix, type and letter, any other its text. A route says nothing
    /// here: it stays a part of the line.
    pub(crate) fn parts(self, text: &[u8]) -> [Option<&[u8]>; 3] {
        match self {
            Form::Ident | Form::TrackIdent => {
                let key = field::key_of_ident(text);
                // What stands after the key and a slash, if anything does.
                [Some(key), text.get(key.len() + 1..), None]
            }
            Form::Aircraft => match field::read_aircraft(text) {
                Some(reading) => [
                    reading.prefix,
                    Some(reading.aircraft_type),
                    // The letter is the field's last byte.
                    reading.letter.map(|_| &text[text.len() - 1..]),
                ],
                None => [None; 3],
            },
            Form::Route => [None; 3],
            _ => [Some(text), None, None],
        }
    }
}

/// Of the eight amendment numbers: the number's field, and the form of its content.
const AMENDMENTS: [(&[u8], Form); 8] = [
    (b"02", Form::Ident),
    (b"03", Form::Aircraft),
    (b"05", Form::FiledSpeed),
    (b"06", Form::Fix),
    (b"07", Form::Time),
    (b"08", Form::Level),
    (b"09", Form::Level),
    (b"10", Form::Route),
];

/// Of an amendment's number its mark, "one per number", and the form of its content; nothing for
/// what is none of the eight. The mark of 02 is the lowest bit, that of 10 the highest.
pub(crate) fn amends(number: &[u8]) -> Option<(u8, Form)> {
    let which = AMENDMENTS.iter().position(|(known, _)| *known == number)?;
    Some((1 << which, AMENDMENTS[which].1))
}

/// "An amendment is two fields": its number and its content.
#[derive(Clone, Copy, Debug, PartialEq, Eq)]
pub struct Amendment<'a> {
    pub number: &'a [u8],
    pub content: &'a [u8],
}

/// What one line of the new feed says.
#[derive(Clone, Debug, PartialEq, Eq)]
pub struct Message<'a> {
    /// The four characters of the sequence number.
    pub sequence: &'a [u8],
    pub stamp: Stamp,
    /// The four characters of the facility, its spaces among them.
    pub facility: &'a [u8],
    pub body: Body<'a>,
}

/// What one line of the old feed says: it has no sequence number, no day and no facility of four
/// letters (document 02, l).
#[derive(Clone, Debug, PartialEq, Eq)]
pub struct OldMessage<'a> {
    pub stamp: OldStamp,
    /// The capital of the center.
    pub center: u8,
    pub body: Body<'a>,
}

/// What a line of either feed says from its type on.
#[derive(Clone, Debug, PartialEq, Eq)]
pub struct Body<'a> {
    pub message_type: Type,
    /// The texts of the fields in the table's order, of AF the first three; none for RT, TO
    /// and HB. Texts, so that 05 and 005 differ, and so do 0000N and 0000S.
    pub fields: Vec<&'a [u8]>,
    /// AF's amendments in their order; none for any other type.
    pub amendments: Vec<Amendment<'a>>,
    /// "a set of eight marks, one per number": the lowest bit is for 02, the highest for 10.
    pub marks: u8,
    /// Whether a space stood after the last field; for RT, TO and HB never.
    pub space_at_end: bool,
    /// The whole body of RT, TO and HB; empty for the seven other types.
    pub kept_body: &'a [u8],
}

impl<'a> Body<'a> {
    /// The flight's key; RT, TO and HB have none.
    pub fn key(&self) -> Option<&'a [u8]> {
        self.fields.first().map(|ident| field::key_of_ident(ident))
    }

    /// The reading of the aircraft field: DZ, FZ and UZ have one, AF may have one among its
    /// amendments.
    pub fn aircraft(&self) -> Option<Aircraft<'a>> {
        let text = match self.message_type {
            Type::DZ | Type::FZ | Type::UZ => *self.fields.get(1)?,
            Type::AF => {
                self.amendments
                    .iter()
                    .find(|amendment| amendment.number == b"03")?
                    .content
            }
            _ => return None,
        };
        field::read_aircraft(text)
    }

    /// "In FZ and UZ the level is requested when the time has P and assigned otherwise."
    pub fn level_is_requested(&self) -> Option<bool> {
        match self.message_type {
            Type::FZ | Type::UZ => Some(self.fields.get(4)?.first()? == &b'P'),
            _ => None,
        }
    }

    /// The signed minutes of a TZ's position.
    pub fn position_minutes(&self) -> Option<(i32, i32)> {
        match self.message_type {
            Type::TZ => field::position_minutes(self.fields.get(3)?),
            _ => None,
        }
    }
}

/// Why a line is refused: the answer number, and the place (0 where it has none).
#[derive(Clone, Copy, Debug, PartialEq, Eq)]
pub struct Refusal {
    pub number: u8,
    pub place: usize,
}

fn refused<T>(number: u8, place: usize) -> Result<T, Refusal> {
    Err(Refusal { number, place })
}

/// Reads one line of the new feed, without its line feed.
/// "Order for a line: 1 to 7 rising, 11, 8, then fields from the left."
pub fn read(line: &[u8]) -> Result<Message<'_>, Refusal> {
    let (front, rest) = halves(Rule::New, line)?;
    let sequence = &front[0..4];
    if !field::is_sequence(sequence) {
        return refused(4, 0);
    }
    let Some(stamp) = Stamp::read(&front[4..12]) else {
        return refused(5, 0);
    };
    let facility = &front[12..16];
    if !field::is_facility(facility) {
        return refused(6, 0);
    }
    Ok(Message {
        sequence,
        stamp,
        facility,
        body: read_rest(Rule::New, rest)?,
    })
}

/// Reads one line of the old feed, without its line feed. "Refusals: as for a line, with 1 under nine
/// bytes and 4 not given" (document 02, l).
pub fn read_old(line: &[u8]) -> Result<OldMessage<'_>, Refusal> {
    let (front, rest) = halves(Rule::Old, line)?;
    let Some(stamp) = OldStamp::read(&front[0..6]) else {
        return refused(5, 0);
    };
    let center = front[6];
    if !field::is_center(center) {
        return refused(6, 0);
    }
    Ok(OldMessage {
        stamp,
        center,
        body: read_rest(Rule::Old, rest)?,
    })
}

/// Reads one line under the rule that the caller names, for what both feeds say alike.
pub fn read_body(rule: Rule, line: &[u8]) -> Result<Body<'_>, Refusal> {
    Ok(match rule {
        Rule::New => read(line)?.body,
        Rule::Old => read_old(line)?.body,
    })
}

/// Answers 1 to 3, and parts the line before its type.
fn halves(rule: Rule, line: &[u8]) -> Result<(&[u8], &[u8]), Refusal> {
    if line.len() < rule.least_line() {
        return refused(1, 0);
    }
    if line.len() > MOST_LINE {
        return refused(2, 0);
    }
    if line.iter().any(|byte| !(32..=126).contains(byte)) {
        return refused(3, 0);
    }
    Ok(line.split_at(rule.front()))
}

/// Reads a line from its type on: 7, 11, 8, then the fields from the left.
fn read_rest(rule: Rule, rest: &[u8]) -> Result<Body<'_>, Refusal> {
    let Some(message_type) = Type::read(rule, &rest[..2]) else {
        return refused(7, 0);
    };
    // From the F to the line's end, a space at the end counted; UZ never (docs/DECISIONS.md).
    if message_type == Type::FZ && rest.len() > MOST_FZ {
        return refused(11, 0);
    }
    let mut body = Body {
        message_type,
        fields: Vec::new(),
        amendments: Vec::new(),
        marks: 0,
        space_at_end: false,
        kept_body: &[],
    };
    let Some(forms) = message_type.fields() else {
        // "RT, TO and HB bodies are kept whole and may be empty."
        body.kept_body = &rest[2..];
        return Ok(body);
    };

    let Some((mut texts, space_at_end)) = part(&rest[2..]) else {
        return refused(8, 0);
    };
    let count = texts.len();
    let count_is_right = match message_type {
        // "AF: even count of fields, under 5 or over 19" is wrong
        Type::AF => count % 2 == 1 && (5..=19).contains(&count),
        _ => count == forms.len(),
    };
    if !count_is_right {
        return refused(8, 0);
    }
    body.space_at_end = space_at_end;

    // The fields from the left. Field number 1 has index 0.
    for (index, form) in forms.iter().enumerate() {
        let place = index + 1;
        read_field(rule, *form, texts[index], place)?;
        // The E rule: "when it has E, the fix must be a position, else the time field is at
        // fault". FZ and UZ only (docs/DECISIONS.md), and the time's own form came first, above.
        let has_e_rule = message_type == Type::FZ || message_type == Type::UZ;
        if has_e_rule
            && *form == Form::Time
            && texts[index][0] == b'E'
            && !field::is_position(texts[3])
        {
            return refused(9, place);
        }
    }
    // Only AF has fields beyond those of the table; strictly by place (docs/DECISIONS.md).
    for index in (forms.len()..count).step_by(2) {
        let (number, content) = (texts[index], texts[index + 1]);
        let Some((mark, form)) = amends(number) else {
            return refused(10, index + 1);
        };
        if body.marks & mark != 0 {
            return refused(10, index + 1);
        }
        body.marks |= mark;
        read_field(rule, form, content, index + 2)?;
        body.amendments.push(Amendment { number, content });
    }
    texts.truncate(forms.len());
    body.fields = texts;
    Ok(body)
}

/// Parts the body of the seven types: "one space, then fields parted by single spaces, none
/// empty, and at the end at most one space more". Nothing if the spacing is wrong.
fn part(body: &[u8]) -> Option<(Vec<&[u8]>, bool)> {
    let fields = body.strip_prefix(b" ")?;
    let (fields, space_at_end) = match fields.strip_suffix(b" ") {
        Some(front) => (front, true),
        None => (fields, false),
    };
    let texts: Vec<&[u8]> = fields.split(|&byte| byte == b' ').collect();
    if texts.iter().any(|text| text.is_empty()) {
        return None;
    }
    Some((texts, space_at_end))
}

/// Whether a field has a reading under this rule (else 9).
fn read_field(rule: Rule, form: Form, text: &[u8], place: usize) -> Result<(), Refusal> {
    let reads = match form {
        Form::Ident => field::is_ident(text),
        Form::TrackIdent => field::is_track_ident(text),
        Form::Aircraft => field::is_aircraft(rule, text),
        Form::FiledSpeed => field::is_filed_speed(text),
        Form::GroundSpeed => field::is_ground_speed(text),
        Form::Point => field::is_point(text),
        Form::Fix => field::is_fix(text),
        Form::Time => field::is_time(text),
        Form::ArrivalClock => field::is_arrival_clock(rule, text),
        Form::Clock => field::is_clock(text),
        Form::Level => field::is_level(text),
        Form::TrackLevel => field::is_track_level(text),
        Form::Position => field::is_position(text),
        Form::Route => field::is_route(text),
    };
    if reads {
        Ok(())
    } else {
        refused(9, place)
    }
}

#[cfg(test)]
mod tests {
    use super::*;

    /// The answer number and place of a line.
    fn answer(line: &[u8]) -> (u8, usize) {
        match read(line) {
            Ok(_) => (0, 0),
            Err(refusal) => (refusal.number, refusal.place),
        }
    }

    /// The answer to a type and body with a good front before them.
    fn body(text: &str) -> (u8, usize) {
        answer(format!("000106081500KZAA{text}").as_bytes())
    }

    fn texts<'a>(message: &Message<'a>) -> Vec<&'a str> {
        message
            .body
            .fields
            .iter()
            .map(|text| std::str::from_utf8(text).unwrap())
            .collect()
    }

    #[test]
    fn known_reading_shortest_line() {
        let message = read(b"000006143655KZMAHB").unwrap();
        assert_eq!(message.body.message_type, Type::HB);
        assert_eq!(message.body.kept_body, b"");
        assert_eq!(message.body.key(), None);
        assert_eq!(answer(b"000006143655KZMAH"), (1, 0));
        assert_eq!(answer(b""), (1, 0));
    }

    #[test]
    fn known_reading_idents_in_lines() {
        assert_eq!(body("RZ N5 AB CD"), (0, 0));
        assert_eq!(body("RZ N AB CD"), (9, 1));
        assert_eq!(body("RZ ABCDEFG/12Z AB CD"), (0, 0));
        assert_eq!(body("RZ ABCDEFGH AB CD"), (9, 1));
        assert_eq!(body("RZ 1AB AB CD"), (9, 1));
    }

    #[test]
    fn known_reading_aircraft_in_lines() {
        assert_eq!(body("DZ N5 C172/A AB D0816 CD 0930"), (0, 0));
        assert_eq!(body("DZ N5 T/AB AB D0816 CD 0930"), (0, 0));
        assert_eq!(body("DZ N5 AB/CD AB D0816 CD 0930"), (9, 2));
        let line = b"000106081500KZAADZ N5 T/B73S/F AB D0816 CD 0930";
        let aircraft = read(line).unwrap().body.aircraft().unwrap();
        assert_eq!(aircraft.prefix, Some(&b"T"[..]));
        assert_eq!(aircraft.aircraft_type, b"B73S");
        assert_eq!(aircraft.letter, Some(b'F'));
    }

    #[test]
    fn known_reading_positions_in_lines() {
        assert_eq!(body("TZ N5/123 310 240 9000N/18000W"), (0, 0));
        assert_eq!(body("TZ N5/123 310 240 9001N/00000E"), (9, 4));
        assert_eq!(body("TZ N5/123 310 240 8960N/00000E"), (9, 4));
        let line = b"000106081500KZAATZ N5/123 310 240 3015N/08430W";
        assert_eq!(
            read(line).unwrap().body.position_minutes(),
            Some((1815, -5070))
        );
        let line = b"000106081500KZAATZ N5/123 310 240 0000S/00000W";
        assert_eq!(read(line).unwrap().body.position_minutes(), Some((0, 0)));
    }

    #[test]
    fn known_reading_clocks_and_levels_in_lines() {
        assert_eq!(body("AZ N5 AB CD 2359"), (0, 0));
        assert_eq!(body("AZ N5 AB CD 2400"), (9, 4));
        assert_eq!(body("AF N5 AB CD 08 05"), (0, 0));
        assert_eq!(body("AF N5 AB CD 08 5"), (9, 5));
        assert_eq!(body("FZ N5 C172 120 AB D0816 05 AB..CD"), (0, 0));
        assert_eq!(body("FZ N5 C172 120 AB D0816 5 AB..CD"), (9, 6));
    }

    #[test]
    fn known_reading_space_at_the_end() {
        assert_eq!(body("RZ N5 AB CD"), (0, 0));
        assert_eq!(body("RZ N5 AB CD "), (0, 0));
        assert_eq!(body("RZ N5 AB CD  "), (8, 0));
        assert!(
            !read(b"000106081500KZAARZ N5 AB CD")
                .unwrap()
                .body
                .space_at_end
        );
        assert!(
            read(b"000106081500KZAARZ N5 AB CD ")
                .unwrap()
                .body
                .space_at_end
        );
    }

    /// A line of this type whose bytes, counted from the type, are `width`.
    fn filed(message_type: &str, width: usize, end: &str) -> Vec<u8> {
        let front = format!("000106081500KZAA{message_type} N5 C172 120 AB D0816 050 ");
        let route = "X".repeat(16 + width - front.len() - end.len());
        let line = format!("{front}{route}{end}").into_bytes();
        assert_eq!(line.len(), 16 + width);
        line
    }

    /// Known: "FZ of 439 bytes reads, of 440 answers 11"; and docs/DECISIONS.md.
    #[test]
    fn known_reading_longest_fz() {
        assert_eq!(answer(&filed("FZ", 439, "")), (0, 0));
        assert_eq!(answer(&filed("FZ", 440, "")), (11, 0));
        assert_eq!(answer(&filed("FZ", 439, " ")), (0, 0));
        assert_eq!(answer(&filed("FZ", 440, " ")), (11, 0));
        assert_eq!(answer(&filed("UZ", 440, "")), (0, 0));
        assert_eq!(answer(&filed("UZ", 2032, "")), (0, 0));
        assert_eq!(answer(&filed("UZ", 2033, "")), (2, 0));
    }

    /// docs/DECISIONS.md: 11 stands before 8 and 9, and after 1 to 7.
    #[test]
    fn a_long_fz_answers_11_whatever_its_body_is() {
        assert_eq!(body(&format!("FZ{}", "X".repeat(438))), (11, 0));
        assert_eq!(body(&format!("FZ{}", "X".repeat(437))), (8, 0));
        assert_eq!(body(&format!("FZ{}", " ".repeat(438))), (11, 0));
        assert_eq!(body(&format!("FZ N {}", "X".repeat(438))), (11, 0));
        assert_eq!(body(&format!("FX {}", "X".repeat(438))), (7, 0));
        assert_eq!(body(&format!("FZ {}", "X".repeat(2048))), (2, 0));
    }

    #[test]
    fn longest_line() {
        assert_eq!(body(&format!("RT{}", "x".repeat(2030))), (0, 0));
        assert_eq!(body(&format!("RT{}", "x".repeat(2031))), (2, 0));
        // Over 2,048 bytes and every later fault besides.
        assert_eq!(answer(&[0; 2049]), (2, 0));
        assert_eq!(answer(&[0; 2048]), (3, 0));
    }

    #[test]
    fn bytes_outside_32_to_126() {
        for byte in 0..=255u8 {
            let line = [&b"000106081500KZAAHB"[..], &[byte]].concat();
            let expected = if (32..=126).contains(&byte) {
                (0, 0)
            } else {
                (3, 0)
            };
            assert_eq!(answer(&line), expected, "byte {byte}");
        }
        // docs/DECISIONS.md: a carriage return is a byte like another.
        assert_eq!(answer(b"000106081500KZAAHB\r"), (3, 0));
        assert_eq!(answer(b"000106081500KZAARZ N5 AB CD\r"), (3, 0));
    }

    #[test]
    fn the_front_of_a_line() {
        assert_eq!(answer(b"00FA06081500KZAAHB"), (0, 0));
        assert_eq!(answer(b"00fA06081500KZAAHB"), (4, 0));
        assert_eq!(answer(b"00G106081500KZAAHB"), (4, 0));
        assert_eq!(answer(b" 00106081500KZAAHB"), (4, 0));
        for stamp in [
            "00081500", "32081500", "06241500", "06086000", "06081560", "0608150A", " 6081500",
        ] {
            assert_eq!(
                answer(format!("0001{stamp}KZAAHB").as_bytes()),
                (5, 0),
                "{stamp}"
            );
        }
        for facility in [" KZA", "  KZ", "   K", "   7", "1234"] {
            assert_eq!(
                answer(format!("000106081500{facility}HB").as_bytes()),
                (0, 0),
                "{facility}"
            );
        }
        for facility in ["    ", "KZA ", "K ZA", " K A", "kzaa", "KZA."] {
            assert_eq!(
                answer(format!("000106081500{facility}HB").as_bytes()),
                (6, 0),
                "{facility}"
            );
        }
        // docs/DECISIONS.md: the heartbeat printed in 000 6.3.
        assert_eq!(answer(b"123F23152309    HB"), (6, 0));
        for text in ["hb", "HX", "ZA", "A ", "  ", "ZZ", "FA"] {
            assert_eq!(body(text), (7, 0), "{text}");
        }
    }

    /// Two faults: the lower of 1 to 7 answers, and any of them before 8 and 9.
    #[test]
    fn order_of_two_faults_in_the_front() {
        assert_eq!(answer(b"\x00"), (1, 0));
        assert_eq!(answer(b"G00106081500KZAAH"), (1, 0));
        assert_eq!(answer(b"G00106081500KZAAHB\x7f"), (3, 0));
        assert_eq!(answer(b"000106081500KZA\x1fXX"), (3, 0));
        assert_eq!(answer(b"G00100081500KZAAHB"), (4, 0));
        assert_eq!(answer(b"000100081500kZAAHB"), (5, 0));
        assert_eq!(answer(b"000106081500kZAAXX"), (6, 0));
        assert_eq!(answer(b"000106081500KZAAXX  "), (7, 0));
        assert_eq!(answer(b"000106081500KZAAXX N"), (7, 0));
        assert_eq!(answer(b"000106081500kZAARZ"), (6, 0));
        // 8 before 9: three fields of RZ, the ident wrong, and one field too few or too many.
        assert_eq!(body("RZ N AB"), (8, 0));
        assert_eq!(body("RZ N AB CD EF"), (8, 0));
        assert_eq!(body("RZ N AB CD"), (9, 1));
        // Of two faulty fields the left one.
        assert_eq!(body("RZ N5 A C"), (9, 2));
        assert_eq!(body("TZ N5 31 24 9001N/00000E"), (9, 1));
        assert_eq!(body("TZ N5/123 31 24 9001N/00000E"), (9, 2));
        assert_eq!(body("TZ N5/123 310 24 9001N/00000E"), (9, 3));
        assert_eq!(body("DZ N5 AB/CD A 0816 C 2400"), (9, 2));
        assert_eq!(body("DZ N5 C172 A 0816 C 2400"), (9, 3));
        assert_eq!(body("DZ N5 C172 AB 0816 C 2400"), (9, 4));
        assert_eq!(body("DZ N5 C172 AB D0816 C 2400"), (9, 5));
        assert_eq!(body("DZ N5 C172 AB D0816 CD 2400"), (9, 6));
    }

    /// docs/DECISIONS.md, and the error of the trade "splitting at any run of spaces, so that a
    /// missing field shifts the rest".
    #[test]
    fn spacing_and_field_count() {
        for text in [
            "TZ",
            "TZ ",
            "TZ  ",
            "TZ   ",
            "TZN5/123 310 240 3015N/08430W",
        ] {
            assert_eq!(body(text), (8, 0), "{text:?}");
        }
        assert_eq!(body("TZ N5/123 310 240 3015N/08430W"), (0, 0));
        assert_eq!(body("TZ  N5/123 310 240 3015N/08430W"), (8, 0));
        assert_eq!(body("TZ N5/123  310 240 3015N/08430W"), (8, 0));
        assert_eq!(body("TZ N5/123 310 240  3015N/08430W"), (8, 0));
        assert_eq!(body("TZ N5/123 310  3015N/08430W"), (8, 0));
        assert_eq!(body("TZ N5/123 310 3015N/08430W"), (8, 0));
        assert_eq!(body("TZ N5/123 310 240 3015N/08430W X"), (8, 0));
        assert_eq!(body("FZ N5 C172 120 AB D0816 050 AB CD"), (8, 0));
        for (message_type, count) in [
            ("AZ", 4),
            ("DZ", 6),
            ("RZ", 3),
            ("TZ", 4),
            ("FZ", 7),
            ("UZ", 7),
        ] {
            for fields in 0..12 {
                let text = format!("{message_type}{}", " .".repeat(fields));
                let expected = if fields == count { (9, 1) } else { (8, 0) };
                assert_eq!(body(&text), expected, "{text}");
            }
        }
    }

    /// "AF: even count of fields, under 5 or over 19" answers 8.
    #[test]
    fn af_field_count() {
        for fields in 0..24 {
            let text = format!("AF{}", " .".repeat(fields));
            let right = fields % 2 == 1 && (5..=19).contains(&fields);
            assert_eq!(
                body(&text),
                if right { (9, 1) } else { (8, 0) },
                "{fields} fields"
            );
        }
        assert_eq!(body("AF N5 AB CD"), (8, 0));
        assert_eq!(body("AF N5 AB CD 08"), (8, 0));
        assert_eq!(body("AF N5 AB CD 08 050"), (0, 0));
        assert_eq!(body("AF N5 AB CD 08 050 09"), (8, 0));
        let all = "AF N5 AB CD 02 N6 03 C172 05 120 06 AB 07 D0816 08 050 09 060 10 AB..CD";
        assert_eq!(body(all), (0, 0));
        assert_eq!(body(&format!("{all} ")), (0, 0));
        assert_eq!(body(&format!("{all} 10")), (8, 0));
        assert_eq!(body(&format!("{all} 10 AB")), (8, 0));
    }

    #[test]
    fn af_amendments_and_marks() {
        let line = b"000106081500KZAAAF N5/123 AB CD 10 AB..CD 02 N6/12Z 08 05B005";
        let message = read(line).unwrap();
        assert_eq!(texts(&message), ["N5/123", "AB", "CD"]);
        assert_eq!(
            message.body.amendments[0],
            Amendment {
                number: b"10",
                content: b"AB..CD"
            }
        );
        assert_eq!(
            message.body.amendments[1],
            Amendment {
                number: b"02",
                content: b"N6/12Z"
            }
        );
        assert_eq!(
            message.body.amendments[2],
            Amendment {
                number: b"08",
                content: b"05B005"
            }
        );
        assert_eq!(message.body.marks, 0b1010_0001);
        assert_eq!(
            message.body.marks.count_ones() as usize,
            message.body.amendments.len()
        );
        assert_eq!(message.body.key(), Some(&b"N5"[..]));
        let line =
            b"000106081500KZAAAF N5 AB CD 02 N6 03 C172 05 SC 06 AB/C 07 P0816 08 050 09 60 10 A";
        let message = read(line).unwrap();
        assert_eq!(message.body.marks, 0xff);
        assert_eq!(message.body.aircraft().unwrap().aircraft_type, b"C172");
    }

    /// Each amendment's content has its own form, and its own place.
    #[test]
    fn af_contents() {
        for (good, bad) in [
            ("02 N6", "02 6N"),
            ("03 T/AB", "03 AB/CD"),
            ("05 M085", "05 A"),
            ("06 AB/C", "06 ABCDEFGHIJKL"),
            ("07 E1200", "07 1200"),
            ("08 310B350", "08 350T"),
            ("08 05B005", "08 350B310"),
            ("09 05", "09 5"),
            ("09 99B100", "09 100B99"),
        ] {
            assert_eq!(body(&format!("AF N5 AB CD {good}")), (0, 0), "{good}");
            assert_eq!(body(&format!("AF N5 AB CD {bad}")), (9, 5), "{bad}");
            assert_eq!(body(&format!("AF N5 AB CD 10 . {bad}")), (9, 7), "{bad}");
        }
        assert_eq!(body("AF N5 AB CD 10 1"), (0, 0));
    }

    /// docs/DECISIONS.md: strictly by place.
    #[test]
    fn af_order_of_9_and_10() {
        assert_eq!(body("AF N5 AB CD 08 1 04 12"), (9, 5));
        assert_eq!(body("AF N5 AB CD 08 12 08 1"), (10, 6));
        assert_eq!(body("AF N5 AB CD 08 12 04 1"), (10, 6));
        assert_eq!(body("AF N5 AB CD 08 1 08 1"), (9, 5));
        assert_eq!(body("AF N5 AB C 04 1"), (9, 3));
        assert_eq!(body("AF N5 AB CD 04 1"), (10, 4));
        assert_eq!(body("AF N5 AB CD 08 12 09 12 08 12"), (10, 8));
        let all = "AF N5 AB CD 02 N6 03 C172 05 120 06 AB 07 D0816 08 050 09 060";
        assert_eq!(body(&format!("{all} 02 N6")), (10, 18));
        for number in [
            "00", "01", "04", "11", "8", "008", "0", "2", "A0", "0A", "~", "099",
        ] {
            assert_eq!(
                body(&format!("AF N5 AB CD {number} 120")),
                (10, 4),
                "{number}"
            );
        }
    }

    /// docs/DECISIONS.md: the E rule takes a position with its ranges, and the fault is the time's.
    #[test]
    fn e_rule() {
        for message_type in ["FZ", "UZ"] {
            let filed = |fix: &str, time: &str, level: &str| {
                body(&format!(
                    "{message_type} N5 C172 120 {fix} {time} {level} AB..CD"
                ))
            };
            assert_eq!(filed("3015N/08430W", "E0816", "050"), (0, 0));
            assert_eq!(filed("ABC", "E0816", "050"), (9, 5));
            assert_eq!(filed("9001N/00000E", "E0816", "050"), (9, 5));
            assert_eq!(filed("8960N/00000E", "E0816", "050"), (9, 5));
            for time in ["D0816", "P0816"] {
                assert_eq!(filed("ABC", time, "050"), (0, 0));
                assert_eq!(filed("9001N/00000E", time, "050"), (0, 0));
                assert_eq!(filed("8960N/00000E", time, "050"), (0, 0));
                assert_eq!(filed("3015N/08430W", time, "050"), (0, 0));
            }
            // A fix without a reading is found first, the time's own form next, the level last.
            assert_eq!(filed("ABCDEFGHIJKL", "E0816", "050"), (9, 4));
            assert_eq!(filed("ABC", "E2400", "050"), (9, 5));
            assert_eq!(filed("3015N/08430W", "E2400", "5"), (9, 5));
            assert_eq!(filed("ABC", "E0816", "5"), (9, 5));
            assert_eq!(filed("3015N/08430W", "E0816", "5"), (9, 6));
        }
        // docs/DECISIONS.md: not in AF; and not in DZ, which has no fix.
        assert_eq!(body("AF N5 AB CD 06 SJC 07 E1200"), (0, 0));
        assert_eq!(body("DZ N5 C172 AB E0816 CD 0930"), (0, 0));
    }

    #[test]
    fn level_requested_or_assigned() {
        let requested = |text: &str| read(text.as_bytes()).unwrap().body.level_is_requested();
        assert_eq!(
            requested("000106081500KZAAFZ N5 C172 120 AB P0816 050 AB"),
            Some(true)
        );
        assert_eq!(
            requested("000106081500KZAAFZ N5 C172 120 AB D0816 050 AB"),
            Some(false)
        );
        assert_eq!(
            requested("000106081500KZAAUZ N5 C172 120 3015N/08430W E0816 050 AB"),
            Some(false)
        );
        assert_eq!(requested("000106081500KZAARZ N5 AB CD"), None);
    }

    /// docs/DECISIONS.md to 9, 14 to 16.
    #[test]
    fn other_readings_of_the_fields() {
        assert_eq!(body("DZ N5 C172 AB P0816 CD 0930"), (0, 0));
        assert_eq!(body("DZ N5 C172 AB D0816 CD 2400"), (9, 6));
        assert_eq!(body("DZ N5 C172 AB D0816 CD 0960"), (9, 6));
        assert_eq!(body("DZ N5 C172 AB D0816 CD A0930"), (9, 6));
        assert_eq!(body("AZ N5 AB CD A0930"), (0, 0));
        assert_eq!(body("AZ N5 AB CD E0930"), (0, 0));
        assert_eq!(body("AZ N5 AB CD D0930"), (9, 4));
        for ident in ["N5", "N5/123"] {
            assert_eq!(body(&format!("AZ {ident} AB CD 0930")), (0, 0));
            assert_eq!(body(&format!("DZ {ident} C172 AB D0816 CD 0930")), (0, 0));
            assert_eq!(body(&format!("RZ {ident} AB CD")), (0, 0));
            assert_eq!(
                body(&format!("FZ {ident} C172 120 AB D0816 050 AB")),
                (0, 0)
            );
            assert_eq!(
                body(&format!("UZ {ident} C172 120 AB D0816 050 AB")),
                (0, 0)
            );
            assert_eq!(body(&format!("AF {ident} AB CD 02 {ident}")), (0, 0));
        }
        assert_eq!(body("TZ N5 310 240 3015N/08430W"), (9, 1));
        assert_eq!(body("TZ JAL85/FFF 145 028 4720N/11922W"), (9, 1));
        assert_eq!(body("FZ N5 C172 120 ABCDEFGHIJKL D0816 050 AB"), (9, 4));
        assert_eq!(body("FZ N5 C172 120 AB/C.D D0816 050 AB"), (9, 4));
        for plan in ["FZ", "UZ"] {
            let level = |level: &str| body(&format!("{plan} N5 C172 120 AB D0816 {level} AB"));
            assert_eq!(level("310B350"), (0, 0));
            assert_eq!(level("350B350"), (0, 0));
            assert_eq!(level("350B310"), (9, 6));
        }
        assert_eq!(body("TZ N5/123 310 110B130 3015N/08430W"), (9, 3));
        assert_eq!(body("TZ N5/123 310 OTP/110 3015N/08430W"), (9, 3));
        assert_eq!(body("TZ N5/123 310 24 3015N/08430W"), (9, 3));
        assert_eq!(body("FZ N5 7172 9999 AB D0816 999 AB"), (0, 0));
        assert_eq!(body("FZ N5 C172 M999 AB D0816 999 AB"), (0, 0));
        // A level is no speed and a filed speed no ground speed.
        assert_eq!(body("TZ N5/123 0310 240 3015N/08430W"), (9, 2));
        assert_eq!(body("TZ N5/123 M85 240 3015N/08430W"), (9, 2));
    }

    /// "RT, TO and HB bodies are kept whole and may be empty."
    #[test]
    fn kept_bodies() {
        for message_type in ["RT", "TO", "HB"] {
            for kept in ["", " ", "  ", "X", " X", "  a  b~ "] {
                let line = format!("000106081500KZAA{message_type}{kept}");
                let message = read(line.as_bytes()).unwrap();
                assert_eq!(message.body.message_type.text(), message_type);
                assert_eq!(message.body.kept_body, kept.as_bytes());
                assert!(message.body.fields.is_empty() && !message.body.space_at_end);
            }
        }
    }

    /// Bodies and routes are parts of the caller's line, at their own place in it.
    #[test]
    fn no_copies() {
        let line = b"000106081500KZAART kept".to_vec();
        assert_eq!(
            read(&line).unwrap().body.kept_body.as_ptr(),
            line[18..].as_ptr()
        );
        let line = b"000106081500KZAAUZ N5 C172 120 AB D0816 050 AB..CD".to_vec();
        let message = read(&line).unwrap();
        assert_eq!(message.body.fields[6], b"AB..CD");
        assert_eq!(
            message.body.fields[6].as_ptr(),
            line[line.len() - 6..].as_ptr()
        );
    }

    /// Sample lines of 003, one of each kind of field.
    #[test]
    fn samples() {
        let message = read(
            b"000006143655KZMAFZ N811BC/043 SW2/A 0270 MYNN P1445 210 MYNN.A555.GTK..MDSD/0230",
        )
        .unwrap();
        assert_eq!(message.sequence, b"0000");
        assert_eq!(
            message.stamp,
            Stamp {
                day: 6,
                hour: 14,
                minute: 36,
                second: 55
            }
        );
        assert_eq!(message.facility, b"KZMA");
        assert_eq!(message.body.message_type, Type::FZ);
        assert_eq!(
            texts(&message),
            [
                "N811BC/043",
                "SW2/A",
                "0270",
                "MYNN",
                "P1445",
                "210",
                "MYNN.A555.GTK..MDSD/0230"
            ]
        );
        assert_eq!(message.body.key(), Some(&b"N811BC"[..]));
        for line in [
            "000106143655KZMADZ N733QE/143 C172/A OPF D1437 TMB 1457",
            "000206143655KZMAFZ USA995/313 T/B73S/F 0440 PBI P1640 330 PBI..TBIRD..ORL.J53.CRG.J51.SAV..FLO.CTF8.CLT/0127",
            "000306143655KZMATZ AAL508/118 463 350 2012N/06849W",
            "002006143656KZHUAF N22T FTW T18 06 3139N/09717W 07 E1437 10 FTW./.3139N/09717W..ALI..T18/1523",
            "002306143648LLONTZ EIN523/000 426 350 5108N/00101E",
            "004C06143653KZMPAZ N64943 UES 3WO 1441",
            "004F06143653KZIDAF N682B PKB FAY 08 230",
            "005106143653KZMEUZ N872AT T/BA10/R 0440 3424N/08700W E1437 390 AHN./.DEHAN..SPS.J72.TXO..CNX..ZUN.FERER3.SDL/1749",
            "005606143657KZFWTZ N4065D/590 259 070T 3318N/09736W",
        ] {
            assert_eq!(answer(line.as_bytes()), (0, 0), "{line}");
        }
    }
}
