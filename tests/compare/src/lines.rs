//! Lines by chance, of the new and of the old feed: of every type, with every optional part, right or
//! with some fields wrong; and long ones, at and around the limits of a line and of an FZ.

use crate::chance::Chance;
use crate::fields::{self, one_text, Form};
use reference::rule::Rule;

/// Every type, the seven of the old feed first.
pub const TYPES: [&[u8]; 10] = [
    b"AF", b"AZ", b"DZ", b"FZ", b"RZ", b"TZ", b"UZ", b"RT", b"TO", b"HB",
];

/// The types of a feed's lines.
pub fn types(rule: Rule) -> &'static [&'static [u8]] {
    match rule {
        Rule::New => &TYPES,
        Rule::Old => &TYPES[..7],
    }
}

/// In how many of a hundred a part of the line's front, a field, and the spacing is wrong.
#[derive(Clone, Copy)]
pub struct Wrongs {
    pub front: usize,
    pub field: usize,
    pub spacing: usize,
}

pub const NO_WRONGS: Wrongs = Wrongs {
    front: 0,
    field: 0,
    spacing: 0,
};

const WRONG_SEQUENCES: &str = "000G|000a| 001|00/0|00:0|00@0|G000|000 ";

const WRONG_STAMPS: &str = "\
    00081500|32081500|06240000|06236000|06235960|31246060|0608150A| 6081500|06/81500|\
    06081:00|99999999|01000060|31235999|0608150 ";

const WRONG_FACILITIES: &str = "    |KZA |K ZA| K A|kZAA|KZA.|K   |KZ@A|KZ[A|/KZA|:KZA| KZ ";

const WRONG_OLD_STAMPS: &str = "\
    240000|236000|235960|246060|14365A|A43655| 43655|14365 |1/3655|143:55|999999|000060|235999|\
    00FF00|290000|006000";

const WRONG_CENTERS: &str = "0|1|5|8|9|a|d|f|g|n|x|z|<|>|^|@|[|`|{|/|:| |~";

const WRONG_TYPES: &str = "HX|ZA|hb|A |  |ZZ|FA|TT|RO|HZ|AT|Tz|OT|BH|UF|DF|RF|AO|TB";

/// The numbers of amendments, and the forms of their contents.
const AMENDMENTS: [(&[u8], Form); 8] = [
    (b"02", Form::Ident),
    (b"03", Form::Aircraft),
    (b"05", Form::FiledSpeed),
    (b"06", Form::Fix),
    (b"07", Form::Time),
    (b"08", Form::Level),
    (b"09", Form::Level),
    (b"10", Form::Route),
];

const WRONG_NUMBERS: &str = "00|01|04|11|12|20|2|8|008|1O|0A|A0|~|099";

/// The fields in order, of AF those before the amendments; none for a body that is kept whole.
fn forms(message_type: &[u8]) -> &'static [Form] {
    use Form::*;
    match message_type {
        b"AZ" => &[Ident, Point, Point, ArrivalClock],
        b"DZ" => &[Ident, Aircraft, Point, Time, Point, Clock],
        b"RZ" | b"AF" => &[Ident, Point, Point],
        b"TZ" => &[TrackIdent, GroundSpeed, TrackLevel, Position],
        b"FZ" | b"UZ" => &[Ident, Aircraft, FiledSpeed, Fix, Time, Level, Route],
        _ => &[],
    }
}

/// The form of a field in a feed's lines.
fn under(rule: Rule, form: Form) -> Form {
    match (rule, form) {
        (Rule::Old, Form::Aircraft) => Form::BareAircraft,
        (Rule::Old, Form::ArrivalClock) => Form::BareClock,
        _ => form,
    }
}

/// A line of this feed, type and flight. (One of the old feed is wrong by a type that it has not.)
pub fn line(
    chance: &mut Chance,
    rule: Rule,
    message_type: &[u8],
    flight: &[u8],
    wrongs: Wrongs,
) -> Vec<u8> {
    let mut line = Vec::with_capacity(128);
    put_front(&mut line, chance, rule, message_type, wrongs);
    if forms(message_type).is_empty() {
        put_kept_body(&mut line, chance);
        return line;
    }
    put_fields(&mut line, chance, rule, message_type, flight, wrongs);
    if message_type == b"AF" {
        put_amendments(&mut line, chance, rule, flight, wrongs);
    }
    if chance.in_hundred(20) {
        line.push(b' ');
    }
    if chance.in_hundred(wrongs.spacing) {
        wrong_spacing(&mut line, chance, rule.front() + message_type.len());
    }
    line
}

/// Puts a right part of the front.
type Put = fn(&mut Vec<u8>, &mut Chance);

fn put_front(
    line: &mut Vec<u8>,
    chance: &mut Chance,
    rule: Rule,
    message_type: &[u8],
    wrongs: Wrongs,
) {
    let parts: &[(Put, &'static str)] = match rule {
        Rule::New => &[
            (fields::put_sequence, WRONG_SEQUENCES),
            (fields::put_stamp, WRONG_STAMPS),
            (fields::put_facility, WRONG_FACILITIES),
        ],
        Rule::Old => &[
            (fields::put_old_stamp, WRONG_OLD_STAMPS),
            (fields::put_center, WRONG_CENTERS),
        ],
    };
    for (put, wrong) in parts {
        if chance.in_hundred(wrongs.front) {
            line.extend_from_slice(one_text(chance, wrong));
        } else {
            put(line, chance);
        }
    }
    if chance.in_hundred(wrongs.front) {
        line.extend_from_slice(one_text(chance, WRONG_TYPES));
    } else {
        line.extend_from_slice(message_type);
    }
}

/// Anything from 32 to 126, often nothing.
fn put_kept_body(line: &mut Vec<u8>, chance: &mut Chance) {
    for _ in 0..chance.near_ends(0, 40) {
        line.push(chance.between(32, 126) as u8);
    }
}

fn put_fields(
    line: &mut Vec<u8>,
    chance: &mut Chance,
    rule: Rule,
    message_type: &[u8],
    flight: &[u8],
    wrongs: Wrongs,
) {
    let is_plan = message_type == b"FZ" || message_type == b"UZ";
    // The E rule: with an E the fix is a position, save where it is to be wrong.
    let has_e = chance.in_hundred(33);
    let keeps_rule = !chance.in_hundred(wrongs.field);
    for form in forms(message_type) {
        let wrong = chance.in_hundred(wrongs.field);
        line.push(b' ');
        let from = line.len();
        let form = match form {
            Form::Fix if has_e && keeps_rule => Form::Position,
            Form::Fix if chance.in_hundred(20) => Form::NoPosition,
            other => under(rule, *other),
        };
        fields::put(line, chance, form, flight, wrong);
        if is_plan && form == Form::Time && !wrong {
            line[from] = if has_e { b'E' } else { chance.one_of(b"DP") };
        }
    }
}

/// One to eight amendments in any order; where it is to be wrong, a number that comes twice or
/// that is none, or one field too few or too many.
fn put_amendments(
    line: &mut Vec<u8>,
    chance: &mut Chance,
    rule: Rule,
    flight: &[u8],
    wrongs: Wrongs,
) {
    let mut left = AMENDMENTS.to_vec();
    let mut count = chance.near_ends(1, 8);
    if chance.in_hundred(wrongs.spacing) {
        count = chance.one_of(&[0, 9, 10]);
    }
    for turn in 0..count {
        let twice = left.is_empty() || (turn > 0 && chance.in_hundred(wrongs.field / 2));
        let (number, form) = if twice {
            chance.one_of(&AMENDMENTS)
        } else {
            left.remove(chance.below(left.len()))
        };
        line.push(b' ');
        if chance.in_hundred(wrongs.field / 2) {
            line.extend_from_slice(one_text(chance, WRONG_NUMBERS));
        } else {
            line.extend_from_slice(number);
        }
        if turn + 1 == count && chance.in_hundred(wrongs.spacing) {
            return;
        }
        line.push(b' ');
        // Another flight's ident, or this one's.
        let other = if chance.in_hundred(50) {
            fields::key(chance)
        } else {
            flight.to_vec()
        };
        let wrong = chance.in_hundred(wrongs.field / 2);
        fields::put(line, chance, under(rule, form), &other, wrong);
    }
}

/// A space too many or too few; the body is from this place on.
fn wrong_spacing(line: &mut Vec<u8>, chance: &mut Chance, body: usize) {
    match chance.below(5) {
        0 => line.extend_from_slice(b"  "),
        1 => line.insert(body, b' '),
        2 => {
            line.remove(body);
        }
        3 => line.truncate(body + chance.below(3)),
        _ => {
            let spaces: Vec<usize> = (body..line.len()).filter(|&at| line[at] == b' ').collect();
            if spaces.is_empty() {
                return;
            }
            let place = chance.one_of(&spaces);
            if chance.in_hundred(50) {
                line.insert(place, b' ');
            } else {
                line.remove(place);
            }
        }
    }
}

/// A right line but for its length: filled up, or cut, to one at or around a limit.
pub fn long_line(chance: &mut Chance, rule: Rule, flight: &[u8]) -> Vec<u8> {
    if chance.in_hundred(15) {
        return overlong_before_right(chance, rule, flight);
    }
    // Types that can be filled up, one that reads up to the longest line, and one for the shortest.
    let (wide, widest, short): (&[&[u8]], &[u8], &[u8]) = match rule {
        Rule::New => (&[b"RT", b"TO", b"HB", b"UZ", b"AF", b"FZ"], b"RT", b"HB"),
        Rule::Old => (&[b"UZ", b"UZ", b"AF", b"FZ"], b"UZ", b"RZ"),
    };
    let (message_type, width): (&[u8], usize) = match chance.below(10) {
        // From the type on, so the front's bytes more in all.
        0..=3 => (b"FZ", rule.front() + chance.between(437, 441)),
        4 => (b"UZ", rule.front() + chance.between(437, 441)),
        5 => (short, rule.least_line() - 1 + chance.below(3)),
        6 | 7 => (chance.one_of(wide), chance.between(2046, 2050)),
        8 => (
            chance.one_of(&[widest, b"UZ", b"AF"]),
            chance.between(450, 2046),
        ),
        _ => (chance.one_of(&[widest, b"UZ"]), chance.between(2051, 9000)),
    };
    let mut line = Vec::with_capacity(width);
    put_front(&mut line, chance, rule, message_type, NO_WRONGS);
    match message_type {
        b"AF" => {
            put_fields(&mut line, chance, rule, message_type, flight, NO_WRONGS);
            line.extend_from_slice(b" 08 050 10 ");
        }
        b"FZ" | b"UZ" => {
            put_fields(&mut line, chance, rule, message_type, flight, NO_WRONGS);
            // 11 comes before 8, whatever the body is.
            if chance.in_hundred(10) {
                line.push(b' ');
            }
        }
        _ => {}
    }
    fill(&mut line, chance, width);
    if chance.in_hundred(30) {
        line[width - 1] = b' ';
    }
    line
}

/// A line that is overlong just before what would be a right line by itself: a cutter that
/// forgets the begun line between two parts would take it for one.
fn overlong_before_right(chance: &mut Chance, rule: Rule, flight: &[u8]) -> Vec<u8> {
    let width = chance.between(2046, 2051);
    let (wide, rights): (&[u8], [&[u8]; 3]) = match rule {
        Rule::New => (b"RT", [b"TZ", b"AZ", b"HB"]),
        Rule::Old => (b"UZ", [b"TZ", b"AZ", b"RZ"]),
    };
    let mut begun = line(chance, rule, wide, flight, NO_WRONGS);
    fill(&mut begun, chance, width);
    let message_type = chance.one_of(&rights);
    begun.extend(line(chance, rule, message_type, flight, NO_WRONGS));
    begun
}

/// Fills a line up to so many bytes, or cuts it.
pub fn fill(line: &mut Vec<u8>, chance: &mut Chance, width: usize) {
    let missing = width.saturating_sub(line.len());
    fields::put_route(line, chance, missing);
    line.truncate(width);
}
