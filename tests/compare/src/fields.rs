//! Fields by chance: of each form of document 01 texts that read, their limits often, and
//! texts that just miss.

use crate::chance::Chance;

/// The forms of the fields.
#[derive(Clone, Copy, Debug, PartialEq, Eq)]
pub enum Form {
    Ident,
    TrackIdent,
    Aircraft,
    /// An aircraft of the old feed, which has no last letter.
    BareAircraft,
    FiledSpeed,
    GroundSpeed,
    Point,
    Fix,
    Position,
    /// What looks like a position and is beyond its ranges: a fix all the same.
    NoPosition,
    Time,
    ArrivalClock,
    /// An arrival clock of the old feed, which has no prefix.
    BareClock,
    Clock,
    Level,
    TrackLevel,
    Route,
}

const DIGITS: &[u8] = b"0123456789";
const LETTERS: &[u8] = b"ABCDEFGHIJKLMNOPQRSTUVWXYZ";
const ALNUMS: &[u8] = b"0123456789ABCDEFGHIJKLMNOPQRSTUVWXYZ";
/// The neighbours of digits and capitals, and what parts fields and their parts.
const STRANGERS: &[u8] = b"/:@[`az{.-+ ~!";

// ---- texts that read ----

fn put_run(text: &mut Vec<u8>, chance: &mut Chance, of: &[u8], least: usize, most: usize) {
    for _ in 0..chance.near_ends(least, most) {
        text.push(chance.one_of(of));
    }
}

/// A number in so many digits.
fn put_number(text: &mut Vec<u8>, number: usize, width: usize) {
    text.extend_from_slice(format!("{number:0width$}").as_bytes());
}

/// A flight's key: a letter and one to six alnum.
pub fn key(chance: &mut Chance) -> Vec<u8> {
    let mut text = vec![chance.one_of(LETTERS)];
    put_run(&mut text, chance, ALNUMS, 1, 6);
    text
}

/// One number of 2 or 3 digits, or two that do not fall: often the same, or the next, in another width.
fn put_level(text: &mut Vec<u8>, chance: &mut Chance) {
    let width = chance.between(2, 3);
    let most = 10_usize.pow(width as u32) - 1;
    let number = chance.near_ends(0, most);
    put_number(text, number, width);
    if chance.in_hundred(40) {
        let above = chance.near_ends(number, 999);
        let second = chance.one_of(&[number, (number + 1).min(999), above]);
        let width = if second > 99 { 3 } else { chance.between(2, 3) };
        text.push(b'B');
        put_number(text, second, width);
    }
}

/// Bytes 33 to 126, so many.
pub fn put_route(text: &mut Vec<u8>, chance: &mut Chance, width: usize) {
    for _ in 0..width {
        text.push(chance.between(33, 126) as u8);
    }
}

/// Eight digits DDHHMMSS, in range, the limits often.
pub fn put_stamp(text: &mut Vec<u8>, chance: &mut Chance) {
    put_number(text, chance.near_ends(1, 31), 2);
    put_number(text, chance.near_ends(0, 23), 2);
    put_number(text, chance.near_ends(0, 59), 2);
    put_number(text, chance.near_ends(0, 59), 2);
}

/// Zero to three spaces, then one to four capitals or digits.
pub fn put_facility(text: &mut Vec<u8>, chance: &mut Chance) {
    let spaces = chance.one_of(&[0, 0, 0, 1, 2, 3]);
    text.extend_from_slice(&b"   "[..spaces]);
    put_run(text, chance, ALNUMS, 4 - spaces, 4 - spaces);
}

/// Six digits HHMMSS, in range, the limits often.
pub fn put_old_stamp(text: &mut Vec<u8>, chance: &mut Chance) {
    put_number(text, chance.near_ends(0, 23), 2);
    put_number(text, chance.near_ends(0, 59), 2);
    put_number(text, chance.near_ends(0, 59), 2);
}

/// One capital.
pub fn put_center(text: &mut Vec<u8>, chance: &mut Chance) {
    text.push(chance.one_of(LETTERS));
}

/// Four characters 0-9 or A-F.
pub fn put_sequence(text: &mut Vec<u8>, chance: &mut Chance) {
    put_run(text, chance, b"0123456789ABCDEF", 4, 4);
}

fn put_clock(text: &mut Vec<u8>, chance: &mut Chance) {
    put_number(text, chance.near_ends(0, 23), 2);
    put_number(text, chance.near_ends(0, 59), 2);
}

fn put_position(text: &mut Vec<u8>, chance: &mut Chance) {
    let degrees = chance.near_ends(0, 90);
    let minutes = if degrees == 90 {
        0
    } else {
        chance.near_ends(0, 59)
    };
    put_number(text, degrees * 100 + minutes, 4);
    text.push(chance.one_of(b"NS"));
    text.push(b'/');
    let degrees = chance.near_ends(0, 180);
    let minutes = if degrees == 180 {
        0
    } else {
        chance.near_ends(0, 59)
    };
    put_number(text, degrees * 100 + minutes, 5);
    text.push(chance.one_of(b"EW"));
}

/// A text of this form that reads. The flight is the ident's.
fn put_right(text: &mut Vec<u8>, chance: &mut Chance, form: Form, flight: &[u8]) {
    match form {
        Form::Ident | Form::TrackIdent => {
            text.extend_from_slice(flight);
            if form == Form::TrackIdent || chance.in_hundred(50) {
                text.push(b'/');
                put_run(text, chance, DIGITS, 2, 2);
                text.push(chance.one_of(ALNUMS));
            }
        }
        Form::Aircraft | Form::BareAircraft => {
            match chance.below(4) {
                0 => text.extend_from_slice(&[chance.one_of(ALNUMS), b'/']),
                1 => text.extend_from_slice(&[chance.one_of(DIGITS), chance.one_of(ALNUMS), b'/']),
                _ => {}
            }
            put_run(text, chance, ALNUMS, 2, 4);
            if form == Form::Aircraft && chance.in_hundred(50) {
                text.extend_from_slice(&[b'/', chance.one_of(LETTERS)]);
            }
        }
        Form::FiledSpeed => match chance.below(6) {
            0 => text.extend_from_slice(b"SC"),
            1 | 2 => {
                text.push(chance.one_of(LETTERS));
                put_run(text, chance, DIGITS, 3, 3);
            }
            _ => put_run(text, chance, DIGITS, 2, 4),
        },
        Form::GroundSpeed => put_run(text, chance, DIGITS, 3, 3),
        Form::Point => put_run(text, chance, ALNUMS, 2, 12),
        Form::Fix => match chance.below(5) {
            0 => put_position(text, chance),
            1 | 2 => {
                put_run(text, chance, ALNUMS, 2, 5);
                text.push(b'/');
                put_run(text, chance, ALNUMS, 1, 6);
            }
            _ => put_run(text, chance, ALNUMS, 2, 11),
        },
        Form::Position => put_position(text, chance),
        Form::NoPosition => text.extend_from_slice(one_text(chance, BEYOND)),
        Form::Time => {
            text.push(chance.one_of(b"DEP"));
            put_clock(text, chance);
        }
        Form::ArrivalClock => {
            match chance.below(3) {
                0 => text.push(b'A'),
                1 => text.push(b'E'),
                _ => {}
            }
            put_clock(text, chance);
        }
        Form::Clock | Form::BareClock => put_clock(text, chance),
        Form::Level => put_level(text, chance),
        Form::TrackLevel => {
            put_run(text, chance, DIGITS, 3, 3);
            if chance.in_hundred(50) {
                text.push(chance.one_of(LETTERS));
            }
        }
        Form::Route => {
            let width = chance.near_ends(1, 60);
            put_route(text, chance, width);
        }
    }
}

// ---- texts that just miss ----

/// One of several texts that are parted by bars.
pub fn one_text(chance: &mut Chance, texts: &'static str) -> &'static [u8] {
    let all: Vec<&str> = texts.split('|').collect();
    chance.one_of(&all).as_bytes()
}

/// Of the form of a position, and beyond its ranges.
const BEYOND: &str = "\
    9001N/00000E|9001S/18000W|8960N/00000E|0060S/00000W|9100N/00000E|9000N/18001W|\
    9000S/18001E|0000N/17960E|0000N/00060W|0000S/18100E|0000N/19000W|9999N/99999W";

/// Texts that just miss, parted by bars.
fn near_misses(form: Form) -> &'static str {
    match form {
        Form::Ident => {
            "N|1AB|ABCDEFGH|N5/|N5/12|N5/1234|N5/1A1|N5/A12|N5/FFF|/123|N5//12|N5/12/|\
             N5/123/4|n5|N5/12z|N/123|ABCDEFGH/123|5/123"
        }
        Form::TrackIdent => {
            "N5|ABCDEFG|N5/|N5/12|N5/1234|N5/A12|N5/1A2|N/123|ABCDEFGH/123|JAL85/FFF|\
             5N/123|N5/12/|N5-123"
        }
        Form::Aircraft | Form::BareAircraft => {
            "AB/CD|A|ABCDE|T/A|T/ABCDE|AB/C172/A|1A/AB/1|/C172|C172/|T//A|C172/AB|C172/1|\
             T/C172/A/B|1A2/AB|A1/B73S|A/B/C|12/A/B|T/C172/|1/2|//|/|12/1"
        }
        Form::FiledSpeed => "1|12345|M08|M0850|MM85|SD|SC1|CS|S|0M85|85M0|sc|m085|CC|SS",
        Form::GroundSpeed => "31|3100|31A|M85|SC|A31|3|M085",
        Form::Point => "A|ABCDEFGHIJKLM|AB/C|aB|AB.|-",
        Form::Fix | Form::NoPosition => {
            "A|ABCDEFGHIJKL|A/B|ABCDEF/A|AB/|AB/ABCDEFG|AB/C.D|/AB|AB/C/D|AB//C|\
             3015N/08430W1|03015N/08430W"
        }
        Form::Time => {
            "0816|A0816|D2360|D2400|E2400|P2360|D816|D08160|DD816|d0816|D|P0060|D9999|\
             E0A00"
        }
        Form::ArrivalClock => {
            "2360|2400|A2360|A2400|E2400|D0816|P0816|A|AA816|AA0816|0816A|816|08160|0060|\
             9999"
        }
        Form::Clock | Form::BareClock => "2360|2400|A0930|E0930|D0930|0960|093|09300|2359A|9959",
        Form::Level => {
            "5|1234|B|05B|B05|05B5|5B05|05B1234|1234B05|05B06B07|350T|05b06|05A06|05BB06|\
             OTP|350B31B|35B310B|350B310|100B99|36B35|36B035|036B35|351B350|01B00|01B000|\
             001B00|100B099|999B998"
        }
        Form::TrackLevel => "24|2400|24C|240CC|C240|110B130|OTP/110|240c|240/|240@|240[|24B24|2",
        Form::Position => {
            "3015N08430W|3015N/8430W|3015/08430|3015N/084300W|3015E/08430W|3015N/08430N|\
             3015W/08430N|3015n/08430w|3015N:08430W|30A5N/08430W|3015N/0843AW|08430W/3015N"
        }
        Form::Route => " |AB CD",
    }
}

/// Changes a text a little: a byte less, a byte more, another byte.
fn spoil(text: &mut Vec<u8>, from: usize, chance: &mut Chance) {
    let place = chance.between(from, text.len() - 1);
    match chance.below(6) {
        0 => {
            text.pop();
        }
        1 => {
            text.remove(place);
        }
        2 => text.insert(place, chance.one_of(ALNUMS)),
        3 => text.push(chance.one_of(ALNUMS)),
        4 => text[place] = chance.one_of(STRANGERS),
        _ => text[place] = chance.one_of(ALNUMS),
    }
}

/// Puts a field of this form: one that reads, or where it is to be wrong one that just misses
/// (a few of these read all the same).
pub fn put(text: &mut Vec<u8>, chance: &mut Chance, form: Form, flight: &[u8], wrong: bool) {
    let from = text.len();
    if !wrong {
        put_right(text, chance, form, flight);
    } else if form == Form::Position && chance.in_hundred(40) {
        text.extend_from_slice(one_text(chance, BEYOND));
    } else if form == Form::BareAircraft && chance.in_hundred(50) {
        // What the new feed alone has: a last letter, a prefix.
        put_right(text, chance, form, flight);
        text.extend_from_slice(&[b'/', chance.one_of(LETTERS)]);
    } else if form == Form::BareClock && chance.in_hundred(50) {
        text.push(chance.one_of(b"AE"));
        put_right(text, chance, form, flight);
    } else if chance.in_hundred(50) {
        text.extend_from_slice(one_text(chance, near_misses(form)));
    } else {
        put_right(text, chance, form, flight);
        spoil(text, from, chance);
    }
}
