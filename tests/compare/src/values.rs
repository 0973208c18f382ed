//! Values for the writer by chance, of the new and of the old feed: those of a right line, most often
//! with one thing wrong, and any.

use crate::boards::{near, stamp};
use crate::chance::Chance;
use crate::fields::{self, one_text, Form};
use crate::lines::{line, long_line, types, NO_WRONGS};
use reference::line::{read, read_old, Type, MOST_FZ, MOST_LINE};
use reference::rule::Rule;
use reference::text::{number, text};
use reference::values::{self, Amended, BodyValues, OldValues, Value, Values};

/// Stamps of the old feed that just miss and are short texts all the same.
const WRONG_OLD_STAMPS: &str = "\
    240000|236000|235960|14365|1436555|06143655|14365A|A43655|14/655|999999|290000";

/// The numbers of the amendments.
const NUMBERS: [u8; 8] = [2, 3, 5, 6, 7, 8, 9, 10];

const FORMS: [Form; 13] = [
    Form::Ident,
    Form::TrackIdent,
    Form::Aircraft,
    Form::FiledSpeed,
    Form::GroundSpeed,
    Form::Point,
    Form::Fix,
    Form::Position,
    Form::NoPosition,
    Form::Time,
    Form::ArrivalClock,
    Form::Level,
    Form::TrackLevel,
];

/// Values and a free text: right, or with one thing or two wrong, or any at all.
pub fn values(chance: &mut Chance) -> (Values, Vec<u8>) {
    let (mut values, mut free) = right(chance);
    match chance.below(20) {
        0 => {
            for number in numbers(&mut values) {
                *number = any_word(chance);
            }
            values.facility = chance.draw();
        }
        1..=11 => {
            for _ in 0..chance.one_of(&[1, 1, 1, 1, 2]) {
                damage(&mut values, &mut free, chance);
            }
        }
        _ => {}
    }
    (values, free)
}

/// Values of the old feed and a free text, in the same way.
pub fn old_values(chance: &mut Chance) -> (OldValues, Vec<u8>) {
    let (mut values, mut free) = right_old(chance);
    match chance.below(20) {
        0 => {
            for number in old_numbers(&mut values) {
                *number = any_word(chance);
            }
            values.center = chance.draw() as u32;
        }
        1..=11 => {
            for _ in 0..chance.one_of(&[1, 1, 1, 1, 2]) {
                damage_old(&mut values, &mut free, chance);
            }
        }
        _ => {}
    }
    (values, free)
}

/// The values of a line that reads.
fn right(chance: &mut Chance) -> (Values, Vec<u8>) {
    let flight = fields::key(chance);
    loop {
        let line = drawn(chance, Rule::New, &flight);
        if let Ok(message) = read(&line) {
            return (Values::of(&message), values::free(&message.body));
        }
    }
}

/// The values of a line of the old feed that reads.
fn right_old(chance: &mut Chance) -> (OldValues, Vec<u8>) {
    let flight = fields::key(chance);
    loop {
        let line = drawn(chance, Rule::Old, &flight);
        if let Ok(message) = read_old(&line) {
            return (OldValues::of(&message), values::free(&message.body));
        }
    }
}

/// A line that is right, but for its length now and then.
fn drawn(chance: &mut Chance, rule: Rule, flight: &[u8]) -> Vec<u8> {
    if chance.in_hundred(10) {
        return long_line(chance, rule, flight);
    }
    // AF more often than the others: it has the most that can be wrong.
    let other = chance.one_of(types(rule));
    let message_type = chance.one_of(&[b"AF", other, other]);
    line(chance, rule, message_type, flight, NO_WRONGS)
}

/// Every number of the values but the facility's.
fn numbers(values: &mut Values) -> Vec<&mut u64> {
    let mut all = vec![&mut values.sequence, &mut values.stamp];
    all.extend(body_numbers(&mut values.body));
    all
}

/// Every number of the values but the center's.
fn old_numbers(values: &mut OldValues) -> Vec<&mut u64> {
    let mut all = vec![&mut values.stamp];
    all.extend(body_numbers(&mut values.body));
    all
}

fn body_numbers(body: &mut BodyValues) -> Vec<&mut u64> {
    let mut all = Vec::new();
    for value in contents(body) {
        match value {
            Value::Text(word) => all.push(word),
            Value::Ident(key, number) => all.extend([key, number]),
            Value::Aircraft(prefix, aircraft_type, letter) => {
                all.extend([prefix, aircraft_type, letter]);
            }
            Value::Route => {}
        }
    }
    all
}

/// The fields, and the contents of the amendments.
fn contents(body: &mut BodyValues) -> impl Iterator<Item = &mut Value> {
    let slots = body.amendments.iter_mut().flatten();
    let contents = slots.map(|amended| &mut amended.content);
    body.fields.iter_mut().chain(contents)
}

/// The number of a text of any form, right or not; or any number.
fn any_word(chance: &mut Chance) -> u64 {
    if chance.in_hundred(10) {
        return chance.one_of(&[0, 1, u64::MAX]);
    }
    let form = chance.one_of(&FORMS);
    let wrong = chance.in_hundred(50);
    let mut text = Vec::new();
    fields::put(&mut text, chance, form, b"N5", wrong);
    number(&text).unwrap_or_else(|| chance.draw())
}

/// Damages values and free text once. (Now and then they are right all the same.)
fn damage(values: &mut Values, free: &mut Vec<u8>, chance: &mut Chance) {
    match chance.below(20) {
        0..=5 => damage_number(numbers(values), chance),
        6 => {
            let byte = chance.one_of(b" \n0AZa@[/:\0\xff");
            let shift = 8 * chance.below(5);
            values.facility &= !(0xff << shift);
            values.facility |= u64::from(byte) << shift;
        }
        7 => values.stamp = stamp(chance, true),
        8 | 9 => {
            let line = values::write(values, free).ok();
            damage_free(Rule::New, &values.body, line, free, chance);
        }
        _ => {
            if !damage_body(&mut values.body, chance) {
                damage_number(numbers(values), chance);
            }
        }
    }
}

/// Damages values of the old feed and free text once, in the same way, or gives them what the new feed
/// alone has.
fn damage_old(values: &mut OldValues, free: &mut Vec<u8>, chance: &mut Chance) {
    match chance.below(20) {
        0..=3 => damage_number(old_numbers(values), chance),
        4 | 5 => {
            let byte = u32::from(chance.one_of(b" \n0189AZadz@[`{<>^\0\xff"));
            let far = chance.one_of(&[256, 1 << 16, 1 << 24, 1 << 31]);
            values.center = match chance.below(4) {
                0 => values.center.wrapping_add(far),
                1 => (values.center).wrapping_mul(chance.one_of(&[0, 2, 256, 1 << 16, 1 << 24])),
                _ => byte,
            };
        }
        6 => {
            let stamp = number(one_text(chance, WRONG_OLD_STAMPS));
            values.stamp = stamp.unwrap_or_default();
        }
        7 | 8 => {
            let line = values::write_old(values, free).ok();
            damage_free(Rule::Old, &values.body, line, free, chance);
        }
        9 => {
            // A type that the old feed has not, with these fields or with none.
            values.body.message_type = chance.one_of(&[Type::RT, Type::TO, Type::HB]);
            if chance.in_hundred(70) {
                values.body.fields.clear();
                values.body.amendments = [None; 8];
                values.body.marks = 0;
                values.body.space_at_end = false;
            }
        }
        10..=12 => {
            if !put_new_alone(&mut values.body, chance) {
                damage_number(old_numbers(values), chance);
            }
        }
        _ => {
            if !damage_body(&mut values.body, chance) {
                damage_number(old_numbers(values), chance);
            }
        }
    }
}

/// A last letter of an aircraft, or a prefix of an AZ's clock. Whether there was one of these.
fn put_new_alone(body: &mut BodyValues, chance: &mut Chance) -> bool {
    let mut put = false;
    for value in contents(body) {
        if let Value::Aircraft(_, _, letter) = value {
            *letter = number(&[chance.one_of(b"AFMZ")]).unwrap_or_default();
            put = true;
        }
    }
    if let (Type::AZ, Some(Value::Text(clock))) = (body.message_type, body.fields.last_mut()) {
        let digits = text(*clock).unwrap_or_default();
        let prefixed = [&[chance.one_of(b"AE")], &digits[..]].concat();
        *clock = number(&prefixed).unwrap_or_default();
        put = true;
    }
    put
}

/// Damages what a message has from its type on. Whether it has what was to be damaged.
fn damage_body(body: &mut BodyValues, chance: &mut Chance) -> bool {
    match chance.below(10) {
        0 => body.space_at_end = !body.space_at_end,
        1 => {
            // Another type with fields of the same kinds.
            body.message_type = match body.message_type {
                Type::FZ => Type::UZ,
                Type::UZ => Type::FZ,
                Type::RT => Type::TO,
                Type::TO => Type::HB,
                Type::HB => Type::RT,
                other => other,
            };
        }
        2 => damage_parts(body, chance),
        3 => return damage_e_rule(body, chance),
        _ => return damage_amendments(body, chance),
    }
    true
}

/// Damages one of these numbers.
fn damage_number(mut all: Vec<&mut u64>, chance: &mut Chance) {
    let from = *all[chance.below(all.len())];
    let place = chance.below(all.len());
    *all[place] = match chance.below(4) {
        0 => from,
        1 => any_word(chance),
        _ => near(chance, *all[place]),
    };
}

/// An ident or an aircraft whose parts are put together otherwise, though the same text comes out.
fn damage_parts(body: &mut BodyValues, chance: &mut Chance) {
    let joined = |first: u64, second: u64| -> u64 {
        let texts = [first, second].map(|word| text(word).unwrap_or_default());
        number(&texts.join(&b'/')).unwrap_or(first)
    };
    for value in contents(body) {
        *value = match *value {
            Value::Ident(key, number) => match chance.below(3) {
                0 => Value::Ident(joined(key, number), 0),
                1 => Value::Ident(number, key),
                _ => Value::Ident(key, 0),
            },
            Value::Aircraft(prefix, aircraft_type, letter) => match chance.below(4) {
                0 => Value::Aircraft(0, joined(prefix, aircraft_type), letter),
                1 => Value::Aircraft(prefix, joined(aircraft_type, letter), 0),
                2 => Value::Aircraft(aircraft_type, letter, 0),
                _ => Value::Aircraft(letter, aircraft_type, prefix),
            },
            other => other,
        };
        if chance.in_hundred(50) {
            return;
        }
    }
}

/// A plan whose time has E, the fix any; and where the position is beyond its ranges.
fn damage_e_rule(body: &mut BodyValues, chance: &mut Chance) -> bool {
    if !matches!(body.message_type, Type::FZ | Type::UZ) {
        return false;
    }
    let form = chance.one_of(&[Form::Fix, Form::Position, Form::NoPosition]);
    for (index, form, wrong) in [(3, form, false), (4, Form::Time, chance.in_hundred(20))] {
        let mut text = Vec::new();
        fields::put(&mut text, chance, form, b"N5", wrong);
        if index == 4 && chance.in_hundred(70) {
            text[0] = b'E';
        }
        if let Some(word) = number(&text) {
            body.fields[index] = Value::Text(word);
        }
    }
    true
}

/// The slots and marks of an AF.
fn damage_amendments(body: &mut BodyValues, chance: &mut Chance) -> bool {
    if body.message_type != Type::AF {
        return false;
    }
    let (one, other) = (chance.below(8), chance.below(8));
    match chance.below(7) {
        0 => body.marks ^= 1 << one,
        1 => body.marks = chance.below(256) as u8,
        2 => body.amendments.swap(one, other),
        3 => body.amendments[one] = body.amendments[other],
        4 => body.amendments[one] = None,
        5 => body.amendments[one] = Some(amended(chance)),
        _ => {
            // One more, with its mark.
            let amended = amended(chance);
            let free = body.amendments.iter().position(Option::is_none);
            body.amendments[free.unwrap_or(one)] = Some(amended);
            let place = NUMBERS.iter().position(|&number| number == amended.number);
            body.marks |= 1 << place.unwrap_or(one);
        }
    }
    true
}

/// An amendment with any content of its kind.
fn amended(chance: &mut Chance) -> Amended {
    let number = chance.one_of(&NUMBERS);
    let content = match number {
        2 => Value::Ident(any_word(chance), chance.one_of(&[0, 1])),
        3 => Value::Aircraft(0, any_word(chance), 0),
        10 => Value::Route,
        _ => Value::Text(any_word(chance)),
    };
    Amended { number, content }
}

/// The free text emptied, filled to a limit, or with a byte that does not belong. The line is that of
/// these values, if there is one.
fn damage_free(
    rule: Rule,
    body: &BodyValues,
    line: Option<Vec<u8>>,
    free: &mut Vec<u8>,
    chance: &mut Chance,
) {
    let place = chance.below(free.len() + 1);
    match chance.below(6) {
        0 => free.clear(),
        1 => free.insert(place, chance.one_of(b"  \n\r\x00\x1f\x7f\x80\xff")),
        2 => free.insert(place, chance.between(32, 126) as u8),
        3 => free.push(b' '),
        _ => {
            // The line as long as it may be, or a byte more or less.
            let Some(line) = line else {
                return;
            };
            let most = match body.message_type {
                Type::FZ if chance.in_hundred(90) => rule.front() + MOST_FZ,
                _ => MOST_LINE,
            };
            let width = most + chance.below(3) - 1 - (line.len() - free.len());
            fields::put_route(free, chance, width.saturating_sub(free.len()));
            free.truncate(width);
        }
    }
}

#[cfg(test)]
mod tests {
    use super::*;

    #[test]
    fn right_values_are_written_and_damage_is_seen() {
        let mut chance = Chance::of_seed(1);
        let mut refused = 0;
        for _ in 0..2000 {
            let (mut values, mut free) = right(&mut chance);
            assert!(values::write(&values, &free).is_ok());
            damage(&mut values, &mut free, &mut chance);
            refused += usize::from(values::write(&values, &free).is_err());
        }
        assert!((1000..1900).contains(&refused), "{refused}");
    }

    #[test]
    fn right_values_of_the_old_feed_are_written_and_damage_is_seen() {
        let mut chance = Chance::of_seed(1);
        let mut refused = 0;
        for _ in 0..2000 {
            let (mut values, mut free) = right_old(&mut chance);
            assert!(values::write_old(&values, &free).is_ok());
            damage_old(&mut values, &mut free, &mut chance);
            refused += usize::from(values::write_old(&values, &free).is_err());
        }
        assert!((1200..1950).contains(&refused), "{refused}");
    }
}
