//! Cutter states by chance, allowed or a little damaged, and parts for them.

use crate::chance::Chance;
use crate::fields;
use reference::buffer::Begun;
use reference::line::MOST_LINE;

/// A buffer and a state, the begun line the beginning of this one where it fits. About a third are
/// damaged.
pub fn state(chance: &mut Chance, line: &[u8]) -> (Vec<u8>, Begun) {
    let count = match chance.below(8) {
        0..=2 => 0,
        3 => chance.between(1, 40),
        4 => chance.between(2040, MOST_LINE),
        5 => chance.between(0, MOST_LINE),
        _ => chance.between(0, line.len()).min(MOST_LINE),
    };
    let mut held = line[..line.len().min(count)].to_vec();
    let missing = count - held.len();
    fields::put_route(&mut held, chance, missing);
    // What stands after the begun line may be anything.
    match chance.below(3) {
        0 => held.resize(MOST_LINE, b'\n'),
        1 => held.resize(MOST_LINE, 0),
        _ => {
            while held.len() < MOST_LINE {
                held.push(chance.below(256) as u8);
            }
        }
    }
    let mut begun = Begun::Held(count);
    if chance.in_hundred(12) {
        begun = Begun::Overlong;
    }
    if chance.in_hundred(35) {
        damage(&mut held, &mut begun, chance);
    }
    (held, begun)
}

/// Damages a state once. (Now and then it is allowed all the same.)
fn damage(held: &mut Vec<u8>, begun: &mut Begun, chance: &mut Chance) {
    let count = match *begun {
        Begun::Held(count) => count,
        Begun::Overlong => 0,
    };
    match chance.below(9) {
        // A line feed in the begun line, at its ends, just after it.
        0 => put_line_feed(held, count / 2),
        1 => put_line_feed(held, 0),
        2 => put_line_feed(held, count.saturating_sub(1)),
        3 => put_line_feed(held, count),
        4 => held.truncate(chance.one_of(&[0, 1, 100, 2047, 2047])),
        5 => {
            let more = chance.one_of(&[1, 1, 2, 900]);
            held.resize(MOST_LINE + more, b'x');
        }
        6 => *begun = Begun::Held(chance.one_of(&[2049, 2050, usize::MAX, 1 << 63, 1 << 32])),
        7 => *begun = Begun::Held(count + chance.between(1, 50)),
        _ => {
            // As long as a longer buffer.
            held.resize(MOST_LINE + 1, b'x');
            *begun = Begun::Held(chance.one_of(&[0, 2048, 2049]));
        }
    }
}

fn put_line_feed(held: &mut [u8], place: usize) {
    if let Some(byte) = held.get_mut(place) {
        *byte = b'\n';
    }
}

/// A part for the cutter: often one that ends the begun line, and as long as the line may still be.
pub fn part(chance: &mut Chance, begun: Begun) -> Vec<u8> {
    let left = match begun {
        Begun::Held(count) => MOST_LINE.saturating_sub(count),
        Begun::Overlong => 0,
    };
    let width = match chance.below(8) {
        0 => 0,
        1..=3 => chance.between(0, 60),
        4 | 5 => (left + chance.below(4)).saturating_sub(1),
        6 => chance.between(0, 2100),
        _ => chance.between(2000, 5000),
    };
    let mut part: Vec<u8> = Vec::with_capacity(width + 10);
    while part.len() < width {
        let byte = chance.below(256) as u8;
        part.push(if byte == b'\n' { b' ' } else { byte });
    }
    if chance.in_hundred(65) {
        part.push(b'\n');
        for _ in 0..chance.one_of(&[0, 0, 1, 7]) {
            part.push(chance.one_of(b"a\n\0"));
        }
    }
    part
}
