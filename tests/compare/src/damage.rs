//! Damage to a line: what a bad wire, a wrong hand or a foreign program makes of it.

use crate::chance::Chance;
use crate::lines::fill;

/// A byte: any, or one at the limits of the classes that the rules name.
fn byte(chance: &mut Chance) -> u8 {
    if chance.in_hundred(30) {
        chance.below(256) as u8
    } else {
        chance.one_of(b"\x00\x09\x0d\x1f  !/09:@AZ[`az{}~\x7f\x80\xff")
    }
}

/// Damages a line once.
pub fn damage(line: &mut Vec<u8>, chance: &mut Chance) {
    if line.is_empty() {
        line.push(byte(chance));
        return;
    }
    let place = chance.below(line.len());
    match chance.below(16) {
        0 | 1 => {
            line.remove(place);
        }
        2 | 3 => line.insert(place, byte(chance)),
        4 | 5 => line[place] = byte(chance),
        // The byte before or after it in the code.
        6 => line[place] = line[place].wrapping_add(chance.one_of(&[1, 255])),
        7 => {
            // Each space doubled, or one.
            let all = chance.in_hundred(30);
            if let Some(space) = (place..line.len()).find(|&at| line[at] == b' ') {
                line.insert(space, b' ');
            }
            if all {
                *line = line
                    .iter()
                    .flat_map(|&byte| vec![byte; if byte == b' ' { 2 } else { 1 }])
                    .collect();
            }
        }
        8 => {
            // Lower case, from this place on or there alone.
            let to = chance.one_of(&[place + 1, line.len()]);
            line[place..to].make_ascii_lowercase();
        }
        9 => line[place] = chance.one_of(&[0, 1, 9, 13, 27, 31, 127, 128, 160, 255]),
        10 => line.push(b'\r'),
        // Torn, also at the least line of either feed.
        11 => line.truncate(chance.one_of(&[place, place, 8, 9, 17, 18])),
        12 => {
            let width = match chance.below(10) {
                0 => 2047,
                1 => 2048,
                2 => 2049,
                3 => chance.between(2050, 6000),
                _ => chance.one_of(&[8, 9, 17, 18]),
            };
            fill(line, chance, width);
        }
        13 => line.clear(),
        14 => line.extend_from_slice(chance.one_of(&[&b" "[..], b"  ", b"   "])),
        _ => {
            // Two neighbours exchanged; or a line feed within the line.
            if place + 1 < line.len() && chance.in_hundred(70) {
                line.swap(place, place + 1);
            } else {
                line.insert(place, b'\n');
            }
        }
    }
}
