//! Day files by chance: whole ones, ones that are a little damaged, and any bytes; and what a caller
//! lends on the way to one, lines and offsets kept so far, with room or without.

use crate::chance::Chance;
use reference::line::MOST_LINE;

/// What a file is made of, so that a part of it can be changed and the trailer still fit.
#[derive(Clone)]
pub struct Parts {
    /// The lines, each with its line feed.
    pub lines: Vec<u8>,
    pub offsets: Vec<u32>,
    start: u32,
    count: u16,
    version: u16,
}

impl Parts {
    /// Of any run of lines: some may be too long, or have a line feed inside.
    fn of(run: &[Vec<u8>]) -> Parts {
        let mut parts = Parts {
            lines: Vec::new(),
            offsets: Vec::new(),
            start: 0,
            count: 0,
            version: 1,
        };
        for line in run {
            parts.offsets.push(parts.lines.len() as u32);
            parts.lines.extend_from_slice(line);
            parts.lines.push(b'\n');
        }
        parts.fit();
        parts
    }

    /// The lines of these bytes, a line feed at the end of the last.
    fn of_bytes(bytes: &[u8]) -> Parts {
        let lines = bytes.split_inclusive(|&byte| byte == b'\n');
        let run: Vec<Vec<u8>> = lines
            .map(|line| line.strip_suffix(b"\n").unwrap_or(line).to_vec())
            .collect();
        Parts::of(&run)
    }

    /// Makes the trailer that of the lines and the offsets.
    fn fit(&mut self) {
        self.start = self.lines.len() as u32;
        self.count = self.offsets.len() as u16;
    }

    fn file(&self) -> Vec<u8> {
        let mut file = self.lines.clone();
        file.extend(self.offsets.iter().flat_map(|offset| offset.to_be_bytes()));
        file.extend_from_slice(&self.start.to_be_bytes());
        file.extend_from_slice(&self.count.to_be_bytes());
        file.extend_from_slice(&self.version.to_be_bytes());
        file
    }
}

/// A byte that may stand in a line: any but a line feed.
fn byte(chance: &mut Chance) -> u8 {
    match chance.below(256) as u8 {
        b'\n' => b' ',
        byte => byte,
    }
}

fn text(chance: &mut Chance, width: usize) -> Vec<u8> {
    (0..width).map(|_| byte(chance)).collect()
}

/// A line that may be kept, of any bytes: often empty, of one byte, or the longest.
pub fn line(chance: &mut Chance) -> Vec<u8> {
    let width = match chance.below(12) {
        0 | 1 => 0,
        2 | 3 => 1,
        4 => chance.one_of(&[MOST_LINE - 1, MOST_LINE]),
        _ => chance.between(2, 60),
    };
    text(chance, width)
}

/// A line that may not be kept, most often: too long, or with a line feed inside or at its end.
pub fn wrong_line(chance: &mut Chance) -> Vec<u8> {
    let mut line = line(chance);
    match chance.below(5) {
        0 | 1 => {
            let width = chance.one_of(&[MOST_LINE + 1, MOST_LINE + 1, MOST_LINE + 2, 5000]);
            line = text(chance, width);
            if chance.in_hundred(30) {
                line[width / 2] = b'\n';
            }
        }
        2 => line.push(b'\n'),
        3 => line.insert(0, b'\n'),
        _ => {
            let place = chance.below(line.len() + 1);
            line.insert(place, b'\n');
        }
    }
    line
}

/// The parts of a file that is whole: of no line, of one, of few, of some more.
pub fn whole(chance: &mut Chance) -> Parts {
    let count = match chance.below(10) {
        0 => 0,
        1 | 2 => 1,
        3..=8 => chance.between(2, 6),
        _ => chance.between(7, 14),
    };
    let run: Vec<Vec<u8>> = (0..count).map(|_| line(chance)).collect();
    Parts::of(&run)
}

/// A file: whole, damaged, or any bytes.
pub fn file(chance: &mut Chance) -> Vec<u8> {
    match chance.below(20) {
        0 => {
            let width = chance.between(0, 40);
            text(chance, width)
        }
        1..=8 => whole(chance).file(),
        _ => {
            let parts = whole(chance);
            damaged(parts, chance)
        }
    }
}

/// This file, damaged once. (Now and then it opens all the same.)
pub fn damage(file: &[u8], chance: &mut Chance) -> Vec<u8> {
    let opened = reference::dayfile::open(file);
    let parts = Parts::of_bytes(&file[..opened.map_or(0, |opened| opened.start)]);
    damaged(parts, chance)
}

fn damaged(mut parts: Parts, chance: &mut Chance) -> Vec<u8> {
    match chance.below(10) {
        0..=3 => {
            damage_lines(&mut parts, chance);
            parts.fit();
            parts.file()
        }
        4..=6 => {
            damage_trailer(&mut parts, chance);
            parts.file()
        }
        _ => {
            let mut file = parts.file();
            damage_bytes(&mut file, chance);
            file
        }
    }
}

/// Lines and offsets that no longer agree, most often.
pub fn damage_lines(parts: &mut Parts, chance: &mut Chance) {
    let (lines, offsets) = (&mut parts.lines, &mut parts.offsets);
    let line_feeds: Vec<usize> = (0..lines.len())
        .filter(|&place| lines[place] == b'\n')
        .collect();
    match chance.below(16) {
        // An offset too many or too few; none.
        0 => offsets.push(lines.len() as u32),
        1 => {
            offsets.pop();
        }
        2 => offsets.clear(),
        // No line feed at the end; bytes after it; a line more.
        3 => {
            lines.pop();
        }
        4 => lines.push(byte(chance)),
        5 => lines.push(b'\n'),
        // A line that may not be kept, its offset right.
        6 | 7 => {
            offsets.push(lines.len() as u32);
            lines.extend(wrong_line(chance));
            lines.push(b'\n');
        }
        // Two lines in one, or one in two.
        8 if !line_feeds.is_empty() => lines[chance.one_of(&line_feeds)] = b' ',
        9 if !lines.is_empty() => {
            let place = chance.below(lines.len());
            lines[place] = b'\n';
        }
        _ if offsets.is_empty() => offsets.push(chance.one_of(&[0, 1])),
        _ => {
            let place = chance.near_ends(0, offsets.len() - 1);
            let other = offsets[chance.below(offsets.len())];
            offsets[place] = match chance.below(5) {
                0 => offsets[place].wrapping_add(1),
                1 => offsets[place].wrapping_sub(1),
                2 => offsets[place] ^ (1 << chance.below(32)),
                3 => other,
                _ => offsets[place].swap_bytes(),
            };
        }
    }
}

/// A start, a count or a version that is not the file's, most often.
fn damage_trailer(parts: &mut Parts, chance: &mut Chance) {
    match chance.below(12) {
        0 => parts.start = parts.start.wrapping_add(chance.one_of(&[1, 4, 8, 1 << 16])),
        1 => parts.start = parts.start.wrapping_sub(chance.one_of(&[1, 4, 8, 1 << 16])),
        2 => parts.start = chance.one_of(&[0, u32::MAX, 1 << 31]),
        3 => parts.start = parts.start.swap_bytes(),
        4 => parts.count = parts.count.wrapping_add(1),
        5 => parts.count = parts.count.wrapping_sub(1),
        6 => parts.count = chance.one_of(&[0, u16::MAX, 1 << 15, parts.count.swap_bytes()]),
        7 => parts.version = chance.one_of(&[0, 2, 257, 1 << 8, u16::MAX]),
        8 => parts.version = chance.draw() as u16,
        // The same sum by another start and another count, also by one that wraps.
        9 => {
            parts.start = parts.start.wrapping_add(4);
            parts.count = parts.count.wrapping_sub(1);
        }
        10 => {
            parts.start = parts.start.wrapping_sub(4);
            parts.count = parts.count.wrapping_add(1);
        }
        _ => {
            let count = chance.one_of(&[u16::MAX, 1 << 15, parts.count.wrapping_add(9)]);
            let index = u32::from(count).wrapping_sub(u32::from(parts.count));
            parts.start = parts.start.wrapping_sub(index.wrapping_mul(4));
            parts.count = count;
        }
    }
}

/// A byte changed, dropped or added, or the file cut short.
fn damage_bytes(file: &mut Vec<u8>, chance: &mut Chance) {
    let last = file.len() - 1;
    let place = match chance.below(3) {
        // In the trailer or the index.
        0 => last - chance.below(8),
        1 => last - chance.below(40).min(last),
        _ => chance.between(0, last),
    };
    match chance.below(10) {
        0 | 1 => file[place] = chance.draw() as u8,
        2 => file[place] = file[place].wrapping_add(chance.one_of(&[1, 255])),
        3 | 4 => {
            file.remove(place);
        }
        5 => file.insert(place, chance.draw() as u8),
        6 => file.insert(place, chance.one_of(&[0, 1, b'\n', file[place]])),
        7 => file.push(chance.one_of(&[0, 1, b'\n'])),
        8 => file.truncate(chance.one_of(&[0, 1, 7, 8, last])),
        _ => file.truncate(place),
    }
}

/// What a caller lends: a buffer and a run with lines and offsets kept so far, the place and the
/// count after them, and anything behind.
pub struct Lent {
    pub out: Vec<u8>,
    pub offsets: Vec<u32>,
    pub place: usize,
    pub count: usize,
}

/// Lends parts: with room for so many bytes and offsets more, or for just too few, and most often
/// with the place and count that are theirs.
pub fn lend(chance: &mut Chance, parts: Parts, bytes: usize, offsets: usize) -> Lent {
    let (place, count) = (parts.lines.len(), parts.offsets.len());
    let needed = place + bytes;
    let size = match chance.below(10) {
        0..=3 => needed,
        4 => needed - 1,
        5 | 6 => needed + chance.between(1, 40),
        7 => place,
        8 => place.saturating_sub(1),
        _ => chance.between(0, needed),
    };
    let run = match chance.below(8) {
        0 => (count + offsets).saturating_sub(1),
        1..=4 => count + offsets,
        _ => count + offsets + chance.between(1, 9),
    };
    let mut lent = Lent {
        out: parts.lines,
        offsets: parts.offsets,
        place,
        count,
    };
    // What stands behind the place and the count may be anything.
    let behind = chance.one_of(b".\n\0\xff");
    lent.out.resize(size, behind);
    while lent.offsets.len() < run {
        lent.offsets.push(chance.draw() as u32);
    }
    lent.offsets.truncate(run);
    if chance.in_hundred(25) {
        let (place, count) = (lent.place, lent.count);
        match chance.below(4) {
            0 => lent.place = near(chance, place, 4_294_967_296 - bytes),
            1 | 2 => lent.count = near(chance, count, 65_535),
            _ => {
                // Of lines before the last.
                lent.place = near(chance, place, size);
                lent.count = near(chance, count, run);
            }
        }
    }
    lent
}

/// A number near to another one, near to a limit, or where a sum would wrap.
fn near(chance: &mut Chance, number: usize, limit: usize) -> usize {
    match chance.below(10) {
        0 | 1 => number.saturating_sub(1),
        2 => number + 1,
        3 => limit.saturating_sub(1),
        4 => limit,
        5 => limit + 1,
        6 => chance.between(0, number),
        7 => usize::MAX - chance.below(3),
        _ => chance.one_of(&[0, 1 << 16, 1 << 32, 1 << 63]),
    }
}

#[cfg(test)]
mod tests {
    use super::*;
    use reference::dayfile::{file as file_of, lines, open};

    #[test]
    fn what_is_made_to_be_whole_is() {
        let mut chance = Chance::of_seed(1);
        for _ in 0..500 {
            let file = whole(&mut chance).file();
            let lines = lines(&file).unwrap();
            assert_eq!(file_of(&lines).as_ref(), Ok(&file));
            assert!(file.len() <= crate::calls::MOST_BYTES);
        }
    }

    #[test]
    fn damage_is_seen_most_often() {
        let mut chance = Chance::of_seed(2);
        let mut refused = [0; 26];
        for _ in 0..2000 {
            let parts = whole(&mut chance);
            let damaged = damage(&parts.file(), &mut chance);
            match open(&damaged) {
                Ok(_) => refused[0] += 1,
                Err(number) => refused[usize::from(number)] += 1,
            }
        }
        assert!(refused[0] < 400, "{refused:?}");
        assert!(
            refused[20..24].iter().all(|&count| count > 40),
            "{refused:?}"
        );
    }
}
