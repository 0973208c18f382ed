//! Blocks of levels around equality (document 02, d): of every pair of widths every number with the one
//! before it, itself and the one after it, in each place that has a level; and in a TZ, which takes no block.

use crate::calls::Case;
use crate::feeds;
use reference::line::read;
use reference::text::number;
use reference::values::{self, Value, Values};

/// Lines with a block, which stands for its place.
const LINES: [&str; 5] = [
    "000106081500KZAAFZ QQX12/101 C172/A 452 BOSOX P0745 BLOCK BOS..ALB",
    "000106081500KZAAUZ QQX12/101 C172/A 452 BOSOX D0745 BLOCK BOS..ALB",
    "000106081500KZAAAF QQX12/101 ABC DEF 05 310 08 BLOCK",
    "000106081500KZAAAF QQX12/101 ABC DEF 09 BLOCK 05 310",
    "000106081500KZAATZ QQX12/101 310 BLOCK 3015N/08430W",
];

fn blocks() -> Vec<String> {
    let mut all = Vec::new();
    for (width, other) in [(2, 2), (2, 3), (3, 2), (3, 3)] {
        for first in 0..10_u32.pow(width) {
            let around = first.saturating_sub(1)..=first + 1;
            for second in around.filter(|&second| second < 10_u32.pow(other)) {
                let (width, other) = (width as usize, other as usize);
                all.push(format!("{first:0width$}B{second:0other$}"));
            }
        }
    }
    all
}

/// Every block in every line, in feeds that every program takes.
pub fn feeds() -> Vec<Vec<u8>> {
    let with = |block: String| LINES.map(|line| line.replace("BLOCK", &block).into_bytes());
    feeds::of_lines(blocks().into_iter().flat_map(with))
}

/// The level of a message with one.
fn level(values: &mut Values) -> Option<&mut u64> {
    let amended = values.body.amendments.iter_mut().flatten();
    let amended = amended.filter(|slot| matches!(slot.number, 8 | 9));
    let filed = values.body.fields.get_mut(5);
    match filed
        .into_iter()
        .chain(amended.map(|slot| &mut slot.content))
        .next()
    {
        Some(Value::Text(word)) => Some(word),
        _ => None,
    }
}

/// Every block as a value to write, in every message that has a level.
pub fn writes() -> Vec<Case> {
    let mut all = Vec::new();
    for line in LINES {
        let line = line.replace("BLOCK", "310B350");
        let Ok(message) = read(line.as_bytes()) else {
            continue;
        };
        for block in blocks() {
            let mut values = Values::of(&message);
            if let (Some(level), Some(word)) = (level(&mut values), number(block.as_bytes())) {
                *level = word;
                all.push(Case::Write {
                    values,
                    free: values::free(&message.body),
                    out: vec![b'.'; line.len() + 2],
                    at: 1,
                });
            }
        }
    }
    all
}

#[cfg(test)]
mod tests {
    use super::*;

    /// Three for each number, less the ends: in each line, and to write in each but the TZ.
    #[test]
    fn every_block_comes() {
        let count = blocks().len();
        assert_eq!(count, 298 + 299 + 299 + 2998);
        let lines: usize = feeds()
            .iter()
            .map(|feed| feed.iter().filter(|&&byte| byte == b'\n').count())
            .sum();
        assert_eq!(lines, 5 * count);
        assert_eq!(writes().len(), 4 * count);
    }

    /// They read, and are written, exactly if the second number is no smaller.
    #[test]
    fn as_numbers() {
        for case in writes() {
            let Case::Write { values, free, .. } = &case else {
                panic!("{case:?}");
            };
            let mut copy = values.clone();
            let text = reference::text::text(*level(&mut copy).unwrap()).unwrap();
            let text = String::from_utf8(text).unwrap();
            let (first, second) = text.split_once('B').unwrap();
            let rises = first.parse::<u32>().unwrap() <= second.parse::<u32>().unwrap();
            assert_eq!(values::write(values, free).is_ok(), rises, "{text}");
        }
    }
}
