//! The day file (document 02, request a): "A day file holds the lines, each with its line feed,
//! then an index of four-byte offsets of the lines' first bytes, then a trailer of eight bytes:
//! start of index (4), number of lines (2), version 1 (2), all high byte first."

use crate::line::MOST_LINE;
use crate::print::each_line;
use crate::write::put;

/// "at most 65,535 of them"
pub const MOST_LINES: usize = 65_535;
/// "the index starts below 4,294,967,296"
pub const START_BELOW: u128 = 4_294_967_296;
/// The bytes of an offset, and of the trailer.
const OFFSET: usize = 4;
const TRAILER: usize = 8;
const VERSION: u16 = 1;

/// "Lines of at most 2,048 bytes without a line feed may be kept, readable or not": 2, then 25.
fn may_be_kept(line: &[u8]) -> Result<(), u8> {
    if line.len() > MOST_LINE {
        return Err(2);
    }
    if line.contains(&b'\n') {
        return Err(25);
    }
    Ok(())
}

/// Too many lines, or an index that would start too far: 24.
fn fits(count: usize, start: u128) -> Result<(), u8> {
    if count > MOST_LINES || start >= START_BELOW {
        return Err(24);
    }
    Ok(())
}

/// The file of a run of lines that may be kept; 2, 25 or 24 of another run.
pub fn file(lines: &[&[u8]]) -> Result<Vec<u8>, u8> {
    let mut file = Vec::new();
    let mut index = Vec::new();
    for line in lines {
        may_be_kept(line)?;
        index.extend_from_slice(&(file.len() as u32).to_be_bytes());
        file.extend_from_slice(line);
        file.push(b'\n');
    }
    fits(lines.len(), file.len() as u128)?;
    index.extend(trailer(file.len(), lines.len()));
    file.extend(index);
    Ok(file)
}

/// The trailer of a file of so many bytes of lines, below 4,294,967,296, and so many lines, at most
/// 65,535.
fn trailer(start: usize, count: usize) -> Vec<u8> {
    let (start, count) = (start as u32, count as u16);
    [
        &start.to_be_bytes()[..],
        &count.to_be_bytes(),
        &VERSION.to_be_bytes(),
    ]
    .concat()
}

/// A number from its bytes, the high one first.
fn number(bytes: &[u8]) -> u64 {
    bytes
        .iter()
        .fold(0, |number, &byte| number * 256 + u64::from(byte))
}

/// Whether bytes are lines, each with its line feed and of at most 2,048 bytes, exactly as many as
/// there are offsets, and each starting at its own.
fn agree(bytes: &[u8], offsets: &[u64]) -> bool {
    let mut starts = Vec::new();
    let mut start: u64 = 0;
    for piece in bytes.split_inclusive(|&byte| byte == b'\n') {
        match piece.strip_suffix(b"\n") {
            Some(line) if line.len() <= MOST_LINE => starts.push(start),
            _ => return false,
        }
        start += piece.len() as u64;
    }
    starts == offsets
}

/// How many lines a day file has, and where its index starts.
#[derive(Clone, Copy, Debug, PartialEq, Eq)]
pub struct Opened {
    pub count: usize,
    pub start: usize,
}

/// "Reading checks 20 to 23 in that order."
pub fn open(file: &[u8]) -> Result<Opened, u8> {
    // "20 file under eight bytes"
    if file.len() < TRAILER {
        return Err(20);
    }
    let (before, trailer) = file.split_at(file.len() - TRAILER);
    // "21 version unknown"
    if number(&trailer[6..]) != u64::from(VERSION) {
        return Err(21);
    }
    // "22 start plus index plus trailer isn't the file's length"; the sum is exact
    // (docs/DECISIONS.md).
    let (start, count) = (number(&trailer[..4]), number(&trailer[4..6]));
    if start + count * OFFSET as u64 != before.len() as u64 {
        return Err(22);
    }
    let (lines, index) = before.split_at(start as usize);
    // "23 the bytes before the index aren't exactly that many lines, each with its line feed, of at
    // most 2,048 bytes, each starting at its offset"
    let offsets: Vec<u64> = index.chunks(OFFSET).map(number).collect();
    if !agree(lines, &offsets) {
        return Err(23);
    }
    Ok(Opened {
        count: count as usize,
        start: start as usize,
    })
}

/// The lines of a day file, each a part of it, or what opening it answers.
pub fn lines(file: &[u8]) -> Result<Vec<&[u8]>, u8> {
    let opened = open(file)?;
    let lines = file[..opened.start].split_inclusive(|&byte| byte == b'\n');
    Ok(lines.map(|line| &line[..line.len() - 1]).collect())
}

/// The line with this number, from 1 on, as a part of the file; an empty part at its start where
/// there is none, or where the bytes are no day file (docs/DECISIONS.md).
pub fn line(file: &[u8], number: usize) -> &[u8] {
    let lines = lines(file).unwrap_or_default();
    match number.checked_sub(1).and_then(|index| lines.get(index)) {
        Some(line) => line,
        None => &file[..0],
    }
}

/// Keeps a line: it goes into the buffer at `place`, its line feed after it, and that place into the
/// run of offsets at `count`. The place and the count after it; "writing 2, 25, 24, then 15, also
/// for a full run of offsets". 24 is for the line as it would be kept, and 15 for room for it and
/// its line feed alone; a place and a count that do not belong together are not looked at
/// (docs/DECISIONS.md).
pub fn record(
    buffer: &mut [u8],
    offsets: &mut [u32],
    place: usize,
    count: usize,
    line: &[u8],
) -> Result<(usize, usize), u8> {
    may_be_kept(line)?;
    let kept = [line, b"\n"].concat();
    fits(count.saturating_add(1), place as u128 + kept.len() as u128)?;
    let offset = offsets.get_mut(count).ok_or(15)?;
    put(&kept, buffer, place)?;
    *offset = place as u32;
    Ok((place + kept.len(), count + 1))
}

/// Ends the file whose lines are the buffer's first `place` bytes and whose offsets are the run's
/// first `count`: index and trailer go in at `place`. How many bytes the file has; "ending a file 13
/// where lines and offsets disagree, 24, 15". 13 is for all that 23 would refuse
/// (docs/DECISIONS.md), so also for more bytes than the buffer has and more offsets than the run has.
pub fn end(buffer: &mut [u8], offsets: &[u32], place: usize, count: usize) -> Result<usize, u8> {
    let lines = buffer.get(..place).ok_or(13)?;
    let offsets = offsets.get(..count).ok_or(13)?;
    let wide: Vec<u64> = offsets.iter().map(|&offset| u64::from(offset)).collect();
    if !agree(lines, &wide) {
        return Err(13);
    }
    fits(count, place as u128)?;
    let mut index: Vec<u8> = offsets
        .iter()
        .flat_map(|offset| offset.to_be_bytes())
        .collect();
    index.extend(trailer(place, count));
    Ok(place + put(&index, buffer, place)?)
}

/// What is said of a file that is there already, and is not replaced.
pub const THERE_ALREADY: &str = "there is such a file already; it stays as it is";

/// What keeping a feed comes to: its day file, and what is said to people about it.
#[derive(Clone, Debug, PartialEq, Eq)]
pub struct Kept {
    pub file: Vec<u8>,
    pub said: String,
}

/// The day file of a feed: its lines in order, without those that are overlong and without an
/// unended rest. A line that does not fit ends the file, and nothing after it is read. What is not
/// kept is said, with its number in the feed, and at the end how many lines were kept and how many
/// not.
pub fn keep(feed: &[u8]) -> Kept {
    let mut told: Vec<Option<Vec<u8>>> = Vec::new();
    let at_end = each_line(feed, u64::MAX, |line| told.push(line.map(<[u8]>::to_vec)));
    let mut lines: Vec<&[u8]> = Vec::new();
    let mut start: u128 = 0;
    let mut not_kept = Vec::new();
    let mut is_full = false;
    for (index, line) in told.iter().enumerate() {
        let number = index + 1;
        let Some(line) = line else {
            not_kept.push(format!(
                "line {number} is over 2,048 bytes and is not kept (answer 2)"
            ));
            continue;
        };
        let after = start + line.len() as u128 + 1;
        if fits(lines.len() + 1, after).is_err() {
            not_kept.push(format!(
                "line {number} does not fit the day file, which is ended before it (answer 24)"
            ));
            is_full = true;
            break;
        }
        lines.push(line);
        start = after;
    }
    if at_end == 17 && !is_full {
        not_kept.push(format!(
            "line {} has no line feed, so it is no line and is not kept (answer 17)",
            told.len() + 1
        ));
    }
    let sums = format!("KEPT {} NOT KEPT {}\n", lines.len(), not_kept.len());
    let said: String = not_kept
        .iter()
        .map(|what| format!("standard input: {what}\n"))
        .collect();
    Kept {
        // The cutter hands over no line that may not be kept, and each was seen to fit.
        file: file(&lines).unwrap_or_default(),
        said: said + &sums,
    }
}

/// The lines of a day file, each with its line feed; or what is said of a file that is none.
pub fn lines_text(file: &[u8]) -> Result<Vec<u8>, String> {
    match lines(file) {
        Ok(lines) => Ok(lines
            .iter()
            .flat_map(|line| [line, &b"\n"[..]].concat())
            .collect()),
        Err(number) => {
            let why = match number {
                20 => "under eight bytes",
                21 => "unknown version",
                22 => "start, index and trailer are not its length",
                _ => "its bytes are not the lines that its index says",
            };
            Err(format!("no day file: {why} (answer {number})"))
        }
    }
}

#[cfg(test)]
mod tests {
    use super::*;

    /// A line of so many bytes.
    fn wide(width: usize) -> Vec<u8> {
        vec![b'x'; width]
    }

    fn file_of(lines: &[&[u8]]) -> Vec<u8> {
        file(lines).unwrap()
    }

    /// A file of these bytes before the index, these offsets, and a trailer that fits them.
    fn put_together(bytes: &[u8], offsets: &[u32]) -> Vec<u8> {
        let mut file = bytes.to_vec();
        file.extend(offsets.iter().flat_map(|offset| offset.to_be_bytes()));
        file.extend(trailer(bytes.len(), offsets.len()));
        file
    }

    #[test]
    fn byte_by_byte() {
        assert_eq!(file_of(&[]), [0, 0, 0, 0, 0, 0, 0, 1]);
        let expected = [
            &b"ab\n\n\xff\n"[..],
            &[0, 0, 0, 0, 0, 0, 0, 3, 0, 0, 0, 4],
            &[0, 0, 0, 6, 0, 3, 0, 1],
        ];
        assert_eq!(file_of(&[b"ab", b"", b"\xff"]), expected.concat());
        // High byte first, in the index and in the trailer.
        let two = [&wide(1999)[..], &wide(1)].map(<[u8]>::to_vec);
        let file = file_of(&[&two[0], &two[1]]);
        assert_eq!(file[2002..2010], [0, 0, 0, 0, 0, 0, 7, 208]);
        assert_eq!(file[2010..], [0, 0, 7, 210, 0, 2, 0, 1]);
        let many = file_of(&vec![&b""[..]; 300]);
        assert_eq!(
            many[many.len() - 12..],
            [0, 0, 1, 43, 0, 0, 1, 44, 1, 44, 0, 1]
        );
    }

    #[test]
    fn opening_gives_the_lines() {
        let (long, longest) = (wide(2047), wide(2048));
        let runs: [&[&[u8]]; 6] = [
            &[],
            &[b""],
            &[b"", b"", b""],
            &[b"a", b"\r", b"\0\xff"],
            &[&longest, b"", &long],
            &[&longest],
        ];
        for run in runs {
            let file = file_of(run);
            assert_eq!(lines(&file).unwrap(), run);
            let start = run.iter().map(|line| line.len() + 1).sum();
            let count = run.len();
            assert_eq!(open(&file), Ok(Opened { count, start }));
            for (index, expected) in run.iter().enumerate() {
                assert_eq!(line(&file, index + 1), *expected);
            }
            for number in [0, count + 1, usize::MAX] {
                assert_eq!(line(&file, number), b"");
            }
            assert_eq!(line(&file[1..], 1), b"");
        }
    }

    #[test]
    fn which_runs_have_a_file() {
        assert_eq!(file(&[b"ok", &wide(2049)]), Err(2));
        assert_eq!(file(&[b"a\n"]), Err(25));
        let both = [&wide(2048)[..], b"\n"].concat();
        assert_eq!(file(&[&both]), Err(2));
        let most = vec![&b"x"[..]; MOST_LINES];
        let whole = file_of(&most);
        assert_eq!(whole.len(), MOST_LINES * 6 + 8);
        assert_eq!(lines(&whole).unwrap(), most);
        assert_eq!(file(&vec![&b""[..]; MOST_LINES + 1]), Err(24));
    }

    /// 20 to 23, and each before those after it.
    #[test]
    fn refusals_of_reading() {
        for size in 0..8 {
            assert_eq!(open(&wide(size)), Err(20));
            assert_eq!(open(&[0, 0, 0, 0, 0, 0, 0, 1][..size]), Err(20));
        }
        for version in [[0, 0], [0, 2], [1, 0], [1, 1], [255, 255]] {
            for rest in [[0; 6], [9; 6]] {
                assert_eq!(open(&[&rest[..], &version].concat()), Err(21));
            }
        }
        // A start or a count that is not that of the length; the lines are wrong too.
        let bytes = [&b"a"[..], &[0, 0, 0, 1]].concat();
        for (start, count) in [(1, 0), (0, 1), (2, 1), (1, 2), (5, 1), (u32::MAX, 1)] {
            let trailer = trailer(start as usize, count);
            assert_eq!(open(&[&bytes[..], &trailer].concat()), Err(22));
        }
        // The sum does not wrap: 4,294,967,292 and 4 are not 0.
        assert_eq!(open(&trailer(4_294_967_292, 1)), Err(22));
        assert_eq!(open(&trailer(4_294_967_288, 0)), Err(22));
        // A trailer with the low byte first.
        let mut low = file_of(&[b"a"]);
        let size = low.len();
        low[size - 8..size - 4].reverse();
        assert_eq!(open(&low), Err(22));
    }

    #[test]
    fn lines_that_are_not_those_of_the_index() {
        let wrong: [(&[u8], &[u32]); 15] = [
            // A count of 0 with a start over 0.
            (b"a\n", &[]),
            (b"\n", &[]),
            (b"a", &[]),
            // Too many, too few.
            (b"", &[0]),
            (b"a\n", &[0, 2]),
            (b"a\nb\n", &[0]),
            // Bytes after the last line feed, or none.
            (b"a", &[0]),
            (b"a\nb", &[0]),
            (b"a\nb", &[0, 2]),
            // Offsets out by one, of one line and of all.
            (b"a\nb\n", &[0, 1]),
            (b"a\nb\n", &[0, 3]),
            (b"a\nb\n", &[1, 2]),
            (b"a\nb\n", &[2, 0]),
            (b"a\nb\n", &[0, 0]),
            (b"a\nb\n", &[0, 2 + (1 << 24)]),
        ];
        for (bytes, offsets) in wrong {
            assert_eq!(open(&put_together(bytes, offsets)), Err(23));
        }
        let long = [&wide(2049)[..], b"\n"].concat();
        assert_eq!(open(&put_together(&long, &[0])), Err(23));
        assert!(open(&put_together(&long[1..], &[0])).is_ok());
    }

    /// "two different files never give the same lines": what opens is the file of its lines.
    #[test]
    fn what_opens_is_the_file_of_its_lines() {
        let whole = file_of(&[b"ab", b"", b"", b"c"]);
        let mut tried: Vec<Vec<u8>> = (0..whole.len()).map(|to| whole[..to].to_vec()).collect();
        for place in 0..whole.len() {
            let mut dropped = whole.clone();
            dropped.remove(place);
            tried.push(dropped);
            for byte in 0..=255 {
                let mut changed = whole.clone();
                changed[place] = byte;
                tried.push(changed);
                let mut added = whole.clone();
                added.insert(place, byte);
                tried.push(added);
            }
        }
        let mut opened = 0;
        for file in tried {
            if let Ok(lines) = lines(&file) {
                assert_eq!(file_of(&lines), file);
                opened += 1;
            }
        }
        // A letter changed to another byte, or not at all: nothing else opens.
        assert_eq!(opened, 3 * 255 + (whole.len() - 3));
    }

    /// Room for bytes and for offsets, both with contents, in which a run of lines is kept.
    struct Room {
        buffer: Vec<u8>,
        offsets: Vec<u32>,
        place: usize,
        count: usize,
    }

    impl Room {
        fn of(bytes: usize, offsets: usize) -> Room {
            Room {
                buffer: vec![b'.'; bytes],
                offsets: vec![77; offsets],
                place: 0,
                count: 0,
            }
        }

        /// Keeps a line. A refused call writes nothing.
        fn record(&mut self, line: &[u8]) -> Result<(), u8> {
            let before = (self.buffer.clone(), self.offsets.clone());
            let (buffer, offsets) = (&mut self.buffer, &mut self.offsets);
            match record(buffer, offsets, self.place, self.count, line) {
                Ok((place, count)) => {
                    assert_eq!(offsets[self.count], self.place as u32);
                    assert_eq!(buffer[self.place..place - 1], *line);
                    assert_eq!(buffer[place - 1], b'\n');
                    assert_eq!(buffer[..self.place], before.0[..self.place]);
                    assert_eq!(buffer[place..], before.0[place..]);
                    (self.place, self.count) = (place, count);
                    Ok(())
                }
                Err(number) => {
                    assert_eq!((&self.buffer, &self.offsets), (&before.0, &before.1));
                    Err(number)
                }
            }
        }

        fn end(&mut self) -> Result<Vec<u8>, u8> {
            let before = self.buffer.clone();
            match end(&mut self.buffer, &self.offsets, self.place, self.count) {
                Ok(size) => {
                    assert_eq!(self.buffer[size..], before[size..]);
                    Ok(self.buffer[..size].to_vec())
                }
                Err(number) => {
                    assert_eq!(self.buffer, before);
                    Err(number)
                }
            }
        }
    }

    /// Calls taken and refused, then an end: the file of the lines that were taken.
    #[test]
    fn a_run_of_calls() {
        let mut room = Room::of(2100, 4);
        assert_eq!(room.record(b"ab"), Ok(()));
        assert_eq!(room.record(&wide(2049)), Err(2));
        assert_eq!(room.record(b"a\nb"), Err(25));
        assert_eq!(room.record(b""), Ok(()));
        assert_eq!(room.record(&wide(2048)), Ok(()));
        assert_eq!(room.record(&wide(47)), Err(15));
        assert_eq!(room.record(&wide(46)), Ok(()));
        assert_eq!(room.place, 2100);
        assert_eq!(room.end(), Err(15));
        room.buffer.resize(2100 + 4 * 4 + 7, b'.');
        assert_eq!(room.end(), Err(15));
        room.buffer.push(b'.');
        let expected = file_of(&[b"ab", b"", &wide(2048), &wide(46)]);
        assert_eq!(room.end().as_ref(), Ok(&expected));
        room.buffer.push(b'.');
        assert_eq!(room.end(), Ok(expected));
        // The run of offsets is full, though the buffer has room.
        room.buffer.resize(4000, b'.');
        assert_eq!(room.record(b""), Err(15));
        let mut empty = Room::of(8, 0);
        assert_eq!(empty.end(), Ok(file_of(&[])));
        assert_eq!(empty.record(b""), Err(15));
        assert_eq!(Room::of(7, 0).end(), Err(15));
    }

    /// "writing 2, 25, 24, then 15"
    #[test]
    fn the_order_of_recording() {
        let both = [&wide(2048)[..], b"\n"].concat();
        let mut room = Room::of(1, 0);
        room.place = 4_294_967_295;
        assert_eq!(room.record(&both), Err(2));
        assert_eq!(room.record(&both[1..]), Err(25));
        // One empty line less than would put the index at 4,294,967,296.
        assert_eq!(room.record(b""), Err(24));
        room.place -= 1;
        assert_eq!(room.record(b""), Err(15));
        assert_eq!(room.record(b"a"), Err(24));
        for place in [usize::MAX, usize::MAX - 1, 1 << 32] {
            room.place = place;
            assert_eq!(room.record(b""), Err(24));
        }
        for (count, number) in [(65_534, 15), (65_535, 24), (65_536, 24), (usize::MAX, 24)] {
            (room.place, room.count) = (0, count);
            assert_eq!(room.record(b""), Err(number));
        }
        // Place and count that do not belong together are not looked at.
        let mut room = Room::of(9, 3);
        (room.place, room.count) = (4, 2);
        assert_eq!(room.record(b"abcd"), Ok(()));
        assert_eq!((room.place, room.count), (9, 3));
        assert_eq!(room.offsets, [77, 77, 4]);
        assert_eq!(room.end(), Err(13));
    }

    /// "13 where lines and offsets disagree", before 24 and 15.
    #[test]
    fn the_order_of_ending() {
        let kept = |bytes: &[u8], offsets: &[u32]| Room {
            buffer: bytes.to_vec(),
            offsets: offsets.to_vec(),
            place: bytes.len(),
            count: offsets.len(),
        };
        for (bytes, offsets) in [
            (&b"a\nb\n"[..], &[0, 1][..]),
            (b"a\nb\n", &[0]),
            (b"a\nb", &[0, 2]),
            (b"a\n", &[0, 2]),
            (b"a", &[]),
            (&[&wide(2049)[..], b"\n"].concat(), &[0]),
        ] {
            assert_eq!(kept(bytes, offsets).end(), Err(13));
        }
        // More than there is.
        let mut room = kept(b"a\nb\n", &[0, 2]);
        assert_eq!(room.end(), Err(15));
        for (place, count) in [
            (5, 2),
            (4, 3),
            (usize::MAX, 2),
            (4, usize::MAX),
            (2, 2),
            (4, 1),
        ] {
            (room.place, room.count) = (place, count);
            assert_eq!(room.end(), Err(13), "{place} {count}");
        }
        // What stands after them may be anything.
        (room.place, room.count) = (2, 1);
        room.buffer.resize(14, b'\n');
        assert_eq!(room.end(), Ok(file_of(&[b"a"])));
        let all: Vec<u32> = (0..=65_535).collect();
        let mut room = kept(&vec![b'\n'; 65_536], &all);
        assert_eq!(room.end(), Err(24));
        room.offsets[65_535] = 0;
        assert_eq!(room.end(), Err(13));
        (room.place, room.count) = (65_535, 65_535);
        assert_eq!(room.end(), Err(15));
        room.buffer.resize(65_535 * 5 + 8, 0);
        assert_eq!(room.end(), Ok(file_of(&vec![&b""[..]; 65_535])));
    }

    fn said(feed: &[u8]) -> String {
        keep(feed).said
    }

    #[test]
    fn a_feed_is_kept() {
        assert_eq!(keep(b"").file, file_of(&[]));
        assert_eq!(said(b""), "KEPT 0 NOT KEPT 0\n");
        let feed = b"000006143655KZMAHB\n\nno line at all\xff\r\n";
        let lines: [&[u8]; 3] = [b"000006143655KZMAHB", b"", b"no line at all\xff\r"];
        assert_eq!(keep(feed).file, file_of(&lines));
        assert_eq!(said(feed), "KEPT 3 NOT KEPT 0\n");
    }

    #[test]
    fn what_is_not_kept_is_said() {
        let feed = [b"a\n", &wide(2049)[..], b"\n", &wide(2048), b"\nb"].concat();
        assert_eq!(keep(&feed).file, file_of(&[b"a", &wide(2048)]));
        assert_eq!(
            said(&feed),
            "standard input: line 2 is over 2,048 bytes and is not kept (answer 2)\n\
             standard input: line 4 has no line feed, so it is no line and is not kept \
             (answer 17)\n\
             KEPT 2 NOT KEPT 2\n"
        );
        // An overlong rest is an unended one.
        assert_eq!(
            said(&wide(3000)),
            "standard input: line 1 has no line feed, so it is no line and is not kept \
             (answer 17)\nKEPT 0 NOT KEPT 1\n"
        );
    }

    /// After 65,535 lines: an overlong one is passed over, an unended one is none, and the next that
    /// could be kept ends the file.
    #[test]
    fn a_feed_past_the_limit() {
        let most = vec![b'\n'; MOST_LINES];
        let expected = file_of(&vec![&b""[..]; MOST_LINES]);
        assert_eq!(keep(&most).file, expected);
        assert_eq!(said(&most), "KEPT 65535 NOT KEPT 0\n");
        let torn = [&most[..], b"x"].concat();
        assert_eq!(keep(&torn).file, expected);
        assert!(said(&torn).starts_with("standard input: line 65536 has no line feed"));
        let past = [&most[..], &wide(2049), b"\nx\nand more\nand a rest"].concat();
        assert_eq!(keep(&past).file, expected);
        assert_eq!(
            said(&past),
            "standard input: line 65536 is over 2,048 bytes and is not kept (answer 2)\n\
             standard input: line 65537 does not fit the day file, which is ended before it \
             (answer 24)\n\
             KEPT 65535 NOT KEPT 2\n"
        );
    }

    #[test]
    fn the_lines_as_text() {
        let file = keep(b"a\n\nb\n").file;
        assert_eq!(lines_text(&file).unwrap(), b"a\n\nb\n");
        assert_eq!(lines_text(&keep(b"").file).unwrap(), b"");
        for (file, number) in [
            (&file[..7], 20),
            (&[&file[..], &[0, 2]].concat(), 21),
            (&[&b"x"[..], &file].concat(), 22),
            (&[&b"aa"[..], &file[2..]].concat(), 23),
        ] {
            let said = lines_text(file).unwrap_err();
            assert!(said.starts_with("no day file: "));
            assert!(said.ends_with(&format!(" (answer {number})")), "{said}");
        }
    }
}
