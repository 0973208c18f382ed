//! The calls themselves: what each is given, as the bytes that the proved program `damage` reads, and
//! what the reference answers, as the bytes that it writes.
//!
//! A case is eight numbers of eight bytes, the least first: the call; how many words it takes, and how
//! many of these are given, the others being 0; how many bytes are in each of two runs; and three
//! numbers, a, b and c. The given words follow, eight bytes each, and the two runs. Of messages and of
//! day files:
//!
//! | call | words | first run | second run | a | b | c | the answer |
//! |---|---|---|---|---|---|---|---|
//! | 8 `write` | a message of the new feed: sequence number, stamp, facility, and 45 from its type on | the free text | the buffer | place | | | number, the place after it, the buffer |
//! | 14 `write_old` | a message of the old feed: a word that is not looked at, stamp, center, and 45 from its type on | the free text | the buffer | place | | | number, the place after it, the buffer |
//! | 9 `open` | | the file | | | | | number, how many lines, where the index starts |
//! | 10 `line` | | the file | | the line's number | | | the line |
//! | 11 `keep_line` | the offsets | the buffer | the line | place | count | | number, place and count after it, the offsets, the buffer |
//! | 12 `end_file` | the offsets | the buffer | | place | count | | number, the file's length, the buffer |
//! | 13 `end_many` | | | | lines | room | which offset is one too many | number, the file's length, the room |
//!
//! `end_many` is `end_file` for more lines than a case could bring: so many empty ones, at most 65,537,
//! with their offsets, and a buffer of line feeds with so much room after them, at most 327,679 bytes.
//! In an answer what only 0 gives is 0 where another number is answered. Words are how many, how many
//! up to the last that is not 0, and these; bytes are how many, and these.

use reference::age::{age_of_words, Age};
use reference::buffer::{self, Begun, Place};
use reference::dayfile::{self, Opened};
use reference::values::{self, BodyValues, OldValues, Value, Values};
use reference::write::put;
use reference::{print, words};

/// The most bytes that the program takes in each of the two runs. (It takes 4,096 words.)
pub const MOST_BYTES: usize = 32_768;

/// A call and what it is given.
#[derive(Clone, Debug)]
pub enum Case {
    Apply {
        board: Vec<u64>,
        line: Vec<u8>,
    },
    Strike {
        board: Vec<u64>,
        key: Vec<u8>,
    },
    Print {
        board: Vec<u64>,
        out: Vec<u8>,
        at: usize,
    },
    Cut {
        held: Vec<u8>,
        begun: Begun,
        part: Vec<u8>,
    },
    End {
        held: Vec<u8>,
        begun: Begun,
    },
    Feed {
        board: Vec<u64>,
        held: Vec<u8>,
        begun: Begun,
        most: usize,
        part: Vec<u8>,
    },
    Age {
        now: u64,
        last: u64,
        stamp: u64,
    },
    Counts {
        lines: u32,
        taken: u32,
        out: Vec<u8>,
        at: usize,
    },
    Write {
        values: Values,
        free: Vec<u8>,
        out: Vec<u8>,
        at: usize,
    },
    Open {
        file: Vec<u8>,
    },
    Line {
        file: Vec<u8>,
        number: usize,
    },
    KeepLine {
        line: Vec<u8>,
        out: Vec<u8>,
        offsets: Vec<u32>,
        place: usize,
        count: usize,
    },
    EndFile {
        out: Vec<u8>,
        offsets: Vec<u32>,
        place: usize,
        count: usize,
    },
    EndMany {
        lines: usize,
        room: usize,
        shifted: usize,
    },
    WriteOld {
        /// The first word, where a new message has its sequence number.
        unused: u64,
        values: OldValues,
        free: Vec<u8>,
        out: Vec<u8>,
        at: usize,
    },
}

/// The calls by their numbers, and the answer numbers that each may give; for `line` they are those of
/// opening the file. (24 at a file's end comes up in `end_many` alone.)
pub const CALLS: [(&str, &[u8]); 15] = [
    ("apply", &[0, 1, 2, 3, 4, 5, 6, 7, 8, 9, 10, 11, 12, 13]),
    ("strike", &[0, 9, 13, 14]),
    ("print", &[0, 13, 15]),
    ("cut", &[0, 2, 13]),
    ("end", &[0, 13, 17]),
    ("feed", &[0, 13]),
    ("age", &[0, 19]),
    ("counts", &[0, 15]),
    ("write", &[0, 15, 16]),
    ("open", &[0, 20, 21, 22, 23]),
    ("line", &[0, 20, 21, 22, 23]),
    ("keep_line", &[0, 2, 15, 24, 25]),
    ("end_file", &[0, 13, 15]),
    ("end_many", &[0, 13, 15, 24]),
    ("write_old", &[0, 15, 16]),
];

/// What a call answers: its number, and all that the program writes of it.
pub struct Answer {
    pub number: u8,
    pub bytes: Vec<u8>,
}

impl Case {
    /// The number of the call.
    pub fn call(&self) -> usize {
        match self {
            Case::Apply { .. } => 0,
            Case::Strike { .. } => 1,
            Case::Print { .. } => 2,
            Case::Cut { .. } => 3,
            Case::End { .. } => 4,
            Case::Feed { .. } => 5,
            Case::Age { .. } => 6,
            Case::Counts { .. } => 7,
            Case::Write { .. } => 8,
            Case::Open { .. } => 9,
            Case::Line { .. } => 10,
            Case::KeepLine { .. } => 11,
            Case::EndFile { .. } => 12,
            Case::EndMany { .. } => 13,
            Case::WriteOld { .. } => 14,
        }
    }

    /// Whether it goes over more lines than a case could bring.
    pub fn is_long(&self) -> bool {
        matches!(self, Case::EndMany { lines, .. } if *lines > 1000)
    }

    /// The case as the program reads it: eight numbers, the words, and two runs of bytes.
    pub fn bytes(&self) -> Vec<u8> {
        match self {
            Case::Apply { board, line } => self.framed(board, line, &[], [0, 0, 0]),
            Case::Strike { board, key } => self.framed(board, key, &[], [0, 0, 0]),
            Case::Print { board, out, at } => self.framed(board, out, &[], [*at as u64, 0, 0]),
            Case::Cut { held, begun, part } => {
                let (mark, count) = state(*begun);
                self.framed(&[], held, part, [mark, count, 0])
            }
            Case::End { held, begun } => {
                let (mark, count) = state(*begun);
                self.framed(&[], held, &[], [mark, count, 0])
            }
            Case::Feed {
                board,
                held,
                begun,
                most,
                part,
            } => {
                let (mark, count) = state(*begun);
                self.framed(board, held, part, [mark, count, *most as u64])
            }
            Case::Age { now, last, stamp } => self.framed(&[], &[], &[], [*now, *last, *stamp]),
            Case::Counts {
                lines,
                taken,
                out,
                at,
            } => {
                let numbers = [u64::from(*lines), u64::from(*taken), *at as u64];
                self.framed(&[], out, &[], numbers)
            }
            Case::Write {
                values,
                free,
                out,
                at,
            } => {
                let front = [values.sequence, values.stamp, values.facility];
                let words = message(front, &values.body);
                self.framed(&words, free, out, [*at as u64, 0, 0])
            }
            Case::Open { file } => self.framed(&[], file, &[], [0, 0, 0]),
            Case::Line { file, number } => self.framed(&[], file, &[], [*number as u64, 0, 0]),
            Case::KeepLine {
                line,
                out,
                offsets,
                place,
                count,
            } => {
                let numbers = [*place as u64, *count as u64, 0];
                self.framed(&wide(offsets), out, line, numbers)
            }
            Case::EndFile {
                out,
                offsets,
                place,
                count,
            } => {
                let numbers = [*place as u64, *count as u64, 0];
                self.framed(&wide(offsets), out, &[], numbers)
            }
            Case::EndMany {
                lines,
                room,
                shifted,
            } => {
                let numbers = [*lines, *room, *shifted].map(|number| number as u64);
                self.framed(&[], &[], &[], numbers)
            }
            Case::WriteOld {
                unused,
                values,
                free,
                out,
                at,
            } => {
                let front = [*unused, values.stamp, u64::from(values.center)];
                let words = message(front, &values.body);
                self.framed(&words, free, out, [*at as u64, 0, 0])
            }
        }
    }

    fn framed(&self, words: &[u64], first: &[u8], second: &[u8], numbers: [u64; 3]) -> Vec<u8> {
        let given = used(words);
        let mut bytes = Told::default();
        bytes.number(self.call() as u64);
        for size in [words.len(), given, first.len(), second.len()] {
            bytes.number(size as u64);
        }
        for number in numbers.iter().chain(&words[..given]) {
            bytes.number(*number);
        }
        [&bytes.0[..], first, second].concat()
    }

    /// What the reference answers.
    pub fn answer(&self) -> Answer {
        match self.clone() {
            Case::Apply { mut board, line } => {
                let (number, place) = words::apply(&mut board, &line);
                Told::two(number, place).words(&board).of(number)
            }
            Case::Strike { mut board, key } => {
                let (number, place) = words::strike(&mut board, &key);
                Told::two(number, place).words(&board).of(number)
            }
            Case::Print { board, mut out, at } => {
                let written = words::print_into(&board, &mut out, at);
                written_at(written, at, &out)
            }
            Case::Cut {
                mut held,
                begun,
                part,
            } => {
                let told = buffer::cut(&mut held, begun, &part);
                let place = match told.place {
                    Place::Nowhere => 0,
                    Place::Buffer => 1,
                    Place::Part => 2,
                };
                let mut answer = Told::two(told.number, place);
                answer.number(told.used as u64);
                answer.state(told.begun);
                answer.bytes(&told.line).bytes(&held).of(told.number)
            }
            Case::End { held, begun } => {
                let (number, begun) = buffer::end(&held, begun);
                let mut answer = Told::default();
                answer.number(u64::from(number));
                answer.state(begun);
                answer.bytes(&held).of(number)
            }
            Case::Feed {
                mut board,
                mut held,
                begun,
                most,
                part,
            } => {
                let fed = buffer::feed(&mut board, &mut held, begun, most, &part);
                let mut answer = Told::two(fed.number, fed.used);
                answer.number(fed.lines as u64);
                answer.number(fed.taken as u64);
                answer.state(fed.begun);
                answer.words(&board).bytes(&held).of(fed.number)
            }
            Case::Age { now, last, stamp } => {
                let (number, word, seconds) = match age_of_words(now, last, stamp) {
                    Ok(Age::Seconds(seconds)) => (0, 0, seconds),
                    Ok(Age::Ahead) => (0, 1, 0),
                    Ok(Age::Old) => (0, 2, 0),
                    Err(number) => (number, 0, 0),
                };
                let mut answer = Told::two(number, word);
                answer.number(u64::from(seconds));
                answer.of(number)
            }
            Case::Counts {
                lines,
                taken,
                mut out,
                at,
            } => {
                let text = print::counts(u64::from(lines), u64::from(taken));
                let written = put(&text, &mut out, at);
                written_at(written, at, &out)
            }
            Case::Write {
                values,
                free,
                mut out,
                at,
            } => {
                let written = values::write_into(&values, &free, &mut out, at);
                written_at(written, at, &out)
            }
            Case::Open { file } => {
                let (number, opened) = match dayfile::open(&file) {
                    Ok(opened) => (0, opened),
                    Err(number) => (number, Opened { count: 0, start: 0 }),
                };
                let mut answer = Told::two(number, opened.count);
                answer.number(opened.start as u64);
                answer.of(number)
            }
            Case::Line { file, number } => {
                let opened = dayfile::open(&file);
                let line = dayfile::line(&file, number);
                Told::default()
                    .bytes(line)
                    .of(opened.map_or_else(|number| number, |_| 0))
            }
            Case::KeepLine {
                line,
                mut out,
                mut offsets,
                place,
                count,
            } => {
                let kept = dayfile::record(&mut out, &mut offsets, place, count, &line);
                let (number, (place, count)) = match kept {
                    Ok(after) => (0, after),
                    Err(number) => (number, (0, 0)),
                };
                let mut answer = Told::two(number, place);
                answer.number(count as u64);
                answer.words(&wide(&offsets)).bytes(&out).of(number)
            }
            Case::EndFile {
                mut out,
                offsets,
                place,
                count,
            } => {
                let ended = dayfile::end(&mut out, &offsets, place, count);
                written_at(ended, 0, &out)
            }
            Case::EndMany {
                lines,
                room,
                shifted,
            } => {
                let mut out = vec![b'\n'; lines + room];
                let mut offsets: Vec<u32> = (0..lines as u32).collect();
                if let Some(offset) = offsets.get_mut(shifted) {
                    *offset += 1;
                }
                let ended = dayfile::end(&mut out, &offsets, lines, lines);
                written_at(ended, 0, &out[lines..])
            }
            Case::WriteOld {
                values,
                free,
                mut out,
                at,
                ..
            } => {
                let written = values::write_old_into(&values, &free, &mut out, at);
                written_at(written, at, &out)
            }
        }
    }
}

/// Offsets as words.
fn wide(offsets: &[u32]) -> Vec<u64> {
    offsets.iter().map(|&offset| u64::from(offset)).collect()
}

/// How many words there are up to the last that is not 0.
fn used(words: &[u64]) -> usize {
    let last = words.iter().rposition(|&word| word != 0);
    last.map_or(0, |place| place + 1)
}

/// A cutter state as two numbers: the mark, and how many bytes are held.
fn state(begun: Begun) -> (u64, u64) {
    match begun {
        Begun::Held(count) => (0, count as u64),
        Begun::Overlong => (1, 0),
    }
}

/// The 48 words of a message: three of its front, and those from its type on.
fn message(front: [u64; 3], body: &BodyValues) -> Vec<u64> {
    let mut words = front.to_vec();
    words.extend([
        body.message_type as u64,
        u64::from(body.space_at_end),
        u64::from(body.marks),
    ]);
    for &value in &body.fields {
        match value {
            Value::Text(word) => words.push(word),
            Value::Ident(key, number) => words.extend([key, number]),
            Value::Aircraft(prefix, aircraft_type, letter) => {
                words.extend([prefix, aircraft_type, letter]);
            }
            Value::Route => {}
        }
    }
    words.resize(16, 0);
    for slot in body.amendments {
        let (number, content) = match slot {
            Some(amended) => (u64::from(amended.number), amended.content),
            None => (0, Value::Route),
        };
        words.push(number);
        words.extend(match content {
            Value::Text(word) => [word, 0, 0],
            Value::Ident(key, number) => [key, number, 0],
            Value::Aircraft(prefix, aircraft_type, letter) => [prefix, aircraft_type, letter],
            Value::Route => [0; 3],
        });
    }
    words
}

/// The answer of a call that writes into a buffer: 0 with the place after what it wrote.
fn written_at(written: Result<usize, u8>, at: usize, out: &[u8]) -> Answer {
    let (number, next) = match written {
        Ok(count) => (0, at + count),
        Err(number) => (number, 0),
    };
    Told::two(number, next).bytes(out).of(number)
}

/// What the program writes: numbers of eight bytes, the least first; words and bytes with their counts.
#[derive(Default)]
struct Told(Vec<u8>);

impl Told {
    fn two(number: u8, second: usize) -> Told {
        let mut told = Told::default();
        told.number(u64::from(number));
        told.number(second as u64);
        told
    }

    fn number(&mut self, number: u64) {
        self.0.extend_from_slice(&number.to_le_bytes());
    }

    fn state(&mut self, begun: Begun) {
        let (mark, count) = state(begun);
        self.number(mark);
        self.number(count);
    }

    fn words(mut self, words: &[u64]) -> Told {
        let used = used(words);
        self.number(words.len() as u64);
        self.number(used as u64);
        for &word in &words[..used] {
            self.number(word);
        }
        self
    }

    fn bytes(mut self, bytes: &[u8]) -> Told {
        self.number(bytes.len() as u64);
        self.0.extend_from_slice(bytes);
        self
    }

    fn of(self, number: u8) -> Answer {
        Answer {
            number,
            bytes: self.0,
        }
    }
}

#[cfg(test)]
mod tests {
    use super::*;

    /// Written out by hand, for one case.
    #[test]
    fn the_bytes_of_a_case() {
        let case = Case::Cut {
            held: b"ab".to_vec(),
            begun: Begun::Held(2),
            part: b"c".to_vec(),
        };
        let numbers = |all: &[u64]| -> Vec<u8> {
            all.iter().flat_map(|number| number.to_le_bytes()).collect()
        };
        let expected = [numbers(&[3, 0, 0, 2, 1, 0, 2, 0]), b"abc".to_vec()].concat();
        assert_eq!(case.bytes(), expected);
        let told = [numbers(&[13, 0, 0, 0, 2, 0]), numbers(&[2]), b"ab".to_vec()];
        assert_eq!(case.answer().bytes, told.concat());
        let board = vec![1, 0, 7, 0, 0];
        let key = b"N".to_vec();
        let case = Case::Strike { board, key };
        let expected = [numbers(&[1, 5, 3, 1, 0, 0, 0, 0, 1, 0, 7]), b"N".to_vec()].concat();
        assert_eq!(case.bytes(), expected);
        assert_eq!(case.answer().bytes, numbers(&[9, 1, 5, 3, 1, 0, 7]));
        let case = Case::KeepLine {
            line: b"a".to_vec(),
            out: b"..x".to_vec(),
            offsets: vec![5, 0],
            place: 1,
            count: 1,
        };
        let expected = numbers(&[11, 2, 1, 3, 1, 1, 1, 0, 5]);
        assert_eq!(case.bytes(), [&expected[..], b"..xa"].concat());
        let told = [&numbers(&[0, 3, 2, 2, 2, 5, 1, 3])[..], b".a\n"].concat();
        assert_eq!(case.answer().bytes, told);
    }

    /// A message of the old feed, whose first word is not looked at.
    #[test]
    fn the_bytes_of_an_old_message() {
        let line = b"143655RDZ N5/123 T/C172 AB D0816 CD 0930 ";
        let message = reference::line::read_old(line).unwrap();
        let case = Case::WriteOld {
            unused: 7,
            values: OldValues::of(&message),
            free: Vec::new(),
            out: vec![b'.'; line.len() + 3],
            at: 2,
        };
        let word = |text: &str| reference::text::number(text.as_bytes()).unwrap();
        let mut expected = vec![14, 48, 15, 0, line.len() as u64 + 3, 2, 0, 0];
        // Type number 2, a space at the end, no marks.
        expected.extend([7, word("143655"), 82, 2, 1, 0]);
        expected.extend(["N5", "123", "T", "C172"].map(word));
        expected.push(0);
        expected.extend(["AB", "D0816", "CD", "0930"].map(word));
        let numbers = |all: &[u64]| -> Vec<u8> {
            all.iter().flat_map(|number| number.to_le_bytes()).collect()
        };
        let out = vec![b'.'; line.len() + 3];
        assert_eq!(case.bytes(), [numbers(&expected), out].concat());
        let sizes = [0, line.len() as u64 + 2, line.len() as u64 + 3];
        let told = [&numbers(&sizes)[..], b"..", line, b"."].concat();
        assert_eq!(case.answer().bytes, told);
    }
}
