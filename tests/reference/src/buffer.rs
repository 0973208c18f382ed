//! The cutter on a buffer that the caller lends, and a whole part of a feed (docs/DECISIONS.md,
//! "The cutter's buffer is lent, and a line is handed over where it lies"). The buffer has 2,048
//! bytes, and the begun line is the first so many of them; the others may be anything.

use crate::cutter::{self, State};
use crate::line::MOST_LINE;
use crate::words;

/// How much of the buffer is the begun line, or the mark that it is overlong.
#[derive(Clone, Copy, Debug, PartialEq, Eq)]
pub enum Begun {
    Held(usize),
    Overlong,
}

/// Where the line that a call hands over lies: one that began and ended in the part lies there and
/// is not copied.
#[derive(Clone, Copy, Debug, PartialEq, Eq)]
pub enum Place {
    Nowhere,
    Buffer,
    Part,
}

/// What a call tells.
#[derive(Clone, Debug, PartialEq, Eq)]
pub struct Cut {
    pub number: u8,
    pub used: usize,
    pub begun: Begun,
    pub place: Place,
    /// The line, empty where none ended.
    pub line: Vec<u8>,
}

/// The state that a buffer and a count show, if it is allowed.
fn state(buffer: &[u8], begun: Begun) -> Option<State> {
    if buffer.len() != MOST_LINE {
        return None;
    }
    let state = match begun {
        Begun::Held(count) => State::Begun(buffer.get(..count)?.to_vec()),
        Begun::Overlong => State::Overlong,
    };
    state.is_allowed().then_some(state)
}

fn begun_of(state: &State) -> Begun {
    match state {
        State::Begun(bytes) => Begun::Held(bytes.len()),
        State::Overlong => Begun::Overlong,
    }
}

/// Cuts: 13 first, and nothing used. The buffer takes up what is begun, and a line that was begun
/// in it; it stays as it is at 2 and at 13, where a line is overlong, and where a line lies whole in
/// the part.
pub fn cut(buffer: &mut [u8], begun: Begun, part: &[u8]) -> Cut {
    let Some(mut state) = state(buffer, begun) else {
        return Cut {
            number: 13,
            used: 0,
            begun,
            place: Place::Nowhere,
            line: Vec::new(),
        };
    };
    let told = cutter::cut(&mut state, part);
    let place = match told.line {
        None => Place::Nowhere,
        Some(_) if begun == Begun::Held(0) => Place::Part,
        Some(_) => Place::Buffer,
    };
    let line = told.line.unwrap_or_default();
    let written: &[u8] = match (place, &state) {
        (Place::Buffer, _) => &line,
        (Place::Nowhere, State::Begun(bytes)) => bytes,
        _ => &[],
    };
    buffer[..written.len()].copy_from_slice(written);
    Cut {
        number: told.number,
        used: told.used,
        begun: begun_of(&state),
        place,
        line,
    }
}

/// The end of the feed: 13, 17 or 0, and the state after it. The buffer stays as it is.
pub fn end(buffer: &[u8], begun: Begun) -> (u8, Begun) {
    let Some(mut state) = state(buffer, begun) else {
        return (13, begun);
    };
    let number = cutter::end(&mut state);
    (number, begun_of(&state))
}

/// What a whole part of a feed comes to: how many bytes were used, and how many lines ended and
/// were taken.
#[derive(Clone, Copy, Debug, PartialEq, Eq)]
pub struct Fed {
    pub number: u8,
    pub used: usize,
    pub begun: Begun,
    pub lines: usize,
    pub taken: usize,
}

/// Reads a part, at most `most` lines of it and not one byte after the last of these, and applies
/// each line to the board that words show; or 13, where the words or the state are not allowed.
pub fn feed(words: &mut [u64], buffer: &mut [u8], begun: Begun, most: usize, part: &[u8]) -> Fed {
    let mut fed = Fed {
        number: 0,
        used: 0,
        begun,
        lines: 0,
        taken: 0,
    };
    let board = words::board(words).filter(|_| state(buffer, begun).is_some());
    let Some(mut board) = board else {
        fed.number = 13;
        return fed;
    };
    while fed.used < part.len() && fed.lines < most {
        let told = cut(buffer, fed.begun, &part[fed.used..]);
        fed.used += told.used;
        fed.begun = told.begun;
        if told.place != Place::Nowhere {
            fed.lines += 1;
            fed.taken += usize::from(board.apply(&told.line) == (0, 0));
        } else if told.number == 2 {
            fed.lines += 1;
        }
    }
    words.copy_from_slice(&words::words(&board));
    fed
}

#[cfg(test)]
mod tests {
    use super::*;
    use crate::words::WORDS;

    const HELD: Begun = Begun::Held(3);

    /// A buffer of 2,048 bytes that begins with these.
    fn begins(bytes: &[u8]) -> Vec<u8> {
        let mut buffer = vec![b'.'; MOST_LINE];
        buffer[..bytes.len()].copy_from_slice(bytes);
        buffer
    }

    fn told(number: u8, used: usize, begun: Begun, place: Place, line: &[u8]) -> Cut {
        Cut {
            number,
            used,
            begun,
            place,
            line: line.to_vec(),
        }
    }

    /// What a cut tells, and that the buffer begins with `after` then, its other bytes as they were.
    fn cuts(bytes: &[u8], begun: Begun, part: &[u8], expected: Cut, after: &[u8]) {
        let mut buffer = begins(bytes);
        assert_eq!(cut(&mut buffer, begun, part), expected);
        assert_eq!(buffer, begins(after));
    }

    #[test]
    fn where_a_line_lies() {
        let start = Begun::Held(0);
        let in_buffer = told(0, 3, start, Place::Buffer, b"abcde");
        cuts(b"abc", HELD, b"de\nf", in_buffer, b"abcde");
        let in_part = told(0, 3, start, Place::Part, b"de");
        cuts(b"abc", start, b"de\nf", in_part, b"abc");
        cuts(
            b"abc",
            HELD,
            b"\n",
            told(0, 1, start, Place::Buffer, b"abc"),
            b"abc",
        );
        cuts(
            b"abc",
            start,
            b"\n",
            told(0, 1, start, Place::Part, b""),
            b"abc",
        );
    }

    #[test]
    fn what_is_begun() {
        let more = told(0, 2, Begun::Held(5), Place::Nowhere, b"");
        cuts(b"abcxyz", HELD, b"de", more, b"abcdez");
        cuts(
            b"abcxyz",
            HELD,
            b"",
            told(0, 0, HELD, Place::Nowhere, b""),
            b"abcxyz",
        );
    }

    /// At 2, and where a begun line becomes overlong, the buffer stays as it is.
    #[test]
    fn overlong_lines() {
        let long = [b'x'; 2046];
        let overlong = told(0, 2046, Begun::Overlong, Place::Nowhere, b"");
        cuts(b"abc", HELD, &long, overlong.clone(), b"abc");
        cuts(b"abc", Begun::Overlong, &long, overlong, b"abc");
        let ended = [&long[..], b"\n"].concat();
        let refused = told(2, 2047, Begun::Held(0), Place::Nowhere, b"");
        cuts(b"abc", HELD, &ended, refused.clone(), b"abc");
        cuts(b"abc", Begun::Overlong, &ended, refused, b"abc");
        let mut buffer = begins(b"abc");
        assert_eq!(cut(&mut buffer, HELD, &ended[1..]).line.len(), 2048);
        assert_eq!(buffer[3..], [b'x'; 2045]);
        let whole = [&[b'x'; 2049][..], b"\n"].concat();
        let refused = told(2, 2050, Begun::Held(0), Place::Nowhere, b"");
        cuts(b"abc", Begun::Held(0), &whole, refused, b"abc");
    }

    /// 13: a buffer of another size, more bytes than it has, a line feed among the begun ones.
    #[test]
    fn states_that_are_not_allowed() {
        let mut long = begins(b"abc");
        long.push(b'.');
        let cases = [
            (begins(b"abc"), Begun::Held(2049)),
            (begins(b"abc"), Begun::Held(usize::MAX)),
            (begins(b"ab\n"), HELD),
            (begins(b"\n"), HELD),
            (long.clone(), HELD),
            (long, Begun::Overlong),
            (begins(b"abc")[..2047].to_vec(), HELD),
            (Vec::new(), Begun::Held(0)),
            (Vec::new(), Begun::Overlong),
        ];
        for (buffer, begun) in cases {
            let mut after = buffer.clone();
            for part in [&b""[..], b"de", b"de\n"] {
                let expected = told(13, 0, begun, Place::Nowhere, b"");
                assert_eq!(cut(&mut after, begun, part), expected);
            }
            assert_eq!(end(&after, begun), (13, begun));
            let mut words = [0; WORDS];
            let fed = feed(&mut words, &mut after, begun, 9, b"000006143655KZMAHB\n");
            assert_eq!((fed.number, fed.used, fed.begun), (13, 0, begun));
            assert_eq!(after, buffer);
        }
    }

    /// A line feed after the begun line is none of it.
    #[test]
    fn bytes_after_the_begun_line_may_be_anything() {
        cuts(
            b"abc\n",
            HELD,
            b"",
            told(0, 0, HELD, Place::Nowhere, b""),
            b"abc\n",
        );
        assert_eq!(
            end(&[b'\n'; MOST_LINE], Begun::Held(0)),
            (0, Begun::Held(0))
        );
        assert_eq!(
            end(&[b'\n'; MOST_LINE], Begun::Overlong),
            (17, Begun::Held(0))
        );
        assert_eq!(end(&begins(b"abc\n"), HELD), (17, Begun::Held(0)));
        assert_eq!(
            end(&[b'x'; MOST_LINE], Begun::Held(2048)),
            (17, Begun::Held(0))
        );
    }

    const FEED: &[u8] = b"655KZMAHB\n\nx\n000106081500KZAAAZ N5 AB CD 0930\n0001";

    #[test]
    fn a_whole_part() {
        for most in [0, 1, 2, 3, 4, 5, usize::MAX] {
            let mut words = [0; WORDS];
            let mut buffer = begins(b"000006143");
            let fed = feed(&mut words, &mut buffer, Begun::Held(9), most, FEED);
            assert_eq!(fed.number, 0);
            assert_eq!(fed.lines, most.min(4));
            assert_eq!(fed.taken, [0, 1, 1, 1, 2][fed.lines]);
            assert_eq!(words[0], u64::from(most >= 4));
            let (used, begun) = match most {
                0 => (0, 9),
                1..=4 => ([10, 11, 13, 46][most - 1], 0),
                _ => (FEED.len(), 4),
            };
            assert_eq!((fed.used, fed.begun), (used, Begun::Held(begun)));
            let first: &[u8] = if most == 0 {
                b"000006143"
            } else {
                b"000006143655KZMAHB"
            };
            let mut after = begins(first);
            if most > 4 {
                after[..4].copy_from_slice(b"0001");
            }
            assert_eq!(buffer, after);
        }
    }

    /// An overlong line is a line and is not taken.
    #[test]
    fn an_overlong_line_in_a_part() {
        let mut words = [0; WORDS];
        let mut buffer = begins(b"");
        let part = [&[b'x'; 3000][..], b"\n000006143655KZMAHB\n"].concat();
        let fed = feed(&mut words, &mut buffer, Begun::Held(0), 9, &part);
        assert_eq!((fed.lines, fed.taken, fed.used), (2, 1, part.len()));
        assert_eq!(buffer, begins(b""));
    }

    /// A board that is not allowed: nothing is read.
    #[test]
    fn a_part_on_a_damaged_board() {
        let mut words = [0; WORDS];
        words[1] = 1;
        let mut buffer = begins(b"abc");
        let fed = feed(&mut words, &mut buffer, HELD, 9, b"000006143655KZMAHB\n");
        assert_eq!(
            (fed.number, fed.used, fed.begun, fed.lines),
            (13, 0, HELD, 0)
        );
        assert_eq!(buffer, begins(b"abc"));
    }
}
