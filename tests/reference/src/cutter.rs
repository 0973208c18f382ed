//! The cutter (document 01, "Cutting"): from the parts of a feed, cut anywhere, to the lines
//! of the whole.

use crate::line::MOST_LINE;

/// "A cutter state is the bytes of a begun line, at most 2,048 and no line feed among them,
/// or the mark that it is overlong; no other is allowed." The mark stands instead of the
/// bytes (docs/DECISIONS.md).
#[derive(Clone, Debug, PartialEq, Eq)]
pub enum State {
    Begun(Vec<u8>),
    Overlong,
}

impl State {
    /// The state at a line's start.
    pub fn at_start() -> State {
        State::Begun(Vec::new())
    }

    pub fn is_allowed(&self) -> bool {
        match self {
            State::Begun(bytes) => bytes.len() <= MOST_LINE && !bytes.contains(&b'\n'),
            State::Overlong => true,
        }
    }
}

/// What a call tells: its answer number, how many bytes of the part it used, and the line,
/// if one ended.
#[derive(Clone, Debug, PartialEq, Eq)]
pub struct Cut {
    pub number: u8,
    pub used: usize,
    pub line: Option<Vec<u8>>,
}

/// "A call uses its part up to and with the first line feed, else all of it."
pub fn cut(state: &mut State, part: &[u8]) -> Cut {
    if !state.is_allowed() {
        return Cut {
            number: 13,
            used: 0,
            line: None,
        };
    }
    let line_feed = part.iter().position(|&byte| byte == b'\n');
    let piece = match line_feed {
        Some(place) => &part[..place],
        None => part,
    };
    // The begun line and the piece that follows it, if it is not overlong.
    let begun = match std::mem::replace(state, State::at_start()) {
        State::Begun(mut bytes) if bytes.len() + piece.len() <= MOST_LINE => {
            bytes.extend_from_slice(piece);
            Some(bytes)
        }
        _ => None,
    };
    match (line_feed, begun) {
        (Some(place), Some(line)) => Cut {
            number: 0,
            used: place + 1,
            line: Some(line),
        },
        // "An overlong line answers 2 once, at its line feed."
        (Some(place), None) => Cut {
            number: 2,
            used: place + 1,
            line: None,
        },
        (None, Some(bytes)) => {
            *state = State::Begun(bytes);
            Cut {
                number: 0,
                used: part.len(),
                line: None,
            }
        }
        (None, None) => {
            *state = State::Overlong;
            Cut {
                number: 0,
                used: part.len(),
                line: None,
            }
        }
    }
}

/// The end of the feed: "a begun line, overlong or not, answers 17, and is no line; at a
/// line's start the end answers 0". 13 first (docs/DECISIONS.md).
pub fn end(state: &mut State) -> u8 {
    if !state.is_allowed() {
        return 13;
    }
    if *state == State::at_start() {
        return 0;
    }
    *state = State::at_start();
    17
}

#[cfg(test)]
mod tests {
    use super::*;

    fn told(number: u8, used: usize, line: Option<&[u8]>) -> Cut {
        Cut {
            number,
            used,
            line: line.map(|line| line.to_vec()),
        }
    }

    /// All that a feed in these parts comes to: the lines, or nothing for each overlong one,
    /// and the answer at the end.
    fn whole(parts: &[&[u8]]) -> (Vec<Option<Vec<u8>>>, u8) {
        let mut state = State::at_start();
        let mut lines = Vec::new();
        for part in parts {
            let mut rest = *part;
            while !rest.is_empty() {
                let cut = cut(&mut state, rest);
                match cut.number {
                    0 if cut.line.is_some() => lines.push(cut.line),
                    0 => assert_eq!(cut.used, rest.len()),
                    2 => lines.push(None),
                    other => panic!("answer {other}"),
                }
                assert!(0 < cut.used && cut.used <= rest.len());
                rest = &rest[cut.used..];
            }
        }
        let last = end(&mut state);
        assert_eq!(state, State::at_start());
        (lines, last)
    }

    #[test]
    fn a_call_uses_its_part_up_to_and_with_the_first_line_feed() {
        let mut state = State::at_start();
        assert_eq!(cut(&mut state, b"ab\ncd\n"), told(0, 3, Some(b"ab")));
        assert_eq!(state, State::at_start());
        assert_eq!(cut(&mut state, b"cd"), told(0, 2, None));
        assert_eq!(state, State::Begun(b"cd".to_vec()));
        assert_eq!(cut(&mut state, b""), told(0, 0, None));
        assert_eq!(state, State::Begun(b"cd".to_vec()));
        assert_eq!(cut(&mut state, b"e\nf"), told(0, 2, Some(b"cde")));
        assert_eq!(cut(&mut state, b"\n"), told(0, 1, Some(b"")));
        assert_eq!(cut(&mut state, b""), told(0, 0, None));
        assert_eq!(end(&mut state), 0);
    }

    #[test]
    fn parts_cut_anywhere_make_the_lines_of_the_whole() {
        let feed = b"one\n\ntwo three\r\n\x00\xff\nfour";
        let expected = whole(&[feed]);
        assert_eq!(expected.0.len(), 4);
        assert_eq!(expected.1, 17);
        for first in 0..=feed.len() {
            for second in first..=feed.len() {
                assert_eq!(
                    whole(&[&feed[..first], &feed[first..second], &feed[second..]]),
                    expected
                );
            }
        }
        let bytes: Vec<&[u8]> = feed.chunks(1).collect();
        assert_eq!(whole(&bytes), expected);
    }

    /// 2,048 bytes are a line and 2,049 are not, however they come.
    #[test]
    fn longest_and_overlong_lines() {
        let longest = [&[b'x'; 2048][..], b"\n"].concat();
        let overlong = [&[b'x'; 2049][..], b"\n"].concat();
        let feed = [&longest[..], &overlong, b"next\n"].concat();
        let expected = (
            vec![Some(vec![b'x'; 2048]), None, Some(b"next".to_vec())],
            0,
        );
        for width in [1, 7, 683, 2047, 2048, 2049, 2050, 5000] {
            let parts: Vec<&[u8]> = feed.chunks(width).collect();
            assert_eq!(whole(&parts), expected, "parts of {width}");
        }
    }

    /// docs/DECISIONS.md: the mark is set without a line feed at 0; 2 comes once, at the line feed.
    #[test]
    fn overlong_answers_2_once() {
        let mut state = State::at_start();
        assert_eq!(cut(&mut state, &[b'x'; 2048]), told(0, 2048, None));
        assert_eq!(state, State::Begun(vec![b'x'; 2048]));
        let mut longest = state.clone();
        assert_eq!(cut(&mut longest, b"\n"), told(0, 1, Some(&[b'x'; 2048])));
        let mut at_once = state.clone();
        assert_eq!(cut(&mut at_once, b"x\ny"), told(2, 2, None));
        assert_eq!(at_once, State::at_start());
        assert_eq!(cut(&mut state, b"x"), told(0, 1, None));
        assert_eq!(state, State::Overlong);
        assert_eq!(cut(&mut state, b""), told(0, 0, None));
        assert_eq!(cut(&mut state, b"more"), told(0, 4, None));
        assert_eq!(state, State::Overlong);
        assert_eq!(cut(&mut state, b"x\nnext\n"), told(2, 2, None));
        assert_eq!(state, State::at_start());
        assert_eq!(cut(&mut state, b"next\n"), told(0, 5, Some(b"next")));
    }

    #[test]
    fn the_end_inside_a_line_answers_17() {
        let mut state = State::Begun(b"x".to_vec());
        assert_eq!(end(&mut state), 17);
        assert_eq!(state, State::at_start());
        assert_eq!(end(&mut state), 0);
        let mut state = State::Overlong;
        assert_eq!(end(&mut state), 17);
        assert_eq!(state, State::at_start());
        let mut state = State::Begun(vec![b'x'; 2048]);
        assert_eq!(end(&mut state), 17);
        assert_eq!(state, State::at_start());
    }

    /// 13 first, nothing used, the state as it was; for the end too (docs/DECISIONS.md).
    #[test]
    fn states_that_are_not_allowed() {
        for wrong in [vec![b'x'; 2049], b"a\nb".to_vec(), b"\n".to_vec()] {
            for part in [&b""[..], b"\n", b"more", b"more\n"] {
                let mut state = State::Begun(wrong.clone());
                assert_eq!(cut(&mut state, part), told(13, 0, None));
                assert_eq!(state, State::Begun(wrong.clone()));
                assert_eq!(end(&mut state), 13);
                assert_eq!(state, State::Begun(wrong.clone()));
            }
        }
    }
}
