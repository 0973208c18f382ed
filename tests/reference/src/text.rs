//! A short text as one number (docs/DECISIONS.md, "A field is its text, held as one number"):
//! twelve places of base 38, the text's bytes in the first of them and 0 in the others. In its
//! place 0 to 9 are 1 to 10, A to Z are 11 to 36, and a slash is 37.

/// The most bytes of a short text.
const PLACES: usize = 12;
const BASE: u64 = 38;

fn code(byte: u8) -> Option<u64> {
    match byte {
        b'0'..=b'9' => Some(u64::from(byte - b'0') + 1),
        b'A'..=b'Z' => Some(u64::from(byte - b'A') + 11),
        b'/' => Some(37),
        _ => None,
    }
}

/// The byte of a code from 1 to 37.
fn byte(code: u64) -> u8 {
    b"0123456789ABCDEFGHIJKLMNOPQRSTUVWXYZ/"[code as usize - 1]
}

/// The number of a text, if it is a short one.
pub fn number(text: &[u8]) -> Option<u64> {
    if text.len() > PLACES {
        return None;
    }
    let mut number = 0;
    for place in 0..PLACES {
        let code = match text.get(place) {
            Some(&byte) => code(byte)?,
            None => 0,
        };
        number = number * BASE + code;
    }
    Some(number)
}

/// The text of a number, if it is the number of one.
pub fn text(number: u64) -> Option<Vec<u8>> {
    let mut rest = number;
    let mut codes = [0; PLACES];
    for code in codes.iter_mut().rev() {
        *code = rest % BASE;
        rest /= BASE;
    }
    if rest != 0 {
        return None;
    }
    let width = codes.iter().take_while(|&&code| code != 0).count();
    if codes[width..].iter().any(|&code| code != 0) {
        return None;
    }
    Some(codes[..width].iter().map(|&code| byte(code)).collect())
}

#[cfg(test)]
mod tests {
    use super::*;

    #[test]
    fn a_text_and_its_number_give_each_other() {
        for short in [
            "",
            "0",
            "9",
            "A",
            "Z",
            "/",
            "N5",
            "N5/123",
            "3015N/08430W",
            "ZZZZZZZZZZZZ",
            "////////////",
        ] {
            let packed = number(short.as_bytes()).unwrap();
            assert_eq!(text(packed).unwrap(), short.as_bytes());
        }
        assert_eq!(number(b""), Some(0));
        assert_eq!(
            number(b"00000000000A"),
            Some((38_u64.pow(12) - 1) / 37 + 10)
        );
        assert_eq!(number(b"N"), Some(24 * 38_u64.pow(11)));
        assert_eq!(
            number(b"/1"),
            Some(37 * 38_u64.pow(11) + 2 * 38_u64.pow(10))
        );
    }

    #[test]
    fn what_is_no_short_text() {
        for long in ["ABCDEFGHIJKLM", "3015N/08430W1"] {
            assert_eq!(number(long.as_bytes()), None);
        }
        for byte in 0..=255_u8 {
            let known = byte.is_ascii_digit() || byte.is_ascii_uppercase() || byte == b'/';
            assert_eq!(number(&[byte]).is_some(), known);
            assert_eq!(number(&[b'A', byte]).is_some(), known);
        }
    }

    /// A place after an empty one, and a number beyond the places.
    #[test]
    fn numbers_of_no_text() {
        let n5 = number(b"N5").unwrap();
        for wrong in [
            1,
            37,
            n5 + 1,
            n5 + 38,
            38_u64.pow(11) - 1,
            38_u64.pow(12),
            38_u64.pow(12) + n5,
            u64::MAX,
        ] {
            assert_eq!(text(wrong), None, "{wrong}");
        }
        assert_eq!(text(38_u64.pow(11)), Some(b"0".to_vec()));
        assert_eq!(text(38_u64.pow(12) - 1), Some(b"////////////".to_vec()));
    }

    /// "number order is byte order of keys" (docs/DECISIONS.md).
    #[test]
    fn the_order_of_keys() {
        let keys = [
            "A0", "A00", "A0A", "A9", "AA", "AAA", "AB", "N5", "N50", "ZZZZZZZ",
        ];
        let numbers: Vec<u64> = keys.map(|key| number(key.as_bytes()).unwrap()).to_vec();
        assert!(numbers.windows(2).all(|two| two[0] < two[1]));
    }
}
