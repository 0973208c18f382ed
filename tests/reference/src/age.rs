//! The age of a stamp (document 01, "Age").

use crate::field::Stamp;
use crate::words;

#[derive(Clone, Copy, Debug, PartialEq, Eq)]
pub enum Age {
    Seconds(u32),
    Ahead,
    Old,
}

/// How old `stamp` is, given now and the last day of the previous month; or 19: "now, the
/// stamp, or the month's last day, out of range". Each number's own range is all that 19
/// tests (docs/DECISIONS.md).
pub fn age(now: Stamp, last_day: u8, stamp: Stamp) -> Result<Age, u8> {
    if !now.in_range() || !stamp.in_range() || !(28..=31).contains(&last_day) {
        return Err(19);
    }
    // "The day before the 1st is that last day"; of any other day, the day less 1 (docs/DECISIONS.md).
    let day_before = if now.day == 1 { last_day } else { now.day - 1 };
    if stamp.day == now.day {
        if stamp.second_of_day() <= now.second_of_day() {
            Ok(Age::Seconds(now.second_of_day() - stamp.second_of_day()))
        } else {
            Ok(Age::Ahead)
        }
    } else if stamp.day == day_before {
        Ok(Age::Seconds(
            86_400 - stamp.second_of_day() + now.second_of_day(),
        ))
    } else {
        Ok(Age::Old)
    }
}

/// The same asked of numbers, as a caller may have any: of a stamp the number of its text.
pub fn age_of_words(now: u64, last_day: u64, stamp: u64) -> Result<Age, u8> {
    let last_day = u8::try_from(last_day).map_err(|_| 19)?;
    let read = |word: u64| words::stamp(word).ok_or(19);
    age(read(now)?, last_day, read(stamp)?)
}

#[cfg(test)]
mod tests {
    use super::*;

    fn asked(now: &str, last_day: u8, stamp: &str) -> Result<Age, u8> {
        age(
            Stamp::read(now.as_bytes()).unwrap(),
            last_day,
            Stamp::read(stamp.as_bytes()).unwrap(),
        )
    }

    #[test]
    fn known_reading_ages() {
        for last_day in 28..=31 {
            assert_eq!(
                asked("06081800", last_day, "06081700"),
                Ok(Age::Seconds(60))
            );
            assert_eq!(asked("06081659", last_day, "06081700"), Ok(Age::Ahead));
        }
        assert_eq!(asked("01000010", 30, "30235950"), Ok(Age::Seconds(20)));
    }

    #[test]
    fn same_day_and_day_before() {
        assert_eq!(asked("06081700", 30, "06081700"), Ok(Age::Seconds(0)));
        assert_eq!(asked("06235959", 30, "06000000"), Ok(Age::Seconds(86_399)));
        assert_eq!(asked("06000000", 30, "06000001"), Ok(Age::Ahead));
        assert_eq!(asked("06000000", 30, "05000000"), Ok(Age::Seconds(86_400)));
        assert_eq!(asked("06235959", 30, "05000000"), Ok(Age::Seconds(172_799)));
        assert_eq!(asked("06000000", 30, "05235959"), Ok(Age::Seconds(1)));
    }

    #[test]
    fn old() {
        assert_eq!(asked("06081700", 30, "04235959"), Ok(Age::Old));
        assert_eq!(asked("06081700", 30, "07000000"), Ok(Age::Old));
        assert_eq!(asked("06081700", 30, "30000000"), Ok(Age::Old));
    }

    /// "The day before the 1st is that last day"; docs/DECISIONS.md.
    #[test]
    fn around_the_1st() {
        for last_day in 28..=31 {
            for day in 2..=31 {
                let stamp = Stamp {
                    day,
                    hour: 23,
                    minute: 59,
                    second: 50,
                };
                let now = Stamp {
                    day: 1,
                    hour: 0,
                    minute: 0,
                    second: 10,
                };
                let expected = if day == last_day {
                    Age::Seconds(20)
                } else {
                    Age::Old
                };
                assert_eq!(age(now, last_day, stamp), Ok(expected));
            }
            assert_eq!(asked("02000000", last_day, "01235959"), Ok(Age::Seconds(1)));
            assert_eq!(asked("31000000", last_day, "30235959"), Ok(Age::Seconds(1)));
        }
        assert_eq!(asked("01000010", 30, "31235950"), Ok(Age::Old));
    }

    #[test]
    fn out_of_range() {
        let good = Stamp {
            day: 6,
            hour: 8,
            minute: 15,
            second: 0,
        };
        for last_day in [0, 1, 27, 32, 255] {
            assert_eq!(age(good, last_day, good), Err(19));
        }
        for wrong in [
            Stamp { day: 0, ..good },
            Stamp { day: 32, ..good },
            Stamp { hour: 24, ..good },
            Stamp { minute: 60, ..good },
            Stamp { second: 60, ..good },
        ] {
            assert_eq!(age(wrong, 30, good), Err(19));
            assert_eq!(age(good, 30, wrong), Err(19));
        }
    }

    #[test]
    fn any_numbers() {
        let word = |text: &str| crate::text::number(text.as_bytes()).unwrap();
        let (now, stamp) = (word("01000010"), word("30235950"));
        assert_eq!(age_of_words(now, 30, stamp), Ok(Age::Seconds(20)));
        assert_eq!(age_of_words(now, 31, stamp), Ok(Age::Old));
        for last_day in [0, 27, 32, 30 + 256, u64::MAX] {
            assert_eq!(age_of_words(now, last_day, stamp), Err(19));
        }
        for wrong in [
            0,
            1,
            now + 1,
            38_u64.pow(12) + now,
            word("0100001"),
            word("00000010"),
            word("01240010"),
            word("N5"),
        ] {
            assert_eq!(age_of_words(wrong, 30, stamp), Err(19));
            assert_eq!(age_of_words(now, 30, wrong), Err(19));
        }
    }
}
