//! The printer (document 01, "The printer"): the board as text, the report of a whole feed, the
//! check that tells a desk why each line was refused, and, for comparing, the list of a feed's
//! lines with their answers and the values of their fields.

use crate::board::{Board, Row};
use crate::cutter::{cut, end, State};
use crate::line::{amends, read, read_body, read_old, Body};
use crate::rule::Rule;
use crate::write::{put, write, write_old};

/// "It stops reading after 4,294,967,295 lines."
pub const MOST_LINES: u64 = 4_294_967_295;

/// The text of a board: the FLIGHTS line and one row per flight (docs/DECISIONS.md), or 13.
pub fn print(board: &Board) -> Result<Vec<u8>, u8> {
    if !board.is_allowed() {
        return Err(13);
    }
    let mut text = format!("FLIGHTS {}\n", board.rows().len()).into_bytes();
    for (key, row) in board.rows() {
        print_row(key, row, &mut text);
    }
    Ok(text)
}

/// Puts the text of a board into `out` from the place `at` on, and tells how many bytes it
/// has. "Printing a board: 13, 15."
pub fn print_into(board: &Board, out: &mut [u8], at: usize) -> Result<usize, u8> {
    let text = print(board)?;
    put(&text, out, at)
}

/// "key, departure, destination, clock, then track stamp, speed, level, position, a hyphen for
/// each part of a missing entry"
fn print_row(key: &[u8], row: &Row, text: &mut Vec<u8>) {
    text.extend_from_slice(key);
    match &row.arrival {
        Some(arrival) => {
            for column in [&arrival.departure, &arrival.destination, &arrival.clock] {
                text.push(b' ');
                text.extend_from_slice(column);
            }
        }
        None => text.extend_from_slice(b" - - -"),
    }
    match &row.track {
        Some(track) => {
            text.push(b' ');
            text.extend_from_slice(track.stamp.text().as_bytes());
            for column in [&track.speed, &track.level, &track.position] {
                text.push(b' ');
                text.extend_from_slice(column);
            }
        }
        None => text.extend_from_slice(b" - - - -"),
    }
    text.push(b'\n');
}

/// The board printer's whole output for a feed: each line is applied to a board that begins
/// empty, until the feed ends or `limit` lines were read; then the board, and the line LINES
/// and TAKEN. LINES counts line feeds, those of overlong and empty lines too and not an
/// unended last line; TAKEN counts the lines that answered 0, of every type (docs/DECISIONS.md).
/// Not one byte after the last of `limit` line feeds is looked at (docs/DECISIONS.md).
pub fn report(feed: &[u8], limit: u64) -> Vec<u8> {
    let mut board = Board::empty();
    let mut lines: u64 = 0;
    let mut taken: u64 = 0;
    each_line(feed, limit, |line| {
        lines += 1;
        if let Some(line) = line {
            if board.apply(line) == (0, 0) {
                taken += 1;
            }
        }
    });
    // The board began empty and was changed by `apply` alone, so it is allowed.
    let mut text = print(&board).unwrap_or_default();
    text.extend_from_slice(&counts(lines, taken));
    text
}

/// The report's last line.
pub fn counts(lines: u64, taken: u64) -> Vec<u8> {
    format!("LINES {lines} TAKEN {taken}\n").into_bytes()
}

/// For each line of a feed one line: the reader's number and place, and for a line that reads
/// its type, its key if it has one, whether writing what was read gives the same bytes, and the
/// values of its fields. An unended last line is no line. The lines are read, and written, under the
/// rule that is named.
pub fn list(rule: Rule, feed: &[u8]) -> Vec<u8> {
    let mut text = Vec::new();
    each_line(feed, u64::MAX, |line| {
        // An overlong line, which the cutter does not hand over.
        let Some(line) = line else {
            text.extend_from_slice(b"2 0\n");
            return;
        };
        match read_body(rule, line) {
            Err(refusal) => {
                text.extend_from_slice(
                    format!("{} {}\n", refusal.number, refusal.place).as_bytes(),
                );
            }
            Ok(body) => {
                text.extend_from_slice(b"0 0 ");
                text.extend_from_slice(body.message_type.text().as_bytes());
                if let Some(key) = body.key() {
                    text.push(b' ');
                    text.extend_from_slice(key);
                }
                let same = written_back(rule, line).as_deref() == Some(line);
                text.extend_from_slice(if same { b" same" } else { b" differs" });
                print_values(&body, &mut text);
                text.push(b'\n');
            }
        }
    });
    text
}

/// What comes of reading a line and writing it again.
fn written_back(rule: Rule, line: &[u8]) -> Option<Vec<u8>> {
    match rule {
        Rule::New => write(&read(line).ok()?).ok(),
        Rule::Old => write_old(&read_old(line).ok()?).ok(),
    }
}

/// For each field in order, of an AF its amendments' numbers and contents too, a space and the
/// three parts of its value. A number's value is its mark, written after a `#`.
fn print_values(body: &Body, text: &mut Vec<u8>) {
    let forms = body.message_type.fields().unwrap_or_default();
    for (form, field) in forms.iter().zip(&body.fields) {
        print_parts(form.parts(field), text);
    }
    for amendment in &body.amendments {
        // A body that was read has none but the eight numbers.
        if let Some((mark, form)) = amends(amendment.number) {
            let mark = format!("#{mark}");
            print_parts([Some(mark.as_bytes()), None, None], text);
            print_parts(form.parts(amendment.content), text);
        }
    }
}

/// A space, and three parts with commas between them, a hyphen for each that is not there.
fn print_parts(parts: [Option<&[u8]>; 3], text: &mut Vec<u8>) {
    text.push(b' ');
    text.extend(parts.map(|part| part.unwrap_or(b"-")).join(&b','));
}

/// For each line of a feed one line, by which a desk sees why a line was refused: its number from
/// 1, the answer number, the place, the type of a line that reads, and its flight's key if it has
/// one; a hyphen for each that is not there. An overlong line answers 2. An unended last line
/// answers 17, and comes after the others. With `refused_only` those that answer 0 are left out.
/// No board is asked, so no line answers 12 or 13. The lines are read under the rule that is named.
pub fn check(rule: Rule, feed: &[u8], refused_only: bool) -> Vec<u8> {
    let mut text = Vec::new();
    let mut line_number: u64 = 0;
    let at_end = each_line(feed, u64::MAX, |line| {
        line_number += 1;
        match answer(rule, line) {
            Ok(_) if refused_only => {}
            Ok(body) => {
                let message_type = body.message_type.text();
                text.extend_from_slice(format!("{line_number} 0 0 {message_type} ").as_bytes());
                text.extend_from_slice(body.key().unwrap_or(b"-"));
                text.push(b'\n');
            }
            Err((number, place)) => {
                text.extend_from_slice(format!("{line_number} {number} {place} - -\n").as_bytes());
            }
        }
    });
    if at_end != 0 {
        text.extend_from_slice(format!("{} {at_end} 0 - -\n", line_number + 1).as_bytes());
    }
    text
}

/// The sums of a check: how many lines ended, how many of them read, and how many were refused.
/// LINES counts line feeds, so an unended last line is in none of the three.
pub fn check_counts(rule: Rule, feed: &[u8]) -> Vec<u8> {
    let mut read: u64 = 0;
    let mut refused: u64 = 0;
    each_line(feed, u64::MAX, |line| match answer(rule, line) {
        Ok(_) => read += 1,
        Err(_) => refused += 1,
    });
    format!("LINES {} READ {read} REFUSED {refused}\n", read + refused).into_bytes()
}

/// What a line that the cutter told of is answered: what it says, or number and place. Nothing is
/// handed over of an overlong one, which answers 2.
fn answer(rule: Rule, line: Option<&[u8]>) -> Result<Body<'_>, (u8, usize)> {
    match line {
        Some(line) => read_body(rule, line).map_err(|refusal| (refusal.number, refusal.place)),
        None => Err((2, 0)),
    }
}

/// Cuts a feed and hands on its lines, at most `limit`; nothing for an overlong one. Gives what
/// the end of the feed answers, 17 inside a line; which no report shows.
pub fn each_line(feed: &[u8], limit: u64, mut hand_on: impl FnMut(Option<&[u8]>)) -> u8 {
    let mut state = State::at_start();
    let mut rest = feed;
    let mut count: u64 = 0;
    while count < limit && !rest.is_empty() {
        let told = cut(&mut state, rest);
        rest = &rest[told.used..];
        if told.number == 2 || told.line.is_some() {
            count += 1;
            hand_on(told.line.as_deref());
        }
    }
    end(&mut state)
}

#[cfg(test)]
mod tests {
    use super::*;
    use std::collections::BTreeMap;

    const CASE: &str = "\
000106081500KZAATZ QQX12/101 310 240 3015N/08430W
000206081600KZAADZ QQX12/101 C172/A ABC D0816 DEF 0930
000306081700KZAATZ QQX12/101 315 250C 3020N/08430W
000406081800KZAAAZ N5AB GHI JKL A0810
000506081900KZAATZ QQX12 315 250 3020N/08430W
";

    fn reported(feed: &str) -> String {
        String::from_utf8(report(feed.as_bytes(), MOST_LINES)).unwrap()
    }

    fn listed(feed: &str) -> String {
        String::from_utf8(list(Rule::New, feed.as_bytes())).unwrap()
    }

    #[test]
    fn the_printed_case() {
        assert_eq!(
            reported(CASE),
            "FLIGHTS 2\n\
             N5AB GHI JKL A0810 - - - -\n\
             QQX12 ABC DEF 0930 06081700 315 250C 3020N/08430W\n\
             LINES 5 TAKEN 4\n"
        );
        assert_eq!(
            listed(CASE),
            "0 0 TZ QQX12 same QQX12,101,- 310,-,- 240,-,- 3015N/08430W,-,-\n\
             0 0 DZ QQX12 same QQX12,101,- -,C172,A ABC,-,- D0816,-,- DEF,-,- 0930,-,-\n\
             0 0 TZ QQX12 same QQX12,101,- 315,-,- 250C,-,- 3020N/08430W,-,-\n\
             0 0 AZ N5AB same N5AB,-,- GHI,-,- JKL,-,- A0810,-,-\n\
             9 1\n"
        );
    }

    /// The case after each of its lines.
    #[test]
    fn the_printed_case_line_by_line() {
        let limited = |limit: u64| String::from_utf8(report(CASE.as_bytes(), limit)).unwrap();
        assert_eq!(limited(0), "FLIGHTS 0\nLINES 0 TAKEN 0\n");
        assert_eq!(
            limited(1),
            "FLIGHTS 1\nQQX12 - - - 06081500 310 240 3015N/08430W\nLINES 1 TAKEN 1\n"
        );
        assert_eq!(
            limited(2),
            "FLIGHTS 1\nQQX12 ABC DEF 0930 - - - -\nLINES 2 TAKEN 2\n"
        );
        assert_eq!(
            limited(3),
            "FLIGHTS 1\nQQX12 ABC DEF 0930 06081700 315 250C 3020N/08430W\nLINES 3 TAKEN 3\n"
        );
        assert_eq!(limited(5), reported(CASE));
        assert_eq!(limited(6), reported(CASE));
    }

    /// docs/DECISIONS.md: nothing after the last line feed of the limit is used.
    #[test]
    fn nothing_is_read_past_the_limit() {
        let long = format!("{CASE}{}", CASE.replace("QQX12", "QQX13"));
        assert_eq!(
            report(long.as_bytes(), 5),
            report(CASE.as_bytes(), MOST_LINES)
        );
        let overlong = format!("{}\n\n{CASE}", "x".repeat(3000));
        assert_eq!(
            report(overlong.as_bytes(), 2),
            b"FLIGHTS 0\nLINES 2 TAKEN 0\n"
        );
    }

    #[test]
    fn the_empty_feed() {
        assert_eq!(reported(""), "FLIGHTS 0\nLINES 0 TAKEN 0\n");
        assert_eq!(listed(""), "");
    }

    /// docs/DECISIONS.md: LINES counts empty and overlong lines and not an unended last one; TAKEN
    /// counts every type.
    #[test]
    fn lines_and_taken() {
        assert_eq!(reported("\n\n"), "FLIGHTS 0\nLINES 2 TAKEN 0\n");
        assert_eq!(
            reported("000006143655KZMAHB"),
            "FLIGHTS 0\nLINES 0 TAKEN 0\n"
        );
        assert_eq!(listed("000006143655KZMAHB"), "");
        assert_eq!(
            reported("000006143655KZMAHB\n"),
            "FLIGHTS 0\nLINES 1 TAKEN 1\n"
        );
        assert_eq!(
            reported("000006143655KZMAHB\r\n"),
            "FLIGHTS 0\nLINES 1 TAKEN 0\n"
        );
        let overlong = format!("{}\n000006143655KZMAHB\n", "x".repeat(2049));
        assert_eq!(reported(&overlong), "FLIGHTS 0\nLINES 2 TAKEN 1\n");
        assert_eq!(listed(&overlong), "2 0\n0 0 HB same\n");
        let longest = format!("000006143655KZMART{}\n", "x".repeat(2030));
        assert_eq!(reported(&longest), "FLIGHTS 0\nLINES 1 TAKEN 1\n");
        let all = "000006143655KZMAHB\n000006143655KZMARTx\n000006143655KZMATO\n\
                   000006143655KZMARZ N5 AB CD\n000006143655KZMAAF N5 AB CD 08 050\n\
                   000006143655KZMAFZ N5 C172 120 AB D0816 050 AB\n\
                   000006143655KZMAUZ N5 C172 120 AB D0816 050 AB\n";
        assert_eq!(reported(all), "FLIGHTS 0\nLINES 7 TAKEN 7\n");
    }

    #[test]
    fn the_list_of_lines() {
        let feed =
            "000006143655KZMAH\n000006143655KZMAHBx\n000106143655KZMAAF N5/123 AB CD 08 050 \n\
                    000106143655KZMAAF N5 AB CD 08 050 08 050\n000106143655KZMATZ \n";
        assert_eq!(
            listed(feed),
            "1 0\n0 0 HB same\n0 0 AF N5 same N5,123,- AB,-,- CD,-,- #32,-,- 050,-,-\n10 6\n8 0\n"
        );
    }

    /// The values that the list ends with, for a type and body after a good front.
    fn values(body: &str) -> String {
        let listed = listed(&format!("000106081500KZAA{body}\n"));
        let (_, values) = listed.split_once(" same").unwrap();
        values.trim_end_matches('\n').to_string()
    }

    /// "`C172/A` is type C172, letter A; `T/AB` is prefix T, type AB; .. `T/B73S/F` has all three";
    /// a prefix of two, and a type alone.
    #[test]
    fn the_values_of_an_aircraft() {
        for (aircraft, parts) in [
            ("C172/A", "-,C172,A"),
            ("T/AB", "T,AB,-"),
            ("T/B73S/F", "T,B73S,F"),
            ("2H/C172/A", "2H,C172,A"),
            ("2H/C172", "2H,C172,-"),
            ("C172", "-,C172,-"),
            ("1/12/B", "1,12,B"),
            ("12/B", "-,12,B"),
        ] {
            assert_eq!(
                values(&format!("DZ QQX12/101 {aircraft} ABC D0816 DEF 0930")),
                format!(" QQX12,101,- {parts} ABC,-,- D0816,-,- DEF,-,- 0930,-,-")
            );
            assert_eq!(
                values(&format!("UZ N5 {aircraft} SC AB/1 P0816 05B100 AB..CD,-")),
                format!(" N5,-,- {parts} SC,-,- AB/1,-,- P0816,-,- 05B100,-,- -,-,-")
            );
        }
    }

    #[test]
    fn the_values_of_each_type() {
        assert_eq!(values("RZ N5 ABC DEF"), " N5,-,- ABC,-,- DEF,-,-");
        assert_eq!(
            values("RZ ABCDEFG/12Z AB CD "),
            " ABCDEFG,12Z,- AB,-,- CD,-,-"
        );
        assert_eq!(
            values("AZ N5/000 AB CD 0810"),
            " N5,000,- AB,-,- CD,-,- 0810,-,-"
        );
        assert_eq!(
            values("TZ N5/12Z 005 000C 0000S/00000W "),
            " N5,12Z,- 005,-,- 000C,-,- 0000S/00000W,-,-"
        );
        assert_eq!(
            values("FZ N5 C172 0120 3015N/08430W E0816 05 ,,-"),
            " N5,-,- -,C172,- 0120,-,- 3015N/08430W,-,- E0816,-,- 05,-,- -,-,-"
        );
        for kept in ["RT a,b,c", "TO N5 AB CD", "HB", "HB "] {
            assert_eq!(values(kept), "");
        }
    }

    /// "a set of eight marks, one per number": in the order in which the numbers came, and each
    /// before its content.
    #[test]
    fn the_values_of_amendments() {
        assert_eq!(
            values("AF N5 AB CD 02 N6/123 03 T/B73S/F 05 SC 06 AB/C 07 P0816 08 05 09 60B70 10 A"),
            " N5,-,- AB,-,- CD,-,- #1,-,- N6,123,- #2,-,- T,B73S,F #4,-,- SC,-,- #8,-,- AB/C,-,- \
             #16,-,- P0816,-,- #32,-,- 05,-,- #64,-,- 60B70,-,- #128,-,- -,-,-"
        );
        assert_eq!(
            values("AF N5/12A AB CD 10 AB..CD 03 C172 02 N6 "),
            " N5,12A,- AB,-,- CD,-,- #128,-,- -,-,- #2,-,- -,C172,- #1,-,- N6,-,-"
        );
    }

    fn checked(feed: &str, refused_only: bool) -> String {
        String::from_utf8(check(Rule::New, feed.as_bytes(), refused_only)).unwrap()
    }

    fn sums(feed: &str) -> String {
        String::from_utf8(check_counts(Rule::New, feed.as_bytes())).unwrap()
    }

    #[test]
    fn the_printed_case_checked() {
        assert_eq!(
            checked(CASE, false),
            "1 0 0 TZ QQX12\n2 0 0 DZ QQX12\n3 0 0 TZ QQX12\n4 0 0 AZ N5AB\n5 9 1 - -\n"
        );
        assert_eq!(checked(CASE, true), "5 9 1 - -\n");
        assert_eq!(sums(CASE), "LINES 5 READ 4 REFUSED 1\n");
        // A heartbeat reads and has no flight.
        let more = format!("{CASE}000006143655KZMAHB\n");
        assert!(checked(&more, false).ends_with("\n5 9 1 - -\n6 0 0 HB -\n"));
        assert_eq!(checked(&more, true), "5 9 1 - -\n");
        assert_eq!(sums(&more), "LINES 6 READ 5 REFUSED 1\n");
    }

    /// Lines keep the numbers that they have in the feed, the empty and the overlong ones too.
    #[test]
    fn each_line_has_its_number() {
        let overlong = "x".repeat(2049);
        let feed = format!(
            "\n{overlong}\n000006143655KZMAH\u{7f}\n000106143655KZMAAF N5/123 AB CD 08 050 08 050\n\
             000106143655KZMAAF N5/123 AB CD 08 050\n\n"
        );
        let refused = [
            "1 1 0 - -",
            "2 2 0 - -",
            "3 3 0 - -",
            "4 10 6 - -",
            "6 1 0 - -",
        ];
        assert_eq!(checked(&feed, true), refused.join("\n") + "\n");
        assert_eq!(
            checked(&feed, false),
            "1 1 0 - -\n2 2 0 - -\n3 3 0 - -\n4 10 6 - -\n5 0 0 AF N5\n6 1 0 - -\n"
        );
        assert_eq!(sums(&feed), "LINES 6 READ 1 REFUSED 5\n");
    }

    /// "At the end a begun line, overlong or not, answers 17, and is no line."
    #[test]
    fn an_unended_last_line_is_checked() {
        for only in [false, true] {
            assert_eq!(checked("", only), "");
            assert_eq!(checked("x", only), "1 17 0 - -\n");
            assert_eq!(checked("000006143655KZMAHB", only), "1 17 0 - -\n");
            assert_eq!(checked(&"x".repeat(3000), only), "1 17 0 - -\n");
            assert_eq!(checked("\n\n ", only), "1 1 0 - -\n2 1 0 - -\n3 17 0 - -\n");
        }
        assert_eq!(
            checked("000006143655KZMAHB\n000006143655KZMAHB", false),
            "1 0 0 HB -\n2 17 0 - -\n"
        );
        assert_eq!(
            sums("000006143655KZMAHB\n000006143655KZMAHB"),
            "LINES 1 READ 1 REFUSED 0\n"
        );
        assert_eq!(sums(""), "LINES 0 READ 0 REFUSED 0\n");
        assert_eq!(sums("x"), "LINES 0 READ 0 REFUSED 0\n");
    }

    /// No board is asked: a flight that would find no room reads all the same.
    #[test]
    fn a_check_has_no_board() {
        let track =
            |flight: usize| format!("000106081500KZAATZ N{flight:03}/123 310 240 3015N/08430W\n");
        let feed: String = (0..300).map(track).collect();
        assert!(checked(&feed, false).ends_with("\n300 0 0 TZ N299\n"));
        assert_eq!(checked(&feed, true), "");
        assert_eq!(sums(&feed), "LINES 300 READ 300 REFUSED 0\n");
    }

    /// The error of the trade "counting a TZ that found no room as taken".
    #[test]
    fn a_track_without_room_is_not_taken() {
        let track =
            |flight: usize| format!("000106081500KZAATZ N{flight:03}/123 310 240 3015N/08430W\n");
        let feed: String = (0..300).map(track).collect();
        let text = reported(&feed);
        assert!(text.starts_with("FLIGHTS 256\nN000 - - - 06081500 310 240 3015N/08430W\nN001 "));
        assert!(text.ends_with("\nN255 - - - 06081500 310 240 3015N/08430W\nLINES 300 TAKEN 256\n"));
        // A listed one is taken all the same.
        let text = reported(&format!("{feed}{}", track(7)));
        assert!(text.ends_with("\nLINES 301 TAKEN 257\n"));
    }

    /// The hemisphere letters and the digits come out as they went in.
    #[test]
    fn columns_are_printed_as_they_came() {
        assert_eq!(
            reported("000106081500KZAATZ N5/123 005 000C 0000S/00000W\n000106081500KZAAAZ N6 AB CD E0005 \n"),
            "FLIGHTS 2\nN5 - - - 06081500 005 000C 0000S/00000W\nN6 AB CD E0005 - - - -\nLINES 2 TAKEN 2\n"
        );
    }

    /// "Printing a board: 13, 15"; nothing is written on a refusal.
    #[test]
    fn printing_into_a_buffer() {
        let mut board = Board::empty();
        board.apply(b"000406081800KZAAAZ N5AB GHI JKL A0810");
        let text = b"FLIGHTS 1\nN5AB GHI JKL A0810 - - - -\n";
        assert_eq!(print(&board).unwrap(), text);
        let mut out = vec![b'.'; text.len() + 3];
        assert_eq!(print_into(&board, &mut out, 2), Ok(text.len()));
        assert_eq!(out, [b"..", &text[..], b"."].concat());
        for at in [4, 5, text.len() + 3, text.len() + 4, usize::MAX] {
            let mut out = vec![b'.'; text.len() + 3];
            assert_eq!(print_into(&board, &mut out, at), Err(15));
            assert_eq!(out, vec![b'.'; text.len() + 3]);
        }
        let wrong = Board::of_rows(BTreeMap::from([(b"N5".to_vec(), Row::default())]));
        let mut out = [b'.'; 4];
        assert_eq!(print_into(&wrong, &mut out, 9), Err(13));
        assert_eq!(out, [b'.'; 4]);
    }
}
