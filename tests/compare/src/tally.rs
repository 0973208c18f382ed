//! What came up: how many lines of each answer number under each rule, by the reference, so that one
//! sees what the feeds exercised.

use reference::board::{Board, MOST_ROWS};
use reference::cutter::{cut, end, State};
use reference::line::{read_body, Type};
use reference::rule::Rule;
use std::collections::BTreeMap;

/// The numbers that a feed can give. The others are answers to calls that no feed makes.
const REACHABLE: [usize; 14] = [0, 1, 2, 3, 4, 5, 6, 7, 8, 9, 10, 11, 12, 17];
/// Those of the old feed: it has no sequence number, and touches no board.
const REACHABLE_OLD: [usize; 12] = [0, 1, 2, 3, 5, 6, 7, 8, 9, 10, 11, 17];

#[derive(Default)]
pub struct Tally {
    pub feeds: u64,
    pub lines: u64,
    /// Each line under the new rule, with a board, and under the old one.
    new: Answers,
    old: Answers,
    /// The feeds whose board was full at their end.
    full_boards: u64,
}

/// The answers under one rule.
#[derive(Default)]
struct Answers {
    numbers: [u64; 20],
    /// Of 9 and 10: how many at each place.
    places: [BTreeMap<usize, u64>; 2],
    /// The taken lines by their types.
    types: BTreeMap<&'static str, u64>,
}

impl Tally {
    pub fn taken(&self) -> u64 {
        self.new.numbers[0]
    }

    /// How many lines are such of the old feed.
    pub fn read_as_old(&self) -> u64 {
        self.old.numbers[0]
    }

    /// Counts the answers to the lines of a feed, and to its end where that is inside a line.
    pub fn count(&mut self, feed: &[u8]) {
        let mut board = Board::empty();
        let mut state = State::at_start();
        let mut rest = feed;
        while !rest.is_empty() {
            let told = cut(&mut state, rest);
            rest = &rest[told.used..];
            match told.line {
                Some(line) => {
                    let (new, old) = (read_type(Rule::New, &line), read_type(Rule::Old, &line));
                    // The board may refuse what reads.
                    let new = match (new, board.apply(&line)) {
                        (Ok(message_type), (0, _)) => Ok(message_type),
                        (_, refusal) => Err(refusal),
                    };
                    self.count_line(new, old);
                }
                None if told.number == 2 => self.count_line(Err((2, 0)), Err((2, 0))),
                None => {}
            }
        }
        if end(&mut state) == 17 {
            self.new.numbers[17] += 1;
            self.old.numbers[17] += 1;
        }
        if board.rows().len() == MOST_ROWS {
            self.full_boards += 1;
        }
        self.feeds += 1;
    }

    fn count_line(&mut self, new: Answer, old: Answer) {
        self.lines += 1;
        self.new.count(new);
        self.old.count(old);
    }

    /// Prints a table for each rule, and the numbers that did not come up.
    pub fn print(&self) {
        self.new.print("answer", &REACHABLE, self.full_boards);
        self.old.print("as old", &REACHABLE_OLD, 0);
    }
}

/// What a line is answered: its type, or number and place.
type Answer = Result<Type, (u8, usize)>;

fn read_type(rule: Rule, line: &[u8]) -> Answer {
    match read_body(rule, line) {
        Ok(body) => Ok(body.message_type),
        Err(refusal) => Err((refusal.number, refusal.place)),
    }
}

impl Answers {
    fn count(&mut self, answer: Answer) {
        match answer {
            Ok(message_type) => {
                self.numbers[0] += 1;
                *self.types.entry(message_type.text()).or_default() += 1;
            }
            Err((number, place)) => {
                self.numbers[usize::from(number)] += 1;
                if let 9 | 10 = number {
                    let places = &mut self.places[usize::from(number) - 9];
                    *places.entry(place).or_default() += 1;
                }
            }
        }
    }

    fn print(&self, name: &str, reachable: &[usize], full_boards: u64) {
        println!("{name}     count");
        for number in 0..self.numbers.len() {
            if reachable.contains(&number) || self.numbers[number] > 0 {
                let detail = match number {
                    0 => listed("types", &self.types),
                    9 => listed("places", &self.places[0]),
                    10 => listed("places", &self.places[1]),
                    12 => format!("  full boards: {full_boards}"),
                    _ => String::new(),
                };
                println!("{number:6} {:9}{detail}", self.numbers[number]);
            }
        }
        let missing: Vec<String> = reachable
            .iter()
            .filter(|&&number| self.numbers[number] == 0)
            .map(|number| number.to_string())
            .collect();
        if missing.is_empty() {
            println!("every number that a feed can give came up");
        } else {
            println!("did not come up: {}", missing.join(" "));
        }
    }
}

fn listed<K: std::fmt::Display>(what: &str, counts: &BTreeMap<K, u64>) -> String {
    let parts: Vec<String> = counts
        .iter()
        .map(|(name, count)| format!("{name}: {count}"))
        .collect();
    format!("  {what} {}", parts.join(", "))
}
