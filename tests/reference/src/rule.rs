//! The two rules by which a line is read and written (document 02, request l): the new feed's, which is
//! document 01's, and the old feed's. "Both rules stay, and the caller names the one meant."

#[derive(Clone, Copy, Debug, PartialEq, Eq)]
pub enum Rule {
    New,
    Old,
}

impl Rule {
    /// The bytes of a line before its type. New: sequence number, stamp, facility (4, 8, 4). Old: "six
    /// digits HHMMSS, one capital for the center".
    pub fn front(self) -> usize {
        match self {
            Rule::New => 16,
            Rule::Old => 7,
        }
    }

    /// A line of fewer bytes answers 1: "line under 18 bytes", and of the old feed "under nine bytes".
    pub fn least_line(self) -> usize {
        match self {
            Rule::New => 18,
            Rule::Old => 9,
        }
    }
}
