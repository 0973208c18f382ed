//! The reference: the rules of document 01 ("The exact rules and the build") and those requests of
//! document 02 that have landed (a, d, h, l), read with the readings of docs/DECISIONS.md, written a
//! second time and plainly, to be checked against the documents by eye and then compared byte for byte
//! with the product.
//!
//! Each module holds one chapter of document 01, or a request of document 02:
//! - `rule`: which feed a line is of, the new one or the old one (request l)
//! - `field`: the forms of the fields
//! - `line`: from a line to its message, or to the number that refuses it
//! - `write`: from a message to its line
//! - `cutter`: from the parts of a feed to its lines
//! - `board`: the rows of the listed flights
//! - `age`: how old a stamp is
//! - `print`: the board as text, and the report of a whole feed
//! - `dayfile`: the lines of a day in a file (request a)
//!
//! Four more take what a caller may hand over, allowed or not, as docs/DECISIONS.md lays it out:
//! - `text`: a short text as one number
//! - `words`: a board as words
//! - `buffer`: a cutter state as a buffer and a count, and a whole part of a feed
//! - `values`: a message as numbers, and its free text
//!
//! An answer number is a `u8` and is the number of the document's table. A place is a
//! `usize`: 1 for the ident, and 0 where the answer has no place.

#![forbid(unsafe_code)]

pub mod age;
pub mod board;
pub mod buffer;
pub mod cutter;
pub mod dayfile;
pub mod field;
pub mod line;
#[cfg(test)]
mod old;
pub mod print;
pub mod rule;
pub mod text;
pub mod values;
pub mod words;
pub mod write;
