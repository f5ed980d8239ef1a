//! An index of a message's entries, for who asks for names many times: it is built once, and names are looked up in it.
use core::fmt;

use super::whole::ReadErr;
use super::words::fault;
use crate::ffi;
pub use crate::ffi::Row;

/// Why a table can't be looked up in.
#[derive(Debug, Clone, Copy, PartialEq, Eq)]
pub enum LookErr {
    /// The input has more than [`LIMIT`](crate::LIMIT) bytes.
    InputTooLong,
    /// The table isn't whole rows within the input, each strictly before the next.
    BadSpan,
}

impl LookErr {
    /// The refusal's number, as in include/sartrogheo.h: 9 or 16.
    pub fn number(&self) -> u32 {
        match self {
            LookErr::InputTooLong => ffi::INPUT_TOO_LONG as u32,
            LookErr::BadSpan => ffi::BAD_SPAN,
        }
    }
}

impl fmt::Display for LookErr {
    fn fmt(&self, f: &mut fmt::Formatter<'_>) -> fmt::Result {
        fmt::Debug::fmt(self, f)
    }
}

impl core::error::Error for LookErr {}

/// The entries of a message by name.
#[derive(Debug, Clone, Copy, PartialEq, Eq)]
pub struct Index<'t> {
    /// The rows of the entries, sorted, and nothing else: the table's first numbers, four a row, in the order of the fields of [`Row`]. [`look_up`] is lent these.
    pub rows: &'t [u32],
    /// The place behind the message, where the next one begins.
    pub next: usize,
}

/// Reads the message at a place of the input, as [`read_message`](super::whole::read_message) does, and leaves a row for each entry of a list in the table, sorted:
/// by the bytes of the names, a beginning before the longer name, and rows of one name by where their entries start.
///
/// What is refused is what [`read_message`](super::whole::read_message) refuses, and leaves the table as it was. A row takes four numbers, and a part of a row is no room; a number for every two bytes of the
/// input is always enough, since an entry has eight bytes at least. Numbers behind the rows stay. An open or a close has no rows.
///
/// ```
/// use sartrogheo::parser::common::Value;
/// use sartrogheo::parser::index::{build_index, look_up};
///
/// let payload = [
///     0x76, 0x03, 0xdd, 0x43, 0x62, 0x00, 0x62, 0x00, 0x72, 0x63, 0x07, 0x01, 0x77, 0x01, 0x02, 0x73, 0x01, 0x01, // a list
///     0x72, 0x77, 0x02, 0x62, 0x01, 0x01, 0x01, 0x01, 0x62, 0x07, 0x01, // of two entries, b = 7
///     0x77, 0x02, 0x61, 0x01, 0x01, 0x01, 0x01, 0x62, 0x08, 0x01, // and a = 8
///     0x01, 0x01, 0x63, 0x01, 0x93, 0x00,
/// ];
/// let mut table = [0; 4 * 8];
/// let index = build_index(&payload, 0, &mut table).unwrap();
/// assert_eq!((index.rows.len(), index.next), (4 * 2, payload.len()));
/// let value = |name| Some(look_up(&payload, index.rows, name).unwrap()?.entry(&payload)?.value);
/// assert_eq!([value(b"a"), value(b"b"), value(b"c")], [Some(Value::U8(8)), Some(Value::U8(7)), None]);
/// ```
pub fn build_index<'t>(input: &[u8], at: usize, table: &'t mut [u32]) -> Result<Index<'t>, ReadErr> {
    let mut words = ffi::Index { rows: 0, next: 0, refused: [0; 3] };
    match ffi::build_index(input, at, table, &mut words) {
        ffi::GOOD => {
            let numbers = ffi::ROW_NUMBERS * words.rows as usize;
            Ok(Index { rows: table.get(..numbers).unwrap_or_default(), next: words.next as usize })
        }
        ffi::TOO_MANY_ENTRIES => Err(ReadErr::TooManyEntries),
        // 4 alone is no fault of the input
        _ => Err(fault(words.refused).map_or(ReadErr::BadState, ReadErr::Refused)),
    }
}

/// The first row with exactly this name, or `None` exactly if no row has it. Of the rows of an [`Index`], over the same input, that is the first entry of the message with the name: [`Row::entry`] gives it.
///
/// Any table may be lent, and the answer speaks of its rows: all numbers are judged as rows, in one pass with up to two comparisons of names a row, those behind the row that is found too. No message is read.
/// A table with a part of a row, with a row outside the input, or with one that isn't strictly before the next is [`LookErr::BadSpan`]; an empty one has no row of any name.
///
/// ```
/// use sartrogheo::parser::index::{look_up, LookErr};
///
/// // names in the input's bytes, each row's entry from byte 0 on
/// let rows = [0, 1, 0, 3, 0, 2, 0, 3, 2, 1, 0, 3];
/// assert_eq!(look_up(b"aab", &rows, b"aa").unwrap().unwrap().name(b"aab"), Some(&b"aa"[..]));
/// assert_eq!(look_up(b"aab", &rows, b"ab"), Ok(None));
/// assert_eq!(look_up(b"aab", &rows[..11], b"aa"), Err(LookErr::BadSpan));
/// ```
pub fn look_up(input: &[u8], table: &[u32], name: &[u8]) -> Result<Option<Row>, LookErr> {
    let mut row = Row::default();
    match ffi::look_up(input, table, name, &mut row) {
        ffi::GOOD => Ok(Some(row)),
        ffi::NOT_FOUND => Ok(None),
        ffi::BAD_SPAN => Err(LookErr::BadSpan),
        _ => Err(LookErr::InputTooLong),
    }
}
