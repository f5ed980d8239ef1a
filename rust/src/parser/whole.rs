//! A whole message in one call, for who wants no events.
use core::fmt;

use super::common::ListEntry;
use super::streaming::{GetListResponseEnd, MessageStart, ParseEvent};
use super::words::{event, refusal};
use super::{OctetStr, ParseError};
pub use crate::ffi::Row;
use crate::ffi::{self, Message};

/// What a reader has before it where an entry comes next: that, the list's end and the trailer.
const ENTRY_IS_DUE: u64 = 3;

/// Why no message was read.
#[derive(Debug, Clone, Copy, PartialEq, Eq)]
pub enum ReadErr {
    /// The place is beyond the input.
    BadState,
    /// The first refusal of the message, as a [`Parser`](super::streaming::Parser) gives it, or that the input ends where a message is to begin, or is too long.
    Refused(ParseError),
    /// The message is right, and has more entries than the table has rows.
    TooManyEntries,
}

impl ReadErr {
    /// The refusal's number, as in include/sartrogheo.h: 4, 9 to 15 or 20.
    pub fn number(&self) -> u32 {
        match self {
            ReadErr::BadState => ffi::BAD_STATE,
            ReadErr::Refused(e) => e.number(),
            ReadErr::TooManyEntries => ffi::TOO_MANY_ENTRIES,
        }
    }

    /// Where in the input; `None` for 4, 9 and 20.
    pub fn place(&self) -> Option<usize> {
        match self {
            ReadErr::Refused(e) => e.place(),
            ReadErr::BadState | ReadErr::TooManyEntries => None,
        }
    }
}

impl fmt::Display for ReadErr {
    fn fmt(&self, f: &mut fmt::Formatter<'_>) -> fmt::Result {
        match self {
            ReadErr::Refused(e) => fmt::Display::fmt(e, f),
            ReadErr::BadState | ReadErr::TooManyEntries => fmt::Debug::fmt(self, f),
        }
    }
}

impl core::error::Error for ReadErr {}

/// A message.
#[derive(Debug, Clone, PartialEq, Eq)]
pub struct Whole<'i, 't> {
    /// Its start: of a list what stands before its entries, of others all.
    pub start: MessageStart<'i>,
    /// What stands behind the entries of a list; `None` for an open or a close.
    pub end: Option<GetListResponseEnd<'i>>,
    /// Where the entries of a list stand, in their order: the table's first rows.
    pub rows: &'t [Row],
    /// The place behind the message, where the next one begins.
    pub next: usize,
}

impl Row {
    /// The name of the entry, in the input that it was read from. A row that reaches beyond an input has none in it.
    pub fn name<'i>(&self, input: &'i [u8]) -> Option<OctetStr<'i>> {
        input.get(self.name_start as usize..)?.get(..self.name_len as usize)
    }

    /// The entry, in the input that it was read from. Of a row that [`read_message`] or [`build_index`](super::index::build_index) made, over the same input, it is always `Some`; of one that no call has made it is what begins at its place, if that is an entry.
    pub fn entry<'i>(&self, input: &'i [u8]) -> Option<ListEntry<'i>> {
        let (place, mut words) = (self.entry_start.into(), [0; ffi::EVENT_WORDS]);
        ffi::next_event(input, &mut [place, place, ENTRY_IS_DUE], &mut words);
        match event(input, words) {
            Some(ParseEvent::ListEntry(entry)) => Some(entry),
            _ => None,
        }
    }
}

/// Reads the message at a place of the input, up to its end byte and whatever follows it, and puts a [`Row`] for each entry of a list into the table, from its first row on.
///
/// A message is read exactly if a [`Parser`](super::streaming::Parser) gives all of it and the table has room; what is wrong is then the first that the parser would refuse.
/// Its CRC is judged before anything is given. Where the input ends, an empty one too, there is no message: that is refused with 10. A refusal leaves the table as it was, and rows behind the last one stay.
/// A row for every eight bytes of the input is always enough, since an entry has eight bytes at least.
///
/// ```
/// use sartrogheo::parser::common::Value;
/// use sartrogheo::parser::whole::{read_message, ReadErr, Row};
///
/// let payload = [
///     0x76, 0x03, 0xdd, 0x43, 0x62, 0x00, 0x62, 0x00, 0x72, 0x63, 0x07, 0x01, 0x77, 0x01, 0x02, 0x73, 0x01, 0x01, // a list
///     0x71, 0x77, 0x02, 0x6e, 0x01, 0x01, 0x01, 0x01, 0x62, 0x07, 0x01, // of one entry, n = 7
///     0x01, 0x01, 0x63, 0x2b, 0xfc, 0x00,
/// ];
/// let mut table = [Row::default(); 8];
/// let list = read_message(&payload, 0, &mut table).unwrap();
/// assert_eq!((list.rows.len(), list.next), (1, payload.len()));
/// for row in list.rows {
///     assert_eq!(row.name(&payload), Some(&b"n"[..]));
///     assert_eq!(row.entry(&payload).unwrap().value, Value::U8(7));
/// }
/// assert_eq!(read_message(&payload, 0, &mut []), Err(ReadErr::TooManyEntries));
/// assert_eq!(read_message(&payload, list.next, &mut []).unwrap_err().to_string(), "UnexpectedEOF at 35");
/// ```
pub fn read_message<'i, 't>(input: &'i [u8], at: usize, table: &'t mut [Row]) -> Result<Whole<'i, 't>, ReadErr> {
    let mut words = Message { start: [0; ffi::EVENT_WORDS], end: [0; ffi::EVENT_WORDS], rows: 0, next: 0 };
    if ffi::read_message(input, at, table, &mut words) == ffi::TOO_MANY_ENTRIES {
        return Err(ReadErr::TooManyEntries);
    }
    if let Some(refused) = refusal(&words.start) {
        return Err(ReadErr::Refused(refused));
    }
    // 4 alone is neither
    let Some(ParseEvent::MessageStart(start)) = event(input, words.start) else { return Err(ReadErr::BadState) };
    let end = match event(input, words.end) {
        Some(ParseEvent::GetListResponseEnd(end)) => Some(end),
        _ => None,
    };
    Ok(Whole { start, end, rows: table.get(..words.rows as usize).unwrap_or_default(), next: words.next as usize })
}
