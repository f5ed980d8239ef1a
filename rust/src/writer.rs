//! Messages that are written, so that a bench can pose as a meter.
use core::fmt;

use crate::ffi;
use crate::parser::streaming::ParseEvent;
use crate::parser::words::words;

/// What a writer refuses, in the order in which it is judged.
#[derive(Debug, Clone, Copy, PartialEq, Eq)]
pub enum WriteErr {
    /// The writer's place is beyond the output.
    BadState,
    /// An entry or a list's end where none is due.
    WrongNumber,
    /// A string is no part of the strings.
    BadSpan,
    /// What is to be written doesn't fit in the output.
    OutputTooShort,
}

impl WriteErr {
    /// The refusal's number, as in include/sartrogheo.h: 4, 17, 16 or 18.
    pub fn number(&self) -> u32 {
        match self {
            WriteErr::BadState => ffi::BAD_STATE,
            WriteErr::WrongNumber => ffi::WRONG_NUMBER,
            WriteErr::BadSpan => ffi::BAD_SPAN,
            WriteErr::OutputTooShort => ffi::OUTPUT_TOO_SHORT,
        }
    }
}

impl fmt::Display for WriteErr {
    fn fmt(&self, f: &mut fmt::Formatter<'_>) -> fmt::Result {
        fmt::Debug::fmt(self, f)
    }
}

impl core::error::Error for WriteErr {}

/// Writes messages to an output, an event a call.
///
/// An open and a close are written whole, a list by its start, as many entries as that announces, and its end; CRC and end byte come with the last of them.
/// Numbers and lengths take the fewest bytes: the width of a [`Value`](crate::parser::common::Value) does not count. What a [`Parser`](crate::parser::streaming::Parser) of an input gives can be written as it is.
///
/// The strings of all events are parts of one slice: a bench puts its own into an array, one behind the other. A refusal leaves output and writer as they were.
///
/// ```
/// use sartrogheo::parser::common::CloseResponse;
/// use sartrogheo::parser::streaming::{MessageBody, MessageStart, ParseEvent, Parser};
/// use sartrogheo::writer::{WriteErr, Writer};
///
/// let (mut out, strings) = ([0; 32], [0xdd, 0x43, 0x44, 0x00]);
/// let mut writer = Writer::new(&mut out, &strings);
/// let close = ParseEvent::MessageStart(MessageStart {
///     transaction_id: &strings,
///     group_no: 0,
///     abort_on_error: 0,
///     message_body: MessageBody::CloseResponse(CloseResponse { global_signature: None }),
/// });
/// assert_eq!(writer.write(&close), Ok(()));
/// assert_eq!(writer.write(&close), Err(WriteErr::OutputTooShort));
/// assert_eq!(writer.written().len(), 20);
/// assert_eq!(Parser::new(writer.written()).next(), Some(Ok(close)));
/// ```
pub struct Writer<'o, 's> {
    out: &'o mut [u8],
    strings: &'s [u8],
    state: ffi::Writer,
}

impl<'o, 's> Writer<'o, 's> {
    /// A writer at the output's first byte, of events whose strings are parts of `strings`.
    pub fn new(out: &'o mut [u8], strings: &'s [u8]) -> Self {
        Self::at(out, 0, strings)
    }

    /// A writer at another place of the output.
    pub fn at(out: &'o mut [u8], place: usize, strings: &'s [u8]) -> Self {
        Writer { out, strings, state: [place as u64, 0, 0, 0] }
    }

    /// Writes an event behind those that were written.
    ///
    /// A message's start is due anywhere: behind it a list that was not ended stays cut.
    pub fn write(&mut self, event: &ParseEvent<'_>) -> Result<(), WriteErr> {
        match ffi::write_event(self.out, self.strings, &words(self.strings, event), &mut self.state) {
            ffi::GOOD => Ok(()),
            ffi::WRONG_NUMBER => Err(WriteErr::WrongNumber),
            ffi::BAD_SPAN => Err(WriteErr::BadSpan),
            ffi::OUTPUT_TOO_SHORT => Err(WriteErr::OutputTooShort),
            _ => Err(WriteErr::BadState),
        }
    }

    /// The place behind what was written.
    pub fn place(&self) -> usize {
        let [place, ..] = self.state;
        place as usize
    }

    /// How many entries of a list are to come.
    pub fn left(&self) -> u32 {
        let [_, _, left, _] = self.state;
        left as u32
    }

    /// The output up to there.
    pub fn written(&self) -> &[u8] {
        self.out.get(..self.place()).unwrap_or_default()
    }
}
