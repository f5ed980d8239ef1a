//! Messages, as a payload holds them.
//!
//! [`streaming`] reads them event by event, [`whole`] a message in one call, and [`index`] has the entries of one by name; [`common`] has the records that all give. [`content`] goes over elements, whatever they mean.
use core::fmt;

use crate::ffi;

pub mod common;
pub mod content;
pub mod index;
pub mod streaming;
pub mod whole;
pub(crate) mod words;

/// A part of the input.
pub type OctetStr<'i> = &'i [u8];

/// What is wrong with length bytes.
#[derive(Clone, Copy, Debug, PartialEq, Eq)]
pub enum TlfParseError {
    /// The length has more than 32 bits.
    TlfLengthOverflow,
    /// A Boolean whose length goes on, which is reserved.
    TlfReserved,
    /// The length is less than its own length bytes.
    TlfLengthUnderflow,
    /// A later length byte with a type.
    TlfNextByteTypeMismatch,
    /// No such type.
    TlfInvalidTy,
}

/// What the reader of messages refuses.
#[derive(Clone, Copy, Debug, PartialEq, Eq)]
pub enum ParseErrorKind {
    /// The input has more than [`LIMIT`](crate::LIMIT) bytes.
    InputTooLong,
    /// The input ends where a byte is wanted.
    UnexpectedEOF,
    /// Length bytes that are wrong.
    InvalidTlf(TlfParseError),
    /// An element of a type or length that isn't wanted there.
    TlfMismatch,
    /// The message has another CRC.
    CrcMismatch,
    /// The byte behind a message is not `00`.
    MsgEndMismatch,
    /// A tag that isn't known.
    UnexpectedVariant,
}

/// A refusal of the reader of messages, and where it stands.
#[derive(Clone, Copy, Debug, PartialEq, Eq)]
pub struct ParseError {
    kind: ParseErrorKind,
    place: Option<usize>,
}

impl ParseError {
    /// What is refused.
    pub fn kind(&self) -> ParseErrorKind {
        self.kind
    }

    /// Where in the input, whose first byte has place 0: the first length byte of the element that is wrong, of `MsgEndMismatch` that byte, of `UnexpectedEOF` the input's length.
    ///
    /// `InputTooLong` alone has none. docs/PLACES.md goes from a place to the byte in a capture.
    pub fn place(&self) -> Option<usize> {
        self.place
    }

    /// The refusal's number, as in include/sartrogheo.h: 9 to 15.
    pub fn number(&self) -> u32 {
        let number = match self.kind {
            ParseErrorKind::InputTooLong => ffi::INPUT_TOO_LONG,
            ParseErrorKind::UnexpectedEOF => ffi::UNEXPECTED_EOF,
            ParseErrorKind::InvalidTlf(_) => ffi::INVALID_TLF,
            ParseErrorKind::TlfMismatch => ffi::TLF_MISMATCH,
            ParseErrorKind::UnexpectedVariant => ffi::UNEXPECTED_VARIANT,
            ParseErrorKind::CrcMismatch => ffi::CRC_MISMATCH,
            ParseErrorKind::MsgEndMismatch => ffi::MSG_END_MISMATCH,
        };
        number as u32
    }
}

impl fmt::Display for ParseError {
    fn fmt(&self, f: &mut fmt::Formatter<'_>) -> fmt::Result {
        match self.place {
            Some(place) => write!(f, "{:?} at {place}", self.kind),
            None => write!(f, "{:?}", self.kind),
        }
    }
}

impl core::error::Error for ParseError {}

impl fmt::Display for TlfParseError {
    fn fmt(&self, f: &mut fmt::Formatter<'_>) -> fmt::Result {
        fmt::Debug::fmt(self, f)
    }
}

impl core::error::Error for TlfParseError {}
