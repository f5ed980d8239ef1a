//! From the 24 words of `sgh_event` to events, and back. The fields stand in the order of include/sartrogheo.h, and are taken and put down in that order.
use super::common::{CloseResponse, ListEntry, ListType, OctetStr, OpenResponse, Status, Time, Value};
use super::streaming::{GetListResponseEnd, GetListResponseStart, MessageBody, MessageStart, ParseEvent};
use super::{ParseError, ParseErrorKind, TlfParseError};
use crate::ffi::{self, VALUE_BOOL, VALUE_BYTES, VALUE_SIGNED, VALUE_TIME, VALUE_UNSIGNED};

/// The words that are not yet taken. Where there is none, which no event asks for, there is 0.
struct Words<'i> {
    input: &'i [u8],
    left: core::array::IntoIter<u64, { ffi::EVENT_WORDS }>,
}

impl<'i> Words<'i> {
    fn number(&mut self) -> u64 {
        self.left.next().unwrap_or_default()
    }

    /// A part of the input. A span outside of it, which no call gives, would be the empty part.
    fn span(&mut self) -> OctetStr<'i> {
        let (start, len) = (self.number() as usize, self.number() as usize);
        self.input.get(start..).and_then(|rest| rest.get(..len)).unwrap_or_default()
    }

    fn optional<T>(&mut self, field: impl Fn(&mut Self) -> T) -> Option<T> {
        let present = self.number() != 0;
        let value = field(self);
        present.then_some(value)
    }

    fn time(&mut self) -> Time {
        Time::SecIndex(self.number() as u32)
    }

    fn status(&mut self) -> Status {
        match (self.number(), self.number()) {
            (1, n) => Status::Status8(n as u8),
            (2, n) => Status::Status16(n as u16),
            (4, n) => Status::Status32(n as u32),
            (_, n) => Status::Status64(n),
        }
    }

    fn value(&mut self) -> Value<'i> {
        let (kind, width, n, bytes) = (self.number(), self.number(), self.number(), self.span());
        match (kind, width) {
            (VALUE_BOOL, _) => Value::Bool(n != 0),
            (VALUE_SIGNED, 1) => Value::I8(n as i8),
            (VALUE_SIGNED, 2) => Value::I16(n as i16),
            (VALUE_SIGNED, 4) => Value::I32(n as i32),
            (VALUE_SIGNED, _) => Value::I64(n as i64),
            (VALUE_UNSIGNED, 1) => Value::U8(n as u8),
            (VALUE_UNSIGNED, 2) => Value::U16(n as u16),
            (VALUE_UNSIGNED, 4) => Value::U32(n as u32),
            (VALUE_UNSIGNED, _) => Value::U64(n),
            (VALUE_TIME, _) => Value::List(ListType::Time(Time::SecIndex(n as u32))),
            _ => Value::Bytes(bytes),
        }
    }

    fn open(&mut self) -> OpenResponse<'i> {
        OpenResponse {
            codepage: self.optional(Self::span),
            client_id: self.optional(Self::span),
            req_file_id: self.span(),
            server_id: self.span(),
            ref_time: self.optional(Self::time),
            sml_version: self.optional(Self::number).map(|n| n as u8),
        }
    }

    fn list(&mut self) -> GetListResponseStart<'i> {
        GetListResponseStart {
            client_id: self.optional(Self::span),
            server_id: self.span(),
            list_name: self.optional(Self::span),
            act_sensor_time: self.optional(Self::time),
            num_vals: self.number() as u32,
        }
    }

    fn body(&mut self) -> MessageBody<'i> {
        match self.number() {
            ffi::OPEN_RESPONSE => MessageBody::OpenResponse(self.open()),
            ffi::CLOSE_RESPONSE => MessageBody::CloseResponse(CloseResponse { global_signature: self.optional(Self::span) }),
            _ => MessageBody::GetListResponse(self.list()),
        }
    }

    fn message(&mut self) -> MessageStart<'i> {
        MessageStart {
            transaction_id: self.span(),
            group_no: self.number() as u8,
            abort_on_error: self.number() as u8,
            message_body: self.body(),
        }
    }

    fn end(&mut self) -> GetListResponseEnd<'i> {
        GetListResponseEnd { list_signature: self.optional(Self::span), act_gateway_time: self.optional(Self::time) }
    }

    fn entry(&mut self) -> ListEntry<'i> {
        ListEntry {
            obj_name: self.span(),
            status: self.optional(Self::status),
            val_time: self.optional(Self::time),
            unit: self.optional(Self::number).map(|n| n as u8),
            scaler: self.optional(Self::number).map(|n| n as i8),
            value: self.value(),
            value_signature: self.optional(Self::span),
        }
    }
}

/// The event, or none: there is none left, or, which doesn't come from a reader that owns its numbers, they are refused with 4.
pub fn event(input: &[u8], words: ffi::Event) -> Option<ParseEvent<'_>> {
    let mut words = Words { input, left: words.into_iter() };
    match words.number() {
        ffi::MESSAGE_START => Some(ParseEvent::MessageStart(words.message())),
        ffi::GET_LIST_RESPONSE_END => Some(ParseEvent::GetListResponseEnd(words.end())),
        ffi::LIST_ENTRY => Some(ParseEvent::ListEntry(words.entry())),
        _ => None,
    }
}

fn tlf(kind: u64) -> TlfParseError {
    match kind {
        ffi::TLF_LENGTH_OVERFLOW => TlfParseError::TlfLengthOverflow,
        ffi::TLF_RESERVED => TlfParseError::TlfReserved,
        ffi::TLF_LENGTH_UNDERFLOW => TlfParseError::TlfLengthUnderflow,
        ffi::TLF_NEXT_BYTE_TYPE_MISMATCH => TlfParseError::TlfNextByteTypeMismatch,
        _ => TlfParseError::TlfInvalidTy,
    }
}

/// The refusal of this number, kind and place, if it is one of the reader of messages: 9, which alone has no place, to 15.
pub fn fault([number, kind, place]: [u64; 3]) -> Option<ParseError> {
    let kind = match number {
        ffi::INPUT_TOO_LONG => ParseErrorKind::InputTooLong,
        ffi::UNEXPECTED_EOF => ParseErrorKind::UnexpectedEOF,
        ffi::INVALID_TLF => ParseErrorKind::InvalidTlf(tlf(kind)),
        ffi::TLF_MISMATCH => ParseErrorKind::TlfMismatch,
        ffi::UNEXPECTED_VARIANT => ParseErrorKind::UnexpectedVariant,
        ffi::CRC_MISMATCH => ParseErrorKind::CrcMismatch,
        ffi::MSG_END_MISMATCH => ParseErrorKind::MsgEndMismatch,
        _ => return None,
    };
    Some(ParseError { kind, place: (number != ffi::INPUT_TOO_LONG).then_some(place as usize) })
}

/// The refusal, if the words are one.
pub fn refusal(words: &ffi::Event) -> Option<ParseError> {
    match *words {
        [ffi::REFUSED | ffi::REFUSED_ALONE, number, kind, place, ..] => fault([number, kind, place]),
        _ => None,
    }
}

/// The words that are not yet put down. What finds no room, which no event asks for, is left out.
struct Put<'w, 's> {
    strings: &'s [u8],
    left: core::slice::IterMut<'w, u64>,
}

impl Put<'_, '_> {
    fn number(&mut self, n: u64) {
        if let Some(word) = self.left.next() {
            *word = n;
        }
    }

    fn signed(&mut self, n: i64) {
        self.number(n as u64);
    }

    /// Where a part of `strings` stands in it, by its address; of other memory a place outside, which is refused.
    fn span(&mut self, part: OctetStr<'_>) {
        let start = (part.as_ptr() as usize).wrapping_sub(self.strings.as_ptr() as usize);
        self.number(if part.is_empty() { 0 } else { start as u64 });
        self.number(part.len() as u64);
    }

    /// What is absent is as many zeros as it has words, and they stand there.
    fn optional<T>(&mut self, value: &Option<T>, width: usize, field: impl Fn(&mut Self, &T)) {
        self.number(value.is_some().into());
        match value {
            Some(value) => field(self, value),
            None => (0..width).for_each(|_| self.number(0)),
        }
    }

    fn opt_span(&mut self, part: &Option<OctetStr<'_>>) {
        self.optional(part, 2, |put, part| put.span(part));
    }

    fn opt_time(&mut self, time: &Option<Time>) {
        self.optional(time, 1, |put, Time::SecIndex(n)| put.number((*n).into()));
    }

    fn status(&mut self, status: &Status) {
        let (width, n) = match *status {
            Status::Status8(n) => (1, n.into()),
            Status::Status16(n) => (2, n.into()),
            Status::Status32(n) => (4, n.into()),
            Status::Status64(n) => (8, n),
        };
        self.number(width);
        self.number(n);
    }

    fn value(&mut self, value: &Value<'_>) {
        let (kind, width, n) = match *value {
            Value::Bool(b) => (VALUE_BOOL, 0, b.into()),
            Value::Bytes(_) => (VALUE_BYTES, 0, 0),
            Value::I8(n) => (VALUE_SIGNED, 1, i64::from(n) as u64),
            Value::I16(n) => (VALUE_SIGNED, 2, i64::from(n) as u64),
            Value::I32(n) => (VALUE_SIGNED, 4, i64::from(n) as u64),
            Value::I64(n) => (VALUE_SIGNED, 8, n as u64),
            Value::U8(n) => (VALUE_UNSIGNED, 1, n.into()),
            Value::U16(n) => (VALUE_UNSIGNED, 2, n.into()),
            Value::U32(n) => (VALUE_UNSIGNED, 4, n.into()),
            Value::U64(n) => (VALUE_UNSIGNED, 8, n),
            Value::List(ListType::Time(Time::SecIndex(n))) => (VALUE_TIME, 0, n.into()),
        };
        [kind, width, n].into_iter().for_each(|word| self.number(word));
        self.span(if let Value::Bytes(part) = value { part } else { &[] });
    }

    fn open(&mut self, b: &OpenResponse<'_>) {
        self.opt_span(&b.codepage);
        self.opt_span(&b.client_id);
        self.span(b.req_file_id);
        self.span(b.server_id);
        self.opt_time(&b.ref_time);
        self.optional(&b.sml_version, 1, |put, n| put.number((*n).into()));
    }

    fn list(&mut self, b: &GetListResponseStart<'_>) {
        self.opt_span(&b.client_id);
        self.span(b.server_id);
        self.opt_span(&b.list_name);
        self.opt_time(&b.act_sensor_time);
        self.number(b.num_vals.into());
    }

    fn message(&mut self, m: &MessageStart<'_>) {
        self.span(m.transaction_id);
        self.number(m.group_no.into());
        self.number(m.abort_on_error.into());
        match &m.message_body {
            MessageBody::OpenResponse(b) => {
                self.number(ffi::OPEN_RESPONSE);
                self.open(b);
            }
            MessageBody::CloseResponse(b) => {
                self.number(ffi::CLOSE_RESPONSE);
                self.opt_span(&b.global_signature);
            }
            MessageBody::GetListResponse(b) => {
                self.number(ffi::GET_LIST_RESPONSE);
                self.list(b);
            }
        }
    }

    fn end(&mut self, e: &GetListResponseEnd<'_>) {
        self.opt_span(&e.list_signature);
        self.opt_time(&e.act_gateway_time);
    }

    fn entry(&mut self, e: &ListEntry<'_>) {
        self.span(e.obj_name);
        self.optional(&e.status, 2, Self::status);
        self.opt_time(&e.val_time);
        self.optional(&e.unit, 1, |put, n| put.number((*n).into()));
        self.optional(&e.scaler, 1, |put, n| put.signed((*n).into()));
        self.value(&e.value);
        self.opt_span(&e.value_signature);
    }
}

/// The words of an event whose strings are parts of `strings`.
pub fn words(strings: &[u8], event: &ParseEvent<'_>) -> ffi::Event {
    let mut words = [0; ffi::EVENT_WORDS];
    let mut put = Put { strings, left: words.iter_mut() };
    match event {
        ParseEvent::MessageStart(m) => {
            put.number(ffi::MESSAGE_START);
            put.message(m);
        }
        ParseEvent::GetListResponseEnd(e) => {
            put.number(ffi::GET_LIST_RESPONSE_END);
            put.end(e);
        }
        ParseEvent::ListEntry(e) => {
            put.number(ffi::LIST_ENTRY);
            put.entry(e);
        }
    }
    words
}
