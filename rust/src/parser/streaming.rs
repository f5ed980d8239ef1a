//! Messages event by event, without a heap.
use core::iter::FusedIterator;

use super::common::{CloseResponse, ListEntry, OctetStr, OpenResponse, Signature, Time};
use super::words::{event, refusal};
use super::{ParseError, ParseErrorKind};
use crate::ffi;

/// Reads the messages of an input, an event a call.
///
/// A refusal drops the rest of the input. Behind one inside a message every later call gives `UnexpectedEOF`, without end, as in sml-rs; behind one at a message's start, and behind `InputTooLong`,
/// nothing more comes. [`until_refused`](Self::until_refused) ends behind every refusal: a loop is best written over that.
///
/// Input and reader are private: the input is borrowed for as long as the reader and its events live, so that it is the same at every call.
#[derive(Clone)]
pub struct Parser<'i> {
    input: &'i [u8],
    reader: ffi::Reader,
}

impl<'i> Parser<'i> {
    /// A reader of the whole input: a payload, as a decoder hands it out.
    pub fn new(input: &'i [u8]) -> Self {
        Parser { input, reader: [0; 3] }
    }

    /// The events up to the first refusal, and that one.
    ///
    /// ```
    /// use sartrogheo::parser::streaming::Parser;
    ///
    /// let mut cut = Parser::new(&[0x76, 0x01, 0x62]).until_refused();
    /// assert_eq!(cut.next().unwrap().unwrap_err().place(), Some(3));
    /// assert_eq!(cut.next(), None);
    /// ```
    pub fn until_refused(self) -> UntilRefused<'i> {
        UntilRefused { parser: self, ended: false }
    }
}

impl<'i> Iterator for Parser<'i> {
    type Item = Result<ParseEvent<'i>, ParseError>;

    fn next(&mut self) -> Option<Self::Item> {
        let mut words = [0; ffi::EVENT_WORDS];
        // the answer is in the words, too
        ffi::next_event(self.input, &mut self.reader, &mut words);
        if let Some(refused) = refusal(&words) {
            if refused.kind() == ParseErrorKind::InputTooLong {
                // that leaves the reader as it is: with nothing left to read it is told once
                self.input = &[];
            }
            return Some(Err(refused));
        }
        event(self.input, words).map(Ok)
    }
}

/// The events of an input up to and with the first refusal: [`Parser::until_refused`].
#[derive(Clone)]
pub struct UntilRefused<'i> {
    parser: Parser<'i>,
    ended: bool,
}

impl<'i> Iterator for UntilRefused<'i> {
    type Item = Result<ParseEvent<'i>, ParseError>;

    fn next(&mut self) -> Option<Self::Item> {
        if self.ended {
            return None;
        }
        let said = self.parser.next();
        self.ended = !matches!(said, Some(Ok(_)));
        said
    }
}

impl FusedIterator for UntilRefused<'_> {}

/// An event.
#[derive(Debug, Clone, PartialEq, Eq)]
pub enum ParseEvent<'i> {
    /// A message begins.
    MessageStart(MessageStart<'i>),
    /// The entries of a list are over.
    GetListResponseEnd(GetListResponseEnd<'i>),
    /// An entry of a list.
    ListEntry(ListEntry<'i>),
}

/// The start of a message: of a list what stands before its entries, of others all.
#[derive(Debug, Clone, PartialEq, Eq)]
pub struct MessageStart<'i> {
    /// The transaction.
    pub transaction_id: OctetStr<'i>,
    /// The group of messages.
    pub group_no: u8,
    /// What is to be done if something goes wrong.
    pub abort_on_error: u8,
    /// Which message it is.
    pub message_body: MessageBody<'i>,
}

/// The messages that meters send.
#[derive(Debug, Clone, PartialEq, Eq)]
pub enum MessageBody<'i> {
    /// `SML_PublicOpen.Res`
    OpenResponse(OpenResponse<'i>),
    /// `SML_PublicClose.Res`
    CloseResponse(CloseResponse<'i>),
    /// `SML_GetList.Res`, up to its entries
    GetListResponse(GetListResponseStart<'i>),
}

/// What stands before the entries of a list.
#[derive(Debug, Clone, PartialEq, Eq)]
pub struct GetListResponseStart<'i> {
    /// The client.
    pub client_id: Option<OctetStr<'i>>,
    /// The server: the meter.
    pub server_id: OctetStr<'i>,
    /// The list's name.
    pub list_name: Option<OctetStr<'i>>,
    /// The meter's time.
    pub act_sensor_time: Option<Time>,
    /// How many entries follow.
    pub num_vals: u32,
}

/// What stands behind the entries of a list.
#[derive(Debug, Clone, PartialEq, Eq)]
pub struct GetListResponseEnd<'i> {
    /// The list's signature.
    pub list_signature: Option<Signature<'i>>,
    /// The gateway's time.
    pub act_gateway_time: Option<Time>,
}
