//! Frames: SML transport version 1.
//!
//! A frame is `1b1b1b1b 01010101`, the payload with four more `1b` behind every four of them, zeros up to a multiple of 4, `1b1b1b1b 1a`, their number and the CRC.
use core::borrow::Borrow;
use core::fmt;
use core::iter::FusedIterator;

#[cfg(feature = "alloc")]
use alloc::vec::Vec;

use crate::ffi;
use crate::util::private::Own;
use crate::util::{Buffer, OutOfMemory};
use crate::LIMIT;

/// What a decoder refuses.
#[derive(Debug, PartialEq, Eq, Clone)]
pub enum DecodeErr {
    /// So many bytes belong to no frame.
    DiscardedBytes(usize),
    /// An escape with four bytes that mean nothing.
    InvalidEsc([u8; 4]),
    /// The decoder's buffer has no room for a byte of the frame.
    OutOfMemory,
    /// The end of a frame that isn't sound.
    InvalidMessage {
        /// The CRC that was read, and the one that was computed.
        checksum_mismatch: (u16, u16),
        /// Whether the end stands at no multiple of 4.
        end_esc_misaligned: bool,
        /// How many bytes of padding the end says there are.
        num_padding_bytes: u8,
    },
}

impl DecodeErr {
    /// The refusal's number, as in include/sartrogheo.h: 3, 6, 7 or 8.
    pub fn number(&self) -> u32 {
        match self {
            DecodeErr::DiscardedBytes(_) => ffi::DISCARDED_BYTES,
            DecodeErr::InvalidEsc(_) => ffi::INVALID_ESC,
            DecodeErr::OutOfMemory => ffi::DECODER_OUT_OF_MEMORY,
            DecodeErr::InvalidMessage { .. } => ffi::INVALID_MESSAGE,
        }
    }
}

impl fmt::Display for DecodeErr {
    fn fmt(&self, f: &mut fmt::Formatter<'_>) -> fmt::Result {
        fmt::Debug::fmt(self, f)
    }
}

impl core::error::Error for DecodeErr {}

/// What an answer and its values say: a payload's length, nothing, or a refusal. 3 is `OutOfMemory`, and so would 4 and 5 be.
fn said(answer: u32, values: &ffi::Values) -> Result<Option<usize>, DecodeErr> {
    let [a, b, c, d] = *values;
    match answer {
        ffi::GOOD => Ok(None),
        ffi::PAYLOAD => Ok(Some(a as usize)),
        ffi::DISCARDED_BYTES => Err(DecodeErr::DiscardedBytes(a as usize)),
        ffi::INVALID_ESC => Err(DecodeErr::InvalidEsc([a as u8, b as u8, c as u8, d as u8])),
        ffi::INVALID_MESSAGE => Err(DecodeErr::InvalidMessage {
            checksum_mismatch: (a as u16, b as u16),
            end_esc_misaligned: c != 0,
            num_padding_bytes: d as u8,
        }),
        _ => Err(DecodeErr::OutOfMemory),
    }
}

/// Takes bytes and hands out the payloads of their frames.
///
/// What is proved of a decoder is proved of one that is lent the same buffer at each call, written by nobody else. Here the compiler holds that: state and buffer
/// are private and owned, every call that changes them takes `&mut self`, and a payload that is handed out is borrowed, so that it is let go before the next such call.
/// There is nothing left to keep to. Whatever bytes are pushed, a payload is handed out only at the last byte of a sound frame for it.
///
/// The header's refusals 4 and 5, of a state or buffer that isn't the decoder's, don't come for the same reason. If one came nothing would panic: a push would say `OutOfMemory`,
/// `finalize` nothing, `reset` 0.
///
/// A payload of n bytes needs a buffer of n, rounded up to a multiple of 4, and 4 more. Of a buffer over [`LIMIT`] bytes the first [`LIMIT`] are used.
///
/// [`new`](Self::new) and [`from_buf`](Self::from_buf) search for a frame's start as sml-rs does, where a stray `1b` before a start hides it.
/// [`second_way`](Self::second_way) and [`from_buf_second_way`](Self::from_buf_second_way) find every start, and differ in nothing else.
///
/// ```
/// use sartrogheo::{transport::Decoder, util::ArrayBuf};
///
/// let bytes = [0x1b, 0x1b, 0x1b, 0x1b, 0x01, 0x01, 0x01, 0x01, 0x12, 0x34, 0x56, 0x78, 0x1b, 0x1b, 0x1b, 0x1b, 0x1a, 0x00, 0xb8, 0x7b];
/// let mut decoder = Decoder::<ArrayBuf<20>>::new();
/// for b in bytes {
///     match decoder.push_byte(b) {
///         Ok(None) => {}
///         Ok(Some(payload)) => assert_eq!(payload, [0x12, 0x34, 0x56, 0x78]),
///         Err(e) => panic!("{e}"),
///     }
/// }
/// assert_eq!(decoder.finalize(), None);
/// ```
pub struct Decoder<B: Buffer> {
    state: ffi::State,
    // how much of the buffer's memory is lent, as the state has it
    capacity: usize,
    buf: B,
}

impl<B: Buffer> Default for Decoder<B> {
    fn default() -> Self {
        Self::new()
    }
}

impl<B: Buffer> Decoder<B> {
    /// A decoder with a new buffer.
    #[must_use]
    pub fn new() -> Self {
        Self::from_buf(B::default())
    }

    /// A decoder with this buffer, whose content is lost.
    pub fn from_buf(buf: B) -> Self {
        Self::with(buf, ffi::FIRST_WAY)
    }

    /// A decoder with a new buffer that finds every start of a frame.
    #[must_use]
    pub fn second_way() -> Self {
        Self::from_buf_second_way(B::default())
    }

    /// A decoder with this buffer that finds every start of a frame.
    pub fn from_buf_second_way(buf: B) -> Self {
        Self::with(buf, ffi::SECOND_WAY)
    }

    fn with(mut buf: B, way: u8) -> Self {
        buf.grow(LIMIT, Own(()));
        let capacity = buf.all(Own(())).len().min(LIMIT);
        let mut state = [0; ffi::DECODER_LEN];
        // it refuses nothing: both ways are known, and the capacity is within the limit
        ffi::decoder_new(&mut state, capacity, way);
        Decoder { state, capacity, buf }
    }

    /// Pushes a byte: a payload, a refusal or nothing.
    pub fn push_byte(&mut self, b: u8) -> Result<Option<&[u8]>, DecodeErr> {
        let said = self.step(b)?;
        Ok(said.map(|len| self.front(len)))
    }

    /// Pushes bytes up to and with the first that has something to say: how many, and what that one says. Push the rest again.
    ///
    /// That is what single pushes of the same bytes say, and faster.
    pub fn push(&mut self, bytes: &[u8]) -> (usize, Result<Option<&[u8]>, DecodeErr>) {
        let (mut taken, mut values) = (0, [0; ffi::VALUES]);
        let buf = self.buf.all_mut(Own(())).get_mut(..self.capacity).unwrap_or_default();
        let answer = ffi::push_slice(&mut self.state, buf, bytes, &mut taken, &mut values);
        if taken == 0 {
            // of no bytes, or by 4 or 5, behind which a loop over the rest must end all the same
            taken = bytes.len();
        }
        let said = said(answer, &values);
        (taken, said.map(|payload| payload.map(|len| self.front(len))))
    }

    /// The payload that stands in the buffer: from the push that said it to the next call that takes `&mut self`.
    pub fn payload(&self) -> Option<&[u8]> {
        let (buf, mut len) = (self.front(self.capacity), 0);
        let answer = ffi::payload(&self.state, buf, &mut len);
        if answer == ffi::GOOD {
            buf.get(..len)
        } else {
            None
        }
    }

    /// Says how many bytes are lost, if any; the decoder begins again.
    pub fn finalize(&mut self) -> Option<DecodeErr> {
        let mut values = [0; ffi::VALUES];
        match ffi::finalize(&mut self.state, &mut values) {
            ffi::DISCARDED_BYTES => Some(DecodeErr::DiscardedBytes(values[0] as usize)),
            _ => None,
        }
    }

    /// The decoder begins again: how many bytes are lost.
    pub fn reset(&mut self) -> usize {
        let mut values = [0; ffi::VALUES];
        ffi::reset(&mut self.state, &mut values);
        values[0] as usize
    }

    /// Pushes a byte; a payload is told by its length.
    fn step(&mut self, b: u8) -> Result<Option<usize>, DecodeErr> {
        let mut values = [0; ffi::VALUES];
        let buf = self.buf.all_mut(Own(())).get_mut(..self.capacity).unwrap_or_default();
        let answer = ffi::push_byte(&mut self.state, buf, b, &mut values);
        said(answer, &values)
    }

    fn front(&self, len: usize) -> &[u8] {
        self.buf.all(Own(())).get(..len).unwrap_or_default()
    }

    /// What a call over the decoder is lent, for a watch beside it.
    pub(crate) fn lent(&mut self) -> (&mut ffi::State, &mut [u8]) {
        (&mut self.state, self.buf.all_mut(Own(())).get_mut(..self.capacity).unwrap_or_default())
    }
}

/// Why a payload has no frame.
#[derive(Debug, Clone, Copy, PartialEq, Eq)]
pub enum EncodeErr {
    /// The payload has more than [`LIMIT`] bytes.
    PayloadTooLong,
    /// The whole frame doesn't fit in the output.
    OutOfMemory,
}

impl fmt::Display for EncodeErr {
    fn fmt(&self, f: &mut fmt::Formatter<'_>) -> fmt::Result {
        fmt::Debug::fmt(self, f)
    }
}

impl core::error::Error for EncodeErr {}

/// Writes a payload's frame to the front of `out`, and gives its length: `2 * payload.len() + 19` bytes are always enough.
///
/// What stands behind the frame, and all of `out` where there is none, stays as it was.
pub fn encode_into(payload: &[u8], out: &mut [u8]) -> Result<usize, EncodeErr> {
    let mut len = 0;
    match ffi::encode(payload, out, &mut len) {
        ffi::GOOD => Ok(len),
        ffi::PAYLOAD_TOO_LONG => Err(EncodeErr::PayloadTooLong),
        _ => Err(EncodeErr::OutOfMemory),
    }
}

/// The frame of a payload, in a buffer of its own.
///
/// The payload is collected in a second buffer of that type first; [`encode_into`] needs none. A payload over [`LIMIT`] bytes is `OutOfMemory`.
///
/// ```
/// use sartrogheo::{transport::encode, util::{ArrayBuf, OutOfMemory}};
///
/// let frame = [0x1b, 0x1b, 0x1b, 0x1b, 0x01, 0x01, 0x01, 0x01, 0x12, 0x34, 0x56, 0x78, 0x1b, 0x1b, 0x1b, 0x1b, 0x1a, 0x00, 0xb8, 0x7b];
/// assert_eq!(&*encode::<ArrayBuf<20>>(&[0x12, 0x34, 0x56, 0x78]).unwrap(), &frame);
/// assert_eq!(encode::<ArrayBuf<19>>(&[0x12, 0x34, 0x56, 0x78]), Err(OutOfMemory));
/// ```
pub fn encode<B: Buffer>(iter: impl IntoIterator<Item = impl Borrow<u8>>) -> Result<B, OutOfMemory> {
    let mut payload = B::default();
    for b in iter {
        // an iterator without end is not collected for ever
        if payload.len() == LIMIT {
            return Err(OutOfMemory);
        }
        payload.push(*b.borrow())?;
    }
    let mut frame = B::default();
    frame.grow(2 * payload.len() + 19, Own(()));
    let len = encode_into(&payload, frame.all_mut(Own(()))).map_err(|_| OutOfMemory)?;
    frame.keep(len, Own(()));
    Ok(frame)
}

/// An iterator over the bytes of a payload's frame.
///
/// The payload is owned or borrowed, and read at each byte: an array, a slice, a `Vec`, all that is `AsRef<[u8]>`. It must stay the same, as all that is owned or borrowed does.
/// A payload over [`LIMIT`] bytes has no frame, and no byte comes.
///
/// An `AsRef` that gives one slice now and another later gets bytes of either, which need not be a frame, and the end as soon as a slice can't follow those before it.
/// The first end is the end, whatever slice is given behind it.
#[derive(Clone)]
pub struct Encoder<P: AsRef<[u8]>> {
    state: ffi::Encoder,
    payload: P,
    ended: bool,
}

impl<P: AsRef<[u8]>> Encoder<P> {
    /// An Encoder that gave nothing yet.
    pub fn new(payload: P) -> Self {
        Encoder { state: ffi::encoder_new(), payload, ended: false }
    }
}

impl<P: AsRef<[u8]>> Iterator for Encoder<P> {
    type Item = u8;

    fn next(&mut self) -> Option<u8> {
        let mut byte = 0;
        // a refusal is an end, too
        self.ended = self.ended || ffi::encoder_next(&mut self.state, self.payload.as_ref(), &mut byte) != ffi::GOOD;
        (!self.ended).then_some(byte)
    }
}

impl<P: AsRef<[u8]>> FusedIterator for Encoder<P> {}

/// The bytes of a payload's frame, one after the other.
///
/// ```
/// use sartrogheo::transport::encode_streaming;
///
/// let frame = [0x1b, 0x1b, 0x1b, 0x1b, 0x01, 0x01, 0x01, 0x01, 0x12, 0x34, 0x56, 0x78, 0x1b, 0x1b, 0x1b, 0x1b, 0x1a, 0x00, 0xb8, 0x7b];
/// assert!(encode_streaming([0x12, 0x34, 0x56, 0x78]).eq(frame));
/// ```
pub fn encode_streaming<P: AsRef<[u8]>>(payload: P) -> Encoder<P> {
    Encoder::new(payload)
}

/// All that the decoding of these bytes says.
///
/// Here alone the program ends where memory runs out, as it does in every `Vec` that grows; [`decode_streaming`] keeps one payload at a time, and asks for memory once.
#[cfg(feature = "alloc")]
#[must_use]
pub fn decode(iter: impl IntoIterator<Item = impl Borrow<u8>>) -> Vec<Result<Vec<u8>, DecodeErr>> {
    let (mut said, mut iterator) = (Vec::new(), decode_streaming::<Vec<u8>>(iter));
    while let Some(one) = iterator.next() {
        said.push(one.map(<[u8]>::to_vec));
    }
    said
}

/// What the decoding of some bytes says, one after the other: [`decode_streaming`].
pub struct DecodeIterator<B: Buffer, I: Iterator<Item = u8>> {
    decoder: Decoder<B>,
    bytes: I,
    done: bool,
}

impl<B: Buffer, I: Iterator<Item = u8>> DecodeIterator<B, I> {
    /// The next payload or refusal. It is borrowed, and so this is no [`Iterator`].
    #[allow(clippy::should_implement_trait)]
    pub fn next(&mut self) -> Option<Result<&[u8], DecodeErr>> {
        if self.done {
            return None;
        }
        for b in self.bytes.by_ref() {
            match self.decoder.step(b) {
                Ok(None) => {}
                Ok(Some(len)) => return Some(Ok(self.decoder.front(len))),
                Err(e) => return Some(Err(e)),
            }
        }
        self.done = true;
        self.decoder.finalize().map(Err)
    }
}

/// Takes bytes, and hands out what their decoding says.
///
/// ```
/// use sartrogheo::{transport::decode_streaming, util::ArrayBuf};
///
/// let bytes = [0x1b, 0x1b, 0x1b, 0x1b, 0x01, 0x01, 0x01, 0x01, 0x12, 0x34, 0x56, 0x78, 0x1b, 0x1b, 0x1b, 0x1b, 0x1a, 0x00, 0xb8, 0x7b];
/// let mut said = decode_streaming::<ArrayBuf<10>>(&bytes);
/// assert_eq!(said.next(), Some(Ok([0x12, 0x34, 0x56, 0x78].as_slice())));
/// assert_eq!(said.next(), None);
/// ```
pub fn decode_streaming<B: Buffer>(iter: impl IntoIterator<Item = impl Borrow<u8>>) -> DecodeIterator<B, impl Iterator<Item = u8>> {
    DecodeIterator { decoder: Decoder::new(), bytes: iter.into_iter().map(|b| *b.borrow()), done: false }
}
