//! Why bytes of a recording are lost, for who looks for what is wrong with a line.
use core::fmt;

use crate::ffi;
use crate::transport::Decoder;
use crate::util::Buffer;
use crate::LIMIT;

/// How a frame's start is searched for.
#[derive(Debug, Clone, Copy, PartialEq, Eq, Hash)]
pub enum Way {
    /// As sml-rs does: a stray `1b` before a start hides it. [`Decoder::new`]'s.
    First,
    /// Finds every start. [`Decoder::second_way`]'s.
    Second,
}

impl Way {
    fn number(self) -> u8 {
        match self {
            Way::First => ffi::FIRST_WAY,
            Way::Second => ffi::SECOND_WAY,
        }
    }
}

/// Why bytes are lost.
#[derive(Debug, Clone, Copy, PartialEq, Eq, Hash)]
pub enum Cause {
    /// No whole start sequence lies in these bytes.
    Noise,
    /// The recording ends inside a frame.
    Unfinished,
    /// A whole start sequence lies in them, and the first way passed it by, since a `1b` stands before it. The second way never does.
    Hidden,
    /// A new start cuts a frame off.
    Cut,
    /// An escape with four bytes that mean nothing.
    UnknownEscape,
    /// A frame doesn't fit in the buffer.
    NoRoom,
    /// The end of a frame that isn't sound: at least one of these is true.
    Invalid {
        /// The CRC is wrong.
        wrong_crc: bool,
        /// The end doesn't stand at a multiple of four bytes.
        misaligned: bool,
        /// There are more than three padding bytes, or more than bytes.
        wrong_pads: bool,
    },
}

impl Cause {
    fn of(bits: u64) -> Self {
        match bits {
            ffi::CAUSE_NOISE => Cause::Noise,
            ffi::CAUSE_UNFINISHED => Cause::Unfinished,
            ffi::CAUSE_HIDDEN => Cause::Hidden,
            ffi::CAUSE_CUT => Cause::Cut,
            ffi::CAUSE_ESCAPE => Cause::UnknownEscape,
            ffi::CAUSE_ROOM => Cause::NoRoom,
            _ => Cause::Invalid {
                wrong_crc: bits & ffi::CAUSE_CRC != 0,
                misaligned: bits & ffi::CAUSE_MISALIGNED != 0,
                wrong_pads: bits & ffi::CAUSE_PADS != 0,
            },
        }
    }
}

/// As bin/smlwhy names it: `hidden`, and of several causes `crc+misaligned`.
impl fmt::Display for Cause {
    fn fmt(&self, f: &mut fmt::Formatter<'_>) -> fmt::Result {
        let Cause::Invalid { wrong_crc, misaligned, wrong_pads } = *self else {
            return f.write_str(match self {
                Cause::Noise => "noise",
                Cause::Unfinished => "unfinished",
                Cause::Hidden => "hidden",
                Cause::Cut => "cut",
                Cause::UnknownEscape => "escape",
                _ => "room",
            });
        };
        let mut before = "";
        for (is, name) in [(wrong_crc, "crc"), (misaligned, "misaligned"), (wrong_pads, "pads")] {
            if is {
                write!(f, "{before}{name}")?;
                before = "+";
            }
        }
        Ok(())
    }
}

/// A piece of a recording that is lost: from where a search or a frame began to the byte that told it, less the eight bytes of a new start.
#[derive(Debug, Clone, Copy, PartialEq, Eq, Hash)]
pub struct Loss {
    /// Why.
    pub cause: Cause,
    /// Its first byte, counted from 1.
    pub first: u64,
    /// Its last byte: the loss behind it is looked for from here on.
    pub last: u64,
}

impl Loss {
    fn of([causes, first, last]: ffi::Loss) -> Self {
        Loss { cause: Cause::of(causes), first, last }
    }
}

impl fmt::Display for Loss {
    fn fmt(&self, f: &mut fmt::Formatter<'_>) -> fmt::Result {
        write!(f, "{} {} {}", self.cause, self.first, self.last)
    }
}

/// What is lost next behind the recording's first `from` bytes, as a decoder of that way and buffer tells it over the rest of the recording; `None` where nothing more is.
///
/// The first call has 0, each later one the last byte of the loss before: then all that one decoder loses of the recording is told, in order. A recording may have any length.
/// Of a buffer over [`LIMIT`] bytes the first [`LIMIT`] are used.
///
/// ```
/// use sartrogheo::losses::{next_loss, Cause, Loss, Way};
///
/// // a stray 1b before a frame
/// let bytes = [0x1b, 0x1b, 0x1b, 0x1b, 0x1b, 0x01, 0x01, 0x01, 0x01, 0x12, 0x34, 0x56, 0x78, 0x1b, 0x1b, 0x1b, 0x1b, 0x1a, 0x00, 0xb8, 0x7b];
/// let mut buf = [0; 8];
/// let hidden = next_loss(&bytes, Way::First, &mut buf, 0).unwrap();
/// assert_eq!(hidden, Loss { cause: Cause::Hidden, first: 1, last: 21 });
/// assert_eq!(next_loss(&bytes, Way::First, &mut buf, hidden.last as usize), None);
/// assert_eq!(next_loss(&bytes, Way::Second, &mut buf, 0).unwrap().to_string(), "noise 1 1");
/// ```
pub fn next_loss(recording: &[u8], way: Way, buf: &mut [u8], from: usize) -> Option<Loss> {
    let (mut loss, len) = ([0; ffi::LOSS_WORDS], buf.len().min(LIMIT));
    // 4 and 5 don't come: both ways are known, and the buffer is within the limit
    match ffi::next_loss(recording, way.number(), buf.get_mut(..len).unwrap_or_default(), from, &mut loss) {
        ffi::LOST => Some(Loss::of(loss)),
        _ => None,
    }
}

/// What a slice brings.
#[derive(Debug, Clone, Copy, PartialEq, Eq)]
pub enum Seen<'a> {
    /// Neither a payload nor a loss.
    Nothing,
    /// A payload, and the first and last byte of its frame, counted from 1.
    Kept {
        /// The payload.
        payload: &'a [u8],
        /// The frame's first byte.
        first: u64,
        /// Its last byte.
        last: u64,
    },
    /// Bytes that are lost.
    Lost(Loss),
}

/// A decoder whose refusals are told as losses, slice by slice, without the recording at hand.
///
/// However a recording is cut into slices, the losses are those of [`next_loss`]; they and the frames of the payloads follow each other without a gap, so that every byte is told once.
///
/// ```
/// use sartrogheo::losses::{Seen, Watch};
/// use sartrogheo::util::ArrayBuf;
///
/// // noise, a frame, and the beginning of another
/// let mut bytes: &[u8] = b"\0\x1b\x1b\x1b\x1b\x01\x01\x01\x01\x12\x34\x56\x78\x1b\x1b\x1b\x1b\x1a\0\xb8\x7b\x1b\x1b\x1b\x1b\x01\x01\x01\x01\x12";
/// let (mut watch, mut told) = (Watch::<ArrayBuf<8>>::new(), Vec::new());
/// while !bytes.is_empty() {
///     let (taken, seen) = watch.slice(bytes);
///     match seen {
///         Seen::Nothing => {}
///         Seen::Kept { payload, first, last } => told.push(format!("{payload:02x?} {first} {last}")),
///         Seen::Lost(loss) => told.push(loss.to_string()),
///     }
///     bytes = &bytes[taken..];
/// }
/// told.extend(watch.end().map(|loss| loss.to_string()));
/// assert_eq!(told, ["noise 1 1", "[12, 34, 56, 78] 2 21", "unfinished 22 30"]);
/// ```
pub struct Watch<B: Buffer> {
    decoder: Decoder<B>,
    numbers: ffi::Watch,
}

impl<B: Buffer> Watch<B> {
    fn over(decoder: Decoder<B>) -> Self {
        Watch { decoder, numbers: [0; ffi::WATCH_WORDS] }
    }

    /// A watch over a new decoder with a new buffer.
    #[must_use]
    pub fn new() -> Self {
        Self::over(Decoder::new())
    }

    /// A watch over a new decoder with this buffer, whose content is lost.
    pub fn from_buf(buf: B) -> Self {
        Self::over(Decoder::from_buf(buf))
    }

    /// A watch over a new decoder with a new buffer that finds every start of a frame.
    #[must_use]
    pub fn second_way() -> Self {
        Self::over(Decoder::second_way())
    }

    /// A watch over a new decoder with this buffer that finds every start of a frame.
    pub fn from_buf_second_way(buf: B) -> Self {
        Self::over(Decoder::from_buf_second_way(buf))
    }

    /// Pushes bytes up to and with the first that brings a payload or a loss: how many, and what it brings. Push the rest again.
    pub fn slice(&mut self, bytes: &[u8]) -> (usize, Seen<'_>) {
        let (mut taken, mut loss) = (0, [0; ffi::LOSS_WORDS]);
        let (state, buf) = self.decoder.lent();
        let answer = ffi::watch_slice(state, &mut self.numbers, buf, bytes, &mut taken, &mut loss);
        if taken == 0 {
            // of no bytes, or by 4 or 5, behind which a loop over the rest must end all the same
            taken = bytes.len();
        }
        let seen = match answer {
            ffi::PAYLOAD => Seen::Kept { payload: self.decoder.payload().unwrap_or_default(), first: loss[1], last: loss[2] },
            ffi::LOST => Seen::Lost(Loss::of(loss)),
            _ => Seen::Nothing,
        };
        (taken, seen)
    }

    /// The recording ends: what is left is lost. The next byte begins a search.
    pub fn end(&mut self) -> Option<Loss> {
        let mut loss = [0; ffi::LOSS_WORDS];
        let (state, _) = self.decoder.lent();
        match ffi::watch_end(state, &mut self.numbers, &mut loss) {
            ffi::LOST => Some(Loss::of(loss)),
            _ => None,
        }
    }

    /// How many bytes were pushed.
    pub fn pushed(&self) -> u64 {
        self.numbers[0]
    }
}

impl<B: Buffer> Default for Watch<B> {
    fn default() -> Self {
        Self::new()
    }
}
