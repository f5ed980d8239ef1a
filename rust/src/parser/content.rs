//! Any content: elements, whatever they mean, for who wants to see what the readers of messages don't read, or refuse.
use core::fmt;

use super::words::fault;
use super::{OctetStr, ParseError, ParseErrorKind};
use crate::ffi;

/// The type of a leaf.
#[derive(Debug, Clone, Copy, PartialEq, Eq)]
pub enum Ty {
    /// Bytes, or a field that is absent: `01` is the empty string.
    OctetString,
    /// A truth.
    Boolean,
    /// A number with a sign.
    Integer,
    /// A number without one.
    Unsigned,
}

/// What an element begins with.
#[derive(Debug, Clone, Copy, PartialEq, Eq)]
pub enum ItemKind<'i> {
    /// The byte `00` on its own, wherever an element may stand.
    EndMark,
    /// An element that is no list, of any type and length. Its content is not judged.
    Leaf {
        /// Its type.
        ty: Ty,
        /// What stands behind its length bytes, up to [`Item::next`].
        content: OctetStr<'i>,
    },
    /// A list.
    List {
        /// How many elements it has.
        count: u32,
    },
}

/// What begins at a place.
#[derive(Debug, Clone, Copy, PartialEq, Eq)]
pub struct Item<'i> {
    /// What it is.
    pub kind: ItemKind<'i>,
    /// The place behind an end mark or a leaf, or behind a list's length bytes: there its first element begins.
    pub next: usize,
}

/// A whole element.
#[derive(Debug, Clone, Copy, PartialEq, Eq)]
pub struct Walked {
    /// How many bytes it takes, from its first length byte on.
    pub bytes: usize,
    /// How many leaves it has, end marks counted.
    pub leaves: usize,
}

/// Why there is no whole element.
#[derive(Debug, Clone, Copy, PartialEq, Eq)]
pub enum WalkErr {
    /// What [`read_item`] refuses of an item, where the walk first meets it.
    Refused(ParseError),
    /// A list, even one of none, opens inside sixteen open ones.
    TooDeep {
        /// Its first length byte.
        place: usize,
    },
}

impl WalkErr {
    /// The refusal's number, as in include/sartrogheo.h: 9, 10, 11 or 19.
    pub fn number(&self) -> u32 {
        match self {
            WalkErr::Refused(e) => e.number(),
            WalkErr::TooDeep { .. } => ffi::TOO_DEEP,
        }
    }

    /// Where in the input; `None` for 9.
    pub fn place(&self) -> Option<usize> {
        match self {
            WalkErr::Refused(e) => e.place(),
            WalkErr::TooDeep { place } => Some(*place),
        }
    }
}

impl fmt::Display for WalkErr {
    fn fmt(&self, f: &mut fmt::Formatter<'_>) -> fmt::Result {
        match self {
            WalkErr::Refused(e) => fmt::Display::fmt(e, f),
            WalkErr::TooDeep { place } => write!(f, "TooDeep at {place}"),
        }
    }
}

impl core::error::Error for WalkErr {}

fn ty(number: u64) -> Ty {
    match number {
        ffi::TY_BOOLEAN => Ty::Boolean,
        ffi::TY_INTEGER => Ty::Integer,
        ffi::TY_UNSIGNED => Ty::Unsigned,
        _ => Ty::OctetString,
    }
}

/// What begins at a place of the input, whatever follows it: of a list its length bytes alone.
///
/// It is refused where the input is too long, where its length bytes are wrong, and with `UnexpectedEOF` where the input ends in them or in a leaf's content, so also at every place at or beyond its end. Content is not judged: a Boolean of no byte is a leaf.
/// Who goes on at [`Item::next`] each time sees all items in their order, and how many elements each list has tells where it ends; how deep they are [`walk`] judges.
///
/// ```
/// use sartrogheo::parser::content::{read_item, Item, ItemKind, Ty};
///
/// // a list of an end mark, a string and a Boolean of no byte
/// let bytes = [0x73, 0x00, 0x02, 0xff, 0x41];
/// let (mut at, mut items) = (0, Vec::new());
/// while at < bytes.len() {
///     let item = read_item(&bytes, at).unwrap();
///     items.push(item.kind);
///     at = item.next;
/// }
/// let leaf = |ty, content| ItemKind::Leaf { ty, content };
/// assert_eq!(items, [ItemKind::List { count: 3 }, ItemKind::EndMark, leaf(Ty::OctetString, &[0xff]), leaf(Ty::Boolean, &[])]);
/// assert_eq!(read_item(&bytes, at).unwrap_err().to_string(), "UnexpectedEOF at 5");
/// ```
pub fn read_item(input: &[u8], at: usize) -> Result<Item<'_>, ParseError> {
    let mut words = ffi::Item { kind: 0, ty: 0, content: [0; 2], count: 0, next: 0, refused: [0; 3] };
    ffi::read_item(input, at, &mut words);
    let [start, len] = words.content.map(|n| n as usize);
    let kind = match words.kind {
        ffi::END_MARK => ItemKind::EndMark,
        ffi::LEAF => ItemKind::Leaf { ty: ty(words.ty), content: input.get(start..).and_then(|s| s.get(..len)).unwrap_or_default() },
        ffi::LIST => ItemKind::List { count: words.count as u32 },
        // what is refused is always 9, 10 or 11
        _ => return Err(fault(words.refused).unwrap_or(ParseError { kind: ParseErrorKind::UnexpectedEOF, place: Some(input.len()) })),
    };
    Ok(Item { kind, next: words.next as usize })
}

/// Walks over the whole element at a place of the input, a list with all that is in it; what follows it is not looked at.
///
/// An end mark counts as a leaf of one byte; a list of none is its length bytes alone and has no leaf. Sixteen lists may be open, the outermost counted.
/// Where [`read_message`](super::whole::read_message) reads a message, the walk over it ends at the same place; neither meaning nor CRC is judged here.
///
/// ```
/// use sartrogheo::parser::content::{walk, WalkErr, Walked};
///
/// // two elements: a message with a tag that isn't known, and a list of none
/// let payload = [
///     0x76, 0x02, 0xdd, 0x62, 0x00, 0x62, 0x00, 0x72, 0x63, 0x03, 0x01, 0x71, 0x01, 0x63, 0x12, 0x34, 0x00, // 0301 for 0201
///     0x70,
/// ];
/// let message = walk(&payload, 0).unwrap();
/// assert_eq!(message, Walked { bytes: 17, leaves: 7 });
/// assert_eq!(walk(&payload, message.bytes), Ok(Walked { bytes: 1, leaves: 0 }));
/// assert_eq!(walk(&payload[..16], 0).unwrap_err().to_string(), "UnexpectedEOF at 16");
/// assert_eq!(walk(&[0x71; 20], 0), Err(WalkErr::TooDeep { place: 16 }));
/// ```
pub fn walk(input: &[u8], at: usize) -> Result<Walked, WalkErr> {
    let mut words = ffi::Walked { bytes: 0, leaves: 0, refused: [0; 3] };
    match ffi::walk(input, at, &mut words) {
        ffi::GOOD => Ok(Walked { bytes: words.bytes as usize, leaves: words.leaves as usize }),
        // 19 alone is none of the reader of messages
        _ => Err(fault(words.refused).map_or(WalkErr::TooDeep { place: words.refused[2] as usize }, WalkErr::Refused)),
    }
}
