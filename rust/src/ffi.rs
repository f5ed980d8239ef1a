//! The calls of include/sartrogheo.h, each behind a function that any safe code may call: all that is unsafe stands here.
//!
//! The header asks two things of a caller: that every pointer is good for its length, and that what a call writes doesn't overlap with anything else that it is lent.
//! A reference is good for its type, and a `&mut` overlaps with nothing, so that the types of these functions hold both. A slice of length 0 has a pointer that isn't
//! null and is good for 0 bytes. No call keeps a pointer, unwinds or touches anything that it isn't lent.
#![allow(unsafe_code)]

use core::mem::size_of;

/// A decoder's 28 bytes.
pub type State = [u8; DECODER_LEN];
/// What an answer says.
pub type Values = [u64; VALUES];
/// `sgh_encoder`: four numbers, one behind the other.
pub type Encoder = [u64; 4];
/// `sgh_reader`: place, start, pending. Zeros are a new one.
pub type Reader = [u64; 3];
/// `sgh_event`: its kind, and the words of that kind's struct.
pub type Event = [u64; EVENT_WORDS];
/// `sgh_writer`: place, state, left, crc. Zeros are a new one.
pub type Writer = [u64; 4];
/// `sgh_watch`: pushed, begun, matched, start_end. Zeros are a new one, beside a new decoder.
pub type Watch = [u64; WATCH_WORDS];
/// `sgh_loss`: causes, first, last.
pub type Loss = [u64; LOSS_WORDS];

/// `sgh_message`.
#[repr(C)]
pub struct Message {
    pub start: Event,
    pub end: Event,
    pub rows: u64,
    pub next: u64,
}

/// `sgh_index`; of what is refused number, kind and place.
#[repr(C)]
pub struct Index {
    pub rows: u64,
    pub next: u64,
    pub refused: [u64; 3],
}

/// `sgh_item`; of a leaf's content start and length.
#[repr(C)]
pub struct Item {
    pub kind: u64,
    pub ty: u64,
    pub content: [u64; 2],
    pub count: u64,
    pub next: u64,
    pub refused: [u64; 3],
}

/// `sgh_walked`.
#[repr(C)]
pub struct Walked {
    pub bytes: u64,
    pub leaves: u64,
    pub refused: [u64; 3],
}

/// `sgh_row`: where an entry of a list stands in the input, from its first length byte on, and where its name does.
#[repr(C)]
#[derive(Debug, Clone, Copy, Default, PartialEq, Eq, Hash)]
pub struct Row {
    /// The name's first byte.
    pub name_start: u32,
    /// How many bytes the name has.
    pub name_len: u32,
    /// The entry's first byte.
    pub entry_start: u32,
    /// How many bytes the entry has.
    pub entry_len: u32,
}

// The header's numbers, by its names without SGH_: of answers,
pub const GOOD: u32 = 0;
pub const PAYLOAD: u32 = 100;
pub const NOT_FOUND: u32 = 102;
pub const LOST: u32 = 103;
pub const PAYLOAD_TOO_LONG: u32 = 1;
pub const DECODER_OUT_OF_MEMORY: u32 = 3;
pub const DISCARDED_BYTES: u32 = 6;
pub const INVALID_ESC: u32 = 7;
pub const INVALID_MESSAGE: u32 = 8;
pub const BAD_STATE: u32 = 4;
pub const BAD_SPAN: u32 = 16;
pub const WRONG_NUMBER: u32 = 17;
pub const OUTPUT_TOO_SHORT: u32 = 18;
pub const TOO_DEEP: u32 = 19;
pub const TOO_MANY_ENTRIES: u32 = 20;
// of refusals in an event,
pub const INPUT_TOO_LONG: u64 = 9;
pub const UNEXPECTED_EOF: u64 = 10;
pub const INVALID_TLF: u64 = 11;
pub const TLF_MISMATCH: u64 = 12;
pub const UNEXPECTED_VARIANT: u64 = 13;
pub const CRC_MISMATCH: u64 = 14;
pub const MSG_END_MISMATCH: u64 = 15;
pub const TLF_LENGTH_OVERFLOW: u64 = 1;
pub const TLF_RESERVED: u64 = 2;
pub const TLF_LENGTH_UNDERFLOW: u64 = 3;
pub const TLF_NEXT_BYTE_TYPE_MISMATCH: u64 = 4;
// of kinds,
pub const MESSAGE_START: u64 = 1;
pub const GET_LIST_RESPONSE_END: u64 = 2;
pub const LIST_ENTRY: u64 = 3;
pub const REFUSED: u64 = 4;
pub const REFUSED_ALONE: u64 = 5;
pub const OPEN_RESPONSE: u64 = 1;
pub const CLOSE_RESPONSE: u64 = 2;
pub const GET_LIST_RESPONSE: u64 = 3;
pub const VALUE_BOOL: u64 = 1;
pub const VALUE_BYTES: u64 = 2;
pub const VALUE_SIGNED: u64 = 3;
pub const VALUE_UNSIGNED: u64 = 4;
pub const VALUE_TIME: u64 = 5;
pub const END_MARK: u64 = 1;
pub const LEAF: u64 = 2;
pub const LIST: u64 = 3;
pub const TY_BOOLEAN: u64 = 4;
pub const TY_INTEGER: u64 = 5;
pub const TY_UNSIGNED: u64 = 6;
// of causes,
pub const CAUSE_NOISE: u64 = 1;
pub const CAUSE_UNFINISHED: u64 = 2;
pub const CAUSE_HIDDEN: u64 = 4;
pub const CAUSE_CUT: u64 = 8;
pub const CAUSE_ESCAPE: u64 = 16;
pub const CAUSE_ROOM: u64 = 32;
pub const CAUSE_CRC: u64 = 64;
pub const CAUSE_MISALIGNED: u64 = 128;
pub const CAUSE_PADS: u64 = 256;
// of ways to search, and of lengths.
pub const FIRST_WAY: u8 = 1;
pub const SECOND_WAY: u8 = 2;
pub const LIMIT: usize = 1_048_576;
pub const DECODER_LEN: usize = 28;
pub const VALUES: usize = 4;
pub const EVENT_WORDS: usize = 24;
pub const ROW_NUMBERS: usize = 4;
pub const MESSAGE_WORDS: usize = 50;
pub const INDEX_WORDS: usize = 5;
pub const ITEM_WORDS: usize = 9;
pub const WALKED_WORDS: usize = 5;
pub const WATCH_WORDS: usize = 4;
pub const LOSS_WORDS: usize = 3;

// a struct of another size would be no row, message, index, item or walk
const _: () = assert!(size_of::<Row>() == 4 * ROW_NUMBERS);
const _: () = assert!(size_of::<Message>() == 8 * MESSAGE_WORDS && size_of::<Index>() == 8 * INDEX_WORDS);
const _: () = assert!(size_of::<Item>() == 8 * ITEM_WORDS && size_of::<Walked>() == 8 * WALKED_WORDS);

mod c {
    use super::{Encoder, Event, Index, Item, Loss, Message, Reader, Row, State, Values, Walked, Watch, Writer};

    extern "C" {
        pub fn sgh_decoder_new(d: *mut State, capacity: usize, way: u8) -> u32;
        pub fn sgh_push_byte(d: *mut State, buf: *mut u8, len: usize, byte: u8, values: *mut Values) -> u32;
        pub fn sgh_push_slice(
            d: *mut State,
            buf: *mut u8,
            len: usize,
            chunk: *const u8,
            chunk_len: usize,
            taken: *mut usize,
            values: *mut Values,
        ) -> u32;
        pub fn sgh_payload(d: *const State, buf: *const u8, len: usize, payload_len: *mut usize) -> u32;
        pub fn sgh_finalize(d: *mut State, values: *mut Values) -> u32;
        pub fn sgh_reset(d: *mut State, values: *mut Values) -> u32;
        pub fn sgh_next_loss(
            recording: *const u8,
            recording_len: usize,
            way: u8,
            buf: *mut u8,
            len: usize,
            from: usize,
            loss: *mut Loss,
        ) -> u32;
        pub fn sgh_watch_slice(
            d: *mut State,
            w: *mut Watch,
            buf: *mut u8,
            len: usize,
            chunk: *const u8,
            chunk_len: usize,
            taken: *mut usize,
            loss: *mut Loss,
        ) -> u32;
        pub fn sgh_watch_end(d: *mut State, w: *mut Watch, loss: *mut Loss) -> u32;
        pub fn sgh_encode(payload: *const u8, payload_len: usize, out: *mut u8, len: usize, frame_len: *mut usize) -> u32;
        pub fn sgh_encoder_new(e: *mut Encoder);
        pub fn sgh_encoder_next(e: *mut Encoder, payload: *const u8, payload_len: usize, byte: *mut u8) -> u32;
        pub fn sgh_crc(bytes: *const u8, len: usize) -> u16;
        pub fn sgh_next_event(input: *const u8, len: usize, reader: *mut Reader, event: *mut Event) -> u32;
        pub fn sgh_read_message(input: *const u8, len: usize, at: usize, table: *mut u32, table_len: usize, message: *mut Message) -> u32;
        pub fn sgh_build_index(input: *const u8, len: usize, at: usize, table: *mut u32, table_len: usize, index: *mut Index) -> u32;
        pub fn sgh_look_up(
            input: *const u8,
            len: usize,
            table: *const u32,
            table_len: usize,
            name: *const u8,
            name_len: usize,
            row: *mut Row,
        ) -> u32;
        pub fn sgh_read_item(input: *const u8, len: usize, at: usize, item: *mut Item) -> u32;
        pub fn sgh_walk(input: *const u8, len: usize, at: usize, walked: *mut Walked) -> u32;
        pub fn sgh_write_event(
            out: *mut u8,
            out_len: usize,
            strings: *const u8,
            strings_len: usize,
            event: *const Event,
            writer: *mut Writer,
        ) -> u32;
    }
}

#[inline]
pub fn decoder_new(state: &mut State, capacity: usize, way: u8) -> u32 {
    // SAFETY: a `&mut` to 28 bytes; the rest are numbers, of which any may come.
    unsafe { c::sgh_decoder_new(state, capacity, way) }
}

#[inline]
pub fn push_byte(state: &mut State, buf: &mut [u8], byte: u8, values: &mut Values) -> u32 {
    // SAFETY: three `&mut`, which don't overlap; `buf` is good for its length.
    unsafe { c::sgh_push_byte(state, buf.as_mut_ptr(), buf.len(), byte, values) }
}

#[inline]
pub fn push_slice(state: &mut State, buf: &mut [u8], chunk: &[u8], taken: &mut usize, values: &mut Values) -> u32 {
    // SAFETY: four `&mut`, which overlap neither with each other nor with `chunk`; both slices are good for their length.
    unsafe { c::sgh_push_slice(state, buf.as_mut_ptr(), buf.len(), chunk.as_ptr(), chunk.len(), taken, values) }
}

#[inline]
pub fn payload(state: &State, buf: &[u8], len: &mut usize) -> u32 {
    // SAFETY: state and buffer are only read, which a `&` allows; `len` overlaps with neither.
    unsafe { c::sgh_payload(state, buf.as_ptr(), buf.len(), len) }
}

#[inline]
pub fn finalize(state: &mut State, values: &mut Values) -> u32 {
    // SAFETY: two `&mut`, which don't overlap.
    unsafe { c::sgh_finalize(state, values) }
}

#[inline]
pub fn reset(state: &mut State, values: &mut Values) -> u32 {
    // SAFETY: two `&mut`, which don't overlap.
    unsafe { c::sgh_reset(state, values) }
}

#[inline]
pub fn next_loss(recording: &[u8], way: u8, buf: &mut [u8], from: usize, loss: &mut Loss) -> u32 {
    // SAFETY: `buf` and `loss` are `&mut`, and overlap neither with each other nor with `recording`; both slices are good for their length, and `loss` has as many numbers as `sgh_loss`.
    unsafe { c::sgh_next_loss(recording.as_ptr(), recording.len(), way, buf.as_mut_ptr(), buf.len(), from, loss) }
}

#[inline]
pub fn watch_slice(state: &mut State, watch: &mut Watch, buf: &mut [u8], chunk: &[u8], taken: &mut usize, loss: &mut Loss) -> u32 {
    // SAFETY: five `&mut`, which overlap neither with each other nor with `chunk`; both slices are good for their length, and watch and loss have as many numbers as `sgh_watch` and `sgh_loss`.
    unsafe { c::sgh_watch_slice(state, watch, buf.as_mut_ptr(), buf.len(), chunk.as_ptr(), chunk.len(), taken, loss) }
}

#[inline]
pub fn watch_end(state: &mut State, watch: &mut Watch, loss: &mut Loss) -> u32 {
    // SAFETY: three `&mut`, which don't overlap, of as many bytes and numbers as `sgh_decoder`, `sgh_watch` and `sgh_loss` have.
    unsafe { c::sgh_watch_end(state, watch, loss) }
}

#[inline]
pub fn encode(payload: &[u8], out: &mut [u8], len: &mut usize) -> u32 {
    // SAFETY: `out` and `len` are `&mut`, and overlap neither with each other nor with `payload`; both slices are good for their length.
    unsafe { c::sgh_encode(payload.as_ptr(), payload.len(), out.as_mut_ptr(), out.len(), len) }
}

#[inline]
pub fn encoder_new() -> Encoder {
    let mut encoder = [0; 4];
    // SAFETY: a `&mut` to four numbers, as `sgh_encoder` has.
    unsafe { c::sgh_encoder_new(&mut encoder) };
    encoder
}

#[inline]
pub fn encoder_next(encoder: &mut Encoder, payload: &[u8], byte: &mut u8) -> u32 {
    // SAFETY: two `&mut`, which overlap neither with each other nor with `payload`, which is good for its length.
    unsafe { c::sgh_encoder_next(encoder, payload.as_ptr(), payload.len(), byte) }
}

#[inline]
pub fn crc(bytes: &[u8]) -> u16 {
    // SAFETY: the slice is good for its length, and only read.
    unsafe { c::sgh_crc(bytes.as_ptr(), bytes.len()) }
}

#[inline]
pub fn next_event(input: &[u8], reader: &mut Reader, event: &mut Event) -> u32 {
    // SAFETY: two `&mut`, of as many numbers as `sgh_reader` and `sgh_event` have, which overlap neither with each other nor with `input`, which is good for its length.
    unsafe { c::sgh_next_event(input.as_ptr(), input.len(), reader, event) }
}

#[inline]
pub fn read_message(input: &[u8], at: usize, table: &mut [Row], message: &mut Message) -> u32 {
    // SAFETY: two `&mut`, which overlap neither with each other nor with `input`, which is good for its length; `repr(C)` makes a row four numbers, one behind the other, and `Message` the struct of the header.
    unsafe { c::sgh_read_message(input.as_ptr(), input.len(), at, table.as_mut_ptr().cast(), ROW_NUMBERS * table.len(), message) }
}

#[inline]
pub fn build_index(input: &[u8], at: usize, table: &mut [u32], index: &mut Index) -> u32 {
    // SAFETY: two `&mut`, which overlap neither with each other nor with `input`; both slices are good for their length, and `repr(C)` makes `Index` the struct of the header.
    unsafe { c::sgh_build_index(input.as_ptr(), input.len(), at, table.as_mut_ptr(), table.len(), index) }
}

#[inline]
pub fn look_up(input: &[u8], table: &[u32], name: &[u8], row: &mut Row) -> u32 {
    // SAFETY: `row` is a `&mut`, and overlaps with none of the others, which are only read; the three slices are good for their length, and `repr(C)` makes a row the struct of the header.
    unsafe { c::sgh_look_up(input.as_ptr(), input.len(), table.as_ptr(), table.len(), name.as_ptr(), name.len(), row) }
}

#[inline]
pub fn read_item(input: &[u8], at: usize, item: &mut Item) -> u32 {
    // SAFETY: `item` is a `&mut`, and doesn't overlap with `input`, which is good for its length; `repr(C)` makes it the struct of the header.
    unsafe { c::sgh_read_item(input.as_ptr(), input.len(), at, item) }
}

#[inline]
pub fn walk(input: &[u8], at: usize, walked: &mut Walked) -> u32 {
    // SAFETY: `walked` is a `&mut`, and doesn't overlap with `input`, which is good for its length; `repr(C)` makes it the struct of the header.
    unsafe { c::sgh_walk(input.as_ptr(), input.len(), at, walked) }
}

#[inline]
pub fn write_event(out: &mut [u8], strings: &[u8], event: &Event, writer: &mut Writer) -> u32 {
    // SAFETY: two `&mut`, which overlap neither with each other nor with `strings` and `event`, which are only read; both slices are good for their length, and writer and event have as many numbers as `sgh_writer` and `sgh_event`.
    unsafe { c::sgh_write_event(out.as_mut_ptr(), out.len(), strings.as_ptr(), strings.len(), event, writer) }
}
