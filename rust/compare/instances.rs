//! Every function of the crate that has a type parameter, made for some type, so that a test can look for calls that panic in what the compiler makes of them and of the crate.
//! With feature `alloc` the buffer is a Vec; `decode`, which ends the program where memory runs out, is the one function that is not here.
#![no_std]
#[cfg(feature = "alloc")]
extern crate alloc;
extern crate sartrogheo;

use sartrogheo::losses::{Loss, Seen, Watch};
use sartrogheo::parser::streaming::{ParseEvent, Parser, UntilRefused};
use sartrogheo::transport::{decode_streaming, encode, encode_into, encode_streaming, DecodeErr, DecodeIterator, Decoder, Encoder};
use sartrogheo::util::{Buffer, OutOfMemory};

#[cfg(feature = "alloc")]
type Buf = alloc::vec::Vec<u8>;
#[cfg(not(feature = "alloc"))]
type Buf = sartrogheo::util::ArrayBuf<64>;

#[no_mangle]
pub fn made() -> [Decoder<Buf>; 5] {
    [
        Decoder::new(),
        Decoder::second_way(),
        Decoder::from_buf(Buf::default()),
        Decoder::from_buf_second_way(Buf::default()),
        Decoder::default(),
    ]
}

#[no_mangle]
pub fn watches() -> [Watch<Buf>; 5] {
    [
        Watch::new(),
        Watch::second_way(),
        Watch::from_buf(Buf::default()),
        Watch::from_buf_second_way(Buf::default()),
        Watch::default(),
    ]
}

#[no_mangle]
pub fn pushed(decoder: &mut Decoder<Buf>, byte: u8) -> Result<Option<&[u8]>, DecodeErr> {
    decoder.push_byte(byte)
}

#[no_mangle]
pub fn pushed_slice<'d>(decoder: &'d mut Decoder<Buf>, bytes: &[u8]) -> (usize, Result<Option<&'d [u8]>, DecodeErr>) {
    decoder.push(bytes)
}

#[no_mangle]
pub fn ended(decoder: &mut Decoder<Buf>) -> (bool, Option<DecodeErr>, usize) {
    (decoder.payload().is_some(), decoder.finalize(), decoder.reset())
}

#[no_mangle]
pub fn watched<'w>(watch: &'w mut Watch<Buf>, bytes: &[u8]) -> (usize, Seen<'w>) {
    watch.slice(bytes)
}

#[no_mangle]
pub fn watch_ended(watch: &mut Watch<Buf>) -> (u64, Option<Loss>) {
    (watch.pushed(), watch.end())
}

#[no_mangle]
pub fn encoded(payload: &[u8], out: &mut [u8]) -> (usize, Result<Buf, OutOfMemory>) {
    (encode_into(payload, out).unwrap_or(0), encode(payload))
}

#[no_mangle]
pub fn streamed<'p>(payload: &'p [u8], encoder: &mut Encoder<&'p [u8]>) -> Option<u8> {
    *encoder = encode_streaming(payload);
    encoder.next()
}

#[no_mangle]
pub fn decoded<'d>(iterator: &'d mut DecodeIterator<Buf, core::array::IntoIter<u8, 64>>) -> Option<Result<&'d [u8], DecodeErr>> {
    iterator.next()
}

#[no_mangle]
pub fn decoded_all(bytes: &[u8]) -> usize {
    let (mut said, mut n) = (decode_streaming::<Buf>(bytes), 0);
    while said.next().is_some() {
        n |= 1;
    }
    n
}

#[no_mangle]
pub fn parsed<'i>(parser: &mut Parser<'i>) -> Option<ParseEvent<'i>> {
    parser.next().and_then(Result::ok)
}

#[no_mangle]
pub fn parsed_until<'i>(events: &mut UntilRefused<'i>, input: &'i [u8]) -> Option<ParseEvent<'i>> {
    *events = Parser::new(input).until_refused();
    events.next().and_then(Result::ok)
}

#[no_mangle]
pub fn buffered(buf: &mut Buf, bytes: &[u8]) -> Result<(), OutOfMemory> {
    Buffer::truncate(buf, bytes.len());
    Buffer::push(buf, bytes.len() as u8)?;
    Buffer::extend_from_slice(buf, bytes)
}
