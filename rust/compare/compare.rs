//! compare FILE SEED: the unchanged crate sml-rs 0.4.0 and crate sartrogheo on the same bytes, answer by answer. FILE has message inputs, one a line in hex. oracle/build builds it, so that the
//! files of sml-rs are its modules. It ends with status 1 at the first difference.
//!
//! Compared is the domain on which docs/DIFFERENCES.md lists none: no search has more than 65,535 noise bytes (finalize or reset comes before), payloads, buffers and inputs are far below
//! 1,048,576 bytes, and no list or length is over 4,294,967,293 (`in_domain`, and for FILE whoever made it). TlfMismatch has no text here; places are the other's alone.
#![allow(dead_code, unused_imports, missing_docs)]
extern crate alloc;
extern crate random;
extern crate sartrogheo;

mod parser;
mod transport;
mod util;

use random::Random;
use sartrogheo::parser::{ParseErrorKind as Kind, TlfParseError as Tlf};

// The same words for both crates' answers, by the same names: each field is named, none is left out.
macro_rules! in_words {
    ($name:ident, $of:ident) => {
        mod $name {
            use $of::parser::common::{CloseResponse, ListEntry, ListType, OpenResponse, Status, Time, Value};
            use $of::parser::streaming::{GetListResponseEnd, GetListResponseStart, MessageBody, MessageStart, ParseEvent};
            use $of::transport::DecodeErr;

            fn seconds(t: &Option<Time>) -> Option<u32> {
                t.as_ref().map(|t| match t {
                    Time::SecIndex(n) => *n,
                })
            }

            fn status(s: &Option<Status>) -> Option<(u32, u64)> {
                s.as_ref().map(|s| match s {
                    Status::Status8(n) => (u8::BITS, u64::from(*n)),
                    Status::Status16(n) => (u16::BITS, u64::from(*n)),
                    Status::Status32(n) => (u32::BITS, u64::from(*n)),
                    Status::Status64(n) => (u64::BITS, *n),
                })
            }

            fn value(v: &Value) -> String {
                match v {
                    Value::Bool(x) => format!("bool {x}"),
                    Value::Bytes(x) => format!("bytes {x:02x?}"),
                    Value::I8(x) => format!("i8 {x}"),
                    Value::I16(x) => format!("i16 {x}"),
                    Value::I32(x) => format!("i32 {x}"),
                    Value::I64(x) => format!("i64 {x}"),
                    Value::U8(x) => format!("u8 {x}"),
                    Value::U16(x) => format!("u16 {x}"),
                    Value::U32(x) => format!("u32 {x}"),
                    Value::U64(x) => format!("u64 {x}"),
                    Value::List(ListType::Time(Time::SecIndex(n))) => format!("list time {n}"),
                }
            }

            fn body(b: &MessageBody) -> String {
                match b {
                    MessageBody::OpenResponse(OpenResponse { codepage, client_id, req_file_id, server_id, ref_time, sml_version }) => {
                        format!("open {:02x?}", (codepage, client_id, req_file_id, server_id, seconds(ref_time), sml_version))
                    }
                    MessageBody::CloseResponse(CloseResponse { global_signature }) => format!("close {global_signature:02x?}"),
                    MessageBody::GetListResponse(GetListResponseStart { client_id, server_id, list_name, act_sensor_time, num_vals }) => {
                        format!("list {:02x?}", (client_id, server_id, list_name, seconds(act_sensor_time), num_vals))
                    }
                }
            }

            pub fn event(e: &ParseEvent) -> String {
                match e {
                    ParseEvent::MessageStart(MessageStart { transaction_id, group_no, abort_on_error, message_body }) => {
                        format!("start {:02x?} {}", (transaction_id, group_no, abort_on_error), body(message_body))
                    }
                    ParseEvent::GetListResponseEnd(GetListResponseEnd { list_signature, act_gateway_time }) => {
                        format!("end {:02x?}", (list_signature, seconds(act_gateway_time)))
                    }
                    ParseEvent::ListEntry(ListEntry { obj_name, status: s, val_time, unit, scaler, value: v, value_signature }) => {
                        format!("entry {:02x?}", (obj_name, status(s), seconds(val_time), unit, scaler, value(v), value_signature))
                    }
                }
            }

            pub fn refused(e: &DecodeErr) -> String {
                match e {
                    DecodeErr::DiscardedBytes(n) => format!("discarded {n}"),
                    DecodeErr::InvalidEsc(bytes) => format!("escape {bytes:02x?}"),
                    DecodeErr::OutOfMemory => "memory".to_string(),
                    DecodeErr::InvalidMessage { checksum_mismatch, end_esc_misaligned, num_padding_bytes } => {
                        format!("invalid {:?}", (checksum_mismatch, end_esc_misaligned, num_padding_bytes))
                    }
                }
            }

            pub fn pushed(said: Result<Option<&[u8]>, DecodeErr>) -> Option<String> {
                match said {
                    Ok(None) => None,
                    Ok(Some(payload)) => Some(format!("payload {payload:02x?}")),
                    Err(e) => Some(refused(&e)),
                }
            }
        }
    };
}

in_words!(theirs, crate);
in_words!(ours, sartrogheo);

fn their_error(e: &parser::ParseError) -> String {
    match e {
        parser::ParseError::TlfMismatch(_) => "TlfMismatch".to_string(),
        e => format!("{e:?}"),
    }
}

fn our_error(e: &sartrogheo::parser::ParseError) -> String {
    format!("{:?}", e.kind())
}

fn same<T: PartialEq + std::fmt::Debug>(what: &str, on: &[u8], theirs: T, ours: T) {
    if theirs != ours {
        println!("{what}: they differ on {on:02x?}\n  sml-rs: {theirs:?}\n  ours:   {ours:?}");
        std::process::exit(1);
    }
}

// ---- pushes

#[derive(Default)]
struct Count {
    bytes: usize,
    /// Payloads, or events.
    good: usize,
    refused: usize,
}

impl Count {
    fn add(&mut self, good: bool) {
        self.good += usize::from(good);
        self.refused += usize::from(!good);
    }

    /// Where nothing is compared nothing differs, which says nothing.
    fn enough(&self, what: &str) {
        assert!(self.bytes > 0 && self.good > 0 && self.refused > 0, "{what}: nothing is compared");
    }
}

type Ours<const N: usize> = sartrogheo::transport::Decoder<sartrogheo::util::ArrayBuf<N>>;

/// Decoders on the same bytes: the crate's; ours byte by byte and by slices; ours that search in the second way, which the crate doesn't have, byte by byte and by slices.
struct Decoders<const N: usize> {
    theirs: transport::Decoder<util::ArrayBuf<N>>,
    single: Ours<N>,
    sliced: Ours<N>,
    second: [Ours<N>; 2],
}

/// What slices of the piece say, cut anyhow, and at which byte.
fn slices<const N: usize>(decoder: &mut Ours<N>, r: &mut Random, piece: &[u8]) -> Vec<(usize, String)> {
    let (mut at, mut said) = (0, Vec::new());
    while at < piece.len() {
        let end = at + r.below(piece.len() - at + 1).min(1 << r.below(9));
        while at < end {
            let (taken, answer) = decoder.push(&piece[at..end]);
            at += taken;
            said.extend(ours::pushed(answer).map(|a| (at - 1, a)));
        }
    }
    said
}

impl<const N: usize> Decoders<N> {
    fn new() -> Self {
        Decoders {
            theirs: transport::Decoder::new(),
            single: Ours::new(),
            sliced: Ours::new(),
            second: [Ours::second_way(), Ours::second_way()],
        }
    }

    fn push(&mut self, r: &mut Random, piece: &[u8], count: &mut Count) {
        let (mut said, mut second) = (Vec::new(), Vec::new());
        for (at, b) in piece.iter().enumerate() {
            let answer = theirs::pushed(self.theirs.push_byte(*b));
            same("push_byte", piece, &answer, &ours::pushed(self.single.push_byte(*b)));
            if answer.is_some() {
                count.add(self.single.payload().is_some());
            }
            said.extend(answer.map(|a| (at, a)));
            second.extend(ours::pushed(self.second[0].push_byte(*b)).map(|a| (at, a)));
        }
        count.bytes += piece.len();
        same("push", piece, said, slices(&mut self.sliced, r, piece));
        same("push, the second way", piece, second, slices(&mut self.second[1], r, piece));
    }

    fn between(&mut self, finalize: bool) {
        let [second, sliced] = &mut self.second;
        if finalize {
            let said = self.theirs.finalize().map(|e| theirs::refused(&e));
            same("finalize", &[], &said, &self.single.finalize().map(|e| ours::refused(&e)));
            same("finalize", &[], &said, &self.sliced.finalize().map(|e| ours::refused(&e)));
            same("finalize, the second way", &[], second.finalize(), sliced.finalize());
        } else {
            let lost = self.theirs.reset();
            same("reset", &[], lost, self.single.reset());
            same("reset", &[], lost, self.sliced.reset());
            same("reset, the second way", &[], second.reset(), sliced.reset());
        }
    }
}

/// Payloads are as long as this decoder has room for, or a little longer.
fn pushes<const N: usize>(r: &mut Random, bytes: usize, count: &mut Count) {
    let mut decoders = Decoders::<N>::new();
    let (end, mut since) = (count.bytes + bytes, 0);
    r.sizes = [9, 9, 40, N + 1, N + 1, N + 9];
    while count.bytes < end {
        let piece = r.piece();
        since += piece.len();
        // 65,535 noise bytes are the most of the domain
        if since > 60_000 || r.below(12) == 0 {
            decoders.between(r.below(2) == 0);
            since = piece.len();
        }
        decoders.push(r, &piece, count);
    }
    decoders.between(true);
}

fn all_pushes(r: &mut Random, bytes: usize, count: &mut Count) {
    pushes::<0>(r, bytes, count);
    pushes::<1>(r, bytes, count);
    pushes::<4>(r, bytes, count);
    pushes::<7>(r, bytes, count);
    pushes::<8>(r, bytes, count);
    pushes::<13>(r, bytes, count);
    pushes::<20>(r, bytes, count);
    pushes::<44>(r, bytes, count);
    pushes::<128>(r, bytes, count);
    pushes::<304>(r, bytes, count);
    pushes::<1024>(r, bytes, count);
    pushes::<4096>(r, bytes, count);
}

// ---- encode

fn at_capacity<const N: usize>(p: &[u8]) {
    let theirs = transport::encode::<util::ArrayBuf<N>>(p).map(|b| b.to_vec()).map_err(|_| ());
    let ours = sartrogheo::transport::encode::<sartrogheo::util::ArrayBuf<N>>(p).map(|b| b.to_vec()).map_err(|_| ());
    same("encode", p, theirs, ours);
}

/// Into outputs of sizes about the frame's: what is written, and that nothing else is.
fn into_outputs(r: &mut Random, p: &[u8], frame: &[u8]) {
    for size in [0, frame.len() - 1, frame.len(), frame.len() + 1, frame.len() + r.below(50), r.below(frame.len())] {
        let before = r.bytes(size);
        let (mut out, mut wanted) = (before.clone(), before);
        let said = sartrogheo::transport::encode_into(p, &mut out).ok();
        if size >= frame.len() {
            wanted[..frame.len()].copy_from_slice(frame);
        }
        same("encode_into", p, (size >= frame.len()).then_some(frame.len()), said);
        same("encode_into, the output", p, wanted, out);
    }
}

fn encodes(r: &mut Random, times: usize) {
    for _ in 0..times {
        let p = r.payload();
        at_capacity::<0>(&p);
        at_capacity::<15>(&p);
        at_capacity::<16>(&p);
        at_capacity::<20>(&p);
        at_capacity::<64>(&p);
        at_capacity::<300>(&p);
        at_capacity::<4096>(&p);
        let frame = transport::encode::<Vec<u8>>(&p).unwrap();
        same("encode, Vec", &p, Ok(frame.clone()), sartrogheo::transport::encode::<Vec<u8>>(&p));
        into_outputs(r, &p, &frame);
        let (mut theirs, mut ours) = (transport::encode_streaming(&p), sartrogheo::transport::encode_streaming(&p));
        // three calls more than there are bytes
        let all = |next: &mut dyn FnMut() -> Option<u8>| (0..frame.len() + 3).map(|_| next()).collect::<Vec<_>>();
        same("Encoder", &p, all(&mut || theirs.next()), all(&mut || ours.next()));
    }
}

// ---- decode

fn stream<const N: usize>(bytes: &[u8]) {
    let (mut theirs, mut ours) = (
        transport::decode_streaming::<util::ArrayBuf<N>>(bytes),
        sartrogheo::transport::decode_streaming::<sartrogheo::util::ArrayBuf<N>>(bytes),
    );
    let mut left = 3;
    while left > 0 {
        let said = theirs.next().map(|a| theirs::pushed(a.map(Some)));
        same("decode_streaming", bytes, &said, &ours.next().map(|a| ours::pushed(a.map(Some))));
        left -= said.is_none() as usize;
    }
}

fn decodes(r: &mut Random, times: usize, count: &mut Count) {
    for _ in 0..times {
        let bytes: Vec<u8> = (0..r.below(6)).flat_map(|_| r.piece()).collect();
        stream::<0>(&bytes);
        stream::<20>(&bytes);
        stream::<512>(&bytes);
        count.bytes += bytes.len();
        sartrogheo::transport::decode(&bytes).iter().for_each(|a| count.add(a.is_ok()));
        let theirs: Vec<_> =
            transport::decode(&bytes).into_iter().map(|a| theirs::pushed(a.as_deref().map(Some).map_err(Clone::clone))).collect();
        let ours: Vec<_> =
            sartrogheo::transport::decode(&bytes).into_iter().map(|a| ours::pushed(a.as_deref().map(Some).map_err(Clone::clone))).collect();
        same("decode", &bytes, theirs, ours);
    }
}

// ---- messages

/// Whether no length over 4,294,967,293 can be read, wherever one may begin. Bits 4 to 6 of a later length byte are 0, else it is refused.
fn in_domain(input: &[u8]) -> bool {
    (0..input.len()).all(|at| {
        let (mut length, mut before) = (u64::from(input[at] & 15), input[at]);
        for b in &input[at + 1..] {
            if before < 0x80 || b & 0x70 != 0 || length > 4_294_967_293 {
                break;
            }
            (length, before) = (length << 4 | u64::from(b & 15), *b);
        }
        length <= 4_294_967_293
    })
}

/// The events, and three calls more.
fn events(input: &[u8], count: &mut Count) {
    let (mut theirs, mut ours) = (parser::streaming::Parser::new(input), sartrogheo::parser::streaming::Parser::new(input));
    let mut left = 4;
    while left > 0 {
        let said = theirs.next().map(|x| x.map(|e| theirs::event(&e)).map_err(|e| their_error(&e)));
        let next = ours.next();
        if let Some(Err(e)) = &next {
            assert!(e.place().is_some_and(|p| p <= input.len()));
        }
        same("events", input, &said, &next.map(|x| x.map(|e| ours::event(&e)).map_err(|e| our_error(&e))));
        said.iter().for_each(|x| count.add(x.is_ok()));
        if !matches!(said, Some(Ok(_))) || left < 4 {
            left -= 1;
        }
    }
    count.bytes += input.len();
}

/// All inputs of the file, and each again with bytes that are other, missing or more: how many of these were in the domain, and how many outside of it.
fn messages(r: &mut Random, inputs: &[Vec<u8>], times: usize, count: &mut Count) -> (usize, usize) {
    let (mut changed, mut outside) = (0, 0);
    for input in inputs {
        events(input, count);
        for _ in 0..times {
            let other = r.mutated(input);
            if in_domain(&other) {
                events(&other, count);
                changed += 1;
            } else {
                outside += 1;
            }
        }
    }
    (changed, outside)
}

fn unhexed(line: &str) -> Vec<u8> {
    (0..line.len() / 2).map(|k| u8::from_str_radix(&line[2 * k..2 * k + 2], 16).unwrap()).collect()
}

fn main() {
    let words: Vec<String> = std::env::args().collect();
    let inputs: Vec<Vec<u8>> = std::fs::read_to_string(&words[1]).unwrap().lines().map(unhexed).collect();
    let mut r = Random::new(words[2].parse().unwrap());
    let mut count = Count::default();
    all_pushes(&mut r, 100_000, &mut count);
    count.enough("pushes");
    println!(
        "push_byte, push, finalize, reset: {} bytes at 12 capacities, {} payloads, {} refusals, no difference",
        count.bytes, count.good, count.refused
    );
    r.sizes = [9, 9, 40, 40, 300, 1500];
    let mut count = Count::default();
    encodes(&mut r, 4000);
    decodes(&mut r, 4000, &mut count);
    count.enough("streams");
    println!(
        "encode, encode_into, Encoder: 4000 payloads; decode, decode_streaming: 4000 streams, {} payloads, {} refusals, no difference",
        count.good, count.refused
    );
    let mut count = Count::default();
    let (changed, outside) = messages(&mut r, &inputs, 4, &mut count);
    count.enough("events");
    println!(
        "messages: {} inputs and {changed} with changed bytes, {} bytes, {} events, {} refusals, no difference; {outside} more were outside of the domain",
        inputs.len(),
        count.bytes,
        count.good,
        count.refused
    );
}
