//! The crate sml-rs 0.4.0 as the judge: reads one command a line and prints the crate's answer, one line each.
//! The crate's files stand unchanged beside this one in the build's folder and are modules of this program, so that
//! crate-private names (the parsers of single fields) can be called too.
#![allow(dead_code, unused_imports, missing_docs)]
extern crate alloc;

mod parser;
mod transport;
mod util;

use parser::common::{ListType, Status, Time, Value};
use parser::streaming::{MessageBody, ParseEvent, Parser};
use parser::{OctetStr, ParseError, SmlParse, TlfParseError};
use std::io::{BufRead, Write};
use transport::{DecodeErr, Decoder};
use util::{ArrayBuf, Buffer};

fn hex(bytes: &[u8]) -> String {
    bytes.iter().map(|b| format!("{:02x}", b)).collect()
}

fn unhex(text: &str) -> Option<Vec<u8>> {
    if text == "-" {
        return Some(Vec::new());
    }
    if text.is_empty() || text.len() % 2 != 0 || !text.bytes().all(|c| c.is_ascii_digit() || (b'a'..=b'f').contains(&c)) {
        return None;
    }
    (0..text.len()).step_by(2).map(|i| u8::from_str_radix(&text[i..i + 2], 16).ok()).collect()
}

// A plain decimal number of at most `most`.
fn number(text: &str, most: usize) -> Option<usize> {
    if text.is_empty() || !text.bytes().all(|c| c.is_ascii_digit()) {
        return None;
    }
    text.parse().ok().filter(|n| *n <= most)
}

// ---- events of messages, in words

fn string(s: &[u8]) -> String {
    format!("x{}", hex(s))
}

fn optional<T>(x: &Option<T>, show: impl Fn(&T) -> String) -> String {
    x.as_ref().map_or("-".to_string(), show)
}

fn octets(x: &Option<OctetStr>) -> String {
    optional(x, |s| string(s))
}

fn time(t: &Time) -> String {
    match t {
        Time::SecIndex(n) => format!("sec:{}", n),
    }
}

fn status(s: &Status) -> String {
    match s {
        Status::Status8(n) => format!("u8:{}", n),
        Status::Status16(n) => format!("u16:{}", n),
        Status::Status32(n) => format!("u32:{}", n),
        Status::Status64(n) => format!("u64:{}", n),
    }
}

fn value(v: &Value) -> String {
    match v {
        Value::Bool(b) => format!("bool:{}", *b as u8),
        Value::Bytes(s) => format!("oct:{}", hex(s)),
        Value::I8(n) => format!("i8:{}", n),
        Value::I16(n) => format!("i16:{}", n),
        Value::I32(n) => format!("i32:{}", n),
        Value::I64(n) => format!("i64:{}", n),
        Value::U8(n) => format!("u8:{}", n),
        Value::U16(n) => format!("u16:{}", n),
        Value::U32(n) => format!("u32:{}", n),
        Value::U64(n) => format!("u64:{}", n),
        Value::List(ListType::Time(t)) => format!("list:{}", time(t)),
    }
}

fn error(e: &ParseError) -> String {
    match e {
        ParseError::UnexpectedEOF => "err UnexpectedEOF".to_string(),
        ParseError::InvalidTlf(k) => format!("err InvalidTlf {:?}", k),
        ParseError::TlfMismatch(_) => "err TlfMismatch".to_string(),
        ParseError::UnexpectedVariant => "err UnexpectedVariant".to_string(),
        ParseError::CrcMismatch => "err CrcMismatch".to_string(),
        ParseError::MsgEndMismatch => "err MsgEndMismatch".to_string(),
        ParseError::LeftoverInput => "err LeftoverInput".to_string(),
    }
}

fn event(e: &ParseEvent) -> String {
    match e {
        ParseEvent::MessageStart(m) => {
            let head = |name: &str| format!("{} tid={} group={} abort={}", name, string(m.transaction_id), m.group_no, m.abort_on_error);
            match &m.message_body {
                MessageBody::OpenResponse(o) => format!(
                    "{} codepage={} client={} file={} server={} time={} version={}",
                    head("open"),
                    octets(&o.codepage),
                    octets(&o.client_id),
                    string(o.req_file_id),
                    string(o.server_id),
                    optional(&o.ref_time, time),
                    optional(&o.sml_version, |n| n.to_string())
                ),
                MessageBody::CloseResponse(c) => format!("{} sig={}", head("close"), octets(&c.global_signature)),
                MessageBody::GetListResponse(l) => format!(
                    "{} client={} server={} name={} time={} n={}",
                    head("list"),
                    octets(&l.client_id),
                    string(l.server_id),
                    octets(&l.list_name),
                    optional(&l.act_sensor_time, time),
                    l.num_vals
                ),
            }
        }
        ParseEvent::ListEntry(e) => format!(
            "entry name={} status={} time={} unit={} scaler={} value={} sig={}",
            string(e.obj_name),
            optional(&e.status, status),
            optional(&e.val_time, time),
            optional(&e.unit, |n| n.to_string()),
            optional(&e.scaler, |n| n.to_string()),
            value(&e.value),
            octets(&e.value_signature)
        ),
        ParseEvent::GetListResponseEnd(e) => format!("end sig={} time={}", octets(&e.list_signature), optional(&e.act_gateway_time, time)),
    }
}

fn events(input: &[u8]) -> String {
    let mut parser = Parser::new(input);
    let mut said = Vec::new();
    let mut more = None;
    while more != Some(0) {
        match parser.next() {
            None => {
                said.push("none".to_string());
                if more.is_none() {
                    break;
                }
            }
            Some(Ok(e)) => said.push(event(&e)),
            Some(Err(e)) => {
                said.push(error(&e));
                if more.is_none() {
                    more = Some(3);
                    continue;
                }
            }
        }
        more = more.map(|n| n - 1);
    }
    said.join(" | ")
}

fn leaf_of<'i, T: SmlParse<'i>>(input: &'i [u8], show: impl Fn(&T) -> String) -> String {
    match T::parse(input) {
        Ok((rest, x)) => format!("{} left {}", show(&x), rest.len()),
        Err(e) => error(&e),
    }
}

fn leaf(kind: &str, i: &[u8]) -> Option<String> {
    Some(match kind {
        "u8" => leaf_of::<u8>(i, |n| n.to_string()),
        "u16" => leaf_of::<u16>(i, |n| n.to_string()),
        "u32" => leaf_of::<u32>(i, |n| n.to_string()),
        "u64" => leaf_of::<u64>(i, |n| n.to_string()),
        "i8" => leaf_of::<i8>(i, |n| n.to_string()),
        "i16" => leaf_of::<i16>(i, |n| n.to_string()),
        "i32" => leaf_of::<i32>(i, |n| n.to_string()),
        "i64" => leaf_of::<i64>(i, |n| n.to_string()),
        "bool" => leaf_of::<bool>(i, |b| (*b as u8).to_string()),
        "oct" => leaf_of::<OctetStr>(i, |s| string(s)),
        "time" => leaf_of::<Time>(i, time),
        "value" => leaf_of::<Value>(i, value),
        "status" => leaf_of::<Status>(i, status),
        "opt_u8" => leaf_of::<Option<u8>>(i, |x| optional(x, |n| n.to_string())),
        "opt_i8" => leaf_of::<Option<i8>>(i, |x| optional(x, |n| n.to_string())),
        "opt_oct" => leaf_of::<Option<OctetStr>>(i, octets),
        "opt_time" => leaf_of::<Option<Time>>(i, |x| optional(x, time)),
        "opt_status" => leaf_of::<Option<Status>>(i, |x| optional(x, status)),
        _ => return None,
    })
}

// ---- the decoder

// The most bytes that one zN:HH pushes.
const MOST: usize = 1048576;

enum Op {
    Bytes(Vec<u8>),
    Finalize,
    Reset,
}

fn ops(text: &str) -> Option<Vec<Op>> {
    text.split(',')
        .map(|t| match t {
            "f" => Some(Op::Finalize),
            "r" => Some(Op::Reset),
            _ if t.starts_with('b') => unhex(&t[1..]).map(Op::Bytes),
            _ if t.starts_with('z') => {
                let (n, h) = t[1..].split_once(':')?;
                let b = unhex(h).filter(|b| b.len() == 1)?;
                Some(Op::Bytes(vec![b[0]; number(n, MOST)?]))
            }
            _ => None,
        })
        .collect()
}

fn failure(e: &DecodeErr) -> String {
    match e {
        DecodeErr::DiscardedBytes(n) => format!("discarded {}", n),
        DecodeErr::InvalidEsc(b) => format!("escape {}", hex(b)),
        DecodeErr::OutOfMemory => "memory".to_string(),
        // the crate's tuple is (read, computed)
        DecodeErr::InvalidMessage { checksum_mismatch: (read, computed), end_esc_misaligned, num_padding_bytes } => format!(
            "invalid {:04x} {:04x} {} {}",
            read,
            computed,
            if *end_esc_misaligned { "misaligned" } else { "aligned" },
            num_padding_bytes
        ),
    }
}

fn payload(p: &[u8]) -> String {
    if p.is_empty() { "payload".to_string() } else { format!("payload {}", hex(p)) }
}

fn push_in<const N: usize>(list: &[Op]) -> String {
    let mut decoder = Decoder::<ArrayBuf<N>>::new();
    let mut said = Vec::new();
    let mut index = 0u64;
    for op in list {
        match op {
            Op::Bytes(bytes) => {
                for b in bytes {
                    index += 1;
                    match decoder.push_byte(*b) {
                        Ok(None) => {}
                        Ok(Some(p)) => said.push(format!("{}:{}", index, payload(p))),
                        Err(e) => said.push(format!("{}:{}", index, failure(&e))),
                    }
                }
            }
            Op::Finalize => {
                index += 1;
                if let Some(e) = decoder.finalize() {
                    said.push(format!("{}:{}", index, failure(&e)));
                }
            }
            Op::Reset => {
                index += 1;
                said.push(format!("{}:reset {}", index, decoder.reset()));
            }
        }
    }
    if said.is_empty() { "-".to_string() } else { said.join(";") }
}

fn encode_in<const N: usize>(bytes: &[u8]) -> String {
    match transport::encode::<ArrayBuf<N>>(bytes) {
        Ok(frame) => hex(&frame),
        Err(_) => "memory".to_string(),
    }
}

// The crate's buffers have their capacity in their type: these are the ones that commands may name.
macro_rules! with_capacity {
    ($n:expr, $f:ident, $a:expr, [$($c:literal)*]) => {
        match $n {
            $($c => $f::<$c>($a),)*
            _ => "no such capacity in the oracle".to_string(),
        }
    };
}

macro_rules! at_capacity {
    ($n:expr, $f:ident, $a:expr) => {
        with_capacity!($n, $f, $a, [0 1 2 3 4 5 6 7 8 9 10 11 12 13 14 15 16 17 18 19 20 21 22 23 24 25 26 27 28 29 30 31 32 33 34 35 36
            37 38 39 40 41 42 43 44 45 46 47 48 49 50 51 52 53 54 55 56 57 58 59 60 61 62 63 64 72 80 96 100 128 160 192 231 232 233
            234 235 236 237 238 239 240 241 242 256 300 359 360 361 362 363 364 365 366 400 512 1000 1024 2048 4095 4096 65536 1048576])
    };
}

// The longest line, and the largest capacity, that is a command.
const LINE: usize = 70000;
const CAPACITY: usize = 1048577;

fn answer(line: &[u8]) -> Option<String> {
    let line = std::str::from_utf8(line).ok().filter(|l| l.len() <= LINE)?;
    let words: Vec<&str> = line.split(' ').collect();
    Some(match words.as_slice() {
        ["encode", h] => hex(&transport::encode::<Vec<u8>>(unhex(h)?).ok()?),
        ["encode_cap", n, h] => {
            let bytes = unhex(h)?;
            at_capacity!(number(n, CAPACITY)?, encode_in, &bytes)
        }
        ["stream", h] => {
            let mut encoder = transport::encode_streaming(unhex(h)?);
            let mut frame = Vec::new();
            while let Some(b) = encoder.next() {
                frame.push(b);
            }
            let more = |x: Option<u8>| x.map_or("none".to_string(), |b| format!("{:02x}", b));
            // the loop above took the first of the three
            format!("{} none {} {}", hex(&frame), more(encoder.next()), more(encoder.next()))
        }
        ["crc", h] => format!("{:04x}", util::CRC_X25.checksum(&unhex(h)?)),
        ["push", n, o] => {
            let list = ops(o)?;
            at_capacity!(number(n, CAPACITY)?, push_in, &list)
        }
        ["leaf", kind, h] => leaf(kind, &unhex(h)?)?,
        ["events", h] => events(&unhex(h)?),
        _ => return None,
    })
}

fn main() {
    std::panic::set_hook(Box::new(|_| {}));
    let out = std::io::stdout();
    let mut out = std::io::BufWriter::new(out.lock());
    for line in std::io::stdin().lock().split(b'\n') {
        let line = line.unwrap();
        let said = std::panic::catch_unwind(|| answer(&line)).unwrap_or_else(|_| Some("panic".to_string()));
        writeln!(out, "{}", said.unwrap_or_else(|| "bad command".to_string())).unwrap();
    }
}
