//! The crate sml-rs 0.4.0 doing what crate bench does, for instructions and times beside it: crate FUNCTION CALLS REPEAT, and what main.c takes behind them, the input on standard input.
//! Prints the last call's number and the nanoseconds of all calls. It is built by oracle/build over the crate's unchanged files.
#![allow(dead_code, unused_imports, missing_docs)]
extern crate alloc;

mod parser;
mod transport;
mod util;

use parser::streaming::Parser;
use std::io::Read;
use transport::Decoder;
use util::ArrayBuf;

fn push(src: &[u8]) -> u64 {
    let mut decoder = Decoder::<ArrayBuf<4096>>::new();
    let mut payloads = 0;
    for b in src {
        if let Ok(Some(_)) = decoder.push_byte(*b) {
            payloads += 1;
        }
    }
    payloads
}

fn encode(payload: &[u8]) -> u64 {
    transport::encode::<Vec<u8>>(payload.iter().copied()).map_or(0, |frame| frame.len() as u64)
}

fn stream(payload: &[u8]) -> u64 {
    transport::encode_streaming(payload.iter().copied()).map(u64::from).sum()
}

fn events(input: &[u8]) -> u64 {
    Parser::new(input).take_while(|event| event.is_ok()).count() as u64
}

fn crc_byte(src: &[u8]) -> u64 {
    let mut digest = util::CRC_X25.digest();
    for b in src {
        digest.update(&[*b]);
    }
    digest.finalize().into()
}

fn main() {
    let args: Vec<String> = std::env::args().collect();
    let number = |k: usize| args[k].parse::<usize>().unwrap();
    let mut once = Vec::new();
    std::io::stdin().read_to_end(&mut once).unwrap();
    let input = once.repeat(number(3));
    let call = || match args[1].as_str() {
        "bench_push" | "bench_push_slice" | "bench_push_slice_second" | "bench_packed" | "sgh_push_byte" | "sgh_push_slice" => push(&input),
        "bench_encode" => encode(&input),
        "bench_stream" => stream(&input),
        "bench_events" | "sgh_next_event" | "sgh_read_message" | "sgh_walk" => events(&input),
        "bench_crc_byte" => crc_byte(&input),
        "bench_crc" => util::CRC_X25.checksum(&input).into(),
        _ => std::process::exit(2),
    };
    let (began, mut last) = (std::time::Instant::now(), 0);
    for _ in 0..number(2) {
        last = std::hint::black_box(call());
    }
    println!("{} {}", last, began.elapsed().as_nanos());
}
