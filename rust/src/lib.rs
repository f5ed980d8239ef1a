//! SML meter frames (transport version 1) and messages: the names of crate sml-rs 0.4.0 over libsartrogheo.a, in which every function is proved.
//!
//! Any bytes may come in: no call here panics because of what was read, and every call ends, if an iterator that it is given does. The events of a
//! [`Parser`](parser::streaming::Parser) need not end, as in sml-rs: behind a refusal that comes once its message's start was given it gives `UnexpectedEOF` for ever, and
//! [`until_refused`](parser::streaming::Parser::until_refused) is the form that ends. `transport::decode` alone, of feature `alloc`, ends the program where memory runs out.
//!
//! [`transport`] takes frames apart and makes them, [`losses`] tells why bytes of a recording are lost, [`parser`] reads the messages in a payload, by events, each in one call or its entries by name, and goes over any content, [`writer`] writes messages. docs/MOVING.md goes from sml-rs to this crate call by call.
//!
//! What is proved is the library. This crate is thin over it and is tested, against sml-rs too.
//!
//! ```
//! use sartrogheo::parser::streaming::{ParseEvent, Parser};
//! use sartrogheo::{transport::Decoder, util::ArrayBuf};
//!
//! fn show(mut bytes: &[u8]) {
//!     let mut decoder = Decoder::<ArrayBuf<4096>>::second_way();
//!     while !bytes.is_empty() {
//!         let (taken, said) = decoder.push(bytes);
//!         match said {
//!             Ok(None) => {}
//!             Ok(Some(payload)) => {
//!                 for event in Parser::new(payload).until_refused() {
//!                     match event {
//!                         Ok(ParseEvent::ListEntry(entry)) => println!("{:?}", entry),
//!                         Ok(_) => {}
//!                         Err(e) => println!("{e}"),
//!                     }
//!                 }
//!             }
//!             Err(e) => println!("{e}"),
//!         }
//!         bytes = &bytes[taken..];
//!     }
//! }
//! # show(&[0x1b, 0x1b, 0x1b, 0x1b, 0x01, 0x01, 0x01, 0x01, 0x12, 0x34, 0x56, 0x78, 0x1b, 0x1b, 0x1b, 0x1b, 0x1a, 0x00, 0xb8, 0x7b]);
//! ```
//!
//! Feature `alloc` adds `Vec<u8>` as a [`util::Buffer`], and `transport::decode`.
#![no_std]
#![deny(unsafe_code)]
#![warn(missing_docs)]

#[cfg(feature = "alloc")]
extern crate alloc;

mod ffi;
pub mod losses;
pub mod parser;
pub mod transport;
pub mod util;
pub mod writer;

/// The longest payload to encode, buffer and message input, in bytes; a decoder hands out at most `LIMIT - 4` bytes.
pub const LIMIT: usize = ffi::LIMIT;

/// The CRC of frames and messages: X25. In a frame its low byte comes first.
pub fn crc(bytes: &[u8]) -> u16 {
    ffi::crc(bytes)
}
