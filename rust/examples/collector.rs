//! collector [FILE]: reads what electricity meters send, from a file or a pipe, and prints each value on a line as soon as it has come. It prints what examples/collector.c prints.
use std::ffi::OsString;
use std::fs::File;
use std::io::{self, ErrorKind, Read, Write};
use std::process::ExitCode;

use sartrogheo::parser::common::{ListEntry, ListType, Time, Value};
use sartrogheo::parser::streaming::{ParseEvent, Parser};
use sartrogheo::parser::{ParseError, ParseErrorKind};
use sartrogheo::transport::{DecodeErr, Decoder};
use sartrogheo::util::ArrayBuf;

/// For payloads of up to 4,092 bytes; those of meters have some hundreds.
type Buffer = ArrayBuf<4096>;

const HELP: &str = "collector [FILE]: prints the values of SML meter frames, a line for each, as they come.
Without FILE, or with -, it reads standard input.

A line is NAME VALUE [UNIT], as in 1-0:1.8.0*255 4719126.3 Wh; a string is printed in hex, and - if it is empty.
What is refused is a line too: refused NUMBER NAME at byte PLACE of the input, or of payload N, counted from 1; places are counted from 0.
Status: 0 all read, 1 something refused, 2 usage or file.
";

// ---- an entry, in words

fn hex(bytes: &[u8]) -> String {
    if bytes.is_empty() {
        return "-".to_string();
    }
    bytes.iter().map(|b| format!("{b:02x}")).collect()
}

/// The six bytes of an OBIS name as they are written, A-B:C.D.E*F.
fn name(name: &[u8]) -> String {
    match name {
        [a, b, c, d, e, f] => format!("{a}-{b}:{c}.{d}.{e}*{f}"),
        _ => hex(name),
    }
}

/// A number times ten to the scaler. The point is put between the digits, since a float hasn't room for all that a counter of 64 bits has.
fn scaled(negative: bool, magnitude: u64, scaler: i8) -> String {
    let (sign, shift) = (if negative { "-" } else { "" }, usize::from(scaler.unsigned_abs()));
    if scaler >= 0 {
        let zeros = if magnitude == 0 { 0 } else { shift };
        return format!("{sign}{magnitude}{}", "0".repeat(zeros));
    }
    // one digit at least stands before the point
    let digits = format!("{magnitude:0>width$}", width = shift + 1);
    let (whole, part) = digits.split_at(digits.len() - shift);
    format!("{sign}{whole}.{part}")
}

fn value(value: &Value, scaler: i8) -> String {
    let signed = |n: i64| scaled(n < 0, n.unsigned_abs(), scaler);
    let unsigned = |n: u64| scaled(false, n, scaler);
    match *value {
        Value::Bool(b) => b.to_string(),
        Value::Bytes(bytes) => hex(bytes),
        Value::List(ListType::Time(Time::SecIndex(n))) => format!("{n} s"),
        Value::I8(n) => signed(n.into()),
        Value::I16(n) => signed(n.into()),
        Value::I32(n) => signed(n.into()),
        Value::I64(n) => signed(n),
        Value::U8(n) => unsigned(n.into()),
        Value::U16(n) => unsigned(n.into()),
        Value::U32(n) => unsigned(n.into()),
        Value::U64(n) => unsigned(n),
    }
}

/// A code of DLMS. Those that meters send most have their names here; any other is printed as its number.
fn unit(code: u8) -> String {
    match code {
        27 => "W".to_string(),
        30 => "Wh".to_string(),
        33 => "A".to_string(),
        35 => "V".to_string(),
        44 => "Hz".to_string(),
        _ => format!("unit {code}"),
    }
}

fn entry(e: &ListEntry) -> String {
    let line = format!("{} {}", name(e.obj_name), value(&e.value, e.scaler.unwrap_or(0)));
    match e.unit {
        Some(code) => format!("{line} {}", unit(code)),
        None => line,
    }
}

// ---- a refusal, in words

fn frame_refusal(e: &DecodeErr, place: u64) -> String {
    let (name, more) = match e {
        DecodeErr::DiscardedBytes(n) => ("DiscardedBytes", format!(": {n} lost")),
        DecodeErr::InvalidEsc(bytes) => ("InvalidEsc", format!(": {}", hex(bytes))),
        DecodeErr::OutOfMemory => ("OutOfMemory", String::new()),
        DecodeErr::InvalidMessage { checksum_mismatch: (read, computed), end_esc_misaligned, num_padding_bytes } => {
            let aligned = if *end_esc_misaligned { "misaligned" } else { "aligned" };
            ("InvalidMessage", format!(": CRC {read:04x}, computed {computed:04x}, {aligned}, {num_padding_bytes} pads"))
        }
    };
    format!("refused {} {name} at byte {place} of the input{more}", e.number())
}

fn message_refusal(e: &ParseError, payload: u64) -> String {
    let name = match e.kind() {
        ParseErrorKind::InvalidTlf(kind) => format!("InvalidTlf {kind}"),
        kind => format!("{kind:?}"),
    };
    format!("refused {} {name} at byte {} of payload {payload}", e.number(), e.place().unwrap_or(0))
}

// ---- the line

/// What a meter's line has brought so far, and where that is printed.
struct Line<W: Write> {
    out: W,
    bytes: u64,
    payloads: u64,
    refused: bool,
}

impl<W: Write> Line<W> {
    fn refuse(&mut self, line: String) -> io::Result<()> {
        self.refused = true;
        writeln!(self.out, "{line}")
    }

    /// A refusal drops the rest of the payload.
    fn print(&mut self, payload: &[u8]) -> io::Result<()> {
        self.payloads += 1;
        for event in Parser::new(payload).until_refused() {
            match event {
                Ok(ParseEvent::ListEntry(e)) => writeln!(self.out, "{}", entry(&e))?,
                Ok(_) => {}
                Err(e) => self.refuse(message_refusal(&e, self.payloads))?,
            }
        }
        Ok(())
    }

    /// A push stops behind the first byte that has something to say, and is called again with the rest.
    fn take(&mut self, decoder: &mut Decoder<Buffer>, mut bytes: &[u8]) -> io::Result<()> {
        while !bytes.is_empty() {
            let (taken, said) = decoder.push(bytes);
            self.bytes += taken as u64;
            match said {
                Ok(None) => {}
                Ok(Some(payload)) => self.print(payload)?,
                Err(e) => self.refuse(frame_refusal(&e, self.bytes - 1))?,
            }
            bytes = &bytes[taken..];
        }
        self.out.flush()
    }

    /// At the input's end a frame may have begun, or noise be left.
    fn finish(&mut self, decoder: &mut Decoder<Buffer>) -> io::Result<()> {
        if let Some(e) = decoder.finalize() {
            self.refuse(frame_refusal(&e, self.bytes))?;
        }
        self.out.flush()
    }
}

/// What is to be said of a fault, and the status for it.
fn fault(what: &str, e: io::Error) -> u8 {
    let text = e.to_string();
    eprintln!("collector: {what}: {}", text.split(" (os error").next().unwrap_or(&text));
    2
}

fn collect(mut input: impl Read, path: &str) -> Result<bool, u8> {
    let mut line = Line { out: io::BufWriter::new(io::stdout().lock()), bytes: 0, payloads: 0, refused: false };
    // the second way of searching: a stray 1b before a frame doesn't hide it
    let (mut decoder, mut chunk) = (Decoder::<Buffer>::second_way(), [0; 1024]);
    loop {
        // what has come so far, and no more is waited for
        match input.read(&mut chunk) {
            Ok(0) => break,
            Ok(n) => line.take(&mut decoder, &chunk[..n]).map_err(|e| fault("output", e))?,
            Err(e) if e.kind() == ErrorKind::Interrupted => {}
            Err(e) => return Err(fault(path, e)),
        }
    }
    line.finish(&mut decoder).map_err(|e| fault("output", e))?;
    Ok(line.refused)
}

fn run() -> Result<bool, u8> {
    let words: Vec<OsString> = std::env::args_os().skip(1).collect();
    match &words[..] {
        [] => collect(io::stdin().lock(), "-"),
        [word] if word == "-" => collect(io::stdin().lock(), "-"),
        [word] if word == "-h" => io::stdout().write_all(HELP.as_bytes()).map(|()| false).map_err(|e| fault("output", e)),
        [path] if !path.as_encoded_bytes().starts_with(b"-") => {
            let name = path.to_string_lossy();
            collect(File::open(path).map_err(|e| fault(&name, e))?, &name)
        }
        _ => {
            eprintln!("usage: collector [-h] [FILE]");
            Err(2)
        }
    }
}

fn main() -> ExitCode {
    match run() {
        Ok(false) => ExitCode::SUCCESS,
        Ok(true) => ExitCode::from(1),
        Err(status) => ExitCode::from(status),
    }
}
