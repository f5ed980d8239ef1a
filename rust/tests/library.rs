//! What this crate has beyond sml-rs, at its limits too, and every field of every event. The rest is held against sml-rs itself, by compare/.
use std::cell::Cell;

use sartrogheo::losses::{next_loss, Cause, Loss, Seen, Watch, Way};
use sartrogheo::parser::common::{CloseResponse, ListEntry, ListType, OpenResponse, Status, Time, Value};
use sartrogheo::parser::content::{read_item, walk, Item, ItemKind, Ty, WalkErr, Walked};
use sartrogheo::parser::index::{build_index, look_up, Index, LookErr};
use sartrogheo::parser::streaming::{
    GetListResponseEnd, GetListResponseStart, MessageBody, MessageStart, ParseEvent, Parser, UntilRefused,
};
use sartrogheo::parser::whole::{read_message, ReadErr, Row, Whole};
use sartrogheo::parser::{ParseErrorKind, TlfParseError};
use sartrogheo::transport::{decode_streaming, encode_into, encode_streaming, DecodeErr, Decoder, EncodeErr, Encoder};
use sartrogheo::util::{ArrayBuf, Buffer, OutOfMemory};
use sartrogheo::writer::{WriteErr, Writer};
use sartrogheo::{crc, LIMIT};

const FRAME: [u8; 20] = [0x1b, 0x1b, 0x1b, 0x1b, 1, 1, 1, 1, 0x12, 0x34, 0x56, 0x78, 0x1b, 0x1b, 0x1b, 0x1b, 0x1a, 0, 0xb8, 0x7b];
const PAYLOAD: [u8; 4] = [0x12, 0x34, 0x56, 0x78];
/// A close message, which docs/PLACES.md takes apart.
const CLOSE: [u8; 20] = [0x76, 5, 0xdd, 0x43, 0x44, 0, 0x62, 0, 0x62, 0, 0x72, 0x63, 2, 1, 0x71, 1, 0x63, 0xfd, 0x56, 0];
/// A list of one entry, all of whose fields are there; cut in its CRC.
const LIST: [u8; 47] = [
    0x76, 1, 0x62, 0, 0x62, 0, 0x72, 0x63, 7, 1, 0x77, 1, 2, 0xaa, 1, 1, 0x71, 0x77, 7, 1, 0, 1, 8, 0, 0xff, 0x62, 0xa2, 0x72, 0x62, 1,
    0x62, 9, 0x62, 30, 0x52, 0xff, 0x55, 0xff, 0xff, 0x83, 2, 3, 0x5e, 0xed, 1, 1, 0x63,
];

type Small = ArrayBuf<8>;
/// What a decoder says of a stream, and at which byte.
type Said = Vec<(usize, Result<Vec<u8>, DecodeErr>)>;

fn singly(mut decoder: Decoder<Small>, bytes: &[u8]) -> Said {
    let mut said = Vec::new();
    for (at, b) in bytes.iter().enumerate() {
        if let Some(one) = decoder.push_byte(*b).transpose() {
            said.push((at, one.map(<[u8]>::to_vec)));
        }
    }
    said.extend(decoder.finalize().map(|e| (bytes.len(), Err(e))));
    said
}

/// The same by slices of so many bytes, the first one of another size.
fn by_slices(mut decoder: Decoder<Small>, bytes: &[u8], first: usize, size: usize) -> Said {
    let (mut said, mut at, mut end) = (Vec::new(), 0, first.min(bytes.len()));
    loop {
        while at < end {
            let (taken, one) = decoder.push(&bytes[at..end]);
            at += taken;
            if let Some(one) = one.transpose() {
                said.push((at - 1, one.map(<[u8]>::to_vec)));
            }
        }
        if end == bytes.len() {
            break;
        }
        end = (end + size).min(bytes.len());
    }
    said.extend(decoder.finalize().map(|e| (bytes.len(), Err(e))));
    said
}

/// Each refusal of a push is in it, and payloads between them.
fn stream() -> Vec<u8> {
    let start = &FRAME[..8];
    let wrong = [&FRAME[..19], &[0x7a]].concat();
    let escape = [start, &[0x1b, 0x1b, 0x1b, 0x1b, 2, 0, 0, 0]].concat();
    let long = [start, &[0; 9]].concat();
    [&[0, 0x1b][..], &FRAME, &FRAME, &wrong, &FRAME, &escape, &long, &[0x1b; 5], &FRAME, start, &[0xaa], &FRAME, &[0x1b, 0x1b]].concat()
}

#[test]
fn slices_of_any_size_say_what_single_bytes_say() {
    let bytes = stream();
    let (first, second) = (singly(Decoder::new(), &bytes), singly(Decoder::second_way(), &bytes));
    assert_ne!(first, second);
    assert!(second.iter().filter(|(_, one)| one.as_deref() == Ok(&PAYLOAD)).count() == 5, "{second:?}");
    for size in 1..=bytes.len() {
        for begin in 0..=bytes.len().min(40) {
            assert_eq!(by_slices(Decoder::new(), &bytes, begin, size), first);
            assert_eq!(by_slices(Decoder::second_way(), &bytes, begin, size), second);
        }
    }
}

#[test]
fn the_second_way_finds_a_frame_behind_a_stray_1b() {
    let bytes = [&[0x1b][..], &FRAME].concat();
    assert_eq!(singly(Decoder::new(), &bytes), [(21, Err(DecodeErr::DiscardedBytes(21)))]);
    let found = [(8, Err(DecodeErr::DiscardedBytes(1))), (20, Ok(PAYLOAD.to_vec()))];
    assert_eq!(singly(Decoder::second_way(), &bytes), found);
    assert_eq!(singly(Decoder::from_buf_second_way(Small::default()), &bytes), found);
}

#[test]
fn a_payload_stands_until_the_next_call() {
    let mut decoder = Decoder::<Small>::new();
    assert_eq!(decoder.payload(), None);
    assert_eq!(decoder.push(&FRAME), (20, Ok(Some(&PAYLOAD[..]))));
    assert_eq!(decoder.payload(), Some(&PAYLOAD[..]));
    assert_eq!(decoder.push(&[]), (0, Ok(None)));
    assert_eq!(decoder.payload(), Some(&PAYLOAD[..]));
    assert_eq!(decoder.push_byte(0), Ok(None));
    assert_eq!(decoder.payload(), None);
    assert_eq!(decoder.reset(), 1);
    assert_eq!(decoder.finalize(), None);
}

#[test]
fn the_capacity_counts_pads_and_end() {
    let (mut eight, mut seven, mut none) =
        (Decoder::<ArrayBuf<8>>::new(), Decoder::<ArrayBuf<7>>::new(), Decoder::<ArrayBuf<0>>::default());
    assert_eq!(eight.push(&FRAME), (20, Ok(Some(&PAYLOAD[..]))));
    assert_eq!(seven.push(&FRAME), (20, Err(DecodeErr::OutOfMemory)));
    assert_eq!(none.push(&FRAME), (9, Err(DecodeErr::OutOfMemory)));
    assert_eq!(DecodeErr::OutOfMemory.number(), 3);
}

#[test]
fn noise_is_counted_past_16_bits() {
    let mut decoder = Decoder::<Small>::new();
    assert_eq!(decoder.push(&[0; 65_536]), (65_536, Ok(None)));
    assert_eq!(decoder.push(&FRAME), (8, Err(DecodeErr::DiscardedBytes(65_536))));
    assert_eq!(decoder.push(&FRAME[8..]), (12, Ok(Some(&PAYLOAD[..]))));
}

#[test]
fn decoders_and_readers_can_be_sent_and_shared() {
    fn both<T: Send + Sync>() {}
    both::<Decoder<Small>>();
    both::<Encoder<&[u8]>>();
    both::<Parser>();
    both::<Writer>();
    both::<UntilRefused>();
    both::<Whole>();
    both::<Index>();
    both::<Item>();
    both::<Watch<Small>>();
    both::<Loss>();
}

#[test]
fn an_output_is_written_as_far_as_the_frame_goes() {
    let mut out = [7; 24];
    assert_eq!(encode_into(&PAYLOAD, &mut out), Ok(20));
    assert_eq!((&out[..20], &out[20..]), (&FRAME[..], &[7; 4][..]));
    let mut short = [7; 19];
    assert_eq!((encode_into(&PAYLOAD, &mut short), short), (Err(EncodeErr::OutOfMemory), [7; 19]));
    assert_eq!(encode_into(&[], &mut []), Err(EncodeErr::OutOfMemory));
}

#[test]
fn payloads_of_the_limit_and_one_more() {
    let payload = vec![0x1b; LIMIT + 1];
    let mut out = vec![0; 2 * LIMIT + 19];
    assert_eq!(encode_into(&payload, &mut out), Err(EncodeErr::PayloadTooLong));
    assert_eq!(encode_streaming(&payload).next(), None);
    let len = encode_into(&payload[1..], &mut out).unwrap();
    assert_eq!(len, 2 * LIMIT + 16);
    assert!(encode_streaming(&payload[1..]).eq(out[..len].iter().copied()));
    assert_eq!(crc(&out[..len - 2]).to_le_bytes(), out[len - 2..len]);
}

#[test]
fn an_encoder_takes_what_can_be_read_as_a_slice() {
    let ways: [Vec<u8>; 5] = [
        encode_streaming(PAYLOAD).collect(),
        encode_streaming(&PAYLOAD).collect(),
        encode_streaming(Vec::from(PAYLOAD)).collect(),
        encode_streaming(PAYLOAD.iter()).collect(),
        Encoder::new(&PAYLOAD[..]).collect(),
    ];
    assert!(ways.iter().all(|frame| *frame == FRAME));
    let mut said = decode_streaming::<Small>(encode_streaming(PAYLOAD));
    assert_eq!((said.next().map(|x| x.map(<[u8]>::to_vec)), said.next()), (Some(Ok(PAYLOAD.to_vec())), None));
}

/// Gives each slice up to its call, and PAYLOAD behind them.
struct Changing<'p>(&'p [(usize, &'p [u8])], Cell<usize>);

impl AsRef<[u8]> for Changing<'_> {
    fn as_ref(&self) -> &[u8] {
        let call = self.1.replace(self.1.get() + 1);
        self.0.iter().find(|(until, _)| call < *until).map_or(&PAYLOAD, |(_, slice)| slice)
    }
}

#[test]
fn the_first_end_of_an_encoder_is_the_end() {
    let long = vec![0; LIMIT + 1];
    let given = |slices: &[(usize, &[u8])]| {
        let mut encoder = Encoder::new(Changing(slices, Cell::new(0)));
        let before = encoder.by_ref().collect::<Vec<u8>>();
        assert!((0..100).all(|_| encoder.next().is_none()));
        before
    };
    assert_eq!(given(&[]), FRAME);
    // for one call it can't be followed, and behind it, it could be again
    for at in 0..FRAME.len() {
        assert_eq!(given(&[(at, &PAYLOAD), (at + 1, &long)]), FRAME[..at]);
    }
    assert_eq!(given(&[(11, &PAYLOAD), (12, &[])]), FRAME[..11]);
    // any slices at all: the end comes
    for step in 1..40 {
        let any: Vec<(usize, &[u8])> = (0..200).map(|k| (k + 1, &long[..k * step % 37])).collect();
        assert!(given(&any).len() < 200);
    }
}

#[test]
fn the_first_end_of_an_iterator_is_the_end() {
    let mut calls = 0;
    let goes_on = std::iter::from_fn(|| {
        calls += 1;
        (calls % 10 != 0).then_some(0x42)
    });
    let mut said = decode_streaming::<Small>(goes_on);
    assert_eq!(said.next(), Some(Err(DecodeErr::DiscardedBytes(9))));
    assert_eq!(said.next(), None);
}

#[test]
fn a_buffer_takes_what_fits() {
    let mut buf = ArrayBuf::<3>::default();
    assert_eq!((buf.push(1), buf.extend_from_slice(&[2, 3, 4]), &buf[..]), (Ok(()), Err(OutOfMemory), &[1][..]));
    assert_eq!((buf.extend_from_slice(&[2, 3]), buf.push(4), &buf[..]), (Ok(()), Err(OutOfMemory), &[1, 2, 3][..]));
    buf.truncate(5);
    buf.truncate(2);
    assert_eq!(format!("{buf:?} {}", buf == ArrayBuf::default()), "[1, 2] false");
    buf.clear();
    assert_eq!(buf, ArrayBuf::default());
}

// ---- messages

fn octets(bytes: &[u8]) -> Vec<u8> {
    [&[bytes.len() as u8 + 1], bytes].concat()
}

/// A time; the seconds are a number of four bytes.
fn time(seconds: u32) -> Vec<u8> {
    [&[0x72, 0x62, 1, 0x65][..], &seconds.to_be_bytes()].concat()
}

/// A message with that tag; the fields stand in the order of the wire, and the lists around them are theirs.
fn message(transaction: &[u8], numbers: [u8; 2], tag: u8, body: &[Vec<u8>]) -> Vec<u8> {
    let [group, abort] = numbers;
    let mut out = [&[0x76][..], &octets(transaction), &[0x62, group, 0x62, abort, 0x72, 0x63, tag, 1], &body.concat()].concat();
    let sum = crc(&out).to_le_bytes();
    out.extend([0x63, sum[0], sum[1], 0]);
    out
}

/// The fields of an entry, in the order of the wire.
fn entry(fields: [Vec<u8>; 7]) -> Vec<u8> {
    [vec![0x77], fields.concat()].concat()
}

fn list(entries: &[Vec<u8>]) -> Vec<u8> {
    let (before, behind) =
        ([octets(b"client"), octets(b"meter"), octets(b"name"), time(0x0102_0304)].concat(), [octets(b"seal"), time(0x0506_0708)].concat());
    let body = [vec![0x77], before, vec![0x70 | entries.len() as u8], entries.concat(), behind];
    message(b"list", [0x31, 0x32], 7, &body)
}

fn events(bytes: &[u8]) -> Vec<ParseEvent<'_>> {
    Parser::new(bytes).until_refused().map(Result::unwrap).collect()
}

fn start<'i>(transaction_id: &'i [u8], numbers: [u8; 2], message_body: MessageBody<'i>) -> ParseEvent<'i> {
    let [group_no, abort_on_error] = numbers;
    ParseEvent::MessageStart(MessageStart { transaction_id, group_no, abort_on_error, message_body })
}

#[test]
fn every_field_of_open_and_close_is_its_own() {
    let ids = [octets(b"page"), octets(b"client"), octets(b"request"), octets(b"meter")].concat();
    let open = message(b"open", [0x11, 0x12], 1, &[vec![0x76], ids, time(0x0a0b_0c0d), vec![0x62, 0x13]]);
    let wanted = OpenResponse {
        codepage: Some(b"page"),
        client_id: Some(b"client"),
        req_file_id: b"request",
        server_id: b"meter",
        ref_time: Some(Time::SecIndex(0x0a0b_0c0d)),
        sml_version: Some(0x13),
    };
    assert_eq!(events(&open), [start(b"open", [0x11, 0x12], MessageBody::OpenResponse(wanted))]);
    let close = message(b"close", [0x21, 0x22], 2, &[vec![0x71], octets(b"seal")]);
    let wanted = CloseResponse { global_signature: Some(b"seal") };
    assert_eq!(events(&close), [start(b"close", [0x21, 0x22], MessageBody::CloseResponse(wanted))]);
}

#[test]
fn every_field_of_a_list_is_its_own() {
    let one = entry([
        octets(b"object"),
        vec![0x62, 0x41],
        time(0x4243_4445),
        vec![0x62, 0x46],
        vec![0x52, 0xb9],
        vec![0x62, 0x48],
        octets(b"sign"),
    ]);
    let bytes = list(&[one]);
    let before = GetListResponseStart {
        client_id: Some(b"client"),
        server_id: b"meter",
        list_name: Some(b"name"),
        act_sensor_time: Some(Time::SecIndex(0x0102_0304)),
        num_vals: 1,
    };
    let between = ListEntry {
        obj_name: b"object",
        status: Some(Status::Status8(0x41)),
        val_time: Some(Time::SecIndex(0x4243_4445)),
        unit: Some(0x46),
        scaler: Some(-0x47),
        value: Value::U8(0x48),
        value_signature: Some(b"sign"),
    };
    let behind = GetListResponseEnd { list_signature: Some(b"seal"), act_gateway_time: Some(Time::SecIndex(0x0506_0708)) };
    let wanted = [
        start(b"list", [0x31, 0x32], MessageBody::GetListResponse(before)),
        ParseEvent::ListEntry(between),
        ParseEvent::GetListResponseEnd(behind),
    ];
    assert_eq!(events(&bytes), wanted);
}

#[test]
fn what_is_absent_is_none() {
    let none = || vec![1];
    let open = message(b"", [0, 0], 1, &[vec![0x76], none(), none(), octets(b"r"), octets(b"s"), none(), none()]);
    let wanted = OpenResponse { codepage: None, client_id: None, req_file_id: b"r", server_id: b"s", ref_time: None, sml_version: None };
    assert_eq!(events(&open), [start(b"", [0, 0], MessageBody::OpenResponse(wanted))]);
    let close = message(b"", [0, 0], 2, &[vec![0x71], none()]);
    assert_eq!(events(&close), [start(b"", [0, 0], MessageBody::CloseResponse(CloseResponse { global_signature: None }))]);
    let only = entry([octets(b"o"), none(), none(), none(), none(), vec![0x42, 1], none()]);
    let bytes = message(b"", [0, 0], 7, &[vec![0x77], none(), octets(b"s"), none(), none(), vec![0x71], only, none(), none()]);
    let before = GetListResponseStart { client_id: None, server_id: b"s", list_name: None, act_sensor_time: None, num_vals: 1 };
    let between = ListEntry {
        obj_name: b"o",
        status: None,
        val_time: None,
        unit: None,
        scaler: None,
        value: Value::Bool(true),
        value_signature: None,
    };
    let behind = GetListResponseEnd { list_signature: None, act_gateway_time: None };
    let wanted =
        [start(b"", [0, 0], MessageBody::GetListResponse(before)), ParseEvent::ListEntry(between), ParseEvent::GetListResponseEnd(behind)];
    assert_eq!(events(&bytes), wanted);
}

/// The statuses and values of a list's entries.
fn values(entries: &[Vec<u8>]) -> Vec<(Option<Status>, String)> {
    let bytes = list(entries);
    let of = |e| if let ParseEvent::ListEntry(e) = e { Some((e.status, format!("{:?}", e.value))) } else { None };
    events(&bytes).into_iter().filter_map(of).collect()
}

#[test]
fn statuses_and_values_have_their_width() {
    let number = |ty: u8, n: usize| [vec![ty + n as u8 + 1, 0x81], vec![0x82; n - 1]].concat();
    let all = [
        (vec![0x62, 3], Status::Status8(3), vec![0x42, 0], Value::Bool(false)),
        (number(0x60, 1), Status::Status8(0x81), octets(b"text"), Value::Bytes(b"text")),
        (number(0x60, 2), Status::Status16(0x8182), number(0x50, 1), Value::I8(-0x7f)),
        (number(0x60, 3), Status::Status32(0x81_8282), number(0x50, 2), Value::I16(-0x7e7e)),
        (number(0x60, 4), Status::Status32(0x8182_8282), number(0x50, 3), Value::I32(-0x7e_7d7e)),
        (number(0x60, 5), Status::Status64(0x81_8282_8282), number(0x50, 5), Value::I64(-0x7e_7d7d_7d7e)),
        (number(0x60, 8), Status::Status64(0x8182_8282_8282_8282), number(0x60, 1), Value::U8(0x81)),
        (vec![0x62, 4], Status::Status8(4), number(0x60, 2), Value::U16(0x8182)),
        (vec![0x62, 5], Status::Status8(5), number(0x60, 4), Value::U32(0x8182_8282)),
        (vec![0x62, 6], Status::Status8(6), number(0x60, 7), Value::U64(0x81_8282_8282_8282)),
        (vec![0x62, 7], Status::Status8(7), time(0x5152_5354), Value::List(ListType::Time(Time::SecIndex(0x5152_5354)))),
    ];
    let entries: Vec<_> =
        all.iter().map(|(s, _, v, _)| entry([octets(b"o"), s.clone(), vec![1], vec![1], vec![1], v.clone(), vec![1]])).collect();
    let wanted: Vec<_> = all.into_iter().map(|(_, s, _, v)| (Some(s), format!("{v:?}"))).collect();
    assert_eq!(values(&entries), wanted);
}

#[test]
fn until_refused_ends_behind_the_first_refusal() {
    assert_eq!(events(&CLOSE).len(), 1);
    for len in 1..CLOSE.len() {
        let twice = [&CLOSE[..], &CLOSE[..len]].concat();
        let mut said = Parser::new(&twice).until_refused();
        let ends: Vec<bool> = said.by_ref().take(9).map(|one| one.is_err()).collect();
        assert_eq!(ends.iter().position(|refused| *refused), Some(ends.len() - 1), "{ends:?}");
        assert!((0..9).all(|_| said.next().is_none()));
    }
}

/// The refusal's number and place, its words, and what the next call gives.
fn refused(bytes: &[u8]) -> (u32, Option<usize>, String, Option<ParseErrorKind>) {
    let mut parser = Parser::new(bytes);
    let e = parser.by_ref().find_map(Result::err).unwrap();
    (e.number(), e.place(), e.to_string(), parser.next().and_then(|next| next.err()).map(|e| e.kind()))
}

fn with(place: usize, byte: u8) -> Vec<u8> {
    let mut bytes = CLOSE.to_vec();
    bytes[place] = byte;
    bytes
}

#[test]
fn a_refusal_says_where() {
    assert_eq!(Parser::new(&CLOSE).filter(Result::is_ok).count(), 1);
    assert_eq!(Parser::new(&CLOSE).filter(Result::is_err).count(), 0);
    let again = Some(ParseErrorKind::UnexpectedEOF);
    assert_eq!(refused(&CLOSE[..19]), (10, Some(19), "UnexpectedEOF at 19".into(), again));
    assert_eq!(refused(&with(15, 0x10)), (11, Some(15), "InvalidTlf(TlfInvalidTy) at 15".into(), None));
    assert_eq!(refused(&with(14, 0x72)), (12, Some(14), "TlfMismatch at 14".into(), None));
    assert_eq!(refused(&with(13, 2)), (13, Some(11), "UnexpectedVariant at 11".into(), None));
    assert_eq!(refused(&with(18, 0x57)), (14, Some(16), "CrcMismatch at 16".into(), again));
    assert_eq!(refused(&with(19, 1)), (15, Some(19), "MsgEndMismatch at 19".into(), again));
}

#[test]
fn length_bytes_are_refused_by_kind() {
    let kinds: [(&[u8], TlfParseError); 5] = [
        (&[0x81, 0x80, 0x80, 0x80, 0x80, 0x80, 0x80, 0x80, 0x0a], TlfParseError::TlfLengthOverflow),
        (&[0xc2], TlfParseError::TlfReserved),
        (&[0], TlfParseError::TlfLengthUnderflow),
        (&[0x81, 0x12], TlfParseError::TlfNextByteTypeMismatch),
        (&[0x10], TlfParseError::TlfInvalidTy),
    ];
    for (bytes, kind) in kinds {
        let e = Parser::new(bytes).next().unwrap().unwrap_err();
        assert_eq!((e.kind(), e.place(), e.number()), (ParseErrorKind::InvalidTlf(kind), Some(0), 11));
    }
}

#[test]
fn an_input_over_the_limit_is_refused_once() {
    let bytes = vec![0x76; LIMIT + 1];
    let mut parser = Parser::new(&bytes);
    let e = parser.next().unwrap().unwrap_err();
    assert_eq!((e.kind(), e.place(), e.number(), e.to_string()), (ParseErrorKind::InputTooLong, None, 9, "InputTooLong".to_string()));
    assert_eq!(parser.next(), None);
    assert_eq!(Parser::new(&bytes[1..]).next().unwrap().unwrap_err().place(), Some(1));
}

#[test]
fn an_entry_has_its_fields() {
    let mut parser = Parser::new(&LIST);
    let start = parser.next().unwrap().unwrap();
    assert!(
        matches!(start, ParseEvent::MessageStart(m) if matches!(&m.message_body, MessageBody::GetListResponse(l) if l.num_vals == 1 && l.server_id == [0xaa]))
    );
    let wanted = ListEntry {
        obj_name: &[1, 0, 1, 8, 0, 0xff],
        status: Some(Status::Status8(0xa2)),
        val_time: Some(Time::SecIndex(9)),
        unit: Some(30),
        scaler: Some(-1),
        value: Value::I32(-31_998),
        value_signature: Some(&[0x5e, 0xed]),
    };
    let Some(Ok(ParseEvent::ListEntry(entry))) = parser.next() else { panic!("no entry") };
    assert_eq!(entry, wanted);
    assert_eq!(entry.obj_name.as_ptr(), LIST[19..].as_ptr());
    assert!(matches!(parser.next(), Some(Ok(ParseEvent::GetListResponseEnd(_)))));
    assert_eq!(parser.next().unwrap().unwrap_err().place(), Some(LIST.len()));
}

#[cfg(feature = "alloc")]
#[test]
fn a_vec_is_a_buffer_of_the_limit() {
    use sartrogheo::transport::encode;
    let frame = |n: usize| encode::<Vec<u8>>(&vec![0x42; n]);
    // of a longer one the first bytes, up to the limit, are used
    for buf in [Vec::new(), vec![7; 3], vec![7; LIMIT + 5]] {
        let mut decoder = Decoder::from_buf(buf);
        assert_eq!(decoder.push(&frame(LIMIT - 4).unwrap()).1.map(|p| p.map(<[u8]>::len)), Ok(Some(LIMIT - 4)));
        assert_eq!(decoder.push(&frame(LIMIT - 3).unwrap()).1, Err(DecodeErr::OutOfMemory));
    }
    assert_eq!(frame(LIMIT).unwrap().len(), LIMIT + 16);
    assert_eq!(frame(LIMIT + 1), Err(OutOfMemory));
    assert_eq!(encode::<Vec<u8>>(std::iter::repeat(0u8)), Err(OutOfMemory));
    assert_eq!(encode::<Small>(std::iter::repeat(0u8)), Err(OutOfMemory));
}

/// Every kind of event, each field there and absent, strings and their absence, the ends of numbers.
fn of_every_kind(s: &[u8]) -> Vec<ParseEvent<'_>> {
    let start =
        |message_body| ParseEvent::MessageStart(MessageStart { transaction_id: &s[..4], group_no: 255, abort_on_error: 7, message_body });
    let entry = |value, full: bool| {
        ParseEvent::ListEntry(ListEntry {
            obj_name: &s[4..10],
            status: full.then_some(Status::Status32(70_000)),
            val_time: full.then_some(Time::SecIndex(u32::MAX)),
            unit: full.then_some(255),
            scaler: full.then_some(-128),
            value,
            value_signature: full.then_some(&s[9..9]),
        })
    };
    let values = [
        Value::Bool(true),
        Value::Bool(false),
        Value::Bytes(&s[1..10]),
        Value::Bytes(&[]),
        Value::I8(-128),
        Value::I16(-129),
        Value::I32(i32::MIN),
        Value::I64(i64::MIN),
        Value::U8(255),
        Value::U16(256),
        Value::U32(u32::MAX),
        Value::U64(u64::MAX),
        Value::List(ListType::Time(Time::SecIndex(9))),
    ];
    let open = |full: bool| {
        start(MessageBody::OpenResponse(OpenResponse {
            codepage: full.then_some(&s[2..2]),
            client_id: full.then_some(&s[..1]),
            req_file_id: &s[1..3],
            server_id: &s[3..9],
            ref_time: full.then_some(Time::SecIndex(0)),
            sml_version: full.then_some(1),
        }))
    };
    let list = GetListResponseStart {
        client_id: None,
        server_id: &[],
        list_name: Some(&s[5..6]),
        act_sensor_time: Some(Time::SecIndex(65_536)),
        num_vals: 2 * values.len() as u32,
    };
    let mut all = vec![open(true), open(false), start(MessageBody::GetListResponse(list))];
    all.extend([true, false].into_iter().flat_map(|full| values.clone().map(|value| entry(value, full))));
    all.push(ParseEvent::GetListResponseEnd(GetListResponseEnd { list_signature: Some(&s[..10]), act_gateway_time: None }));
    all.push(start(MessageBody::CloseResponse(CloseResponse { global_signature: None })));
    all
}

#[test]
fn what_is_written_is_read_back_and_written_again() {
    let strings = [0xdd, 0x43, 0x44, 0, 1, 0, 1, 8, 0, 0xff];
    let (mut out, mut again) = ([0xa5; 2048], [0; 2048]);
    let all = of_every_kind(&strings);
    let mut writer = Writer::new(&mut out, &strings);
    for event in &all {
        assert_eq!(writer.write(event), Ok(()), "{event:?}");
    }
    let read: Vec<_> = Parser::new(writer.written()).collect::<Result<_, _>>().unwrap();
    assert_eq!(read, all);
    let mut second = Writer::at(&mut again, 5, writer.written());
    read.iter().for_each(|event| assert_eq!(second.write(event), Ok(())));
    assert_eq!((&second.written()[5..], second.place(), second.left()), (writer.written(), writer.place() + 5, 0));
    let len = writer.place();
    assert!(out[len..].iter().all(|b| *b == 0xa5));
}

#[test]
fn a_close_is_written_as_it_came() {
    let (mut out, mut nothing) = ([0; 20], []);
    let close = Parser::new(&CLOSE).next().unwrap().unwrap();
    let mut writer = Writer::new(&mut out, &CLOSE);
    assert_eq!((writer.write(&close), writer.written()), (Ok(()), &CLOSE[..]));
    assert_eq!(Writer::new(&mut nothing, &CLOSE).write(&close), Err(WriteErr::OutputTooShort));
}

#[test]
fn refusals_of_a_writer_come_in_order_and_change_nothing() {
    let strings = [0xdd, 0x43, 0x44, 0, 1, 0, 1, 8, 0, 0xff];
    let (other, mut out) = (strings, [7; 200]);
    let (all, foreign) = (of_every_kind(&strings), of_every_kind(&other));
    let (list, entry, end) = (&all[2], &all[3], &all[all.len() - 2]);
    let mut writer = Writer::new(&mut out, &strings);
    assert_eq!((writer.write(&foreign[3]), writer.write(end)), (Err(WriteErr::WrongNumber), Err(WriteErr::WrongNumber)));
    assert_eq!((writer.write(&foreign[0]), writer.place()), (Err(WriteErr::BadSpan), 0));
    assert_eq!((writer.write(list), writer.left()), (Ok(()), 26));
    let place = writer.place();
    assert_eq!((writer.write(&foreign[3]), writer.write(end)), (Err(WriteErr::BadSpan), Err(WriteErr::WrongNumber)));
    assert_eq!((writer.place(), writer.left()), (place, 26));
    while writer.write(entry).is_ok() {}
    assert_eq!(writer.write(entry), Err(WriteErr::OutputTooShort));
    let place = writer.place();
    assert!(place <= 200 && out[place..].iter().all(|b| *b == 7));
    let mut beyond = Writer::at(&mut out, 201, &strings);
    assert_eq!((beyond.write(&foreign[3]), beyond.written()), (Err(WriteErr::BadState), &[][..]));
    let numbers = [WriteErr::BadState, WriteErr::WrongNumber, WriteErr::BadSpan, WriteErr::OutputTooShort].map(|e| e.number());
    assert_eq!(numbers, [4, 17, 16, 18]);
    assert_eq!(WriteErr::BadSpan.to_string(), "BadSpan");
}

/// The events of messages that are read one by one, each entry at its row.
fn events_by_message(bytes: &[u8], table: &mut [Row]) -> Result<Vec<String>, ReadErr> {
    let (mut at, mut all) = (0, Vec::new());
    while at < bytes.len() {
        let m = read_message(bytes, at, table)?;
        all.push(format!("{:?}", ParseEvent::MessageStart(m.start)));
        for row in m.rows {
            let entry = row.entry(bytes).unwrap();
            assert_eq!(row.name(bytes), Some(entry.obj_name));
            all.push(format!("{:?}", ParseEvent::ListEntry(entry)));
        }
        all.extend(m.end.map(|end| format!("{:?}", ParseEvent::GetListResponseEnd(end))));
        at = m.next;
    }
    Ok(all)
}

const MARK: Row = Row { name_start: 7, name_len: 7, entry_start: 7, entry_len: 7 };

#[test]
fn messages_in_one_call_have_the_fields_of_the_events() {
    let strings = [0xdd, 0x43, 0x44, 0, 1, 0, 1, 8, 0, 0xff];
    let mut out = [0; 2048];
    let mut writer = Writer::new(&mut out, &strings);
    of_every_kind(&strings).iter().for_each(|event| assert_eq!(writer.write(event), Ok(())));
    let bytes = writer.written();
    let wanted: Vec<_> = events(bytes).iter().map(|event| format!("{event:?}")).collect();
    for room in [26, 27, 100] {
        let mut table = vec![MARK; room];
        assert_eq!(events_by_message(bytes, &mut table).as_ref(), Ok(&wanted));
        assert!(table[26..].iter().all(|row| *row == MARK));
        assert!(table[..26].windows(2).all(|two| two[0].entry_start + two[0].entry_len == two[1].entry_start));
    }
    let mut table = [MARK; 25];
    assert_eq!((events_by_message(bytes, &mut table), table), (Err(ReadErr::TooManyEntries), [MARK; 25]));
}

/// The number and place of a refusal, which leaves the table; that of an index is the same.
fn not_read(bytes: &[u8], at: usize) -> (u32, Option<usize>, String) {
    let (mut table, mut numbers) = ([MARK; 2], [7; 8]);
    let e = read_message(bytes, at, &mut table).unwrap_err();
    assert_eq!(table, [MARK; 2]);
    assert_eq!((build_index(bytes, at, &mut numbers).unwrap_err(), numbers), (e, [7; 8]));
    (e.number(), e.place(), e.to_string())
}

#[test]
fn a_message_in_one_call_is_refused_as_its_events_are() {
    assert_eq!(not_read(&[], 0), (10, Some(0), "UnexpectedEOF at 0".into()));
    assert_eq!(not_read(&CLOSE, 20), (10, Some(20), "UnexpectedEOF at 20".into()));
    assert_eq!(not_read(&CLOSE, 21), (4, None, "BadState".into()));
    assert_eq!(not_read(&CLOSE, usize::MAX), (4, None, "BadState".into()));
    for (place, byte) in [(15, 0x10), (14, 0x72), (13, 2), (18, 0x57), (19, 1)] {
        let (bytes, bent) = (with(place, byte), [&CLOSE[..], &with(place, byte)].concat());
        let (number, at, said, _) = refused(&bytes);
        assert_eq!(not_read(&bytes, 0), (number, at, said));
        assert_eq!((not_read(&bent, 20).0, not_read(&bent, 20).1), (number, at.map(|at| at + 20)));
        // what follows a message is not looked at
        assert_eq!(read_message(&bent, 0, &mut []).map(|m| (m.rows.len(), m.next)), Ok((0, 20)));
    }
    let long = vec![0x77; LIMIT + 1];
    assert_eq!(not_read(&long, 0), (9, None, "InputTooLong".into()));
    assert_eq!(not_read(&long, LIMIT + 2), (9, None, "InputTooLong".into()));
    assert_eq!(not_read(&long[1..], 0), (12, Some(0), "TlfMismatch at 0".into()));
    // cut, with no room either, it is the cut that is told
    assert_eq!(read_message(&LIST, 0, &mut []).map_err(|e| (e.number(), e.place())), Err((10, Some(47))));
    assert_eq!(ReadErr::TooManyEntries.to_string(), "TooManyEntries");
    assert_eq!((ReadErr::TooManyEntries.number(), ReadErr::TooManyEntries.place()), (20, None));
}

#[test]
fn a_row_that_is_another_s_has_no_entry_or_name() {
    let at = |start, len| Row { name_start: start, name_len: len, entry_start: start, entry_len: len };
    assert_eq!((at(0, 4).entry(&CLOSE), at(0, 4).name(&CLOSE)), (None, Some(&CLOSE[..4])));
    for row in [at(21, 0), at(20, 1), at(u32::MAX, u32::MAX), at(0, 21)] {
        assert_eq!((row.entry(&CLOSE), row.name(&CLOSE)), (None, None));
    }
    assert_eq!(at(17, 1).entry(&LIST).unwrap().obj_name, &LIST[19..25]);
}

/// A list of six entries, named b, nothing, ab, the byte 80, a and b, whose values are 0 to 5.
const SIX: [u8; 85] = [
    0x76, 3, 0xdd, 0x43, 0x62, 0, 0x62, 0, 0x72, 0x63, 7, 1, 0x77, 1, 2, 0x73, 1, 1, 0x76, 0x77, 2, 0x62, 1, 1, 1, 1, 0x62, 0, 1, 0x77, 1,
    1, 1, 1, 1, 0x62, 1, 1, 0x77, 3, 0x61, 0x62, 1, 1, 1, 1, 0x62, 2, 1, 0x77, 2, 0x80, 1, 1, 1, 1, 0x62, 3, 1, 0x77, 2, 0x61, 1, 1, 1, 1,
    0x62, 4, 1, 0x77, 2, 0x62, 1, 1, 1, 1, 0x62, 5, 1, 1, 1, 0x63, 0x3c, 0x55, 0,
];
/// Their rows by name.
const BY_NAME: [u32; 24] = [31, 0, 29, 9, 61, 1, 59, 10, 40, 2, 38, 11, 21, 1, 19, 10, 71, 1, 69, 10, 51, 1, 49, 10];

fn row(numbers: &[u32]) -> Row {
    Row { name_start: numbers[0], name_len: numbers[1], entry_start: numbers[2], entry_len: numbers[3] }
}

#[test]
fn an_index_has_the_rows_by_name() {
    for room in 0..=30 {
        let mut table = vec![7; room];
        let wanted = if room < 24 { Err(ReadErr::TooManyEntries) } else { Ok(Index { rows: &BY_NAME, next: 85 }) };
        assert_eq!(build_index(&SIX, 0, &mut table), wanted);
        assert!(table.iter().skip(if room < 24 { 0 } else { 24 }).all(|n| *n == 7));
    }
    let bytes = [&CLOSE[..], &SIX, &[0xff]].concat();
    let mut table = [7; 24];
    assert_eq!(build_index(&bytes, 0, &mut []), Ok(Index { rows: &[], next: 20 }));
    let moved: Vec<u32> = BY_NAME.iter().enumerate().map(|(k, n)| if k % 2 == 0 { n + 20 } else { *n }).collect();
    assert_eq!(build_index(&bytes, 20, &mut table), Ok(Index { rows: &moved, next: 105 }));
    assert_eq!(not_read(&with(19, 1), 0), (15, Some(19), "MsgEndMismatch at 19".into()));
    // cut, with no room either, it is the cut that is told
    assert_eq!(build_index(&SIX[..84], 0, &mut []).map_err(|e| (e.number(), e.place())), Err((10, Some(84))));
}

#[test]
fn a_name_gives_its_first_entry() {
    let value = |name: &[u8]| look_up(&SIX, &BY_NAME, name).map(|found| found.map(|row| row.entry(&SIX).unwrap().value));
    let names: [(&[u8], u8); 5] = [(b"b", 0), (b"", 1), (b"ab", 2), (&[0x80], 3), (b"a", 4)];
    for (name, n) in names {
        assert_eq!(value(name), Ok(Some(Value::U8(n))));
        assert_eq!(look_up(&SIX, &BY_NAME, name).unwrap().unwrap().name(&SIX), Some(name));
    }
    let others: [&[u8]; 6] = [b"abc", b"aa", b"c", &[0x7f], &[0x80, 0x80], &SIX];
    assert!(others.iter().all(|name| value(name) == Ok(None)));
    // the table's first rows, and what is none
    for n in 0..24 {
        let wanted = if n % 4 != 0 { Err(LookErr::BadSpan) } else { Ok((n >= 16).then(|| row(&BY_NAME[12..]))) };
        assert_eq!(look_up(&SIX, &BY_NAME[..n], b"b"), wanted);
    }
}

#[test]
fn any_table_may_be_lent() {
    let said = |table: &[u32], name: &[u8]| look_up(b"aab", table, name);
    let none = Err(LookErr::BadSpan);
    assert_eq!((said(&[], b"a"), look_up(&[], &[0; 4], b"")), (Ok(None), Ok(Some(Row::default()))));
    assert_eq!((said(&[0, 1, 0, 1, 0, 1, 0, 1], b"a"), said(&[0, 1, 2, 1, 1, 1, 1, 1], b"a")), (none, none));
    assert_eq!(said(&[0, 1, 0, 1, 0, 1, 1, 1], b"a"), Ok(Some(row(&[0, 1, 0, 1]))));
    assert_eq!(said(&[0, 1, 0, 3, 0, 2, 0, 3, 2, 1, 0, 3], b"aa"), Ok(Some(row(&[0, 2, 0, 3]))));
    // outside: an entry, a name, and sums over 32 bits
    for table in [[0, 3, 4, 0], [2, 2, 0, 1], [u32::MAX, 2, 0, 1], [0, 1, u32::MAX, 2]] {
        assert_eq!(said(&table, b"b"), none);
    }
    // the other way, and with what stands behind the rows
    assert_eq!(look_up(&SIX, &[61, 1, 59, 10, 31, 0, 29, 9], b"a"), none);
    assert_eq!(look_up(&SIX, &[&BY_NAME[..], &[7; 4]].concat(), b"a"), none);
    let long = vec![0; LIMIT + 1];
    assert_eq!((look_up(&long, &[1], b""), look_up(&long, &[], b"")), (Err(LookErr::InputTooLong), Err(LookErr::InputTooLong)));
    assert_eq!(look_up(&long[1..], &[LIMIT as u32, 0, 0, LIMIT as u32], b"").map(|found| found.is_some()), Ok(true));
    assert_eq!(
        [LookErr::InputTooLong, LookErr::BadSpan].map(|e| (e.number(), e.to_string())),
        [(9, "InputTooLong".into()), (16, "BadSpan".into())]
    );
}

#[test]
fn an_index_is_the_message_s_table_sorted() {
    let names: [&[u8]; 9] = [b"z", b"", b"ab", &[0xff], b"a", b"z", &[0x7f, 0], b"ab", b""];
    let one = |(k, name): (usize, &&[u8])| entry([octets(name), vec![1], vec![1], vec![1], vec![1], vec![0x62, k as u8], vec![1]]);
    let bytes = list(&names.iter().enumerate().map(one).collect::<Vec<_>>());
    let (mut table, mut numbers) = ([MARK; 9], [7; 36]);
    let mut rows = read_message(&bytes, 0, &mut table).unwrap().rows.to_vec();
    let index = build_index(&bytes, 0, &mut numbers).unwrap();
    let first: Vec<_> = names.iter().map(|name| rows.iter().copied().find(|row| row.name(&bytes) == Some(name))).collect();
    rows.sort_by_key(|row| (row.name(&bytes), row.entry_start));
    assert_eq!(index.rows.chunks(4).map(row).collect::<Vec<_>>(), rows);
    assert_eq!(names.map(|name| look_up(&bytes, index.rows, name).unwrap()).to_vec(), first);
}

/// The element at a place: bytes and leaves, or number, place and text of a refusal.
fn walked(bytes: &[u8], at: usize) -> Result<(usize, usize), (u32, Option<usize>, String)> {
    walk(bytes, at).map(|w| (w.bytes, w.leaves)).map_err(|e| (e.number(), e.place(), e.to_string()))
}

/// That it is refused so, and what begins there is too.
fn no_content(bytes: &[u8], at: usize) -> (u32, Option<usize>, String) {
    let e = read_item(bytes, at).unwrap_err();
    assert_eq!(walk(bytes, at), Err(WalkErr::Refused(e)));
    (e.number(), e.place(), e.to_string())
}

#[test]
fn elements_have_bytes_and_leaves() {
    let deep = |last: u8| [&[0x71; 16][..], &[last]].concat();
    let some: [(&[u8], usize, usize); 12] = [
        (&[0], 1, 1),
        (&[0x70], 1, 0),
        (&[0xf0, 0], 2, 0),
        (&[0x41], 1, 1),
        (&[0x80, 2], 2, 1),
        (&[0x73, 0, 2, 0x41, 1], 5, 3),
        (&[0x72, 0x71, 0x41, 0x42, 0xff], 5, 2),
        (&[0x72, 0, 0], 3, 2),
        (&CLOSE, 20, 7),
        (&deep(1), 17, 1),
        (&deep(0), 17, 1),
        (&deep(0x70)[1..], 16, 0),
    ];
    for (bytes, taken, leaves) in some {
        assert_eq!(walked(bytes, 0), Ok((taken, leaves)));
        // what stands before and behind it is not looked at; without a byte of it the input ends too soon
        assert_eq!(walked(&[&[0x10, 0x71], bytes, &[0x10]].concat(), 2), Ok((taken, leaves)));
        for n in 0..bytes.len() {
            assert_eq!(walked(&bytes[..n], 0), Err((10, Some(n), format!("UnexpectedEOF at {n}"))));
        }
    }
    for last in [0x70, 0x71, 0x7f] {
        assert_eq!(walk(&deep(last), 0), Err(WalkErr::TooDeep { place: 16 }));
    }
    assert_eq!(walked(&[&[0][..], &deep(0x70)].concat(), 1), Err((19, Some(17), "TooDeep at 17".into())));
    // its own length bytes come first
    assert_eq!(walked(&deep(0xf1), 0), Err((10, Some(17), "UnexpectedEOF at 17".into())));
    assert_eq!(walked(&deep(0x10), 0), Err((11, Some(16), "InvalidTlf(TlfInvalidTy) at 16".into())));
}

#[test]
fn items_come_one_behind_the_other() {
    let leaf = |ty, from: usize, to| (ItemKind::Leaf { ty, content: &CLOSE[from..to] }, to);
    let list = |count, next| (ItemKind::List { count }, next);
    let wanted = [
        list(6, 1),
        leaf(Ty::OctetString, 2, 6),
        leaf(Ty::Unsigned, 7, 8),
        leaf(Ty::Unsigned, 9, 10),
        list(2, 11),
        leaf(Ty::Unsigned, 12, 14),
        list(1, 15),
        leaf(Ty::OctetString, 16, 16),
        leaf(Ty::Unsigned, 17, 19),
        (ItemKind::EndMark, 20),
    ];
    let mut at = 0;
    for (kind, next) in wanted {
        assert_eq!(read_item(&CLOSE, at), Ok(Item { kind, next }));
        assert_eq!(read_item(&CLOSE[..next], at), Ok(Item { kind, next }));
        if !matches!(kind, ItemKind::List { .. }) {
            assert_eq!(walk(&CLOSE, at), Ok(Walked { bytes: next - at, leaves: 1 }));
        }
        at = next;
    }
    let kind = |bytes: &'static [u8]| read_item(bytes, 0).map(|item| item.kind);
    assert_eq!(kind(&[0x42, 7]), Ok(ItemKind::Leaf { ty: Ty::Boolean, content: &[7] }));
    assert_eq!(kind(&[0x53, 0xff, 0x9c]), Ok(ItemKind::Leaf { ty: Ty::Integer, content: &[0xff, 0x9c] }));
    assert_eq!(kind(&[0xff, 0x8f, 0x8f, 0x8f, 0x8f, 0x8f, 0x8f, 0x0f]), Ok(ItemKind::List { count: u32::MAX }));
}

#[test]
fn content_is_refused_at_its_place() {
    assert_eq!(no_content(&[], 0), (10, Some(0), "UnexpectedEOF at 0".into()));
    for at in [20, 21, usize::MAX] {
        assert_eq!(no_content(&CLOSE, at), (10, Some(20), "UnexpectedEOF at 20".into()));
    }
    let wrong: [(&[u8], &str); 6] = [
        (&[0x81, 0x80, 0x80, 0x80, 0x80, 0x80, 0x80, 0x80, 0x80], "TlfLengthOverflow"),
        (&[0xc2], "TlfReserved"),
        (&[0x80, 0], "TlfLengthUnderflow"),
        (&[0x40], "TlfLengthUnderflow"),
        (&[0x81, 0x10], "TlfNextByteTypeMismatch"),
        (&[0x10], "TlfInvalidTy"),
    ];
    for (bytes, kind) in wrong {
        assert_eq!(no_content(bytes, 0), (11, Some(0), format!("InvalidTlf({kind}) at 0")));
        assert_eq!(walked(&[&[0x72, 0][..], bytes].concat(), 0), Err((11, Some(2), format!("InvalidTlf({kind}) at 2"))));
    }
    let mut long = vec![0; LIMIT + 1];
    for at in [0, LIMIT + 1, usize::MAX] {
        assert_eq!(no_content(&long, at), (9, None, "InputTooLong".into()));
    }
    assert_eq!(walked(&long[1..], LIMIT - 1), Ok((1, 1)));
    assert_eq!(no_content(&long[1..], LIMIT), (10, Some(LIMIT), format!("UnexpectedEOF at {LIMIT}")));
    // a list of as many end marks as fit, and of one more
    long[..5].copy_from_slice(&[0xff, 0x8f, 0x8f, 0x8f, 0x0b]);
    assert_eq!(walked(&long[..LIMIT], 0), Ok((LIMIT, LIMIT - 5)));
    long[4] = 0x0c;
    assert_eq!(walked(&long[..LIMIT], 0).map_err(|e| e.0), Err(10));
    assert_eq!(walked(&long, 0).map_err(|e| e.0), Err(9));
}

#[test]
fn the_walk_over_a_message_ends_where_the_message_does() {
    let strings = [0xdd, 0x43, 0x44, 0, 1, 0, 1, 8, 0, 0xff];
    let mut out = [0; 2048];
    let mut writer = Writer::new(&mut out, &strings);
    of_every_kind(&strings).iter().for_each(|event| assert_eq!(writer.write(event), Ok(())));
    let (bytes, mut at, mut table) = (writer.written(), 0, [MARK; 100]);
    while at < bytes.len() {
        let next = read_message(bytes, at, &mut table).unwrap().next;
        assert_eq!(walk(bytes, at).unwrap().bytes, next - at);
        at = next;
    }
    assert!(at > 100);
}

/// The losses of a recording, by place.
fn lost(bytes: &[u8], way: Way, buf: &mut [u8]) -> Vec<String> {
    let (mut losses, mut from) = (Vec::new(), 0);
    while let Some(loss) = next_loss(bytes, way, buf, from) {
        losses.push(loss.to_string());
        from = loss.last as usize;
    }
    losses
}

/// The same by a watch and slices of so many bytes, with its frames and payloads. All bytes are told, each once.
fn watched(mut watch: Watch<Small>, bytes: &[u8], size: usize) -> (Vec<String>, Vec<(u64, u64, Vec<u8>)>) {
    let (mut losses, mut frames, mut end) = (Vec::new(), Vec::new(), 0);
    for mut chunk in bytes.chunks(size) {
        while !chunk.is_empty() {
            let (taken, seen) = watch.slice(chunk);
            chunk = &chunk[taken..];
            let (first, last) = match seen {
                Seen::Nothing => continue,
                Seen::Kept { payload, first, last } => {
                    frames.push((first, last, payload.to_vec()));
                    (first, last)
                }
                Seen::Lost(loss) => {
                    losses.push(loss.to_string());
                    (loss.first, loss.last)
                }
            };
            assert_eq!(first, end + 1);
            end = last;
        }
    }
    if let Some(loss) = watch.end() {
        losses.push(loss.to_string());
        assert_eq!(loss.first, end + 1);
        end = loss.last;
    }
    assert_eq!((end, watch.pushed()), (bytes.len() as u64, bytes.len() as u64));
    assert_eq!(watch.end(), None);
    (losses, frames)
}

#[test]
fn each_loss_has_its_cause_and_its_bytes() {
    let s = &FRAME[..8];
    let cases: [(Vec<u8>, Way, usize, &[&str]); 17] = [
        ([&[0x1b][..], &FRAME].concat(), Way::First, 8, &["hidden 1 21"]),
        ([&[0x1b][..], &FRAME].concat(), Way::Second, 8, &["noise 1 1"]),
        ([&[0][..], &FRAME].concat(), Way::First, 8, &["noise 1 1"]),
        ([s, &[0xaa, 0xbb], &FRAME].concat(), Way::First, 8, &["cut 1 10"]),
        ([s, &[0x1b, 0x1b, 0x1b, 0x1b, 2, 0, 0, 0, 0xaa], s, &[0x12, 0x34, 0x56]].concat(), Way::First, 8, &["escape 1 16", "noise 17 17", "unfinished 18 28"]),
        (FRAME.to_vec(), Way::First, 7, &["room 1 20"]),
        ([&FRAME[..19], &[0x7a]].concat(), Way::First, 8, &["crc 1 20"]),
        ([&FRAME[..], &[0x1b, 0x1b], &FRAME, &[0], &FRAME].concat(), Way::First, 8, &["hidden 21 43"]),
        ([s, &[1, 2, 3, 4, 5, 0x1b, 0x1b, 0x1b, 0x1b, 0x1a, 4, 7, 0x4f]].concat(), Way::First, 12, &["crc+misaligned+pads 1 21"]),
        ([s, &[0x1b, 0x1b, 0x1b, 0x1b, 0x1a, 1, 0x4f, 0xf4]].concat(), Way::First, 12, &["pads 1 16"]),
        ([s, &[1, 0x1b, 0x1b, 0x1b, 0x1b, 0x1a, 2, 0x16, 0x1e]].concat(), Way::First, 12, &["misaligned+pads 1 17"]),
        ([s, &[1, 2, 3, 0x1b, 0x1b, 0x1b, 0x1b, 0x1a, 3, 0xed, 0xf4]].concat(), Way::Second, 12, &["misaligned 1 19"]),
        ([s, s, &[0x12, 0x34]].concat(), Way::First, 8, &["cut 1 8", "unfinished 9 18"]),
        (FRAME[..7].to_vec(), Way::First, 8, &["noise 1 7"]),
        (FRAME.to_vec(), Way::First, 8, &[]),
        (Vec::new(), Way::First, 8, &[]),
        ([s, s].concat(), Way::First, 0, &["room 1 13", "noise 14 16"]),
    ];
    for (bytes, way, capacity, wanted) in cases {
        assert_eq!(lost(&bytes, way, &mut vec![0; capacity]), wanted);
        // at the end, and beyond it, nothing more is lost
        for from in [bytes.len(), bytes.len() + 1, usize::MAX] {
            assert_eq!(next_loss(&bytes, way, &mut vec![0; capacity], from), None);
        }
    }
}

#[test]
fn a_watch_tells_the_losses_and_the_payloads_of_all_slices() {
    let bytes = stream();
    for (way, watch) in [(Way::First, Watch::new as fn() -> Watch<Small>), (Way::Second, Watch::second_way)] {
        let wanted = lost(&bytes, way, &mut [0; 8]);
        let (_, frames) = watched(watch(), &bytes, bytes.len());
        let pushed = singly(if way == Way::First { Decoder::new() } else { Decoder::second_way() }, &bytes);
        assert_eq!((frames.len(), wanted.len()), (pushed.iter().filter(|(_, one)| one.is_ok()).count(), pushed.iter().filter(|(_, one)| one.is_err()).count()));
        for (first, last, payload) in &frames {
            assert_eq!((&bytes[*first as usize - 1..*last as usize], &payload[..]), (&FRAME[..], &PAYLOAD[..]));
        }
        for size in 1..=bytes.len() {
            assert_eq!(watched(watch(), &bytes, size), (wanted.clone(), frames.clone()));
        }
    }
    let own = [Watch::from_buf(Small::default()), Watch::default()].map(|watch| watched(watch, &bytes, 9));
    assert_eq!(own[0], own[1]);
    assert_eq!(watched(Watch::from_buf_second_way(Small::default()), &bytes, 9), watched(Watch::second_way(), &bytes, 9));
}

#[test]
fn a_cause_is_told_by_its_name_and_a_long_buffer_by_its_first_bytes() {
    let bytes = [&FRAME[..19], &[0x7a]].concat();
    let wrong = Cause::Invalid { wrong_crc: true, misaligned: false, wrong_pads: false };
    let mut long = vec![7; LIMIT + 3];
    assert_eq!(next_loss(&bytes, Way::First, &mut long, 0), Some(Loss { cause: wrong, first: 1, last: 20 }));
    assert_eq!(long[LIMIT..], [7, 7, 7]);
    let (mut watch, mut none) = (Watch::<Small>::new(), Watch::<ArrayBuf<0>>::new());
    assert_eq!(watch.slice(&[]), (0, Seen::Nothing));
    assert_eq!(watch.slice(&FRAME), (20, Seen::Kept { payload: &PAYLOAD, first: 1, last: 20 }));
    assert_eq!(none.slice(&FRAME), (9, Seen::Lost(Loss { cause: Cause::NoRoom, first: 1, last: 9 })));
    assert_eq!(Cause::UnknownEscape.to_string(), "escape");
}
