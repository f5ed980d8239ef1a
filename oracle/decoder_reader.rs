// Stands in for the one file of the crate that is not published with its source, src/transport/decoder_reader.rs. Never called.
pub struct DecoderReader;
pub struct ReadDecodedError;
