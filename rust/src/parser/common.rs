//! The records that events hold.
pub use super::OctetStr;

/// A signature.
pub type Signature<'i> = OctetStr<'i>;

/// A unit's code in the DLMS list (IEC 62056-62).
pub type Unit = u8;

/// A time.
#[derive(Debug, Clone, PartialEq, Eq)]
pub enum Time {
    /// Seconds, which most meters count from their installation on.
    SecIndex(u32),
}

/// The status of an entry, in the width in which it came. What it means is the meter's own.
#[derive(Debug, Clone, PartialEq, Eq)]
pub enum Status {
    /// Of one byte.
    Status8(u8),
    /// Of two bytes.
    Status16(u16),
    /// Of three or four bytes.
    Status32(u32),
    /// Of five to eight bytes.
    Status64(u64),
}

/// A value that is a list.
#[derive(Debug, Clone, PartialEq, Eq)]
pub enum ListType {
    /// A time.
    Time(Time),
}

/// The value of an entry; a number in the narrowest width that holds the bytes in which it came.
#[derive(Debug, Clone, PartialEq, Eq)]
#[allow(missing_docs)]
pub enum Value<'i> {
    Bool(bool),
    Bytes(OctetStr<'i>),
    I8(i8),
    I16(i16),
    I32(i32),
    I64(i64),
    U8(u8),
    U16(u16),
    U32(u32),
    U64(u64),
    List(ListType),
}

/// `SML_PublicOpen.Res`.
#[derive(Debug, Clone, PartialEq, Eq)]
pub struct OpenResponse<'i> {
    /// The code page, if another than ISO 8859-15.
    pub codepage: Option<OctetStr<'i>>,
    /// The client.
    pub client_id: Option<OctetStr<'i>>,
    /// The request that is answered.
    pub req_file_id: OctetStr<'i>,
    /// The server: the meter.
    pub server_id: OctetStr<'i>,
    /// A time to refer to.
    pub ref_time: Option<Time>,
    /// The version of SML, if another than 1.
    pub sml_version: Option<u8>,
}

/// `SML_PublicClose.Res`.
#[derive(Debug, Clone, PartialEq, Eq)]
pub struct CloseResponse<'i> {
    /// A signature.
    pub global_signature: Option<Signature<'i>>,
}

/// An entry of a list.
#[derive(Debug, Clone, PartialEq, Eq)]
pub struct ListEntry<'i> {
    /// What is measured: most often the six bytes of an OBIS code.
    pub obj_name: OctetStr<'i>,
    /// The entry's status.
    pub status: Option<Status>,
    /// When the value was taken.
    pub val_time: Option<Time>,
    /// The value's unit.
    pub unit: Option<Unit>,
    /// The power of ten that the value is to be multiplied with.
    pub scaler: Option<i8>,
    /// The value.
    pub value: Value<'i>,
    /// The value's signature.
    pub value_signature: Option<Signature<'i>>,
}
