//! Records that are read back, or given by values.
use crate::raw;

/// The value of an attribute.
#[derive(Clone, Debug, PartialEq, Eq, Hash)]
#[non_exhaustive]
pub enum Value {
    /// A number.
    Number(u64),
    /// A string of as many bytes as its attribute says, at most 16.
    Bytes(Vec<u8>),
    /// Of a kind that this crate does not know: the library is a later one. It fits no attribute.
    Unknown(u32),
}

/// A record that is read back.
#[derive(Clone, Debug, PartialEq, Eq, Hash)]
pub struct Row {
    /// The number that it was appended with.
    pub number: u32,
    /// Its values, in the order of the schema.
    pub values: Vec<Value>,
}

impl Value {
    pub(crate) fn of(value: &raw::Value) -> Self {
        match value.kind {
            raw::NUMBER => Value::Number(value.number),
            raw::BYTES => Value::Bytes(value.bytes.iter().copied().take(value.length as usize).collect()),
            kind => Value::Unknown(kind),
        }
    }

    /// The value for the library; none if it has more bytes than any attribute.
    pub(crate) fn raw(&self) -> Option<raw::Value> {
        match self {
            Value::Number(number) => Some(raw::Value {
                number: *number,
                ..raw::Value::default()
            }),
            Value::Bytes(held) => {
                let mut bytes = [0; 16];
                bytes.get_mut(..held.len())?.copy_from_slice(held);
                Some(raw::Value {
                    number: 0,
                    kind: raw::BYTES,
                    length: u32::try_from(held.len()).ok()?,
                    bytes,
                })
            }
            Value::Unknown(_) => None,
        }
    }
}
