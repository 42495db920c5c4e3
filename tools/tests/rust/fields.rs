//! The texts of values in records, which the programs beside this file share.

use betable::Value;

pub fn hexadecimal(bytes: &[u8]) -> String {
    bytes.iter().map(|byte| format!("{byte:02x}")).collect()
}

/// The text of a value in a reply.
pub fn field(value: Value<'_>) -> String {
    match value {
        Value::Int(number) => number.to_string(),
        Value::Text(text) => text.to_string(),
        Value::Flag(is_set) => is_set.to_string(),
        Value::Bytes(bytes) => hexadecimal(bytes),
    }
}
