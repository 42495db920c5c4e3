//! Values, and how rows and keys are packed: include/betable.h describes the layout.

use crate::fault::Fault;
use std::fmt;

/// The most bytes of a text, or of bytes, since one byte has their number.
const MOST_BYTES: usize = u8::MAX as usize;

/// The kind of a column.
#[derive(Clone, Copy, Debug, PartialEq, Eq)]
pub enum Kind {
    Int,
    Text,
    Flag,
    Bytes,
}

impl fmt::Display for Kind {
    fn fmt(&self, out: &mut fmt::Formatter<'_>) -> fmt::Result {
        out.write_str(match self {
            Kind::Int => "int",
            Kind::Text => "text",
            Kind::Flag => "flag",
            Kind::Bytes => "bytes",
        })
    }
}

/// A value of a column.
#[derive(Clone, Copy, Debug, PartialEq, Eq)]
pub enum Value<'a> {
    Int(i64),
    Text(&'a str),
    Flag(bool),
    Bytes(&'a [u8]),
}

impl Value<'_> {
    pub fn kind(self) -> Kind {
        match self {
            Value::Int(_) => Kind::Int,
            Value::Text(_) => Kind::Text,
            Value::Flag(_) => Kind::Flag,
            Value::Bytes(_) => Kind::Bytes,
        }
    }
}

/// A type that is written as a value. The type decides the kind, except for `Value`.
pub trait ToValue {
    fn to_value(&self) -> Value<'_>;
}

impl ToValue for Value<'_> {
    fn to_value(&self) -> Value<'_> {
        *self
    }
}

impl ToValue for i64 {
    fn to_value(&self) -> Value<'_> {
        Value::Int(*self)
    }
}

impl ToValue for bool {
    fn to_value(&self) -> Value<'_> {
        Value::Flag(*self)
    }
}

impl ToValue for str {
    fn to_value(&self) -> Value<'_> {
        Value::Text(self)
    }
}

impl ToValue for String {
    fn to_value(&self) -> Value<'_> {
        Value::Text(self)
    }
}

impl ToValue for [u8] {
    fn to_value(&self) -> Value<'_> {
        Value::Bytes(self)
    }
}

impl<const N: usize> ToValue for [u8; N] {
    fn to_value(&self) -> Value<'_> {
        Value::Bytes(self)
    }
}

impl ToValue for Vec<u8> {
    fn to_value(&self) -> Value<'_> {
        Value::Bytes(self)
    }
}

impl<T: ToValue + ?Sized> ToValue for &T {
    fn to_value(&self) -> Value<'_> {
        (**self).to_value()
    }
}

/// A type that a value of one kind is read as.
pub trait FromValue<'r>: Sized {
    const KIND: Kind;

    /// `None` if the value has another kind.
    fn from_value(value: Value<'r>) -> Option<Self>;
}

macro_rules! read_as {
    ($($kind:ident as $read:ty),*) => {
        $(impl<'r> FromValue<'r> for $read {
            const KIND: Kind = Kind::$kind;

            fn from_value(value: Value<'r>) -> Option<Self> {
                match value {
                    Value::$kind(content) => Some(content.into()),
                    _ => None,
                }
            }
        })*
    };
}

read_as!(Int as i64, Flag as bool, Text as &'r str, Text as String, Bytes as &'r [u8], Bytes as Vec<u8>);

/// A column of a tree.
#[derive(Debug)]
pub struct Column {
    pub name: String,
    pub kind: Kind,
}

/// The values of a row, of a key, or of a bound, in the order of the columns: a tuple, a slice of [`Value`], one value by itself, or `()`, which has none.
///
/// ```text
/// impl Values for City {
///     fn pack(&self, out: &mut Packer<'_>) -> Result<(), Fault> {
///         out.add(self.id)?;
///         out.add(&self.name)
///     }
/// }
/// ```
pub trait Values {
    /// Adds each value.
    fn pack(&self, out: &mut Packer<'_>) -> Result<(), Fault>;
}

impl<T: ToValue + ?Sized> Values for T {
    fn pack(&self, out: &mut Packer<'_>) -> Result<(), Fault> {
        out.add(self)
    }
}

impl Values for () {
    fn pack(&self, _out: &mut Packer<'_>) -> Result<(), Fault> {
        Ok(())
    }
}

impl Values for [Value<'_>] {
    fn pack(&self, out: &mut Packer<'_>) -> Result<(), Fault> {
        self.iter().try_for_each(|value| out.add(value))
    }
}

impl<const N: usize> Values for [Value<'_>; N] {
    fn pack(&self, out: &mut Packer<'_>) -> Result<(), Fault> {
        self.as_slice().pack(out)
    }
}

impl Values for Vec<Value<'_>> {
    fn pack(&self, out: &mut Packer<'_>) -> Result<(), Fault> {
        self.as_slice().pack(out)
    }
}

/// Calls a macro with the types and the places of a tuple, for each of 1 to 16 values.
macro_rules! for_each_tuple {
    ($call:ident: $($types:ident $places:tt),*) => {
        for_each_tuple!(@ $call: [] $($types $places),*);
    };
    (@ $call:ident: [$($types:ident $places:tt),*]) => {};
    (@ $call:ident: [$($types:ident $places:tt),*] $next:ident $place:tt $(, $others:ident $other_places:tt)*) => {
        $call!($($types $places,)* $next $place);
        for_each_tuple!(@ $call: [$($types $places,)* $next $place] $($others $other_places),*);
    };
    ($call:ident) => {
        for_each_tuple!($call: A 0, B 1, C 2, D 3, E 4, F 5, G 6, H 7, I 8, J 9, K 10, L 11, M 12, N 13, O 14, P 15);
    };
}
pub(crate) use for_each_tuple;

macro_rules! values_of_tuple {
    ($($types:ident $places:tt),*) => {
        impl<$($types: ToValue),*> Values for ($($types,)*) {
            fn pack(&self, out: &mut Packer<'_>) -> Result<(), Fault> {
                $(out.add(&self.$places)?;)*
                Ok(())
            }
        }
    };
}

for_each_tuple!(values_of_tuple);

/// Takes the values of one row or key, and checks each by its column.
pub struct Packer<'p> {
    out: &'p mut Vec<u8>,
    columns: &'p [Column],
    item: u64,
    count: usize,
}

impl Packer<'_> {
    /// Adds the value of the next column. It is not packed if it has another kind, or is too long.
    pub fn add<T: ToValue>(&mut self, value: T) -> Result<(), Fault> {
        if let Some(column) = self.columns.get(self.count) {
            pack_value(self.out, self.item, self.count, column, value.to_value())?;
        }
        self.count += 1;
        Ok(())
    }
}

/// Packs values of the first of these columns, and returns their number.
pub(crate) fn pack_first<V: Values + ?Sized>(out: &mut Vec<u8>, item: u64, columns: &[Column], values: &V) -> Result<usize, Fault> {
    let mut packer = Packer { out, columns, item, count: 0 };
    values.pack(&mut packer)?;
    let found = packer.count;
    if found > columns.len() {
        return Err(Fault::WrongLength { item: Some(item), wanted: columns.len(), found });
    }
    Ok(found)
}

/// Packs a value of each of these columns.
pub(crate) fn pack_all<V: Values + ?Sized>(out: &mut Vec<u8>, item: u64, columns: &[Column], values: &V) -> Result<(), Fault> {
    let found = pack_first(out, item, columns, values)?;
    if found < columns.len() {
        return Err(Fault::WrongLength { item: Some(item), wanted: columns.len(), found });
    }
    Ok(())
}

/// Packs a value of the column at this place, which is counted from 0.
pub(crate) fn pack_value(out: &mut Vec<u8>, item: u64, place: usize, column: &Column, value: Value<'_>) -> Result<(), Fault> {
    let (wanted, found) = (column.kind, value.kind());
    if found != wanted {
        return Err(Fault::WrongKind { item: Some(item), column: place as u64 + 1, name: column.name.clone(), wanted, found });
    }
    let bytes = match value {
        Value::Int(number) => return append(out, &number.to_le_bytes()),
        Value::Flag(is_set) => return append(out, &[u8::from(is_set)]),
        Value::Text(text) => text.as_bytes(),
        Value::Bytes(bytes) => bytes,
    };
    if bytes.len() > MOST_BYTES {
        return Err(Fault::TooLong { item, column: place as u64 + 1, name: column.name.clone(), length: bytes.len() });
    }
    append(out, &[bytes.len() as u8])?;
    append(out, bytes)
}

/// Adds bytes to a buffer.
pub(crate) fn append(out: &mut Vec<u8>, bytes: &[u8]) -> Result<(), Fault> {
    reserve(out, bytes.len())?;
    out.extend_from_slice(bytes);
    Ok(())
}

/// Makes room for this many more items in a buffer.
pub(crate) fn reserve<T>(out: &mut Vec<T>, count: usize) -> Result<(), Fault> {
    match out.len().checked_add(count) {
        Some(length) if length <= isize::MAX as usize => out.try_reserve(count).map_err(|_| Fault::OutOfMemory { is_lost: false }),
        _ => Err(Fault::TooLarge),
    }
}
