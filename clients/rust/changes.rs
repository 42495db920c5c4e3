//! Changes of rows by values.

use crate::fault::Fault;
use crate::link::Link;
use crate::packed::{MAGIC, PRIMARY, Request};
use crate::trees::Tree;
use crate::values::{Value, Values, append, pack_all, pack_value};
use crate::{Library, Table};

/// An operation of an upsert, with the name of its column.
#[derive(Clone, Copy, Debug, PartialEq, Eq)]
pub enum Op<'a> {
    Set(&'a str, Value<'a>),
    Add(&'a str, i64),
    Max(&'a str, i64),
    Min(&'a str, i64),
}

/// Changes that are applied in order: all of them, or none. If a change is refused when it is added, the changes are those before it.
///
/// ```text
/// let mut changes = session.changes()?;
/// changes.put(&(1, "Oslo", 30))?;
/// changes.delete(&2)?;
/// changes.apply()?;
/// ```
#[must_use = "no change is applied before the call of `apply`"]
pub struct Changes<'s, L = Library> {
    pub(crate) owner: &'s mut Table<L>,
    table: usize,
    count: u32,
}

impl<L: Link> Table<L> {
    /// Starts changes of rows.
    pub fn changes(&mut self) -> Result<Changes<'_, L>, Fault> {
        let table = self.tree(PRIMARY)?;
        self.begin(0)?;
        Ok(Changes { owner: self, table, count: 0 })
    }

    /// Puts rows: all of them, or none. A row replaces the one with its key.
    pub fn put<R: Values>(&mut self, rows: &[R]) -> Result<(), Fault> {
        let mut changes = self.changes()?;
        rows.iter().try_for_each(|row| changes.put(row))?;
        changes.apply()
    }

    /// Deletes the rows of keys: all of them, or none. A key may have no row.
    pub fn delete<K: Values>(&mut self, keys: &[K]) -> Result<(), Fault> {
        let mut changes = self.changes()?;
        keys.iter().try_for_each(|key| changes.delete(key))?;
        changes.apply()
    }

    /// Changes columns of the row of a key, as the `ups` of a script does.
    pub fn upsert<K: Values + ?Sized>(&mut self, key: &K, ops: &[Op<'_>]) -> Result<(), Fault> {
        let mut changes = self.changes()?;
        changes.upsert(key, ops)?;
        changes.apply()
    }
}

impl<L: Link> Changes<'_, L> {
    /// Adds the put of a row.
    pub fn put<R: Values + ?Sized>(&mut self, row: &R) -> Result<(), Fault> {
        self.add(PUT, |out, table, item| pack_all(out, item, &table.columns, row))
    }

    /// Adds the delete of the row of a key.
    pub fn delete<K: Values + ?Sized>(&mut self, key: &K) -> Result<(), Fault> {
        self.add(DEL, |out, table, item| pack_all(out, item, table.key(), key))
    }

    /// Adds the upsert of the row of a key.
    pub fn upsert<K: Values + ?Sized>(&mut self, key: &K, ops: &[Op<'_>]) -> Result<(), Fault> {
        self.add(UPS, |out, table, item| {
            pack_all(out, item, table.key(), key)?;
            let count = u8::try_from(ops.len()).map_err(|_| Fault::refused(BAD_LENGTH, item, 0))?;
            append(out, &[count])?;
            ops.iter().try_for_each(|op| pack_op(out, table, item, op))
        })
    }

    /// Applies the changes.
    pub fn apply(mut self) -> Result<(), Fault> {
        self.pack_count();
        self.owner.call(Request::Apply)
    }

    pub(crate) fn pack_count(&mut self) {
        self.owner.packed[MAGIC.len()..][..4].copy_from_slice(&self.count.to_le_bytes());
    }

    // Adds a change. An `Err` leaves those before it.
    fn add(&mut self, code: u8, pack: impl FnOnce(&mut Vec<u8>, &Tree, u64) -> Result<(), Fault>) -> Result<(), Fault> {
        let Table { packed, trees, .. } = &mut *self.owner;
        let (start, count) = (packed.len(), self.count.checked_add(1).ok_or(Fault::TooLarge)?);
        let result = append(packed, &[code]).and_then(|()| pack(packed, &trees[self.table], count.into()));
        match result {
            Ok(()) => self.count = count,
            Err(_) => packed.truncate(start),
        }
        result
    }
}

const PUT: u8 = 0;
const DEL: u8 = 1;
const UPS: u8 = 2;
const BAD_LENGTH: u64 = 7;

fn pack_op(out: &mut Vec<u8>, table: &Tree, item: u64, op: &Op<'_>) -> Result<(), Fault> {
    let (code, name, value) = match *op {
        Op::Set(name, value) => (0, name, value),
        Op::Add(name, number) => (1, name, Value::Int(number)),
        Op::Max(name, number) => (2, name, Value::Int(number)),
        Op::Min(name, number) => (3, name, Value::Int(number)),
    };
    match table.columns.iter().position(|column| column.name == name) {
        Some(place) => {
            append(out, &[code, place as u8])?;
            pack_value(out, item, place, &table.columns[place], value)
        }
        None => Err(Fault::NoSuchColumn { item, name: name.to_string() }),
    }
}
