//! Sums of the rows of a tree, by groups.

use crate::Table;
use crate::fault::Fault;
use crate::link::Link;
use crate::packed::{MAGIC, Request};
use crate::rows::{Row, end_of_value, pack_bound};
use crate::values::{Column, Values, reserve};

/// A group of rows that have the same first values.
#[derive(Clone, Copy)]
pub struct Group<'r> {
    /// The values of the columns of the group.
    pub values: Row<'r>,
    /// The number of rows.
    pub count: u64,
    /// The sum of their values in the column that is summed.
    pub total: i128,
}

/// The groups of a call of `sums`, in ascending order of their values.
#[derive(Clone)]
pub struct Sums<'r> {
    columns: &'r [Column],
    // The bytes of the groups that are left, and of each where its values end, from its start.
    bytes: &'r [u8],
    ends: &'r [usize],
}

impl<L: Link> Table<L> {
    /// Groups the rows of a tree by the values of that many of its first key columns, and gives the number of rows in each group and the sum of a column. The
    /// bounds are those of [`scan`](Table::scan). Without columns all rows are one group, even if there are none, and without a name no column is summed.
    pub fn sums<F, T>(&mut self, tree: &str, columns: u32, column: &str, from: &F, to: &T) -> Result<Sums<'_>, Fault>
    where
        F: Values + ?Sized,
        T: Values + ?Sized,
    {
        let (name, tree) = (tree, self.tree(tree)?);
        self.begin(columns)?;
        self.pack_name(name)?;
        self.pack_column_name(column)?;
        let key = self.trees[tree].key();
        pack_bound(&mut self.packed, 1, key, from)?;
        pack_bound(&mut self.packed, 2, key, to)?;
        self.call_with_reply(Request::Sums)?;
        let columns = self.trees[tree].key().get(..columns as usize).ok_or(Fault::OtherVersion)?;
        read_groups(columns, &self.reply[MAGIC.len()..], &mut self.ends)?;
        Ok(Sums { columns, bytes: &self.reply[MAGIC.len()..], ends: &self.ends })
    }

    /// The number of rows of a tree between bounds, which are those of [`scan`](Table::scan). The library gives no row.
    pub fn count<F, T>(&mut self, tree: &str, from: &F, to: &T) -> Result<u64, Fault>
    where
        F: Values + ?Sized,
        T: Values + ?Sized,
    {
        self.sums(tree, 0, "", from, to)?.next().map(|group| group.count).ok_or(Fault::OtherVersion)
    }
}

impl<'r> Iterator for Sums<'r> {
    type Item = Group<'r>;

    fn next(&mut self) -> Option<Group<'r>> {
        if self.bytes.is_empty() {
            return None;
        }
        let ends = self.ends.get(..self.columns.len())?;
        let (bytes, rest) = self.bytes.split_at(ends.last().copied().unwrap_or(0));
        let (numbers, rest) = rest.split_at(NUMBERS);
        let (count, total) = numbers.split_at(COUNT);
        (self.bytes, self.ends) = (rest, &self.ends[ends.len()..]);
        let values = Row { columns: self.columns, bytes, ends };
        Some(Group { values, count: u64::from_le_bytes(count.try_into().ok()?), total: i128::from_le_bytes(total.try_into().ok()?) })
    }

    fn size_hint(&self) -> (usize, Option<usize>) {
        let count = if self.columns.is_empty() { self.bytes.len() / NUMBERS } else { self.ends.len() / self.columns.len() };
        (count, Some(count))
    }
}

impl ExactSizeIterator for Sums<'_> {}

// The bytes of a count, and of a count and a total.
const COUNT: usize = 8;
const NUMBERS: usize = COUNT + 16;

// Finds where the values of each group end.
fn read_groups(columns: &[Column], bytes: &[u8], ends: &mut Vec<usize>) -> Result<(), Fault> {
    ends.clear();
    let mut rest = bytes;
    while !rest.is_empty() {
        reserve(ends, columns.len())?;
        let mut end = 0;
        for column in columns {
            end = end_of_value(column.kind, rest, end).ok_or(Fault::OtherVersion)?;
            ends.push(end);
        }
        rest = rest.get(end + NUMBERS..).ok_or(Fault::OtherVersion)?;
    }
    Ok(())
}
