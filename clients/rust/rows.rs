//! Reading rows by values.

use crate::fault::Fault;
use crate::link::Link;
use crate::packed::{MAGIC, PRIMARY, Request};
use crate::values::{Column, FromValue, Kind, Value, Values, append, for_each_tuple, pack_all, pack_first};
use crate::{Library, Table};

/// The rows that a scan reads at a time.
const ROWS_OF_PAGE: u32 = 1024;

/// A row that was read. Its texts and bytes are borrowed from the reply.
#[derive(Clone, Copy)]
pub struct Row<'r> {
    pub(crate) columns: &'r [Column],
    pub(crate) bytes: &'r [u8],
    // Where each value ends.
    pub(crate) ends: &'r [usize],
}

impl<'r> Row<'r> {
    /// The values, in the order of the columns.
    pub fn values(self) -> impl ExactSizeIterator<Item = Value<'r>> {
        (0..self.columns.len()).map(move |place| self.value(place))
    }

    /// The value of the column at a place, which is counted from 0, if it has the kind of this type.
    pub fn get<T: FromValue<'r>>(self, place: usize) -> Result<T, Fault> {
        match self.columns.get(place) {
            Some(column) => T::from_value(self.value(place)).ok_or_else(|| {
                let name = column.name.clone();
                Fault::WrongKind { item: None, column: place as u64 + 1, name, wanted: column.kind, found: T::KIND }
            }),
            None => Err(Fault::WrongLength { item: None, wanted: self.columns.len(), found: place.saturating_add(1) }),
        }
    }

    fn value(self, place: usize) -> Value<'r> {
        let start = if place == 0 { 0 } else { self.ends[place - 1] };
        let bytes = &self.bytes[start..self.ends[place]];
        match self.columns[place].kind {
            Kind::Int => Value::Int(bytes.try_into().map_or(0, i64::from_le_bytes)),
            Kind::Flag => Value::Flag(bytes == [1]),
            // SAFETY: `end_of_value` has found that the bytes are UTF-8.
            Kind::Text => Value::Text(unsafe { std::str::from_utf8_unchecked(&bytes[1..]) }),
            Kind::Bytes => Value::Bytes(&bytes[1..]),
        }
    }
}

macro_rules! tuple_of_row {
    ($($types:ident $places:tt),*) => {
        /// All values of a row, each of the kind of its type.
        impl<'r, $($types: FromValue<'r>),*> TryFrom<Row<'r>> for ($($types,)*) {
            type Error = Fault;

            fn try_from(row: Row<'r>) -> Result<Self, Fault> {
                let (wanted, found) = (row.columns.len(), [$($places),*].len());
                if found != wanted {
                    return Err(Fault::WrongLength { item: None, wanted, found });
                }
                Ok(($(row.get($places)?,)*))
            }
        }
    };
}

for_each_tuple!(tuple_of_row);

/// The order of rows, by their keys.
#[derive(Clone, Copy)]
enum Order {
    Ascending,
    NewestFirst,
}

/// The rows of a range of a tree, which are read page by page. A row is borrowed until the next one is read.
pub struct Rows<'s, L = Library> {
    // Its packed bytes ask for the next page.
    owner: &'s mut Table<L>,
    tree: usize,
    order: Order,
    most: u32,
    // The length of the packed bytes before the bound at which a page begins, and the bytes after it.
    head: usize,
    rest: Vec<u8>,
    // Where the next row of the page begins, and how many rows the page may still have.
    at: usize,
    left: u32,
}

impl<L: Link> Table<L> {
    /// The row of a key.
    pub fn get<K: Values + ?Sized>(&mut self, key: &K) -> Result<Option<Row<'_>>, Fault> {
        let table = self.tree(PRIMARY)?;
        self.begin(1)?;
        pack_all(&mut self.packed, 1, self.trees[table].key(), key)?;
        self.call_with_reply(Request::Get)?;
        if self.reply.len() == MAGIC.len() {
            return Ok(None);
        }
        let end = self.read_ends(table, MAGIC.len())?;
        Ok(Some(self.row(table, MAGIC.len(), end)))
    }

    /// The rows of a tree, in ascending order of its key, from a lower bound on and before an upper one. A bound is values of the first key columns of the
    /// tree: of one or more, or `&()` for no bound. The first page is read by the first call of `next`.
    pub fn scan<F, T>(&mut self, tree: &str, from: &F, to: &T) -> Result<Rows<'_, L>, Fault>
    where
        F: Values + ?Sized,
        T: Values + ?Sized,
    {
        self.pages(tree, from, to, ROWS_OF_PAGE)
    }

    /// A scan that reads at most this many rows at a time, and at least one.
    pub fn pages<F, T>(&mut self, tree: &str, from: &F, to: &T, most: u32) -> Result<Rows<'_, L>, Fault>
    where
        F: Values + ?Sized,
        T: Values + ?Sized,
    {
        self.rows_in_order(Order::Ascending, tree, from, to, most)
    }

    /// The rows of [`scan`](Table::scan) from the last one back, in descending order of the tree's key.
    pub fn scan_newest_first<F, T>(&mut self, tree: &str, from: &F, to: &T) -> Result<Rows<'_, L>, Fault>
    where
        F: Values + ?Sized,
        T: Values + ?Sized,
    {
        self.pages_newest_first(tree, from, to, ROWS_OF_PAGE)
    }

    /// A scan from the last row back that reads at most this many rows at a time, and at least one.
    pub fn pages_newest_first<F, T>(&mut self, tree: &str, from: &F, to: &T, most: u32) -> Result<Rows<'_, L>, Fault>
    where
        F: Values + ?Sized,
        T: Values + ?Sized,
    {
        self.rows_in_order(Order::NewestFirst, tree, from, to, most)
    }

    fn rows_in_order<F, T>(&mut self, order: Order, tree: &str, from: &F, to: &T, most: u32) -> Result<Rows<'_, L>, Fault>
    where
        F: Values + ?Sized,
        T: Values + ?Sized,
    {
        let (name, tree, most) = (tree, self.tree(tree)?, most.max(1));
        self.begin(most)?;
        self.pack_name(name)?;
        let start = self.packed.len();
        let key = self.trees[tree].key();
        pack_bound(&mut self.packed, 1, key, from)?;
        let end = self.packed.len();
        let mut upper = Vec::new();
        pack_bound(&mut upper, 2, key, to)?;
        append(&mut self.packed, &upper)?;
        let (head, rest) = match order {
            Order::Ascending => (start, upper),
            Order::NewestFirst => (end, Vec::new()),
        };
        Ok(Rows { owner: self, tree, order, most, head, rest, at: 0, left: 0 })
    }

    fn row(&self, tree: usize, start: usize, end: usize) -> Row<'_> {
        Row { columns: &self.trees[tree].columns, bytes: &self.reply[start..end], ends: &self.ends }
    }

    // Finds where the values of the row at a place of the reply end, and returns where the row ends.
    fn read_ends(&mut self, tree: usize, start: usize) -> Result<usize, Fault> {
        self.ends.clear();
        let row = &self.reply[start..];
        let mut end = 0;
        for column in &self.trees[tree].columns {
            end = end_of_value(column.kind, row, end).ok_or(Fault::OtherVersion)?;
            self.ends.push(end);
        }
        Ok(start + end)
    }
}

impl<L: Link> Rows<'_, L> {
    /// The next row, or `None` after the last one. After an `Err` a further call tries again.
    #[allow(clippy::should_implement_trait)]
    pub fn next(&mut self) -> Result<Option<Row<'_>>, Fault> {
        if self.left == 0 {
            self.owner.call_with_reply(match self.order {
                Order::Ascending => Request::Page,
                Order::NewestFirst => Request::LastPage,
            })?;
            (self.at, self.left) = (MAGIC.len(), self.most);
        }
        if self.at == self.owner.reply.len() {
            return Ok(None);
        }
        let (start, end) = (self.at, self.owner.read_ends(self.tree, self.at)?);
        if self.left == 1 {
            self.ask_for_rows_beyond(start)?;
        }
        (self.at, self.left) = (end, self.left - 1);
        Ok(Some(self.owner.row(self.tree, start, end)))
    }

    // Packs the page beyond the row at a place of the reply, whose first values are the key. The bound of the whole key is directly before the row.
    fn ask_for_rows_beyond(&mut self, start: usize) -> Result<(), Fault> {
        let Table { packed, reply, ends, trees, .. } = &mut *self.owner;
        let count = trees[self.tree].key().len();
        packed.truncate(self.head);
        match self.order {
            Order::Ascending => append(packed, &[AFTER])?,
            Order::NewestFirst => append(packed, &[PREFIX, count as u8])?,
        }
        append(packed, &reply[start..][..ends[count - 1]])?;
        append(packed, &self.rest)
    }
}

// The codes of bounds.
const NO_BOUND: u8 = 0;
const PREFIX: u8 = 1;
const AFTER: u8 = 2;

/// Packs the bound before the rows that begin with these values, or no bound.
pub(crate) fn pack_bound<V: Values + ?Sized>(out: &mut Vec<u8>, item: u64, key: &[Column], values: &V) -> Result<(), Fault> {
    let start = out.len();
    append(out, &[PREFIX, 0])?;
    match pack_first(out, item, key, values)? {
        0 => {
            out.truncate(start);
            append(out, &[NO_BOUND])
        }
        count => {
            out[start + 1] = count as u8;
            Ok(())
        }
    }
}

/// Where the value of a kind that starts at a place of a row ends. `None` if there is no such value.
pub(crate) fn end_of_value(kind: Kind, row: &[u8], start: usize) -> Option<usize> {
    let rest = row.get(start..)?;
    let length = match kind {
        Kind::Int => 8,
        Kind::Flag => 1,
        Kind::Text | Kind::Bytes => 1 + usize::from(*rest.first()?),
    };
    let value = rest.get(..length)?;
    let is_value = match kind {
        Kind::Int | Kind::Bytes => true,
        Kind::Flag => value[0] <= 1,
        Kind::Text => std::str::from_utf8(&value[1..]).is_ok(),
    };
    is_value.then_some(start + length)
}
