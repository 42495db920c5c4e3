//! The trees of a table, as the library describes them.

use crate::Table;
use crate::fault::Fault;
use crate::link::Link;
use crate::packed::{MAGIC, Request};
use crate::values::{Column, Kind};

/// A tree of a table.
#[derive(Debug)]
pub struct Tree {
    name: String,
    pub(crate) columns: Vec<Column>,
    keys: usize,
    is_complete: bool,
}

impl Tree {
    /// Its name. The tree of the rows is called `primary`.
    pub fn name(&self) -> &str {
        &self.name
    }

    /// The columns of its rows, of which the first ones are its key.
    pub fn columns(&self) -> &[Column] {
        &self.columns
    }

    /// The columns of its key.
    pub fn key(&self) -> &[Column] {
        &self.columns[..self.keys]
    }

    /// Whether it has its rows, which an index has once it is built.
    pub fn is_complete(&self) -> bool {
        self.is_complete
    }
}

const NO_TABLE: u32 = 3;
const NO_SUCH_TREE: u64 = 8;

impl<L: Link> Table<L> {
    /// The trees of the table: that of its rows, and then its indexes in the order in which they were made. There are none before the table is made.
    pub fn trees(&mut self) -> Result<&[Tree], Fault> {
        match self.read_trees() {
            Ok(()) => Ok(&self.trees),
            Err(Fault::Refused { refusal, .. }) if refusal.number == NO_TABLE => Ok(&[]),
            Err(fault) => Err(fault),
        }
    }

    /// The place in `trees` of the tree of this name.
    pub(crate) fn tree(&mut self, name: &str) -> Result<usize, Fault> {
        self.read_trees()?;
        self.trees.iter().position(|tree| tree.name == name).ok_or_else(|| Fault::refused(NO_SUCH_TREE, 0, 0))
    }

    // Reads the trees if no call has read them since the last script.
    fn read_trees(&mut self) -> Result<(), Fault> {
        if self.trees.is_empty() {
            self.begin(0)?;
            self.call_with_reply(Request::Trees)?;
            self.trees = trees_of_reply(&self.reply[MAGIC.len()..]).ok_or(Fault::OtherVersion)?;
        }
        Ok(())
    }
}

fn trees_of_reply(reply: &[u8]) -> Option<Vec<Tree>> {
    let (mut rest, mut trees) = (reply, Vec::new());
    while !rest.is_empty() {
        trees.push(next_tree(&mut rest)?);
    }
    Some(trees)
}

// The first tree of these bytes, which then begin after it.
fn next_tree(rest: &mut &[u8]) -> Option<Tree> {
    let name = next_text(rest)?;
    let is_complete = next_bytes(rest, 1)?[0] == 0;
    let (keys, count) = (next_number(rest)?, next_number(rest)?);
    let mut columns = Vec::new();
    for _ in 0..count {
        let kind = kind_of(next_bytes(rest, 1)?[0])?;
        columns.push(Column { name: next_text(rest)?, kind });
    }
    (1..=count).contains(&keys).then_some(Tree { name, columns, keys, is_complete })
}

fn next_bytes<'r>(rest: &mut &'r [u8], count: usize) -> Option<&'r [u8]> {
    let found = rest.get(..count)?;
    *rest = &rest[count..];
    Some(found)
}

fn next_number(rest: &mut &[u8]) -> Option<usize> {
    usize::try_from(u64::from_le_bytes(next_bytes(rest, 8)?.try_into().ok()?)).ok()
}

fn next_text(rest: &mut &[u8]) -> Option<String> {
    let length = next_bytes(rest, 1)?[0];
    String::from_utf8(next_bytes(rest, usize::from(length))?.to_vec()).ok()
}

fn kind_of(code: u8) -> Option<Kind> {
    match code {
        0 => Some(Kind::Int),
        1 => Some(Kind::Text),
        2 => Some(Kind::Flag),
        4 => Some(Kind::Bytes),
        _ => None,
    }
}
