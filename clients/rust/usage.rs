//! How much a tree holds.

use crate::Table;
use crate::fault::Fault;
use crate::link::Link;
use crate::packed::{MAGIC, Request};

/// How much a tree holds.
#[derive(Clone, Copy, Debug, PartialEq, Eq)]
pub struct Usage {
    /// The rows in its leaves. A message in a buffer can add one more, or delete one of them.
    pub rows: u64,
    /// The messages in its buffers.
    pub messages: u64,
    /// The nodes from the root to a leaf.
    pub height: u64,
}

impl<L: Link> Table<L> {
    /// How much a tree holds, which may be an index that is not complete.
    pub fn usage(&mut self, tree: &str) -> Result<Usage, Fault> {
        self.begin(1)?;
        self.pack_name(tree)?;
        self.call_with_reply(Request::Usage)?;
        let numbers = &self.reply[MAGIC.len()..];
        let number = |place: usize| numbers.get(8 * place..)?.get(..8)?.try_into().ok().map(u64::from_le_bytes);
        match (number(0), number(1), number(2), numbers.len()) {
            (Some(rows), Some(messages), Some(height), 24) => Ok(Usage { rows, messages, height }),
            _ => Err(Fault::OtherVersion),
        }
    }
}
