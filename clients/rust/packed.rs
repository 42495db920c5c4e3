//! Calls on packed bytes.

use crate::Table;
use crate::fault::Fault;
use crate::link::Link;
use crate::values::append;

/// What packed bytes begin with: the version is 1.
pub(crate) const MAGIC: [u8; 4] = *b"BTV\x01";

/// The name of the tree of rows.
pub(crate) const PRIMARY: &str = "primary";

/// What a call on packed bytes asks for: the kind of its frame, if it goes to an engine.
#[derive(Clone, Copy)]
pub enum Request {
    Apply = 3,
    Get = 4,
    Page = 5,
    LastPage = 6,
    Sums = 7,
    Usage = 9,
    Trees = 10,
}

impl<L: Link> Table<L> {
    /// Begins packed bytes with a number.
    pub(crate) fn begin(&mut self, number: u32) -> Result<(), Fault> {
        self.packed.clear();
        append(&mut self.packed, &MAGIC)?;
        append(&mut self.packed, &number.to_le_bytes())
    }

    /// Adds the name of a tree to packed bytes.
    pub(crate) fn pack_name(&mut self, name: &str) -> Result<(), Fault> {
        self.pack_name_or(name, NO_SUCH_TREE)
    }

    /// Adds the name of a column to packed bytes.
    pub(crate) fn pack_column_name(&mut self, name: &str) -> Result<(), Fault> {
        self.pack_name_or(name, NO_SUCH_COLUMN)
    }

    // A name that is too long for its length is refused as one that is not there.
    fn pack_name_or(&mut self, name: &str, refusal: u64) -> Result<(), Fault> {
        match u8::try_from(name.len()) {
            Ok(length) => append(&mut self.packed, &[length]).and_then(|()| append(&mut self.packed, name.as_bytes())),
            Err(_) => Err(Fault::refused(refusal, 0, 0)),
        }
    }

    /// Makes a call on the packed bytes. Its reply has rows or other packed bytes, or nothing if the call changes rows.
    pub(crate) fn call(&mut self, request: Request) -> Result<(), Fault> {
        self.link.call(request, &self.packed, &mut self.reply)
    }

    /// Makes a call on the packed bytes that has packed bytes as its reply.
    pub(crate) fn call_with_reply(&mut self, request: Request) -> Result<(), Fault> {
        self.call(request)?;
        if self.reply.starts_with(&MAGIC) { Ok(()) } else { Err(Fault::OtherVersion) }
    }
}

const NO_SUCH_TREE: u64 = 8;
const NO_SUCH_COLUMN: u64 = 15;
