//! What the calls of a session and of an engine have in common.

use crate::fault::Fault;
use crate::packed::Request;
use crate::reason::Reason;
use crate::{Part, Replies};

/// The code of a command that was refused, or would be.
pub(crate) const COMMAND_REFUSED: u32 = 2;

/// The calls on a table, wherever it is.
pub trait Calls {
    /// Why a script or a check fails.
    type Failure: Into<Fault>;

    fn run(&mut self, script: &[u8]) -> Result<Replies, Self::Failure>;

    /// What each command of a script would do.
    fn check(&mut self, script: &[u8]) -> Result<Vec<Part>, Self::Failure>;

    fn explain(&mut self, script: &[u8]) -> Result<Option<Reason>, Self::Failure>;

    /// Makes a call on packed bytes. Its reply replaces the bytes of `reply`, which are none if the call fails.
    fn call(&mut self, request: Request, packed: &[u8], reply: &mut Vec<u8>) -> Result<(), Fault>;
}

/// Where a table is: in the library ([`Library`](crate::Library)), in the process of an engine ([`Process`](crate::Process)), in a file
/// ([`KeptFile`](crate::KeptFile)), or in a group ([`FileGroup`](crate::FileGroup)). No other type has this trait.
///
/// A function for all takes a `&mut Table<L>`, where `L: Link`.
pub trait Link: Calls {}

impl<C: Calls> Link for C {}
