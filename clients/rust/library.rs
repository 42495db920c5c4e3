//! The library, which keeps the table of a session.

use crate::fault::Fault;
use crate::link::{COMMAND_REFUSED, Calls};
use crate::packed::Request;
use crate::reason::Reason;
use crate::values::reserve;
use crate::{Part, Replies, Session, Table};
use std::error::Error;
use std::fmt;
use std::ptr::null_mut;

#[repr(C)]
struct Handle {
    at: *mut u8,
    is_open: bool,
}

#[repr(C)]
struct ReplyPlace {
    offset: u64,
    length: u64,
    kind: u32,
}

/// Why the library refused a call, and where. 0 is no item, and no column.
#[repr(C)]
#[derive(Default)]
pub(crate) struct CallFault {
    refusal: u64,
    item: u64,
    column: u64,
}

/// What betable_explain writes.
#[repr(C)]
#[derive(Default)]
struct CallReason {
    refusal: u64,
    item: u64,
    field: u64,
    problem: u32,
}

type Call = unsafe extern "C" fn(*mut Handle, *const u8, usize, *mut CallFault) -> u32;

#[link(name = "bt_c", kind = "static")]
extern "C" {
    fn betable_open(session: *mut Handle) -> u32;
    fn betable_run(session: *mut Handle, script: *const u8, length: usize) -> u32;
    fn betable_check(session: *mut Handle, script: *const u8, length: usize) -> u32;
    fn betable_explain(session: *mut Handle, script: *const u8, length: usize, reason: *mut CallReason) -> u32;
    fn betable_apply(session: *mut Handle, changes: *const u8, length: usize, fault: *mut CallFault) -> u32;
    fn betable_get(session: *mut Handle, key: *const u8, length: usize, fault: *mut CallFault) -> u32;
    fn betable_page(session: *mut Handle, page: *const u8, length: usize, fault: *mut CallFault) -> u32;
    fn betable_last_page(session: *mut Handle, page: *const u8, length: usize, fault: *mut CallFault) -> u32;
    fn betable_sums(session: *mut Handle, sums: *const u8, length: usize, fault: *mut CallFault) -> u32;
    fn betable_usage(session: *mut Handle, name: *const u8, length: usize, fault: *mut CallFault) -> u32;
    fn betable_trees(session: *mut Handle, request: *const u8, length: usize, fault: *mut CallFault) -> u32;
    fn betable_replies_length(session: *mut Handle) -> usize;
    fn betable_copy_replies(session: *mut Handle, from: usize, out: *mut u8, room: usize) -> usize;
    fn betable_refused_count(session: *mut Handle) -> usize;
    fn betable_reply_count(session: *mut Handle) -> usize;
    fn betable_reply(session: *mut Handle, place: usize, reply: *mut ReplyPlace) -> bool;
    fn betable_is_lost(session: *mut Handle) -> bool;
    fn betable_close(session: *mut Handle) -> u32;
}

pub(crate) const DONE: u32 = 0;
pub(crate) const OUT_OF_MEMORY: u32 = 1;
const REPLY_CUT: u32 = 2;
pub(crate) const REFUSED: u32 = 5;

impl From<CallFault> for Fault {
    fn from(fault: CallFault) -> Fault {
        Fault::refused(fault.refusal, fault.item, fault.column)
    }
}

/// The library ran out of memory.
#[derive(Debug)]
pub struct OutOfMemory {
    /// The replies of the first commands, which were carried out.
    pub replies: Replies,
    /// Whether the last of them is not whole.
    pub is_cut: bool,
    /// Whether the table is lost: then each command on it is refused.
    pub is_lost: bool,
}

impl fmt::Display for OutOfMemory {
    fn fmt(&self, out: &mut fmt::Formatter<'_>) -> fmt::Result {
        out.write_str(if self.is_lost { "out of memory, and the table is lost" } else { "out of memory" })
    }
}

impl Error for OutOfMemory {}

/// The place of the table of a session, in the library.
pub struct Library {
    handle: Handle,
}

// SAFETY: as include/betable.h says, a session may go from one thread to another between two calls, if something orders them, as all that sends a value to
// another thread does. Calls take the session by `&mut`, so no two threads use it at the same time.
unsafe impl Send for Library {}

impl Session {
    pub fn new() -> Result<Session, OutOfMemory> {
        let mut handle = Handle { at: null_mut(), is_open: false };
        if unsafe { betable_open(&mut handle) } != DONE {
            return Err(OutOfMemory { replies: Replies::default(), is_cut: false, is_lost: false });
        }
        Ok(Table::of(Library { handle }))
    }

    /// Whether the table was lost when memory ran out.
    pub fn is_lost(&mut self) -> bool {
        self.link.is_lost()
    }
}

impl Calls for Library {
    type Failure = OutOfMemory;

    fn run(&mut self, script: &[u8]) -> Result<Replies, OutOfMemory> {
        let status = unsafe { betable_run(&mut self.handle, script.as_ptr(), script.len()) };
        let mut bytes = vec![0; unsafe { betable_replies_length(&mut self.handle) }];
        let count = unsafe { betable_copy_replies(&mut self.handle, 0, bytes.as_mut_ptr(), bytes.len()) };
        bytes.truncate(count);
        let replies = Replies { bytes, parts: self.parts(), refused_count: unsafe { betable_refused_count(&mut self.handle) } };
        if status != DONE {
            return Err(OutOfMemory { replies, is_cut: status == REPLY_CUT, is_lost: self.is_lost() });
        }
        Ok(replies)
    }

    fn check(&mut self, script: &[u8]) -> Result<Vec<Part>, OutOfMemory> {
        let status = unsafe { betable_check(&mut self.handle, script.as_ptr(), script.len()) };
        if status != DONE {
            return Err(self.out_of_memory());
        }
        Ok(self.parts())
    }

    fn explain(&mut self, script: &[u8]) -> Result<Option<Reason>, OutOfMemory> {
        let mut reason = CallReason::default();
        match unsafe { betable_explain(&mut self.handle, script.as_ptr(), script.len(), &mut reason) } {
            DONE => Ok(None),
            REFUSED => Ok(Some(Reason::of([reason.refusal, reason.item, reason.field, reason.problem.into()]))),
            _ => Err(self.out_of_memory()),
        }
    }

    fn call(&mut self, request: Request, packed: &[u8], reply: &mut Vec<u8>) -> Result<(), Fault> {
        let call: Call = match request {
            Request::Apply => betable_apply,
            Request::Get => betable_get,
            Request::Page => betable_page,
            Request::LastPage => betable_last_page,
            Request::Sums => betable_sums,
            Request::Usage => betable_usage,
            Request::Trees => betable_trees,
        };
        reply.clear();
        let mut fault = CallFault::default();
        // SAFETY: the session is open, and `call` reads these bytes and writes this fault, none of which overlap.
        match unsafe { call(&mut self.handle, packed.as_ptr(), packed.len(), &mut fault) } {
            DONE => self.copy_reply(reply),
            REFUSED => Err(fault.into()),
            _ => Err(Fault::OutOfMemory { is_lost: self.is_lost() }),
        }
    }
}

impl Library {
    fn copy_reply(&mut self, reply: &mut Vec<u8>) -> Result<(), Fault> {
        let length = unsafe { betable_replies_length(&mut self.handle) };
        reserve(reply, length)?;
        // SAFETY: there is room for `length` bytes, and the first `count` of them are written.
        unsafe {
            let count = betable_copy_replies(&mut self.handle, 0, reply.as_mut_ptr(), length);
            reply.set_len(count);
        }
        Ok(())
    }

    fn out_of_memory(&mut self) -> OutOfMemory {
        OutOfMemory { replies: Replies::default(), is_cut: false, is_lost: self.is_lost() }
    }

    /// Where the replies to the last script are, which was done or checked. None if it was not.
    fn parts(&mut self) -> Vec<Part> {
        let mut place = ReplyPlace { offset: 0, length: 0, kind: 0 };
        let count = unsafe { betable_reply_count(&mut self.handle) };
        let mut parts = Vec::with_capacity(count);
        while unsafe { betable_reply(&mut self.handle, parts.len(), &mut place) } {
            let bytes = place.offset as usize..(place.offset + place.length) as usize;
            parts.push(Part { bytes, is_refused: place.kind == COMMAND_REFUSED });
        }
        parts
    }

    fn is_lost(&mut self) -> bool {
        unsafe { betable_is_lost(&mut self.handle) }
    }
}

impl Drop for Library {
    fn drop(&mut self) {
        unsafe { betable_close(&mut self.handle) };
    }
}
