//! A table in a file, in this process. include/betable_file.h describes the calls of the library.

use crate::fault::{Fault, FileRefusal};
use crate::frames::{Exchange, HEADER, MAGIC, header, number, result_of};
use crate::library::{CallFault, DONE, OUT_OF_MEMORY, REFUSED};
use crate::packed::Request;
use crate::values::{append, reserve};
use crate::{KeptGroup, KeptSession, Table};
use std::ffi::CString;
use std::io;
use std::os::raw::{c_char, c_int};
use std::os::unix::ffi::OsStrExt;
use std::path::Path;
use std::ptr::null_mut;

#[repr(C)]
struct Handle {
    at: *mut u8,
}

type Call = unsafe extern "C" fn(*mut Handle, *const u8, usize, *mut CallFault) -> u32;

#[link(name = "bt_c", kind = "static")]
extern "C" {
    fn betable_file_open(file: *mut Handle, path: *const c_char) -> u32;
    fn betable_file_run(file: *mut Handle, requests: *const u8, length: usize) -> u32;
    fn betable_file_apply(file: *mut Handle, changes: *const u8, length: usize, fault: *mut CallFault) -> u32;
    fn betable_file_get(file: *mut Handle, key: *const u8, length: usize, fault: *mut CallFault) -> u32;
    fn betable_file_page(file: *mut Handle, page: *const u8, length: usize, fault: *mut CallFault) -> u32;
    fn betable_file_last_page(file: *mut Handle, page: *const u8, length: usize, fault: *mut CallFault) -> u32;
    fn betable_file_sums(file: *mut Handle, sums: *const u8, length: usize, fault: *mut CallFault) -> u32;
    fn betable_file_usage(file: *mut Handle, name: *const u8, length: usize, fault: *mut CallFault) -> u32;
    fn betable_file_trees(file: *mut Handle, request: *const u8, length: usize, fault: *mut CallFault) -> u32;
    fn betable_file_replies_length(file: *mut Handle) -> usize;
    fn betable_file_copy_replies(file: *mut Handle, from: usize, out: *mut u8, room: usize) -> usize;
    fn betable_file_begin(file: *mut Handle) -> u32;
    fn betable_file_commit(file: *mut Handle) -> u32;
    fn betable_file_roll_back(file: *mut Handle) -> u32;
    fn betable_file_checkpoint(file: *mut Handle) -> u32;
    fn betable_file_checkpoint_count(file: *const Handle) -> usize;
    fn betable_file_checkpoint_fault(file: *const Handle) -> c_int;
    fn betable_file_close(file: *mut Handle) -> u32;
}

/// The place of the table of a session that is in a file.
pub struct KeptFile {
    handle: Handle,
    requests: Vec<u8>,
}

// SAFETY: as for a session of the library.
unsafe impl Send for KeptFile {}

/// The place of the table of a group.
pub struct FileGroup<'s> {
    file: &'s mut KeptFile,
    is_open: bool,
}

impl KeptSession {
    /// Opens the table in a file, which is made if there is none. It is closed when it is dropped.
    pub fn open(path: impl AsRef<Path>) -> Result<KeptSession, Fault> {
        let path = CString::new(path.as_ref().as_os_str().as_bytes()).map_err(|_| Fault::FileFailed { code: EINVAL })?;
        let mut handle = Handle { at: null_mut() };
        result(unsafe { betable_file_open(&mut handle, path.as_ptr()) })?;
        Ok(Table::of(KeptFile { handle, requests: Vec::new() }))
    }

    /// Begins a group, whose calls are kept together by its `commit`, or none of them.
    ///
    /// ```text
    /// let mut group = session.group()?;
    /// group.upsert(&1, &[Op::Add("qty", -5)])?;
    /// group.upsert(&2, &[Op::Add("qty", 5)])?;
    /// group.commit()?;
    /// ```
    pub fn group(&mut self) -> Result<KeptGroup<'_>, Fault> {
        result(unsafe { betable_file_begin(&mut self.link.handle) })?;
        self.trees.clear();
        Ok(Table::of(FileGroup { file: &mut self.link, is_open: true }))
    }

    /// Makes the table usable after a call that failed, if it is certain that nothing of that call is in the file, which is read again. Otherwise, as after a sync
    /// that failed, the fault is `Closed`, and the file is to be opened again.
    pub fn roll_back(&mut self) -> Result<(), Fault> {
        self.trees.clear();
        self.link.roll_back()
    }

    /// Replaces the requests in the file by the state, which is also done by itself. Nothing is done while an index is building.
    pub fn checkpoint(&mut self) -> Result<(), Fault> {
        result(unsafe { betable_file_checkpoint(&mut self.link.handle) })
    }

    /// The number of checkpoints that were made since the file was opened, also by themselves.
    pub fn checkpoint_count(&self) -> usize {
        unsafe { betable_file_checkpoint_count(&self.link.handle) }
    }

    /// Why the last checkpoint that was due was not made. `None` if one was made since.
    pub fn checkpoint_fault(&self) -> Option<Fault> {
        match unsafe { betable_file_checkpoint_fault(&self.link.handle) } {
            0 => None,
            code => Some(Fault::FileFailed { code }),
        }
    }
}

impl KeptGroup<'_> {
    /// Keeps the calls of the group. After an `Err`, [`KeptSession::roll_back`] says whether they may be in the file.
    pub fn commit(mut self) -> Result<(), Fault> {
        self.link.is_open = false;
        result(unsafe { betable_file_commit(&mut self.link.file.handle) })
    }

    /// Undoes the calls of the group, as a drop does. After an `Err` the file is to be opened again.
    pub fn roll_back(mut self) -> Result<(), Fault> {
        self.link.is_open = false;
        self.link.file.roll_back()
    }
}

const EINVAL: i32 = 22;

// The result of a call with this status.
fn result(status: u32) -> Result<(), Fault> {
    let refused = |reason| Err(Fault::FileRefused { reason });
    match status {
        DONE => Ok(()),
        OUT_OF_MEMORY => Err(Fault::OutOfMemory { is_lost: true }),
        4 => Err(Fault::GroupOpen),
        6 => Err(Fault::Closed),
        7 => refused(FileRefusal::TooLong),
        8 => refused(FileRefusal::NotATable),
        9 => refused(FileRefusal::OtherFormat),
        10 => refused(FileRefusal::OtherEngine),
        11 => refused(FileRefusal::Damaged),
        12 => Err(Fault::FileFailed { code: io::Error::last_os_error().raw_os_error().unwrap_or(0) }),
        13 => refused(FileRefusal::InUse),
        _ => Err(Fault::OtherVersion),
    }
}

impl Exchange for KeptFile {
    fn exchange(&mut self, kind: u8, payload: &[&[u8]], reply: &mut Vec<u8>) -> Result<(), Fault> {
        reply.clear();
        self.requests.clear();
        append(&mut self.requests, &header(kind, payload))?;
        payload.iter().try_for_each(|part| append(&mut self.requests, part))?;
        result(unsafe { betable_file_run(&mut self.handle, self.requests.as_ptr(), self.requests.len()) })?;
        let mut header = [0; HEADER];
        let count = unsafe { betable_file_copy_replies(&mut self.handle, 0, header.as_mut_ptr(), HEADER) };
        self.copy_replies(HEADER, reply)?;
        if count < HEADER || header[..4] != MAGIC || number(&header[4..12]) != reply.len() as u64 {
            return Err(self.other_version());
        }
        let result = result_of(header[12], reply).unwrap_or_else(|| Err(self.other_version()));
        if result.is_err() {
            reply.clear();
        }
        result
    }

    fn call_packed(&mut self, request: Request, packed: &[u8], reply: &mut Vec<u8>) -> Result<(), Fault> {
        let call: Call = match request {
            Request::Apply => betable_file_apply,
            Request::Get => betable_file_get,
            Request::Page => betable_file_page,
            Request::LastPage => betable_file_last_page,
            Request::Sums => betable_file_sums,
            Request::Usage => betable_file_usage,
            Request::Trees => betable_file_trees,
        };
        reply.clear();
        let mut fault = CallFault::default();
        // SAFETY: `call` reads these bytes and writes this fault, which do not overlap.
        match unsafe { call(&mut self.handle, packed.as_ptr(), packed.len(), &mut fault) } {
            DONE if matches!(request, Request::Apply) => Ok(()),
            DONE => self.copy_replies(0, reply),
            REFUSED => Err(fault.into()),
            OUT_OF_MEMORY if !matches!(request, Request::Apply) => Err(Fault::OutOfMemory { is_lost: false }),
            status => result(status),
        }
    }

    fn other_version(&mut self) -> Fault {
        Fault::OtherVersion
    }

    fn is_kept(&self) -> bool {
        true
    }
}

impl KeptFile {
    // Copies the replies to the last call from a place on.
    fn copy_replies(&mut self, from: usize, reply: &mut Vec<u8>) -> Result<(), Fault> {
        let room = unsafe { betable_file_replies_length(&mut self.handle) }.saturating_sub(from);
        reserve(reply, room)?;
        // SAFETY: there is room for these bytes, and the first `count` of them are written.
        unsafe {
            let count = betable_file_copy_replies(&mut self.handle, from, reply.as_mut_ptr(), room);
            reply.set_len(count);
        }
        Ok(())
    }

    fn roll_back(&mut self) -> Result<(), Fault> {
        result(unsafe { betable_file_roll_back(&mut self.handle) })
    }
}

impl Exchange for FileGroup<'_> {
    fn exchange(&mut self, kind: u8, payload: &[&[u8]], reply: &mut Vec<u8>) -> Result<(), Fault> {
        self.file.exchange(kind, payload, reply)
    }

    fn call_packed(&mut self, request: Request, packed: &[u8], reply: &mut Vec<u8>) -> Result<(), Fault> {
        self.file.call_packed(request, packed, reply)
    }

    fn other_version(&mut self) -> Fault {
        self.file.other_version()
    }

    fn is_kept(&self) -> bool {
        self.file.is_kept()
    }
}

impl Drop for FileGroup<'_> {
    fn drop(&mut self) {
        if self.is_open {
            let _ = self.file.roll_back(); // if it fails, so do all later calls
        }
    }
}

impl Drop for KeptFile {
    fn drop(&mut self) {
        unsafe { betable_file_close(&mut self.handle) };
    }
}
