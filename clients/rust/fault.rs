//! Why a typed call fails.

use crate::values::Kind;
use crate::{OutOfMemory, Refusal};
use std::error::Error;
use std::fmt;
use std::io;
use std::process::ExitStatus;

/// Why a typed call failed. It has changed nothing, unless the table is lost. Items and columns are counted from 1. An item is one of several changes, the key,
/// or 1 for the lower bound of a scan and 2 for the upper one.
#[derive(Clone, Debug, PartialEq)]
#[non_exhaustive]
pub enum Fault {
    /// The library refused the call: docs/SCRIPT.md lists the refusals.
    Refused { refusal: Refusal, column: Option<u64> },
    /// A value has another kind than its column, or than the type that it is read as. A row that is read has no item.
    WrongKind { item: Option<u64>, column: u64, name: String, wanted: Kind, found: Kind },
    /// A row or a key has more values or fewer than columns, or a bound has more than the key.
    WrongLength { item: Option<u64>, wanted: usize, found: usize },
    /// A text, or bytes, of more than 255 bytes.
    TooLong { item: u64, column: u64, name: String, length: usize },
    /// An operation names a column that the table does not have.
    NoSuchColumn { item: u64, name: String },
    /// More changes than a call takes, which is 4,294,967,295, or more bytes of them than a buffer holds. Or more bytes of a request than the engine takes.
    TooLarge,
    /// A request for memory was refused.
    OutOfMemory { is_lost: bool },
    /// The reply of the library or of the engine is in another layout than the one that this crate reads: the two are of different versions. An engine was
    /// killed if what arrived is no reply.
    OtherVersion,
    /// The engine has ended, or was killed, before the whole reply arrived. Its table is gone, and later calls fail in the same way. The status is that of its
    /// process, or `None` if it is not known.
    Ended { status: Option<ExitStatus> },
    /// A file was not opened, and is as it was.
    FileRefused { reason: FileRefusal },
    /// A call of the system failed, with this number of `errno`. A call of an open table may have been kept:
    /// [`KeptSession::roll_back`](crate::KeptSession::roll_back) says so.
    FileFailed { code: i32 },
    /// Nothing was done, since an earlier call on the table in the file failed: roll back, or open the file again.
    Closed,
    /// Nothing was done, since a group was forgotten, and is open: roll back.
    GroupOpen,
    /// Another script had the id of a script that is to run once.
    RequestReused,
    /// A script was to run once, and the engine does not keep its table.
    NotKept,
    /// The program of the engine could not be started.
    NotStarted { kind: io::ErrorKind },
}

/// Why a file is not opened.
#[derive(Clone, Copy, Debug, PartialEq, Eq)]
#[non_exhaustive]
pub enum FileRefusal {
    /// It is open already, in this process or another one. Also for a call in a forked child.
    InUse,
    /// It does not begin with the head of a table.
    NotATable,
    OtherFormat,
    /// Another engine wrote it.
    OtherEngine,
    Damaged,
    TooLong,
}

impl fmt::Display for FileRefusal {
    fn fmt(&self, out: &mut fmt::Formatter<'_>) -> fmt::Result {
        out.write_str(match self {
            FileRefusal::InUse => "the file is in use",
            FileRefusal::NotATable => "the file is no table",
            FileRefusal::OtherFormat => "the file has another format",
            FileRefusal::OtherEngine => "another engine wrote the file",
            FileRefusal::Damaged => "the file is damaged",
            FileRefusal::TooLong => "the file is too long",
        })
    }
}

impl Fault {
    pub(crate) fn refused(number: u64, item: u64, column: u64) -> Fault {
        let some = |count| if count == 0 { None } else { Some(count) };
        Fault::Refused { refusal: Refusal { number: number as u32, name: name_of(number).to_string(), item: some(item) }, column: some(column) }
    }
}

/// The name of a refusal.
fn name_of(number: u64) -> &'static str {
    const NAMES: [&str; 20] = [
        "Syntax",
        "Unfinished",
        "NoTable",
        "TableExists",
        "BadSchema",
        "BadField",
        "BadLength",
        "NoSuchTree",
        "NameTaken",
        "TooMany",
        "Building",
        "AlreadyComplete",
        "NotEmpty",
        "DuplicateKey",
        "NoSuchColumn",
        "NotInt",
        "OutOfMemory",
        "Failed",
        "BadCrew",
        "BadShape",
    ];
    NAMES.get((number as usize).wrapping_sub(1)).copied().unwrap_or("Unknown")
}

impl fmt::Display for Fault {
    fn fmt(&self, out: &mut fmt::Formatter<'_>) -> fmt::Result {
        if let Fault::WrongKind { item: Some(item), .. } | Fault::WrongLength { item: Some(item), .. } = self {
            write!(out, "item {item}, ")?;
        }
        match self {
            Fault::Refused { refusal, column: None } => refusal.fmt(out),
            Fault::Refused { refusal, column: Some(column) } => write!(out, "{refusal}, column {column}"),
            Fault::WrongKind { column, name, wanted, found, .. } => write!(out, "column {column} ({name}): the kind is {wanted}, and not {found}"),
            Fault::WrongLength { wanted, found, .. } => write!(out, "the number of values is {wanted}, and not {found}"),
            Fault::TooLong { item, column, name, length } => write!(out, "item {item}, column {column} ({name}): {length} bytes, and at most 255 fit"),
            Fault::NoSuchColumn { item, name } => write!(out, "item {item}, no column is named {name}"),
            Fault::TooLarge => out.write_str("more changes than one call takes"),
            Fault::OutOfMemory { is_lost: true } => out.write_str("out of memory, and the table is lost"),
            Fault::OutOfMemory { is_lost: false } => out.write_str("out of memory"),
            Fault::OtherVersion => out.write_str("the library or the engine is of another version than the crate"),
            Fault::Ended { status: Some(status) } => write!(out, "the engine has ended: {status}"),
            Fault::Ended { status: None } => out.write_str("the engine has ended"),
            Fault::FileRefused { reason } => reason.fmt(out),
            Fault::FileFailed { code } => io::Error::from_raw_os_error(*code).fmt(out),
            Fault::Closed => out.write_str("an earlier call failed: roll back, or open the file again"),
            Fault::GroupOpen => out.write_str("a group is open: roll back"),
            Fault::RequestReused => out.write_str("another script had this id: use a new one for each script"),
            Fault::NotKept => out.write_str("only an engine that keeps its table runs a script once"),
            Fault::NotStarted { kind } => write!(out, "the engine was not started: {kind}"),
        }
    }
}

impl Error for Fault {}

/// The replies of the script are dropped.
impl From<OutOfMemory> for Fault {
    fn from(fault: OutOfMemory) -> Fault {
        Fault::OutOfMemory { is_lost: fault.is_lost }
    }
}
