//! The tables of the programs beside this file: of sessions, or, if the variable ENGINE names a program, of engines with as many workers as WORKERS says. If it is a
//! folder, with `/` at its end, each table is in a new file there.

use betable::{Engine, EngineOptions, Fault, KeptFile, KeptSession, Library, Link, Process, Replies, Session, Table};
use std::env::var;
use std::sync::atomic::{AtomicUsize, Ordering};

pub enum Place {
    Library,
    Process,
    File,
}

pub fn place() -> Place {
    match var("ENGINE") {
        Err(_) => Place::Library,
        Ok(name) if name.ends_with('/') => Place::File,
        Ok(_) => Place::Process,
    }
}

pub fn options() -> EngineOptions {
    EngineOptions { program: var("ENGINE").ok().map(Into::into), workers: var("WORKERS").ok().and_then(|word| word.parse().ok()), ..EngineOptions::default() }
}

/// Opens a new table.
pub trait Open: Link + Sized {
    fn open() -> Result<Table<Self>, Fault>;
}

impl Open for Library {
    fn open() -> Result<Session, Fault> {
        Ok(Session::new()?)
    }
}

impl Open for Process {
    fn open() -> Result<Engine, Fault> {
        Engine::new(&options())
    }
}

static FILES: AtomicUsize = AtomicUsize::new(0);

impl Open for KeptFile {
    fn open() -> Result<KeptSession, Fault> {
        let folder = var("ENGINE").unwrap_or_default();
        KeptSession::open(format!("{folder}{}.{}", std::process::id(), FILES.fetch_add(1, Ordering::Relaxed)))
    }
}

/// The replies to a script.
pub fn replies<L: Link>(table: &mut Table<L>, script: &[u8]) -> Result<Replies, Fault> {
    table.run(script).map_err(Into::into)
}
