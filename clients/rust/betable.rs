//! betable from Rust: a table that lives between scripts.
//!
//! ```text
//! let mut session = Session::new()?;
//! session.run(b"table 16 1024 256 1 id:int city:text\nbatch\nput 1,Oslo\nend\n")?;
//! for reply in session.run(b"scan primary\ngo\n")?.iter() {
//!     match reply {
//!         Reply::Rows(rows) => println!("{rows:?}"),               // [["1", "Oslo"]]
//!         Reply::Refused(refusal) => println!("{refusal}"),
//!         other => println!("{other:?}"),
//!     }
//! }
//! ```
//!
//! Typed calls do without text:
//!
//! ```text
//! session.put(&[(2, "Bergen"), (3, "Molde")])?;
//! session.upsert(&3, &[Op::Set("city", Value::Text("Alta"))])?;
//! let mut rows = session.scan("primary", &2, &())?;
//! while let Some(row) = rows.next()? {
//!     let (id, city): (i64, &str) = row.try_into()?;
//! }
//! ```
//!
//! An [`Engine`] has the same calls. It is a process of its own, which works on each call by several threads: docs/ENGINE.md says when to use which. A
//! [`KeptSession`] has them on a table in a file, and so has a [group](KeptSession::group) of calls that are kept together.
//!
//! A call takes a session by `&mut`, so one call at a time uses it. It is `Send`, so it goes from thread to thread, and `Mutex<Session>` is used by several. It
//! is closed when it is dropped. Cargo builds this crate with Cargo.toml; clients/rust/build uses only rustc. Both link the libbt_c.a of the folder that
//! BETABLE_LIBRARY names.

mod changes;
mod engine;
mod fault;
mod frames;
mod kept;
mod library;
mod link;
mod packed;
mod reason;
mod rows;
mod sums;
mod trees;
mod usage;
mod values;

pub use changes::{Changes, Op};
pub use engine::{EngineOptions, Process};
pub use fault::{Fault, FileRefusal};
pub use kept::{FileGroup, KeptFile};
pub use library::{Library, OutOfMemory};
pub use link::Link;
pub use reason::{Problem, Reason};
pub use rows::{Row, Rows};
pub use sums::{Group, Sums};
pub use trees::Tree;
pub use usage::Usage;
pub use values::{Column, FromValue, Kind, Packer, ToValue, Value, Values};

use std::error::Error;
use std::fmt;
use std::ops::Range;

/// A table, or none so far, that lives between scripts: that of a [`Session`], of an [`Engine`] or of a [`KeptSession`].
pub struct Table<L> {
    link: L,
    /// The trees, if a typed call has read them since the last script.
    trees: Vec<Tree>,
    /// The packed bytes of a typed call.
    packed: Vec<u8>,
    /// The reply to a typed call.
    reply: Vec<u8>,
    /// Where the values of a row of the reply end, from the start of the row, or those of each group of sums.
    ends: Vec<usize>,
}

/// A table in the memory of this process. Its calls run on the thread of the caller. A script or a check fails with [`OutOfMemory`].
pub type Session = Table<Library>;

/// A table in a process of its own, which works on each call by several threads. A script or a check fails with a [`Fault`].
pub type Engine = Table<Process>;

/// A table in the memory of this process and in a file: what a call has changed is on the disk when it returns. A script or a check fails with a [`Fault`].
pub type KeptSession = Table<KeptFile>;

/// A group of calls on a table in a file: all of them are on the disk when [`commit`](KeptGroup::commit) returns. It is undone if it is dropped before. Its calls
/// see its changes.
pub type KeptGroup<'s> = Table<FileGroup<'s>>;

impl<L> Table<L> {
    pub(crate) fn of(link: L) -> Table<L> {
        Table { link, trees: Vec::new(), packed: Vec::new(), reply: Vec::new(), ends: Vec::new() }
    }
}

impl<L: Link> Table<L> {
    /// Carries out the commands of a script, and returns their replies.
    pub fn run(&mut self, script: &[u8]) -> Result<Replies, L::Failure> {
        self.trees.clear();
        self.link.run(script)
    }

    /// The places of the commands of a script that would be refused, counted from 0 as in the replies of `run`. Each is judged by itself on the table as it is:
    /// none is carried out, and nothing changes. So no command is judged with the effects of those before it.
    pub fn check(&mut self, script: &[u8]) -> Result<Vec<usize>, L::Failure> {
        let parts = self.link.check(script)?;
        Ok(parts.iter().enumerate().filter(|(_, part)| part.is_refused).map(|(place, _)| place).collect())
    }

    /// Why the first command of a script would be refused because of its records, on the table as it is: the lines of a batch, the key of a get, the text of a
    /// load, or the bounds of a scan or of sums. None if it would not be. It is not carried out. Of several faults the reason is that of the refusal in the
    /// reply, and of these the first.
    pub fn explain(&mut self, script: &[u8]) -> Result<Option<Reason>, L::Failure> {
        self.link.explain(script)
    }
}

/// The replies to a script.
#[derive(Debug, Default)]
pub struct Replies {
    bytes: Vec<u8>,
    parts: Vec<Part>,
    refused_count: usize,
}

/// Where a reply is, and whether its command was refused.
#[derive(Debug)]
pub struct Part {
    bytes: Range<usize>,
    is_refused: bool,
}

impl Replies {
    /// The bytes of the replies.
    pub fn as_bytes(&self) -> &[u8] {
        &self.bytes
    }

    /// The number of commands that were refused.
    pub fn refused_count(&self) -> usize {
        self.refused_count
    }

    /// The replies in the order of the commands.
    pub fn iter(&self) -> impl Iterator<Item = Reply> {
        let replies = if self.parts.is_empty() {
            // Memory ran out, so their text says where they end.
            replies_of(&lines(&String::from_utf8_lossy(&self.bytes)))
        } else {
            self.parts.iter().map(|part| self.reply(part)).collect()
        };
        replies.into_iter()
    }

    fn reply(&self, part: &Part) -> Reply {
        let text = String::from_utf8_lossy(&self.bytes[part.bytes.clone()]);
        let line = text.strip_suffix('\n').unwrap_or(&text);
        let found = match line.strip_prefix("refused ") {
            Some(words) if part.is_refused => refusal(words).map(Reply::Refused),
            _ => replies_of(&lines(&text)).pop(),
        };
        found.unwrap_or_else(|| Reply::Line(line.to_string()))
    }
}

/// The reply to a command.
#[derive(Clone, Debug, PartialEq)]
pub enum Reply {
    /// The row of a key.
    Row(Vec<String>),
    /// A key has no row.
    None,
    /// The rows of a scan.
    Rows(Vec<Vec<String>>),
    /// The groups of `sums`.
    Sums(Vec<Sum>),
    /// The lines of an image.
    Image(Vec<String>),
    Refused(Refusal),
    /// The line of any other command, such as `batch 2`.
    Line(String),
}

/// A group of rows.
#[derive(Clone, Debug, PartialEq)]
pub struct Sum {
    pub count: u64,
    /// The digits of the sum, since a sum of ints may exceed 64 bits.
    pub total: String,
    pub group: Vec<String>,
}

/// Why a command was refused.
#[derive(Clone, Debug, PartialEq)]
pub struct Refusal {
    pub number: u32,
    pub name: String,
    /// The number of the first message of a batch, or record of a load, that is refused.
    pub item: Option<u64>,
}

impl fmt::Display for Refusal {
    fn fmt(&self, out: &mut fmt::Formatter<'_>) -> fmt::Result {
        write!(out, "refused {} {}", self.number, self.name)?;
        self.item.map_or(Ok(()), |item| write!(out, " {item}"))
    }
}

impl Error for Refusal {}

// A text with line breaks is in quotes, so a line continues as long as the number of its quotes is odd.
fn lines(text: &str) -> Vec<String> {
    let mut lines: Vec<String> = Vec::new();
    let mut is_open = false;
    for part in text.split_inclusive('\n') {
        match lines.last_mut() {
            Some(line) if is_open => line.push_str(part),
            _ => lines.push(part.to_string()),
        }
        is_open ^= part.matches('"').count() % 2 == 1;
    }
    lines.iter_mut().for_each(|line| line.truncate(line.len() - usize::from(line.ends_with('\n'))));
    lines
}

// The number of rows follows them, so a row that it does not count is the reply to a get.
fn replies_of(lines: &[String]) -> Vec<Reply> {
    let mut replies = Vec::new();
    let mut image: Option<Vec<String>> = None;
    for line in lines {
        let (word, rest) = line.split_once(' ').unwrap_or((line.as_str(), ""));
        if let Some(mut drawn) = image.take() {
            drawn.push(line.clone());
            if line == "end" {
                replies.push(Reply::Image(drawn));
            } else {
                image = Some(drawn);
            }
            continue;
        }
        match word {
            "row" => replies.push(Reply::Row(fields(rest))),
            "none" => replies.push(Reply::None),
            "sum" => replies.push(Reply::Sums(sum(rest).into_iter().collect())),
            "rows" => {
                let rows = replies.split_off(replies.len().saturating_sub(rest.parse().unwrap_or(0)));
                replies.push(Reply::Rows(rows.into_iter().flat_map(row).collect()));
            }
            "sums" => {
                let sums = replies.split_off(replies.len().saturating_sub(rest.parse().unwrap_or(0)));
                replies.push(Reply::Sums(sums.into_iter().flat_map(groups).collect()));
            }
            "image" => image = Some(vec![line.clone()]),
            "refused" => replies.push(refusal(rest).map_or_else(|| Reply::Line(line.clone()), Reply::Refused)),
            _ => replies.push(Reply::Line(line.clone())),
        }
    }
    replies
}

fn row(reply: Reply) -> Option<Vec<String>> {
    match reply {
        Reply::Row(fields) => Some(fields),
        _ => None,
    }
}

fn groups(reply: Reply) -> Vec<Sum> {
    match reply {
        Reply::Sums(sums) => sums,
        _ => Vec::new(),
    }
}

fn sum(text: &str) -> Option<Sum> {
    let mut words = text.splitn(3, ' ');
    let count = words.next()?.parse().ok()?;
    let total = words.next()?.to_string();
    Some(Sum { count, total, group: fields(words.next()?) })
}

fn refusal(text: &str) -> Option<Refusal> {
    let mut words = text.split(' ');
    let number = words.next()?.parse().ok()?;
    let name = words.next()?.to_string();
    Some(Refusal { number, name, item: words.next().and_then(|word| word.parse().ok()) })
}

/// The fields of a record in a reply.
pub fn fields(record: &str) -> Vec<String> {
    let mut fields = vec![String::new()];
    let mut letters = record.chars().peekable();
    let mut is_quoted = false;
    while let Some(letter) = letters.next() {
        match letter {
            '"' if is_quoted && letters.peek() == Some(&'"') => fields.last_mut().unwrap().extend(letters.next()),
            '"' => is_quoted = !is_quoted,
            ',' if !is_quoted => fields.push(String::new()),
            _ => fields.last_mut().unwrap().push(letter),
        }
    }
    fields
}

/// A text as a field of a record, in quotes.
pub fn quoted(text: &str) -> String {
    format!("\"{}\"", text.replace('"', "\"\""))
}
