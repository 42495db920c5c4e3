//! Requests and their replies in frames, which an engine and a table in a file take.
//!
//! A frame is the letters `BTF`, the version 1, the length of the payload in eight bytes, the kind in one byte, and the payload. Numbers are little endian.

use crate::fault::Fault;
use crate::link::{COMMAND_REFUSED, Calls};
use crate::packed::Request;
use crate::reason::Reason;
use crate::{Part, Replies, Table};

const SCRIPT: u8 = 1;
const CHECK: u8 = 2;
const EXPLAIN: u8 = 11;
const ONCE: u8 = 12;

pub(crate) const MAGIC: [u8; 4] = *b"BTF\x01";
pub(crate) const HEADER: usize = 13;
const NUMBER: usize = 8;
const MARK: usize = NUMBER + 1;

const DONE: u8 = 0;
const REFUSED: u8 = 1;
const INVALID: u8 = 2;

/// What takes requests, and gives their replies.
pub trait Exchange {
    /// Makes a request, whose payload is these bytes, one after the other. The payload of its reply replaces the bytes of `reply`, which are none if the call
    /// fails.
    fn exchange(&mut self, kind: u8, payload: &[&[u8]], reply: &mut Vec<u8>) -> Result<(), Fault>;

    /// Makes a call on packed bytes, as [`Calls::call`].
    fn call_packed(&mut self, request: Request, packed: &[u8], reply: &mut Vec<u8>) -> Result<(), Fault> {
        self.exchange(request as u8, &[packed], reply)
    }

    /// The fault after a reply that is none.
    fn other_version(&mut self) -> Fault;

    /// Whether it knows the requests that have an id.
    fn is_kept(&self) -> bool;
}

impl<E: Exchange> Table<E> {
    /// Runs a script once. Its id is one that no other script has, such as a random one. If a script with the id ran before, nothing runs, and the replies are
    /// those of the first time, also if the engine ended or the file was closed since. So send a script again if its replies did not arrive. The last 100,000
    /// are known. The table has to be in a file.
    pub fn once(&mut self, id: &[u8; 16], script: &[u8]) -> Result<Replies, Fault> {
        if !self.link.is_kept() {
            return Err(Fault::NotKept);
        }
        self.trees.clear();
        replies(&mut self.link, ONCE, &[id, &[SCRIPT], script])
    }
}

impl<E: Exchange> Calls for E {
    type Failure = Fault;

    fn run(&mut self, script: &[u8]) -> Result<Replies, Fault> {
        replies(self, SCRIPT, &[script])
    }

    fn check(&mut self, script: &[u8]) -> Result<Vec<Part>, Fault> {
        Ok(replies(self, CHECK, &[script])?.parts)
    }

    fn explain(&mut self, script: &[u8]) -> Result<Option<Reason>, Fault> {
        let mut payload = Vec::new();
        self.exchange(EXPLAIN, &[script], &mut payload)?;
        match payload.len() / NUMBER {
            0 => Ok(None),
            4 => Ok(Some(Reason::of([0, 1, 2, 3].map(|place| number(&payload[NUMBER * place..][..NUMBER]))))),
            _ => Err(self.other_version()),
        }
    }

    fn call(&mut self, request: Request, packed: &[u8], reply: &mut Vec<u8>) -> Result<(), Fault> {
        self.call_packed(request, packed, reply)
    }
}

/// The header of a frame with this payload.
pub(crate) fn header(kind: u8, payload: &[&[u8]]) -> [u8; HEADER] {
    let length: usize = payload.iter().map(|part| part.len()).sum();
    let mut header = [0; HEADER];
    header[..4].copy_from_slice(&MAGIC);
    header[4..12].copy_from_slice(&(length as u64).to_le_bytes());
    header[12] = kind;
    header
}

/// What a reply of this kind says, or `None` if it is no reply.
pub(crate) fn result_of(kind: u8, payload: &[u8]) -> Option<Result<(), Fault>> {
    match (kind, payload.len()) {
        (DONE, _) => Some(Ok(())),
        (REFUSED, 24) => Some(Err(Fault::refused(number(&payload[..8]), number(&payload[8..16]), number(&payload[16..])))),
        (INVALID, _) if payload == b"TooLong" => Some(Err(Fault::TooLarge)),
        (INVALID, _) if payload == b"RequestReused" => Some(Err(Fault::RequestReused)),
        (INVALID, _) => Some(Err(Fault::OtherVersion)),
        _ => None,
    }
}

/// The number in these eight bytes.
pub(crate) fn number(bytes: &[u8]) -> u64 {
    bytes.try_into().map_or(0, u64::from_le_bytes)
}

// The replies to a script, or to its check, by their marks.
fn replies<E: Exchange>(link: &mut E, kind: u8, request: &[&[u8]]) -> Result<Replies, Fault> {
    let mut payload = Vec::new();
    link.exchange(kind, request, &mut payload)?;
    replies_of(payload).ok_or_else(|| link.other_version())
}

// The text of replies is followed by a mark for each command, which is where its reply ends and what it did, and by the length of the text.
fn replies_of(mut payload: Vec<u8>) -> Option<Replies> {
    let length = payload.len().checked_sub(NUMBER)?;
    let text = usize::try_from(number(&payload[length..])).ok().filter(|text| *text <= length && (length - text) % MARK == 0)?;
    let mut parts = Vec::with_capacity((length - text) / MARK);
    let mut start = 0;
    for mark in payload[text..length].chunks_exact(MARK) {
        let (end, code) = (usize::try_from(number(&mark[..NUMBER])).ok()?, u32::from(mark[NUMBER]));
        if !(start..=text).contains(&end) || code > COMMAND_REFUSED {
            return None;
        }
        parts.push(Part { bytes: start..end, is_refused: code == COMMAND_REFUSED });
        start = end;
    }
    if start < text {
        return None;
    }
    payload.truncate(text);
    let refused_count = parts.iter().filter(|part| part.is_refused).count();
    Some(Replies { bytes: payload, parts, refused_count })
}
