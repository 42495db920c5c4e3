//! Carries out the scripts of its input on a table in a file of this process, as `betable_engine --keep PATH` does in another one.
//!
//!     kept_here --keep PATH

use betable::{Fault, KeptSession, Replies};
use std::io::{ErrorKind, Read, Write, stdin, stdout};
use std::process::exit;

const SCRIPT: u8 = 1;

/// Ends as betable_engine does.
fn end(fault: Fault, is_open: bool) -> ! {
    let (status, failed) = if is_open { (1, "the disk failed") } else { (2, "the file cannot be opened") };
    match fault {
        Fault::FileFailed { .. } => eprintln!("betable: {failed}"),
        other => eprintln!("betable: {other}"),
    }
    exit(status)
}

/// A reply to a script, without the marks of its commands.
fn print(result: Result<Replies, Fault>) {
    let (kind, payload) = match result {
        Ok(replies) => (0, [replies.as_bytes(), &(replies.as_bytes().len() as u64).to_le_bytes()].concat()),
        Err(Fault::RequestReused) => (2, b"RequestReused".to_vec()),
        Err(fault) => end(fault, true),
    };
    let frame = [b"BTF\x01", &(payload.len() as u64).to_le_bytes()[..], &[kind], &payload].concat();
    stdout().write_all(&frame).and_then(|()| stdout().flush()).expect("an output");
}

fn main() {
    let path = std::env::args().nth(2).expect("a path");
    let mut session = KeptSession::open(path).unwrap_or_else(|fault| end(fault, false));
    let mut header = [0; 13];
    loop {
        match stdin().read_exact(&mut header) {
            Ok(()) => {}
            Err(fault) if fault.kind() == ErrorKind::UnexpectedEof => return,
            Err(fault) => panic!("{fault}"),
        }
        let mut payload = vec![0; u64::from_le_bytes(header[4..12].try_into().expect("eight bytes")) as usize];
        stdin().read_exact(&mut payload).expect("a payload");
        if header[12] == SCRIPT {
            print(session.run(&payload));
        } else {
            print(session.once(payload[..16].try_into().expect("an id"), &payload[17..]));
        }
    }
}
