//! The engine: a table in a process of its own, which answers requests.

use crate::changes::Changes;
use crate::fault::Fault;
use crate::frames::{Exchange, HEADER, MAGIC, header, number, result_of};
use crate::packed::Request;
use crate::values::reserve;
use crate::{Engine, Table};
use std::collections::VecDeque;
use std::io::{self, BufReader, BufWriter, ErrorKind, Read, Write};
use std::os::unix::process::CommandExt;
use std::path::PathBuf;
use std::process::{Child, ChildStdin, ChildStdout, Command, ExitStatus, Stdio};

/// How an engine is started. What is `None` is left to the program, whose `--help` lists the numbers that it takes.
#[derive(Clone, Debug, Default)]
pub struct EngineOptions {
    /// The path of the program, or a name that is looked for in `PATH`. The name is `betable_engine` if it is `None`.
    pub program: Option<PathBuf>,
    /// The number of threads that work.
    pub workers: Option<u32>,
    /// The depth at which trees are cut into jobs.
    pub cut: Option<u32>,
    /// The number of messages from which on a packet is divided into jobs.
    pub grain: Option<u32>,
    /// The most bytes of a request.
    pub most_frame: Option<u64>,
    /// The path of a file that has the table. The table ends with the process if it is `None`.
    pub keep: Option<PathBuf>,
}

/// The process of an engine. It ends, and is waited for, when the engine is dropped, and ends by itself if this process ends.
pub struct Process {
    child: Child,
    // `None` once it is closed.
    requests: Option<BufWriter<ChildStdin>>,
    replies: BufReader<ChildStdout>,
    // Whether its table is in a file.
    is_kept: bool,
    // The number of requests that were sent ahead and have no reply yet, and the results of those before them that were not received.
    in_flight: usize,
    results: VecDeque<Result<(), Fault>>,
}

impl Engine {
    /// Starts the program, and waits for its first reply. The engine has no table, or that of its file. It is in a process group of its own, so an interrupt from the terminal
    /// reaches only this process.
    pub fn new(options: &EngineOptions) -> Result<Engine, Fault> {
        let mut engine = Table::of(Process::start(options).map_err(|fault| Fault::NotStarted { kind: fault.kind() })?);
        engine.run(b"")?;
        Ok(engine)
    }

    /// The result of the first changes that were [sent ahead](Changes::send) and whose result was not received yet. It waits for the reply to them. `None` if
    /// there are no such changes.
    pub fn receive(&mut self) -> Option<Result<(), Fault>> {
        let link = &mut self.link;
        link.results.pop_front().or_else(|| (link.in_flight > 0).then(|| link.receive()))
    }

    /// The id of the process.
    pub fn id(&self) -> u32 {
        self.link.child.id()
    }

    /// Ends the engine as a drop does, and returns how its process ended.
    pub fn close(mut self) -> io::Result<ExitStatus> {
        self.link.end()
    }
}

impl Changes<'_, Process> {
    /// Sends the changes ahead: returns before they are applied, so that the engine applies them while more are packed. Calls are carried out in order, and
    /// [`receive`](Engine::receive) gives the result.
    pub fn send(mut self) -> Result<(), Fault> {
        self.pack_count();
        let Table { link, packed, .. } = self.owner;
        if link.in_flight == MOST_IN_FLIGHT {
            let result = link.receive();
            link.results.push_back(result);
        }
        link.write(Request::Apply as u8, &[packed])?;
        link.in_flight += 1;
        Ok(())
    }
}

// A reply to changes has at most 37 bytes. That many of them fit in a pipe of one page, so the engine reads on, and a request that is written while they are
// not read does not wait for ever.
const MOST_IN_FLIGHT: usize = 64;

impl Process {
    fn start(options: &EngineOptions) -> io::Result<Process> {
        let mut command = Command::new(options.program.clone().unwrap_or_else(|| PathBuf::from("betable_engine")));
        let numbers = [options.workers, options.cut, options.grain].map(|number| number.map(u64::from));
        for (name, number) in ["--workers", "--cut", "--grain"].into_iter().zip(numbers).chain([("--most-frame", options.most_frame)]) {
            command.args(number.map(|number| [name.to_string(), number.to_string()]).into_iter().flatten());
        }
        if let Some(path) = &options.keep {
            command.arg("--keep").arg(path);
        }
        let mut child = command.stdin(Stdio::piped()).stdout(Stdio::piped()).process_group(0).spawn()?;
        let requests = child.stdin.take().map(BufWriter::new);
        let replies = BufReader::new(child.stdout.take().ok_or(ErrorKind::BrokenPipe)?);
        Ok(Process { child, requests, replies, is_kept: options.keep.is_some(), in_flight: 0, results: VecDeque::new() })
    }

    // Ends the input of the process, and waits for it.
    fn end(&mut self) -> io::Result<ExitStatus> {
        self.requests = None;
        self.child.wait()
    }

    // The process has closed its pipes, so it has ended or is about to.
    fn ended(&mut self) -> Fault {
        Fault::Ended { status: self.child.wait().ok() }
    }

    // Writes a request. Its payload is these bytes, one after the other.
    fn write(&mut self, kind: u8, payload: &[&[u8]]) -> Result<(), Fault> {
        let header = header(kind, payload);
        let requests = self.requests.as_mut().ok_or(Fault::Ended { status: None })?;
        match [&header[..]].iter().chain(payload).try_for_each(|part| requests.write_all(part)).and_then(|()| requests.flush()) {
            Ok(()) => Ok(()),
            Err(fault) => {
                // A part of a frame may be written, so the process is of no use.
                if fault.kind() != ErrorKind::BrokenPipe {
                    let _ = self.child.kill();
                }
                Err(self.ended())
            }
        }
    }

    // Reads a reply. Its payload replaces these bytes.
    fn read(&mut self, payload: &mut Vec<u8>) -> Result<(), Fault> {
        payload.clear();
        let mut header = [0; HEADER];
        if self.replies.read_exact(&mut header).is_err() {
            return Err(self.ended());
        }
        if header[..4] != MAGIC {
            return Err(self.other_version());
        }
        self.read_payload(number(&header[4..12]), payload)?;
        let result = result_of(header[12], payload).unwrap_or_else(|| Err(self.other_version()));
        if result.is_err() {
            payload.clear();
        }
        result
    }

    // Without memory for the payload it is passed over.
    fn read_payload(&mut self, length: u64, payload: &mut Vec<u8>) -> Result<(), Fault> {
        let room = usize::try_from(length).map_err(|_| Fault::TooLarge).and_then(|length| reserve(payload, length));
        let mut bytes = self.replies.by_ref().take(length);
        let count = match room {
            Ok(()) => bytes.read_to_end(payload).map(|count| count as u64),
            Err(_) => io::copy(&mut bytes, &mut io::sink()),
        };
        if count.ok() != Some(length) {
            payload.clear();
            return Err(self.ended());
        }
        room.map_err(|_| Fault::OutOfMemory { is_lost: false })
    }

    // The result of the first changes in flight.
    fn receive(&mut self) -> Result<(), Fault> {
        self.in_flight -= 1;
        self.read(&mut Vec::new())
    }
}

impl Exchange for Process {
    // Reads the reply after those to the changes that were sent ahead.
    fn exchange(&mut self, kind: u8, payload: &[&[u8]], reply: &mut Vec<u8>) -> Result<(), Fault> {
        while self.in_flight > 0 {
            let result = self.receive();
            self.results.push_back(result);
        }
        reply.clear();
        self.write(kind, payload)?;
        self.read(reply)
    }

    fn other_version(&mut self) -> Fault {
        let _ = self.child.kill().and_then(|()| self.child.wait());
        Fault::OtherVersion
    }

    fn is_kept(&self) -> bool {
        self.is_kept
    }
}

impl Drop for Process {
    fn drop(&mut self) {
        let _ = self.end();
    }
}
