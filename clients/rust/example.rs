//! A service in Rust that keeps a table alive: it runs the files that its words name, one after the other, on one table, and prints the replies.
//!
//! If no file is named, it creates a table, puts two rows into it, and reads them. The status is 1 if it ran out of memory or a file is missing, and 2 if a
//! command was refused.

use betable::{Reply, Session, quoted};
use std::error::Error;
use std::io::{Write, stdout};
use std::process::ExitCode;

fn run_files(session: &mut Session, paths: &[String]) -> Result<usize, Box<dyn Error>> {
    let mut refused_count = 0;
    for path in paths {
        let replies = session.run(&std::fs::read(path)?)?;
        stdout().write_all(replies.as_bytes())?;
        refused_count += replies.refused_count();
    }
    Ok(refused_count)
}

fn run_steps(session: &mut Session) -> Result<usize, Box<dyn Error>> {
    session.run(b"table 16 1024 256 1 id:int city:text qty:int\n")?;
    session.run(format!("batch\nput 1,Oslo,30\nput 2,{},10\nend\n", quoted("Bergen, west")).as_bytes())?;
    let mut refused_count = 0;
    for reply in session.run(b"scan primary\ngo\nget 1,2\n")?.iter() {
        match reply {
            Reply::Rows(rows) => rows.iter().for_each(|row| println!("{row:?}")),
            Reply::Refused(refusal) => {
                refused_count += 1;
                println!("{refusal}");
            }
            other => println!("{other:?}"),
        }
    }
    Ok(refused_count)
}

fn run(paths: &[String]) -> Result<usize, Box<dyn Error>> {
    let mut session = Session::new()?;
    if paths.is_empty() { run_steps(&mut session) } else { run_files(&mut session, paths) }
}

fn main() -> ExitCode {
    let paths: Vec<String> = std::env::args().skip(1).collect();
    match run(&paths) {
        Ok(0) => ExitCode::SUCCESS,
        Ok(_) => ExitCode::from(2),
        Err(fault) => {
            eprintln!("betable: {fault}");
            ExitCode::FAILURE
        }
    }
}
