//! A client of tools/crash/engine: makes the requests of two numbers and those between them, each once, and prints each number after its reply.
//!
//!     adds engine | file PATH FIRST LAST
//!
//! With `file` the table is in this process, which keeps some of the requests in groups, undoes others before it makes them, and makes a checkpoint after some.

use betable::{Engine, EngineOptions, Fault, KeptSession};
use std::env::args;
use std::error::Error;

fn script(number: u128) -> String {
    format!("batch\nups 1,add,qty,{number}\nend\n")
}

fn add(mut session: KeptSession, first: u128, last: u128) -> Result<(), Fault> {
    println!("{}", std::process::id());
    let mut number = first;
    while number <= last {
        let next = if number % 10 == 0 { last.min(number + 4) + 1 } else { number + 1 };
        if number % 17 == 0 {
            let mut undone = session.group()?;
            undone.run(script(number).as_bytes())?;
            undone.once(&number.to_le_bytes(), script(number).as_bytes())?;
        }
        if next == number + 1 {
            session.once(&number.to_le_bytes(), script(number).as_bytes())?;
        } else {
            let mut group = session.group()?;
            for one in number..next {
                group.once(&one.to_le_bytes(), script(one).as_bytes())?;
            }
            group.commit()?;
        }
        (number..next).for_each(|one| println!("{one}"));
        if next % 50 == 5 {
            session.checkpoint()?;
        }
        number = next;
    }
    Ok(())
}

fn main() -> Result<(), Box<dyn Error>> {
    let words: Vec<String> = args().collect();
    let (first, last) = (words[3].parse()?, words[4].parse()?);
    if words[1] == "file" {
        return Ok(add(KeptSession::open(&words[2])?, first, last)?);
    }
    let options = EngineOptions { workers: Some(2), keep: Some(words[2].clone().into()), ..EngineOptions::default() };
    let mut engine = Engine::new(&options)?;
    println!("{}", engine.id());
    for number in first..=last {
        engine.once(&number.to_le_bytes(), script(number).as_bytes())?;
        println!("{number}");
    }
    Ok(())
}
