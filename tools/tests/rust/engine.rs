//! What an engine has besides the calls of a session, with the program and the workers that opened.rs says.
//!
//!     engine ahead | killed | ended | stay | replies [CALL ..]
//!
//! The status is not 0 if what the word names does not hold, and a line says where. `stay` prints the id of the process, with changes in flight, and waits.
//! `replies` prints how an engine is opened, and the result of each call, which is run, check, explain, get, apply, send or receive.

// Of which only the options are used.
#[allow(dead_code)]
mod opened;

use betable::{Engine, EngineOptions, Fault, Refusal, Session};
use opened::options;
use std::io::ErrorKind;
use std::os::unix::process::ExitStatusExt;
use std::path::Path;
use std::process::Command;

const TABLE: &[u8] = b"table 16 64 16 1 id:int city:text qty:int\nindex by_city on city include qty\nbuild by_city 1\n";
const IMAGES: &[u8] = b"image primary\nimage by_city\n";

fn is_there(process: u32) -> bool {
    Path::new(&format!("/proc/{process}")).exists()
}

fn put_rows(session: &mut Session, engine: &mut Engine, round: i64) -> Result<(), Fault> {
    let rows: Vec<(i64, String, i64)> = (0..700).map(|id| (id * round % 1009, format!("city {}", id % 7), round)).collect();
    session.put(&rows)?;
    let mut changes = engine.changes()?;
    rows.iter().try_for_each(|row| changes.put(row))?;
    changes.send()
}

/// Changes that are sent ahead, more than are in flight at a time: calls between them see those before, and each has its result, in order.
fn check_ahead() -> Result<(), Fault> {
    let (mut session, mut engine) = (Session::new()?, Engine::new(&options())?);
    session.run(TABLE)?;
    engine.run(TABLE)?;
    assert_eq!(engine.receive(), None);
    for round in 1..200 {
        put_rows(&mut session, &mut engine, round)?;
        if round % 50 == 0 {
            let row: (i64, String, i64) = engine.get(&0)?.expect("a row").try_into()?;
            assert_eq!(row, session.get(&0)?.expect("a row").try_into()?);
        }
    }
    assert_eq!(engine.run(IMAGES)?.as_bytes(), session.run(IMAGES)?.as_bytes());
    for _ in 1..200 {
        assert_eq!(engine.receive(), Some(Ok(())));
    }
    assert_eq!(engine.receive(), None);
    // Refused changes have longer replies than others: more of them than a pipe holds. Every third one is not refused.
    for number in 0..6000 {
        let mut changes = engine.changes()?;
        changes.upsert(&number, if number % 3 == 0 { &[betable::Op::Add("qty", 1)] } else { &[] })?;
        changes.send()?;
    }
    let refusal = Refusal { number: 7, name: "BadLength".to_string(), item: Some(1) };
    for number in 0..6000 {
        let wanted = if number % 3 == 0 { Ok(()) } else { Err(Fault::Refused { refusal: refusal.clone(), column: None }) };
        assert_eq!(engine.receive(), Some(wanted), "{number}");
    }
    // A drop, and a close, wait until what was sent is done, and leave no process.
    let process = engine.id();
    for round in 0..3 {
        put_rows(&mut session, &mut engine, round)?;
    }
    assert!(is_there(process));
    drop(engine);
    assert!(!is_there(process));
    let mut engine = Engine::new(&options())?;
    let process = engine.id();
    engine.run(TABLE)?;
    put_rows(&mut session, &mut engine, 1)?;
    assert!(engine.close().expect("a status").success());
    assert!(!is_there(process));
    Ok(())
}

fn is_killed(fault: &Fault) -> bool {
    matches!(fault, Fault::Ended { status: Some(status) } if status.signal() == Some(9))
}

/// An engine that is killed: the results that had arrived are received, and then each call says that it ended.
fn check_killed() -> Result<(), Fault> {
    let mut engine = Engine::new(&options())?;
    let mut session = Session::new()?;
    session.run(TABLE)?;
    engine.run(TABLE)?;
    for round in 1..4 {
        put_rows(&mut session, &mut engine, round)?;
    }
    assert_eq!(engine.receive(), Some(Ok(())));
    let process = engine.id();
    assert!(Command::new("kill").args(["-9", &process.to_string()]).status().expect("kill").success());
    while !std::fs::read_to_string(format!("/proc/{process}/stat")).expect("a process").contains(") Z") {}
    let mut results = Vec::new();
    while let Some(result) = engine.receive() {
        results.push(result);
    }
    let done = results.iter().take_while(|result| result.is_ok()).count();
    assert_eq!(results.len(), 2);
    assert!(results[done..].iter().all(|result| result.as_ref().is_err_and(is_killed)), "{results:?}");
    assert!(engine.run(b"get 1\n").is_err_and(|fault| is_killed(&fault)));
    assert!(engine.get(&1).is_err_and(|fault| is_killed(&fault)));
    assert!(put_rows(&mut session, &mut engine, 5).is_err_and(|fault| is_killed(&fault)));
    assert_eq!(engine.put(&[(1, "Oslo", 2)]).unwrap_err().to_string(), "the engine has ended: signal: 9 (SIGKILL)");
    assert!(!is_there(process));
    assert_eq!(engine.close().expect("a status").signal(), Some(9));
    Ok(())
}

/// Programs that are no engine, options that the program does not take, and requests that it does not.
fn check_ended() -> Result<(), Fault> {
    let other = |program: &str| Engine::new(&EngineOptions { program: Some(program.into()), ..EngineOptions::default() }).err();
    assert_eq!(other("/nonexistent/engine"), Some(Fault::NotStarted { kind: ErrorKind::NotFound }));
    assert_eq!(other("cat"), Some(Fault::OtherVersion));
    assert!(matches!(other("false"), Some(Fault::Ended { status: Some(status) }) if status.code() == Some(1)));
    let faulty = Engine::new(&EngineOptions { cut: Some(99), ..options() }).err();
    assert!(matches!(faulty, Some(Fault::Ended { status: Some(status) }) if status.code() == Some(2)), "{faulty:?}");
    let mut engine = Engine::new(&EngineOptions { most_frame: Some(200), cut: Some(1), grain: Some(1), ..options() })?;
    engine.run(TABLE)?;
    engine.put(&[(1, "Oslo", 2)])?;
    assert_eq!(engine.put(&[(1, "x".repeat(200), 2)]), Err(Fault::TooLarge));
    assert_eq!(engine.run(&[b'\n'; 201]).err(), Some(Fault::TooLarge));
    let row: (i64, String, i64) = engine.get(&1)?.expect("a row").try_into()?;
    assert_eq!(row, (1, "Oslo".to_string(), 2));
    Ok(())
}

fn stay() -> Result<(), Fault> {
    let (mut session, mut engine) = (Session::new()?, Engine::new(&options())?);
    session.run(TABLE)?;
    engine.run(TABLE)?;
    for round in 1..9 {
        put_rows(&mut session, &mut engine, round)?;
    }
    println!("{}", engine.id());
    loop {
        std::thread::park();
    }
}

fn told<T: std::fmt::Debug>(result: Result<T, Fault>) -> String {
    result.map_or_else(|fault| fault.to_string(), |value| format!("{value:?}"))
}

fn print_replies(calls: &[String]) {
    let mut engine = match Engine::new(&options()) {
        Ok(engine) => engine,
        Err(fault) => return println!("open: {fault}"),
    };
    for call in calls {
        let result = match call.as_str() {
            "run" => told(engine.run(b"get 1\n").map(|replies| replies.iter().collect::<Vec<_>>())),
            "check" => told(engine.check(b"get 1\n")),
            "explain" => told(engine.explain(b"get 1\n")),
            "get" => told(engine.usage("primary")),
            "apply" => told(engine.changes().and_then(|changes| changes.apply())),
            "send" => told(engine.changes().and_then(|changes| changes.send())),
            _ => engine.receive().map_or("nothing".to_string(), told),
        };
        println!("{call}: {result}");
    }
}

fn main() -> Result<(), Fault> {
    let words: Vec<String> = std::env::args().skip(1).collect();
    match words[0].as_str() {
        "ahead" => check_ahead(),
        "killed" => check_killed(),
        "ended" => check_ended(),
        "stay" => stay(),
        _ => {
            print_replies(&words[1..]);
            Ok(())
        }
    }
}
