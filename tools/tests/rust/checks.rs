//! Checks each command of scripts, and then runs it.
//!
//!     checks SCRIPT PLACE .. [-- SCRIPT PLACE ..] ..
//!
//! PLACE .. are the places at which the commands of a script begin, and its end. A check of a command says that it would be refused exactly if the run refuses
//! it. At the end the whole script is checked in one call, which says the same as checks of its commands. The reason of a command is that of its refusal, and a
//! record of another length has one. Prints how many commands were refused, and how many were not.

mod opened;

use betable::{Fault, KeptFile, Library, Problem, Process, Reply};
use opened::{Open, Place, place, replies};

/// The places of the replies that are refusals.
fn places_refused(replies: impl Iterator<Item = Reply>) -> Vec<usize> {
    replies.enumerate().filter(|(_, reply)| matches!(reply, Reply::Refused(_))).map(|(place, _)| place).collect()
}

/// The numbers of commands that were refused, and that were not.
fn check<L: Open>(words: &[String]) -> Result<(usize, usize), Fault> {
    let script = std::fs::read(&words[0]).expect("a script");
    let places: Vec<usize> = words[1..].iter().map(|word| word.parse().expect("a place")).collect();
    let (mut session, mut refused, mut counts) = (L::open()?, 0, Vec::new());
    let commands: Vec<&[u8]> = places.windows(2).map(|place| &script[place[0]..place[1]]).collect();
    for command in &commands {
        let would_be = session.check(command).map_err(Into::into)?;
        let reason = session.explain(command).map_err(Into::into)?;
        let replies = replies(&mut session, command)?;
        match replies.iter().next() {
            Some(Reply::Refused(refusal)) => {
                assert!(reason.is_some() || refusal.number != 7);
                assert!(reason.map_or(true, |reason| reason.refusal == refusal.number.into() && refusal.item.map_or(true, |item| item == reason.item)));
                assert_eq!(
                    refusal.number == 7,
                    reason.is_some_and(|reason| reason.field.is_none() && reason.problem == Problem::FieldCount && reason.refusal != 5)
                );
            }
            _ => assert_eq!(reason, None),
        }
        assert_eq!(would_be, places_refused(replies.iter()), "{}: {}", words[0], String::from_utf8_lossy(command));
        assert_eq!(would_be.len(), replies.refused_count());
        refused += would_be.len();
        counts.push(replies.iter().count());
    }
    let (mut alone, mut count) = (Vec::new(), 0);
    for (command, of_command) in commands.iter().zip(counts) {
        alone.extend(session.check(command).map_err(Into::into)?.iter().map(|place| count + place));
        count += of_command;
    }
    assert_eq!(session.check(&script).map_err(Into::into)?, alone, "{}", words[0]);
    Ok((refused, count - refused))
}

fn main() -> Result<(), Fault> {
    let words: Vec<String> = std::env::args().skip(1).collect();
    let (mut refused, mut done) = (0, 0);
    for script in words.split(|word| word == "--") {
        let (of_script, others) = match place() {
            Place::Library => check::<Library>(script)?,
            Place::Process => check::<Process>(script)?,
            Place::File => check::<KeptFile>(script)?,
        };
        refused += of_script;
        done += others;
    }
    println!("{refused} refused, {done} not");
    Ok(())
}
