//! Runs a script in up to three parts, cut at each pair of the given places, and compares the replies with those of the script.
//!
//!     cuts SCRIPT REPLIES PLACE .. [-- SCRIPT REPLIES PLACE ..] ..
//!
//! Meanwhile a second session has the script in two parts, cut at the second place. The status is 1 at the first difference, whose script and places are
//! printed.

use betable::Session;
use std::error::Error;
use std::process::ExitCode;

fn run(session: &mut Session, part: &[u8], replies: &mut Vec<u8>) -> Result<(), Box<dyn Error>> {
    replies.extend_from_slice(session.run(part)?.as_bytes());
    Ok(())
}

/// Whether the parts between these places have the same replies as the whole.
fn are_one_run(script: &[u8], wanted: &[u8], low: usize, high: usize) -> Result<bool, Box<dyn Error>> {
    let (mut three, mut replies) = (Session::new()?, Vec::new());
    for part in [&script[..low], &script[low..high], &script[high..]] {
        run(&mut three, part, &mut replies)?;
    }
    Ok(replies == wanted)
}

fn check(words: &[String]) -> Result<bool, Box<dyn Error>> {
    let (script, wanted) = (std::fs::read(&words[0])?, std::fs::read(&words[1])?);
    let places = words[2..].iter().map(|word| word.parse()).collect::<Result<Vec<usize>, _>>()?;
    for (number, &high) in places.iter().enumerate() {
        let (mut two, mut replies) = (Session::new()?, Vec::new());
        run(&mut two, &script[..high], &mut replies)?;
        for &low in &places[..=number] {
            if !are_one_run(&script, &wanted, low, high)? {
                println!("{} cut at {low} and {high}", words[0]);
                return Ok(false);
            }
        }
        run(&mut two, &script[high..], &mut replies)?;
        if replies != wanted {
            println!("{} cut at {high}", words[0]);
            return Ok(false);
        }
    }
    Ok(true)
}

fn main() -> Result<ExitCode, Box<dyn Error>> {
    let words: Vec<String> = std::env::args().skip(1).collect();
    for script in words.split(|word| word == "--") {
        if !check(script)? {
            return Ok(ExitCode::FAILURE);
        }
    }
    Ok(ExitCode::SUCCESS)
}
