//! Opens the engine of the first word over the file of the second one, runs the third one as a script, once if a fourth word of sixteen letters is its id, and prints the
//! replies.

use betable::{Engine, EngineOptions, Fault};
use std::env::args;
use std::io::{Write, stdout};

fn main() -> Result<(), Fault> {
    let words: Vec<String> = args().collect();
    let options = EngineOptions { program: Some(words[1].clone().into()), workers: Some(2), keep: Some(words[2].clone().into()), ..EngineOptions::default() };
    let mut engine = Engine::new(&options)?;
    let id = words.get(4).and_then(|word| word.as_bytes().try_into().ok());
    let replies = match id {
        None => engine.run(words[3].as_bytes())?,
        Some(id) => engine.once(id, words[3].as_bytes())?,
    };
    let _ = stdout().write_all(replies.as_bytes());
    Ok(())
}
