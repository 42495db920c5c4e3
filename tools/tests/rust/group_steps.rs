//! Keeps groups of two batches in a table in a file, as tools/tests/c/group_steps.c does.
//!
//!     group_steps PATH FIRST LAST [KILLED]

use betable::{Fault, KeptSession};
use std::env::args;
use std::process::{Command, exit};

fn keep_group(session: &mut KeptSession, number: i64, killed: i64) -> Result<(), Fault> {
    let mut group = session.group()?;
    for batch in [2 * number, 2 * number + 1] {
        let city = format!("city {}", batch % 7);
        group.put(&[0, 1, 2].map(|row| (3 * batch + row, city.as_str(), batch)))?;
    }
    if number == killed {
        let _ = Command::new("kill").args(["-9", &std::process::id().to_string()]).status();
    }
    group.commit()
}

fn main() -> Result<(), Fault> {
    let words: Vec<String> = args().collect();
    let numbers: Vec<i64> = words[2..].iter().filter_map(|word| word.parse().ok()).collect();
    let mut session = KeptSession::open(&words[1]).unwrap_or_else(|_| exit(3));
    let mut number = numbers[0];
    while number <= numbers[1] {
        match keep_group(&mut session, number, numbers.get(2).copied().unwrap_or(-1)) {
            Ok(()) => {
                println!("kept");
                number += 1;
            }
            Err(Fault::FileFailed { .. }) => match session.roll_back() {
                Ok(()) => println!("undone"),
                Err(fault) => {
                    assert_eq!((fault, session.get(&1).err()), (Fault::Closed, Some(Fault::Closed)));
                    println!("unknown");
                    exit(1)
                }
            },
            Err(fault) => return Err(fault),
        }
    }
    Ok(())
}
