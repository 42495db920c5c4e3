//! Worked scripts by typed calls, beside the same scripts as text.
//!
//!     scripts SCRIPT PLACE .. [-- SCRIPT PLACE ..] ..
//!
//! PLACE .. are the places at which the commands of a script begin, and its end. A batch, a get, a scan or sums whose lines are plain, and say values of their
//! columns, are a typed call in one session, or in an engine if opened.rs says so; every other command is run as it is. After each command both sessions have
//! the same replies, and the same images of all trees. Prints the number of typed calls of each kind.

mod fields;
mod opened;

use betable::{Fault, KeptFile, Library, Link, Op, Process, Reply, Row, Session, Sum, Value};
use fields::field;
use opened::{Open, Place, place, replies};
use std::collections::BTreeSet;

/// The columns of a table, as its line says.
#[derive(Default)]
struct Table<'t> {
    columns: Vec<(&'t str, &'t str)>,
    keys: usize,
}

enum Call<'t> {
    Batch(Vec<Change<'t>>),
    Get(Vec<Owned>),
    Scan(&'t str, [Vec<Owned>; 2]),
    Sums(&'t str, u32, &'t str, [Vec<Owned>; 2]),
}

enum Change<'t> {
    Put(Vec<Owned>),
    Delete(Vec<Owned>),
    Upsert(Vec<Owned>, Vec<(&'t str, &'t str, Owned)>),
}

enum Owned {
    Int(i64),
    Text(String),
    Flag(bool),
    Bytes(Vec<u8>),
}

impl Owned {
    /// A field as a value of a kind, or `None`.
    fn of(field: &str, kind: &str) -> Option<Owned> {
        match kind {
            "int" => field.parse().ok().filter(|_| !field.starts_with('+')).map(Owned::Int),
            "text" => (field.len() <= 255).then(|| Owned::Text(field.to_string())),
            "flag" => field.parse().ok().map(Owned::Flag),
            _ => bytes_of(field).map(Owned::Bytes),
        }
    }

    fn value(&self) -> Value<'_> {
        match self {
            Owned::Int(number) => Value::Int(*number),
            Owned::Text(text) => Value::Text(text),
            Owned::Flag(is_set) => Value::Flag(*is_set),
            Owned::Bytes(bytes) => Value::Bytes(bytes),
        }
    }
}

fn bytes_of(digits: &str) -> Option<Vec<u8>> {
    let nibble = |digit: u8| char::from(digit).to_digit(16);
    let byte = |pair: &[u8]| match pair {
        [high, low] => Some((16 * nibble(*high)? + nibble(*low)?) as u8),
        _ => None,
    };
    digits.as_bytes().chunks(2).map(byte).collect::<Option<Vec<u8>>>().filter(|bytes| bytes.len() <= 255)
}

fn values(owned: &[Owned]) -> Vec<Value<'_>> {
    owned.iter().map(Owned::value).collect()
}

/// The fields of a plain record, in which no text is in quotes.
fn plain_fields(record: &str) -> Option<Vec<&str>> {
    let is_plain = !record.is_empty() && !record.contains(['"', '\r', '\u{feff}']);
    is_plain.then(|| record.split(',').collect())
}

impl<'t> Table<'t> {
    fn of(line: &'t str) -> Option<Table<'t>> {
        let words: Vec<&str> = line.split_whitespace().collect();
        let keys = words.get(4)?.parse().ok()?;
        Some(Table { columns: words[5..].iter().map(|word| word.split_once(':')).collect::<Option<_>>()?, keys })
    }

    /// Values of the first columns.
    fn values(&self, fields: &[&str], count: usize) -> Option<Vec<Owned>> {
        (fields.len() == count).then(|| fields.iter().zip(&self.columns).map(|(field, (_, kind))| Owned::of(field, kind)).collect())?
    }

    fn change(&self, line: &'t str) -> Option<Change<'t>> {
        let (word, record) = line.split_once(' ')?;
        let fields = plain_fields(record)?;
        match word {
            "put" => self.values(&fields, self.columns.len()).map(Change::Put),
            "del" => self.values(&fields, self.keys).map(Change::Delete),
            "ups" => {
                let operations = fields.get(self.keys..)?.chunks(3).map(|each| self.operation(each)).collect::<Option<_>>()?;
                Some(Change::Upsert(self.values(&fields[..self.keys], self.keys)?, operations))
            }
            _ => None,
        }
    }

    fn operation(&self, fields: &[&'t str]) -> Option<(&'t str, &'t str, Owned)> {
        match *fields {
            [word, name, field] => {
                let (_, kind) = self.columns.iter().find(|(other, _)| *other == name)?;
                let is_number = ["add", "max", "min"].contains(&word) && *kind == "int";
                (is_number || word == "set").then_some((word, name, Owned::of(field, kind)?))
            }
            _ => None,
        }
    }

    /// The typed call that does what a command does. Bounds are only those of the rows.
    fn call(&self, command: &'t str) -> Option<Call<'t>> {
        if command.contains('\r') {
            return None;
        }
        let mut lines: Vec<&str> = command.strip_suffix('\n')?.split('\n').filter(|line| !line.is_empty()).collect();
        let head = lines.remove(0);
        if let Some(record) = head.strip_prefix("get ") {
            return self.values(&plain_fields(record)?, self.keys).map(Call::Get);
        }
        match (head.split(' ').collect::<Vec<_>>().as_slice(), lines.pop()) {
            (["batch"], Some("end")) => lines.iter().map(|line| self.change(line)).collect::<Option<_>>().map(Call::Batch),
            (["scan", tree], Some("go")) => Some(Call::Scan(tree, self.bounds(tree, &lines)?)),
            // By no columns, a typed call makes one group of all rows.
            (["sums", _, "0", _], _) => None,
            (["sums", tree, columns, column], Some("go")) => Some(Call::Sums(tree, columns.parse().ok()?, column, self.bounds(tree, &lines)?)),
            _ => None,
        }
    }

    fn bounds(&self, tree: &str, lines: &[&str]) -> Option<[Vec<Owned>; 2]> {
        let mut bounds = [Vec::new(), Vec::new()];
        for line in lines {
            let (word, record) = line.split_once(' ').filter(|_| tree == "primary")?;
            let fields = plain_fields(record)?;
            let place = ["from", "to"].iter().position(|each| *each == word).filter(|place| bounds[*place].is_empty())?;
            bounds[place] = self.values(&fields, fields.len().min(self.keys))?;
        }
        Some(bounds)
    }
}

fn record(row: Row<'_>) -> Vec<String> {
    row.values().map(field).collect()
}

fn op<'a>((word, name, value): &'a (&str, &str, Owned)) -> Op<'a> {
    match (*word, value) {
        ("add", Owned::Int(number)) => Op::Add(name, *number),
        ("max", Owned::Int(number)) => Op::Max(name, *number),
        ("min", Owned::Int(number)) => Op::Min(name, *number),
        _ => Op::Set(name, value.value()),
    }
}

fn apply<L: Link>(session: &mut betable::Table<L>, found: &[Change<'_>]) -> Result<(), Fault> {
    let mut changes = session.changes()?;
    for change in found {
        match change {
            Change::Put(row) => changes.put(&values(row))?,
            Change::Delete(key) => changes.delete(&values(key))?,
            Change::Upsert(key, operations) => changes.upsert(&values(key), &operations.iter().map(op).collect::<Vec<_>>())?,
        }
    }
    changes.apply()
}

/// The reply that a script gives to a typed call, but for the numbers in that of a batch.
fn reply<L: Link>(session: &mut betable::Table<L>, call: &Call<'_>) -> Result<Reply, Fault> {
    match call {
        Call::Batch(changes) => apply(session, changes).map(|()| Reply::Line("batch".to_string())),
        Call::Get(key) => Ok(session.get(&values(key))?.map_or(Reply::None, |row| Reply::Row(record(row)))),
        Call::Sums(tree, columns, column, [from, to]) => {
            let sums = session.sums(tree, *columns, column, &values(from), &values(to))?;
            Ok(Reply::Sums(sums.map(|group| Sum { count: group.count, total: group.total.to_string(), group: record(group.values) }).collect()))
        }
        Call::Scan(tree, [from, to]) => {
            let (mut rows, mut found) = (session.scan(tree, &values(from), &values(to))?, Vec::new());
            while let Some(row) = rows.next()? {
                found.push(record(row));
            }
            Ok(Reply::Rows(found))
        }
    }
}

fn images<L: Link>(session: &mut betable::Table<L>, trees: &BTreeSet<&str>) -> Result<Vec<u8>, Fault> {
    let script: String = trees.iter().map(|tree| format!("image {tree}\n")).collect();
    Ok(replies(session, script.as_bytes())?.as_bytes().to_vec())
}

/// Counts the typed calls: batches, gets, scans, sums, and those of them that are refused.
fn check<L: Open>(path: &str, places: &[String], counts: &mut [usize; 5]) -> Result<(), Fault> {
    let script = std::fs::read(path).expect("a script");
    let places: Vec<usize> = places.iter().map(|place| place.parse().expect("a place")).collect();
    let (mut by_script, mut typed, mut table, mut trees) = (Session::new()?, L::open()?, None, BTreeSet::from(["primary"]));
    for place in places.windows(2) {
        let command = &script[place[0]..place[1]];
        let wanted = by_script.run(command)?.iter().next();
        let text = std::str::from_utf8(command).unwrap_or("");
        let call = table.as_ref().and_then(|table: &Table<'_>| table.call(text));
        match (text.split_whitespace().collect::<Vec<_>>().as_slice(), &wanted) {
            (["table", ..], Some(Reply::Line(_))) => table = Table::of(text),
            (["index", name, ..], _) => {
                trees.insert(name);
            }
            _ => {}
        }
        let found = match &call {
            Some(call) => reply(&mut typed, call),
            None => {
                assert_eq!(replies(&mut typed, command)?.iter().next(), wanted, "{path}: {text}");
                continue;
            }
        };
        counts[match call {
            Some(Call::Batch(_)) => 0,
            Some(Call::Get(_)) => 1,
            Some(Call::Scan(..)) => 2,
            _ => 3,
        }] += 1;
        match (found, wanted) {
            // The refusal of a call is the first one, and that of a script the one with the smallest number.
            (Err(Fault::Refused { .. }), Some(Reply::Refused(_))) => counts[4] += 1,
            (Ok(Reply::Line(word)), Some(Reply::Line(line))) => assert_eq!(line.split(' ').next(), Some(word.as_str()), "{path}: {text}"),
            (found, wanted) => assert_eq!(Some(found?), wanted, "{path}: {text}"),
        }
        assert_eq!(images(&mut typed, &trees)?, images(&mut by_script, &trees)?, "{path}: {text}");
    }
    Ok(())
}

fn main() -> Result<(), Fault> {
    let words: Vec<String> = std::env::args().skip(1).collect();
    let mut counts = [0; 5];
    for script in words.split(|word| word == "--") {
        let check = match place() {
            Place::Library => check::<Library>,
            Place::Process => check::<Process>,
            Place::File => check::<KeptFile>,
        };
        check(&script[0], &script[1..], &mut counts)?;
    }
    println!("{} batches, {} gets, {} scans, {} sums, {} refused", counts[0], counts[1], counts[2], counts[3], counts[4]);
    Ok(())
}
