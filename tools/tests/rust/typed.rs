//! Typed calls, of a session or of an engine as opened.rs says, beside scripts that do the same in a session, and wrong typed calls.
//!
//!     typed changes | reads | pages | sums | usage | trees | wrong | allocations | replies | threads
//!
//! The status is not 0 if what the word names does not hold, and a line says where.

mod fields;
mod opened;

use betable::{
    Fault, FromValue, Group, KeptFile, Kind, Library, Link, Op, Packer, Process, Refusal, Reply, Row, Rows, Session, Sum, Table, Tree, Usage, Value, Values, quoted,
};
use fields::{field, hexadecimal};
use opened::{Open, Place, place, replies};
use std::alloc::{GlobalAlloc, Layout, System};
use std::sync::atomic::{AtomicUsize, Ordering};
use std::sync::{Arc, Mutex};
use std::thread;

const TABLE: &str = "table 4 6 3 2 id:int city:text qty:int ok:flag hash:bytes\nindex by_city on city,hash include qty\nbuild by_city 1\n";
const CITIES: [&str; 12] = ["", "Oslo", "Bergen, west", "\"", "a\"b", " x ", "\u{feff}", "end", "æøå", "\0", "\0\u{1}", "go"];
const HASHES: [&[u8]; 5] = [b"", b"\0", b"\0\xff", b"\xff", b"\x01\x02\x03\x04\x05\x06\x07\x08"];

struct Counted;

static ALLOCATIONS: AtomicUsize = AtomicUsize::new(0);

unsafe impl GlobalAlloc for Counted {
    unsafe fn alloc(&self, layout: Layout) -> *mut u8 {
        ALLOCATIONS.fetch_add(1, Ordering::Relaxed);
        unsafe { System.alloc(layout) }
    }

    unsafe fn dealloc(&self, at: *mut u8, layout: Layout) {
        unsafe { System.dealloc(at, layout) }
    }
}

#[global_allocator]
static COUNTED: Counted = Counted;

/// Numbers that look random (Marsaglia's xorshift64).
struct Random(u64);

impl Random {
    fn below(&mut self, limit: usize) -> usize {
        self.0 ^= self.0 << 13;
        self.0 ^= self.0 >> 7;
        self.0 ^= self.0 << 17;
        (self.0 % limit as u64) as usize
    }

    fn of<T: Copy>(&mut self, from: &[T]) -> T {
        from[self.below(from.len())]
    }

    fn city(&mut self) -> City {
        City {
            id: self.below(12) as i64 - 6,
            name: self.of(&CITIES),
            qty: self.of(&[0, 1, -1, i64::MIN, i64::MAX, 256]),
            ok: self.below(2) == 1,
            hash: self.of(&HASHES),
        }
    }
}

#[derive(Clone, Copy)]
struct City {
    id: i64,
    name: &'static str,
    qty: i64,
    ok: bool,
    hash: &'static [u8],
}

impl Values for City {
    fn pack(&self, out: &mut Packer<'_>) -> Result<(), Fault> {
        out.add(self.id)?;
        out.add(self.name)?;
        out.add(self.qty)?;
        out.add(self.ok)?;
        out.add(self.hash)
    }
}

impl City {
    fn key(self) -> (i64, &'static str) {
        (self.id, self.name)
    }
}

fn record_of_key(city: City) -> String {
    format!("{},{}", city.id, quoted(city.name))
}

fn record(city: City) -> String {
    format!("{},{},{},{}", record_of_key(city), city.qty, city.ok, hexadecimal(city.hash))
}

enum Change {
    Put(City),
    Delete(City),
    Upsert(City),
}

impl Change {
    fn random(random: &mut Random) -> Change {
        let city = random.city();
        match random.below(5) {
            0 | 1 => Change::Put(city),
            2 => Change::Delete(city),
            _ => Change::Upsert(city),
        }
    }

    fn line(&self) -> String {
        match *self {
            Change::Put(city) => format!("put {}\n", record(city)),
            Change::Delete(city) => format!("del {}\n", record_of_key(city)),
            Change::Upsert(city) if city.ok => format!("ups {},add,qty,{},set,ok,true,max,qty,-5\n", record_of_key(city), city.qty),
            Change::Upsert(city) => format!("ups {},set,hash,{},min,qty,{}\n", record_of_key(city), hexadecimal(city.hash), city.qty),
        }
    }

    fn ops(city: City) -> Vec<Op<'static>> {
        if city.ok {
            vec![Op::Add("qty", city.qty), Op::Set("ok", Value::Flag(true)), Op::Max("qty", -5)]
        } else {
            vec![Op::Set("hash", Value::Bytes(city.hash)), Op::Min("qty", city.qty)]
        }
    }
}

fn run(session: &mut Session, changes: &[Change]) -> Result<(), Fault> {
    let lines: String = changes.iter().map(Change::line).collect();
    assert_eq!(session.run(format!("batch\n{lines}end\n").as_bytes())?.refused_count(), 0);
    Ok(())
}

fn apply<L: Link>(session: &mut Table<L>, changes: &[Change]) -> Result<(), Fault> {
    if let [Change::Upsert(city)] = changes {
        return session.upsert(&city.key(), &Change::ops(*city));
    }
    let mut added = session.changes()?;
    for change in changes {
        match *change {
            Change::Put(city) => added.put(&city)?,
            Change::Delete(city) => added.delete(&city.key())?,
            Change::Upsert(city) => added.upsert(&city.key(), &Change::ops(city))?,
        }
    }
    added.apply()
}

fn images<L: Link>(session: &mut Table<L>) -> Result<Vec<u8>, Fault> {
    Ok(replies(session, b"image primary\nimage by_city\n")?.as_bytes().to_vec())
}

/// Two sessions after the same random changes, which are scripts in one and typed calls in the other.
fn sessions<L: Open>(rounds: usize) -> Result<(Session, Table<L>), Fault> {
    let (mut by_script, mut typed) = (Session::new()?, L::open()?);
    by_script.run(TABLE.as_bytes())?;
    replies(&mut typed, TABLE.as_bytes())?;
    let mut random = Random(88_172_645_463_325_252);
    for round in 0..rounds {
        for limit in [24, 2] {
            let changes: Vec<Change> = (0..random.below(limit)).map(|_| Change::random(&mut random)).collect();
            run(&mut by_script, &changes)?;
            apply(&mut typed, &changes)?;
        }
        assert_eq!(images(&mut typed)?, images(&mut by_script)?, "round {round}");
    }
    Ok((by_script, typed))
}

/// Random changes one by one and together, then puts and deletes of many rows in one call.
fn check_changes<L: Open>() -> Result<(), Fault> {
    let (mut by_script, mut typed) = sessions::<L>(150)?;
    let mut random = Random(7);
    let cities: Vec<City> = (0..40).map(|_| random.city()).collect();
    let rows: Vec<_> = cities.iter().map(|city| (city.id, city.name.to_string(), city.qty, city.ok, city.hash.to_vec())).collect();
    run(&mut by_script, &cities.iter().copied().map(Change::Put).collect::<Vec<_>>())?;
    typed.put(&rows)?;
    assert_eq!(images(&mut typed)?, images(&mut by_script)?);
    let keys: Vec<_> = cities[..20].iter().map(|city| [Value::Int(city.id), Value::Text(city.name)]).collect();
    run(&mut by_script, &cities[..20].iter().copied().map(Change::Delete).collect::<Vec<_>>())?;
    typed.delete(&keys)?;
    typed.put::<City>(&[])?;
    typed.changes()?.apply()?;
    assert_eq!(images(&mut typed)?, images(&mut by_script)?);
    Ok(())
}

/// The fields of rows that are read.
fn fields_of<L: Link>(mut rows: Rows<'_, L>) -> Result<Vec<Vec<String>>, Fault> {
    let mut found = Vec::new();
    while let Some(row) = rows.next()? {
        found.push(row.values().map(field).collect());
    }
    assert!(rows.next()?.is_none());
    Ok(found)
}

/// The fields of the rows of a scan. From the last row back they are the same ones.
fn scanned<F, T, L>(session: &mut Table<L>, tree: &str, from: &F, to: &T, most: u32) -> Result<Vec<Vec<String>>, Fault>
where
    L: Link,
    F: Values + ?Sized,
    T: Values + ?Sized,
{
    let found = fields_of(session.pages(tree, from, to, most)?)?;
    let mut newest_first = fields_of(session.pages_newest_first(tree, from, to, most)?)?;
    newest_first.reverse();
    assert_eq!(newest_first, found, "{most} rows of a page");
    Ok(found)
}

/// The reply to a script of one command.
fn reply(session: &mut Session, script: &str) -> Result<Reply, Fault> {
    Ok(session.run(script.as_bytes())?.iter().next().expect("a reply"))
}

/// Every key of the random rows, in `get`.
fn check_gets<L: Link>(by_script: &mut Session, typed: &mut Table<L>) -> Result<(), Fault> {
    for id in -7..7 {
        for name in CITIES {
            let expected = match reply(by_script, &format!("get {id},{}\n", quoted(name)))? {
                Reply::Row(fields) => Some(fields),
                Reply::None => None,
                other => panic!("{other:?}"),
            };
            let row = typed.get(&(id, name))?;
            assert_eq!(row.map(|row| row.values().map(field).collect()), expected, "{id} {name:?}");
            if let Some(row) = row {
                let (same_id, same_name, _, _, hash): (i64, &str, i64, bool, &[u8]) = row.try_into()?;
                assert_eq!((same_id, same_name, hash), (id, name, row.get::<Vec<u8>>(4)?.as_slice()));
            }
        }
    }
    Ok(())
}

/// The record of a bound, and its values.
type Bound = (String, Vec<Value<'static>>);

/// Bounds of no value, of a part of the key and of the whole key, for each tree.
fn bounds_of_trees() -> [(&'static str, [Bound; 4]); 2] {
    let hash = hexadecimal(HASHES[2]);
    let bounds_of_rows = [
        (String::new(), vec![]),
        ("-4".to_string(), vec![Value::Int(-4)]),
        ("0,\"Oslo\"".to_string(), vec![Value::Int(0), Value::Text("Oslo")]),
        ("3,\"\"".to_string(), vec![Value::Int(3), Value::Text("")]),
    ];
    let bounds_of_cities = [
        (String::new(), vec![]),
        ("\" x \"".to_string(), vec![Value::Text(" x ")]),
        (format!("Oslo,{hash}"), vec![Value::Text("Oslo"), Value::Bytes(HASHES[2])]),
        (format!("Oslo,{hash},2,Oslo"), vec![Value::Text("Oslo"), Value::Bytes(HASHES[2]), Value::Int(2), Value::Text("Oslo")]),
    ];
    [("primary", bounds_of_rows), ("by_city", bounds_of_cities)]
}

/// The lines of two bounds.
fn lines_of_bounds(from: &str, to: &str) -> String {
    let line = |word: &str, record: &str| if record.is_empty() { String::new() } else { format!("{word} {record}\n") };
    format!("{}{}go\n", line("from", from), line("to", to))
}

/// Each pair of bounds, with each of these numbers of rows of a page.
fn check_scans<L: Link>(by_script: &mut Session, typed: &mut Table<L>, mosts: &[u32]) -> Result<(), Fault> {
    for (tree, bounds) in bounds_of_trees() {
        for (from, lower) in &bounds {
            for (to, upper) in &bounds {
                let script = format!("scan {tree}\n{}", lines_of_bounds(from, to));
                let expected = reply(by_script, &script)?;
                for &most in mosts {
                    assert_eq!(Reply::Rows(scanned(typed, tree, lower, upper, most)?), expected, "{script}, {most} rows of a page");
                }
            }
        }
    }
    Ok(())
}

/// A group as a script has it in its reply.
fn sum_of_reply(group: Group<'_>) -> Sum {
    Sum { count: group.count, total: group.total.to_string(), group: group.values.values().map(field).collect() }
}

/// The use of a tree, as its image has it: the rows of the leaves, the messages of the inner nodes, and the height.
fn usage_of_image<L: Link>(session: &mut Table<L>, tree: &str) -> Result<Usage, Fault> {
    let text = String::from_utf8_lossy(replies(session, format!("image {tree}\n").as_bytes())?.as_bytes()).into_owned();
    let mut usage = Usage { rows: 0, messages: 0, height: 0 };
    for line in text.lines() {
        let words: Vec<&str> = line.split_whitespace().collect();
        match *words.as_slice() {
            ["image", _, "height", height] => usage.height = height.parse().expect("a height"),
            ["leaf", rows] => usage.rows += rows.parse::<u64>().expect("a number of rows"),
            ["inner", _, messages] => usage.messages += messages.parse::<u64>().expect("a number of messages"),
            _ => {}
        }
    }
    Ok(usage)
}

fn check_usage<L: Open>() -> Result<(), Fault> {
    for rounds in [0, 1, 3, 10, 40] {
        let (_, mut typed) = sessions::<L>(rounds)?;
        for tree in ["primary", "by_city"] {
            let expected = usage_of_image(&mut typed, tree)?;
            assert_eq!(typed.usage(tree)?, expected);
            assert!(rounds < 40 || (expected.height > 2 && expected.messages > 0), "{expected:?}");
        }
        assert_eq!(typed.usage("none"), Err(refused(8, "NoSuchTree", None)));
    }
    Ok(())
}

/// The name of a tree, the names of its columns with `*` after those of its key, and whether it is complete.
fn description(tree: &Tree) -> (String, String, bool) {
    let mark = |place: usize| if place < tree.key().len() { "*" } else { "" };
    let names: Vec<_> = tree.columns().iter().enumerate().map(|(place, column)| format!("{}{}", column.name, mark(place))).collect();
    (tree.name().to_string(), names.join(" "), tree.is_complete())
}

fn trees_of<L: Link>(session: &mut Table<L>) -> Result<Vec<(String, String, bool)>, Fault> {
    Ok(session.trees()?.iter().map(description).collect())
}

/// The trees after each script: none without a table, and indexes that are building, complete, dropped, and made again with other columns.
fn check_trees<L: Open>() -> Result<(), Fault> {
    let mut session = L::open()?;
    let primary = ("primary", "id* city qty ok raw", true);
    for (script, wanted) in [
        ("", vec![]),
        ("table 16 64 16 1 id:int city:text qty:int ok:flag raw:bytes\n", vec![primary]),
        ("batch\nput 1,Oslo,2,true,00\nput 2,Oslo,2,true,00\nend\nindex a on city include qty\n", vec![primary, ("a", "city* id* qty", false)]),
        ("index b on ok,raw\nbuild b 9\n", vec![primary, ("a", "city* id* qty", false), ("b", "ok* raw* id*", true)]),
        ("build a 1\n", vec![primary, ("a", "city* id* qty", false), ("b", "ok* raw* id*", true)]),
        ("build a 9\n", vec![primary, ("a", "city* id* qty", true), ("b", "ok* raw* id*", true)]),
        ("drop a\nindex a on qty\n", vec![primary, ("b", "ok* raw* id*", true), ("a", "qty* id*", false)]),
    ] {
        replies(&mut session, script.as_bytes())?;
        let wanted: Vec<_> = wanted.iter().map(|(name, columns, is_complete)| (name.to_string(), columns.to_string(), *is_complete)).collect();
        assert_eq!(trees_of(&mut session)?, wanted, "{script}");
        session.put::<(i64, &str, i64, bool, &[u8])>(&[]).err();
        assert_eq!(trees_of(&mut session)?, wanted, "{script}");
    }
    let kinds: Vec<_> = session.trees()?[0].columns().iter().map(|column| column.kind).collect();
    assert_eq!(kinds, [Kind::Int, Kind::Text, Kind::Int, Kind::Flag, Kind::Bytes]);
    Ok(())
}

/// Each pair of bounds, with each number of columns of a group. Totals exceed 64 bits, and are negative.
fn check_sums<L: Open>() -> Result<(), Fault> {
    let (mut by_script, mut typed) = sessions::<L>(40)?;
    let mut largest = (0, 0);
    for (tree, bounds) in bounds_of_trees() {
        for (from, lower) in &bounds {
            for (to, upper) in &bounds {
                for (columns, column) in [(1, "qty"), (2, "qty"), (1, "id"), (2, "id"), (4, "qty")] {
                    let script = format!("sums {tree} {columns} {column}\n{}", lines_of_bounds(from, to));
                    let found = match typed.sums(tree, columns, column, lower, upper) {
                        Ok(sums) => {
                            assert_eq!((sums.len(), sums.clone().map(|group| group.count).sum::<u64>() > 0), (sums.clone().count(), sums.len() > 0));
                            sums.clone().for_each(|group| largest = (largest.0.min(group.total), largest.1.max(group.total)));
                            Reply::Sums(sums.map(sum_of_reply).collect())
                        }
                        Err(Fault::Refused { refusal, .. }) => Reply::Refused(refusal),
                        Err(other) => panic!("{other}"),
                    };
                    assert_eq!(found, reply(&mut by_script, &script)?, "{script}");
                }
                let mut rows = 0;
                let mut scan = typed.scan(tree, lower, upper)?;
                while scan.next()?.is_some() {
                    rows += 1;
                }
                let counts: Vec<_> = typed.sums(tree, 0, "", lower, upper)?.map(|group| (group.values.values().len(), group.count, group.total)).collect();
                assert_eq!(counts, [(0, rows, 0)], "{tree} {from:?} {to:?}");
                assert_eq!(typed.count(tree, lower, upper)?, rows, "{tree} {from:?} {to:?}");
            }
        }
    }
    assert!(largest.0 < i128::from(i64::MIN) && largest.1 > i128::from(i64::MAX), "{largest:?}");
    let group = typed.sums("primary", 2, "qty", &(), &())?.next().expect("a group");
    let (id, city): (i64, &str) = group.values.try_into()?;
    assert_eq!((id, city), (group.values.get(0)?, group.values.get::<String>(1)?.as_str()));
    Ok(())
}

fn check_reads<L: Open>() -> Result<(), Fault> {
    let (mut by_script, mut typed) = sessions::<L>(40)?;
    check_gets(&mut by_script, &mut typed)?;
    check_scans(&mut by_script, &mut typed, &[1024])?;
    let mut rows = typed.scan("primary", &(-4, "end"), &3)?;
    let first: (i64, String, i64, bool, Vec<u8>) = rows.next()?.expect("a row").try_into()?;
    assert_eq!(first.0, -4);
    Ok(())
}

fn check_pages<L: Open>() -> Result<(), Fault> {
    let (mut by_script, mut typed) = sessions::<L>(40)?;
    let count = scanned(&mut typed, "primary", &(), &(), 1024)?.len() as u32;
    assert!(count > 30, "{count} rows");
    check_scans(&mut by_script, &mut typed, &[0, 1, 2, 3, 7, count - 1, count, count + 1, u32::MAX])
}

fn refused(number: u32, name: &str, item: Option<u64>) -> Fault {
    refused_at(number, name, item, None)
}

fn refused_at(number: u32, name: &str, item: Option<u64>, column: Option<u64>) -> Fault {
    Fault::Refused { refusal: Refusal { number, name: name.to_string(), item }, column }
}

fn wrong_kind(item: u64, column: u64, name: &str, wanted: Kind, found: Kind) -> Fault {
    Fault::WrongKind { item: Some(item), column, name: name.to_string(), wanted, found }
}

fn wrong_length(item: u64, wanted: usize, found: usize) -> Fault {
    Fault::WrongLength { item: Some(item), wanted, found }
}

fn too_long(item: u64, column: u64, name: &str, length: usize) -> Fault {
    Fault::TooLong { item, column, name: name.to_string(), length }
}

type Call<L> = fn(&mut Table<L>) -> Result<(), Fault>;

const LONG: &str = match std::str::from_utf8(&[b'x'; 256]) {
    Ok(text) => text,
    Err(_) => "",
};
const GOOD: (i64, &str, i64, bool, &[u8]) = (1, "Alta", 2, true, b"");

fn upsert<L: Link>(session: &mut Table<L>, ops: &[Op<'_>]) -> Result<(), Fault> {
    session.upsert(&(1, "Oslo"), ops)
}

/// A good row, and then the given one.
fn put_second<R: Values, L: Link>(session: &mut Table<L>, row: &R) -> Result<(), Fault> {
    let mut changes = session.changes()?;
    changes.put(&GOOD)?;
    changes.put(row)?;
    changes.apply()
}

/// The first row of a scan.
fn scan<F: Values, T: Values, L: Link>(session: &mut Table<L>, tree: &str, from: F, to: T) -> Result<(), Fault> {
    session.scan(tree, &from, &to)?.next().map(drop)
}

fn wrong_changes<L: Link>() -> Vec<(Call<L>, Fault)> {
    vec![
        (|it| put_second(it, &("1", "Oslo", 3, true, b"")), wrong_kind(2, 1, "id", Kind::Int, Kind::Text)),
        (|it| put_second(it, &(1, 8, 3, true, b"")), wrong_kind(2, 2, "city", Kind::Text, Kind::Int)),
        (|it| put_second(it, &(1, b"\x03Oslo", 3, true, b"")), wrong_kind(2, 2, "city", Kind::Text, Kind::Bytes)),
        (|it| put_second(it, &(1, "Oslo", 3, 1, b"")), wrong_kind(2, 4, "ok", Kind::Flag, Kind::Int)),
        (|it| put_second(it, &(1, "Oslo", 3, true, "00")), wrong_kind(2, 5, "hash", Kind::Bytes, Kind::Text)),
        (|it| put_second(it, &(1, "Oslo", 3, true)), wrong_length(2, 5, 4)),
        (|it| put_second(it, &(1, "Oslo", 3, true, b"", 6)), wrong_length(2, 5, 6)),
        (|it| put_second(it, &()), wrong_length(2, 5, 0)),
        (|it| put_second(it, &(1, LONG, 3, true, b"")), too_long(2, 2, "city", 256)),
        (|it| put_second(it, &(1, "Oslo", 3, true, [0; 300])), too_long(2, 5, "hash", 300)),
        (|it| it.delete(&[(1, Value::Text("Oslo")), (2, Value::Flag(true))]), wrong_kind(2, 2, "city", Kind::Text, Kind::Flag)),
        (|it| it.delete(&[1]), wrong_length(1, 2, 1)),
        (|it| upsert(it, &[Op::Add("qty", 1), Op::Add("city", 1)]), wrong_kind(1, 2, "city", Kind::Text, Kind::Int)),
        (|it| upsert(it, &[Op::Set("qty", Value::Text("1"))]), wrong_kind(1, 3, "qty", Kind::Int, Kind::Text)),
        (|it| upsert(it, &[Op::Max("ok", 1)]), wrong_kind(1, 4, "ok", Kind::Flag, Kind::Int)),
        (|it| upsert(it, &[Op::Set("hash", Value::Bytes(&[0; 256]))]), too_long(1, 5, "hash", 256)),
        (|it| upsert(it, &[Op::Min("id ", 1)]), Fault::NoSuchColumn { item: 1, name: "id ".to_string() }),
        (|it| upsert(it, &[Op::Add("id", 1)]), refused_at(15, "NoSuchColumn", Some(1), Some(1))),
        (|it| upsert(it, &[]), refused(7, "BadLength", Some(1))),
        (|it| upsert(it, &[Op::Add("qty", 1); 17]), refused(7, "BadLength", Some(1))),
        (|it| upsert(it, &[Op::Add("qty", 1); 257]), refused(7, "BadLength", Some(1))),
    ]
}

/// Sums of the quantities of the rows.
fn sum<F: Values, L: Link>(session: &mut Table<L>, columns: u32, column: &str, from: F) -> Result<(), Fault> {
    session.sums("primary", columns, column, &from, &()).map(drop)
}

fn wrong_sums<L: Link>() -> Vec<(Call<L>, Fault)> {
    vec![
        (|it| sum(it, 0, "none", ()), refused(15, "NoSuchColumn", None)),
        (|it| sum(it, 3, "qty", ()), refused(15, "NoSuchColumn", None)),
        (|it| sum(it, u32::MAX, "qty", ()), refused(15, "NoSuchColumn", None)),
        (|it| sum(it, 1, "none", ()), refused(15, "NoSuchColumn", None)),
        (|it| sum(it, 1, LONG, ()), refused(15, "NoSuchColumn", None)),
        (|it| sum(it, 1, "city", ()), refused(16, "NotInt", None)),
        (|it| sum(it, 1, "qty", "1"), wrong_kind(1, 1, "id", Kind::Int, Kind::Text)),
        (|it| it.sums("none", 1, "qty", &(), &()).map(drop), refused(8, "NoSuchTree", None)),
        (|it| it.sums("building", 1, "qty", &(), &()).map(drop), refused(11, "Building", None)),
        (|it| it.sums("primary", 1, "qty", &(), &(2, false)).map(drop), wrong_kind(2, 2, "city", Kind::Text, Kind::Flag)),
        (
            |it| it.sums("primary", 2, "qty", &(), &())?.next().expect("a group").values.get::<i64>(2).map(drop),
            Fault::WrongLength { item: None, wanted: 2, found: 3 },
        ),
    ]
}

fn wrong_reads<L: Link>() -> Vec<(Call<L>, Fault)> {
    vec![
        (|it| it.get(&(1, 2)).map(drop), wrong_kind(1, 2, "city", Kind::Text, Kind::Int)),
        (|it| it.get(&1).map(drop), wrong_length(1, 2, 1)),
        (|it| it.get(&(1, "Oslo", 3)).map(drop), wrong_length(1, 2, 3)),
        (|it| scan(it, "none", (), ()), refused(8, "NoSuchTree", None)),
        (|it| scan(it, LONG, (), ()), refused(8, "NoSuchTree", None)),
        (|it| scan(it, "primary", "1", 2), wrong_kind(1, 1, "id", Kind::Int, Kind::Text)),
        (|it| scan(it, "primary", 1, (2, false)), wrong_kind(2, 2, "city", Kind::Text, Kind::Flag)),
        (|it| scan(it, "by_city", "Oslo", ("Oslo", b"", 1, "Oslo", 5)), wrong_length(2, 4, 5)),
        (|it| scan(it, "by_city", ("Oslo", LONG.as_bytes()), ()), too_long(1, 2, "hash", 256)),
        (|it| scan(it, "building", (), ()), refused(11, "Building", None)),
        (|it| read::<String, _>(it, 0), read_as(1, "id", Kind::Int, Kind::Text)),
        (|it| read::<i64, _>(it, 3), read_as(4, "ok", Kind::Flag, Kind::Int)),
        (|it| read::<bool, _>(it, 5), Fault::WrongLength { item: None, wanted: 5, found: 6 }),
        (|it| row_of(it)?.try_into().map(|_: (i64, &str)| ()), Fault::WrongLength { item: None, wanted: 5, found: 2 }),
    ]
}

fn read_as(column: u64, name: &str, wanted: Kind, found: Kind) -> Fault {
    Fault::WrongKind { item: None, column, name: name.to_string(), wanted, found }
}

fn row_of<L: Link>(session: &mut Table<L>) -> Result<Row<'_>, Fault> {
    Ok(session.get(&(1, "Oslo"))?.expect("a row"))
}

fn read<T: for<'r> FromValue<'r>, L: Link>(session: &mut Table<L>, place: usize) -> Result<(), Fault> {
    row_of(session)?.get::<T>(place).map(drop)
}

fn check_wrong_calls<L: Open>() -> Result<(), Fault> {
    let mut session = L::open()?;
    let no_table: [Call<L>; 5] =
        [|it| it.put(&[1]), |it| it.changes()?.apply(), |it| it.get(&1).map(drop), |it| scan(it, "primary", (), ()), |it| sum(it, 1, "qty", ())];
    for call in no_table {
        assert_eq!(call(&mut session), Err(refused(3, "NoTable", None)));
    }
    replies(&mut session, TABLE.as_bytes())?;
    session.put(&[(1, "Oslo", 3, true, b"\xff"), (2, &LONG[1..], 3, false, b"x")])?;
    replies(&mut session, b"index building on qty\n")?;
    let before = images(&mut session)?;
    for (number, (call, fault)) in wrong_changes().into_iter().chain(wrong_reads()).chain(wrong_sums()).enumerate() {
        assert_eq!(call(&mut session), Err(fault), "call {number}");
        assert_eq!(images(&mut session)?, before, "call {number}");
    }
    let mut changes = session.changes()?;
    changes.delete(&(1, "Oslo"))?;
    assert_eq!(changes.put(&(2, "Alta", "3")), Err(wrong_kind(2, 3, "qty", Kind::Int, Kind::Text)));
    changes.delete(&(2, &LONG[1..]))?;
    changes.apply()?;
    assert_eq!(scanned(&mut session, "primary", &(), &(), 9)?.len(), 0);
    Ok(())
}

/// The columns of an index are those of the last one of its name.
fn check_columns<L: Open>() -> Result<(), Fault> {
    let mut session = L::open()?;
    replies(&mut session, b"table 4 6 3 1 id:int city:text\nindex last on id\nbuild last 1\n")?;
    session.put(&[(1, "Oslo")])?;
    assert_eq!(scanned(&mut session, "last", &1, &(), 9)?, [["1", "1"]]);
    replies(&mut session, b"drop last\nindex last on city\nbuild last 9\n")?;
    assert_eq!(scanned(&mut session, "last", "Oslo", &(), 9)?, [["Oslo", "1"]]);
    Ok(())
}

fn check_texts_of_faults() {
    let texts = [
        (wrong_kind(2, 3, "qty", Kind::Int, Kind::Text), "item 2, column 3 (qty): the kind is int, and not text"),
        (read_as(3, "qty", Kind::Int, Kind::Text), "column 3 (qty): the kind is int, and not text"),
        (wrong_length(2, 5, 4), "item 2, the number of values is 5, and not 4"),
        (too_long(2, 5, "hash", 300), "item 2, column 5 (hash): 300 bytes, and at most 255 fit"),
        (refused(15, "NoSuchColumn", Some(1)), "refused 15 NoSuchColumn 1"),
    ];
    for (fault, text) in texts {
        assert_eq!(fault.to_string(), text);
    }
}

/// The allocations of the crate while it packs this many rows, and while it reads as many from a page. Those of the library are not among them.
fn allocations(session: &mut Session, count: u32) -> Result<(usize, usize), Fault> {
    let mut changes = session.changes()?;
    let before = ALLOCATIONS.load(Ordering::Relaxed);
    for id in 0..i64::from(count) {
        changes.put(&(id, "Bergen, west", id, true, b"0123456789"))?;
    }
    let of_puts = ALLOCATIONS.load(Ordering::Relaxed) - before;
    changes.apply()?;
    let mut rows = session.pages("primary", &(), &(), count + 1)?;
    rows.next()?;
    let (before, mut length) = (ALLOCATIONS.load(Ordering::Relaxed), 0);
    while let Some(row) = rows.next()? {
        let (_, city, _, _, hash): (i64, &str, i64, bool, &[u8]) = row.try_into()?;
        length += city.len() + hash.len();
    }
    assert_eq!(length, (count as usize - 1) * 22);
    Ok((of_puts, ALLOCATIONS.load(Ordering::Relaxed) - before))
}

/// The allocations of the crate while it sums this many groups. The first call makes room for them.
fn allocations_of_sums(session: &mut Session, count: usize) -> Result<usize, Fault> {
    let before = ALLOCATIONS.load(Ordering::Relaxed);
    let total: i128 = session.sums("primary", 2, "qty", &(), &())?.map(|group| group.total).sum();
    assert_eq!(total, (0..count as i128).sum());
    Ok(ALLOCATIONS.load(Ordering::Relaxed) - before)
}

/// A buffer grows, and is then used again.
fn check_allocations() -> Result<(), Fault> {
    let mut session = Session::new()?;
    session.run(TABLE.as_bytes())?;
    let (of_puts, of_reads) = allocations(&mut session, 5000)?;
    assert!(of_puts < 40, "{of_puts} allocations");
    assert_eq!(of_reads, 0);
    assert_eq!(allocations(&mut session, 5000)?, (0, 0));
    let of_first_sums = allocations_of_sums(&mut session, 5000)?;
    assert!(of_first_sums < 40, "{of_first_sums} allocations");
    assert_eq!(allocations_of_sums(&mut session, 5000)?, 0);
    Ok(())
}

/// The replies to scripts, beside those to each command by itself: texts with line breaks and quotes, and words of replies inside of texts.
fn check_replies<L: Open>() -> Result<(), Fault> {
    let texts = ["rows 1", "a\nrows 2\nrow x", "q\"\nsums 3\n\"", "end\nend", "\nrow 1,x\nrows 1", "refused 1 Syntax"];
    let commands = [
        "scan primary\ngo\n",
        "get 1\n",
        "nothing\n",
        "scan by_text\ngo\n",
        "image primary\n",
        "sums by_text 1 id\ngo\n",
        "get 9\n",
        "scan nope\ngo\n",
        "drain primary\n",
        "batch\nend\n",
        "batch\nput x,y\nend\n",
    ];
    let records: String = texts.iter().enumerate().map(|(id, text)| format!("{id},{}\n", quoted(text))).collect();
    let script = format!("table 4 64 16 1 id:int text:text\nload\nid,text\n{records}.\nindex by_text on text\nbuild by_text 10\n");
    let (mut session, mut other, mut random) = (L::open()?, L::open()?, Random(7));
    for one in [&mut session, &mut other] {
        assert_eq!(replies(one, script.as_bytes())?.iter().count(), 4);
    }
    assert_eq!(replies(&mut session, b"")?.iter().next(), None);
    for _ in 0..100 {
        let chosen: Vec<&str> = (0..random.below(8)).map(|_| random.of(&commands)).collect();
        let found: Vec<Reply> = replies(&mut session, chosen.concat().as_bytes())?.iter().collect();
        let mut alone = Vec::new();
        for command in &chosen {
            alone.extend(replies(&mut other, command.as_bytes())?.iter());
        }
        assert_eq!((found.len(), found), (chosen.len(), alone), "{chosen:?}");
    }
    let rows = |reply| match reply {
        Some(Reply::Rows(rows)) => rows.into_iter().map(|row| row[1].clone()).collect(),
        _ => Vec::new(),
    };
    assert_eq!(rows(replies(&mut session, b"scan primary\ngo\n")?.iter().next()), texts);
    let refused: Vec<bool> = replies(&mut session, b"get 5\nget x\n")?.iter().map(|reply| matches!(reply, Reply::Refused(_))).collect();
    assert_eq!(refused, [false, true]);
    Ok(())
}

/// A session that is opened in one thread, used by four under a lock, and closed in another one.
fn check_threads<L: Open + Send + 'static>() -> Result<(), Fault> {
    let opened = thread::spawn(|| -> Result<Table<L>, Fault> {
        let mut session = L::open()?;
        replies(&mut session, b"table 4 6 3 1 id:int count:int\nindex by_count on count\n")?;
        Ok(session)
    });
    let shared = Arc::new(Mutex::new(opened.join().unwrap()?));
    let threads: Vec<_> = (0..4)
        .map(|number| {
            let shared = Arc::clone(&shared);
            thread::spawn(move || -> Result<(), Fault> {
                for turn in 0..250i64 {
                    let mut session = shared.lock().unwrap();
                    session.upsert(&(turn % 7), &[Op::Add("count", 1)])?;
                    session.put(&[(100 + 4 * turn + number, -turn)])?;
                    replies(&mut session, b"build by_count 5\n")?;
                }
                Ok(())
            })
        })
        .collect();
    for one in threads {
        one.join().unwrap()?;
    }
    let mut session = Arc::into_inner(shared).unwrap().into_inner().unwrap();
    let closed = thread::spawn(move || -> Result<(), Fault> {
        let mut rows = session.scan("primary", &(), &())?;
        let (mut count, mut total) = (0, 0);
        while let Some(row) = rows.next()? {
            let (id, counted): (i64, i64) = row.try_into()?;
            count += 1;
            total += if id < 7 { counted } else { 0 };
        }
        assert_eq!((count, total), (1007, 1000));
        Ok(())
    });
    closed.join().unwrap()
}

fn check<L: Open + Send + 'static>(what: Option<&str>) -> Result<(), Fault> {
    match what {
        Some("changes") => check_changes::<L>(),
        Some("reads") => check_reads::<L>(),
        Some("pages") => check_pages::<L>(),
        Some("sums") => check_sums::<L>(),
        Some("usage") => check_usage::<L>(),
        Some("trees") => check_trees::<L>(),
        Some("wrong") => {
            check_texts_of_faults();
            check_columns::<L>()?;
            check_wrong_calls::<L>()
        }
        Some("allocations") => check_allocations(),
        Some("replies") => check_replies::<L>(),
        Some("threads") => check_threads::<L>(),
        _ => panic!("changes, reads, pages, sums, usage, trees, wrong, allocations, replies or threads"),
    }
}

fn main() -> Result<(), Fault> {
    let what = std::env::args().nth(1);
    match place() {
        Place::Library => check::<Library>(what.as_deref()),
        Place::Process => check::<Process>(what.as_deref()),
        Place::File => check::<KeptFile>(what.as_deref()),
    }
}
