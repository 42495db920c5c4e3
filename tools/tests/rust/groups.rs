//! Groups of a table in a file, by the calls of a session.
//!
//!     groups PATH
//!
//! The status is not 0 if something does not hold, and a line says where.

use betable::{Fault, KeptSession, Link, Op, Table};

/// A function for each table is one for a group.
fn move_qty<L: Link>(table: &mut Table<L>, from: i64, to: i64, qty: i64) -> Result<(), Fault> {
    table.upsert(&from, &[Op::Add("qty", -qty)])?;
    table.upsert(&to, &[Op::Add("qty", qty)])
}

fn qty<L: Link>(table: &mut Table<L>, id: i64) -> Result<i64, Fault> {
    table.get(&id)?.expect("a row").get(1)
}

/// A group that ends with an error in between.
fn fail(session: &mut KeptSession) -> Result<(), Fault> {
    let mut group = session.group()?;
    group.put(&[(3, 30)])?;
    group.run(b"index by_qty on qty\nbuild by_qty 9\n")?;
    assert_eq!(group.count("by_qty", &(), &())?, 3);
    group.put(&[(4, 40), (3, 31)])?;
    group.put(&[(5, "many")])
}

fn main() -> Result<(), Fault> {
    let path = std::env::args().nth(1).expect("a path");
    let mut session = KeptSession::open(&path)?;
    session.run(b"table 16 1024 256 1 id:int qty:int\n")?;
    session.put(&[(1, 10), (2, 20)])?;

    // The calls of a group see its changes, and are kept by its commit.
    let mut group = session.group()?;
    move_qty(&mut group, 1, 2, 5)?;
    assert_eq!((qty(&mut group, 1)?, qty(&mut group, 2)?, group.sums("primary", 0, "qty", &(), &())?.next().expect("a sum").total), (5, 25, 30));
    assert_eq!(group.once(b"0123456789abcdef", b"batch\nups 1,add,qty,1\nend\nget 1\n")?.as_bytes(), b"batch 1\nrow 1,6\n");
    assert!(matches!(group.delete(&[(1, 2)]), Err(Fault::WrongLength { .. })));
    assert_eq!(group.run(b"table 16 1024 256 1 id:int\n")?.refused_count(), 1);
    group.commit()?;
    assert_eq!((qty(&mut session, 1)?, qty(&mut session, 2)?), (6, 25));
    assert_eq!(session.once(b"0123456789abcdef", b"batch\nups 1,add,qty,1\nend\nget 1\n")?.as_bytes(), b"batch 1\nrow 1,6\n");

    // One that is dropped is undone, and so is one that is rolled back, or forgotten.
    assert!(matches!(fail(&mut session), Err(Fault::WrongKind { .. })));
    assert!(matches!(session.count("by_qty", &(), &()), Err(Fault::Refused { .. })));
    let mut group = session.group()?;
    move_qty(&mut group, 2, 1, 7)?;
    group.roll_back()?;
    assert_eq!((session.count("primary", &(), &())?, qty(&mut session, 1)?, qty(&mut session, 2)?), (2, 6, 25));
    let mut group = session.group()?;
    group.delete(&[1, 2])?;
    std::mem::forget(group);
    assert_eq!((session.group().err(), session.checkpoint().err()), (Some(Fault::GroupOpen), Some(Fault::GroupOpen)));
    session.roll_back()?;
    assert_eq!(session.count("primary", &(), &())?, 2);

    let mut group = session.group()?;
    group.upsert(&1, &[Op::Add("qty", -5)])?;
    group.upsert(&2, &[Op::Add("qty", 5)])?;
    group.commit()?;
    session.checkpoint()?;
    assert_eq!((session.checkpoint_count(), session.checkpoint_fault()), (1, None));
    drop(session);
    let mut session = KeptSession::open(&path)?;
    assert_eq!((session.count("primary", &(), &())?, qty(&mut session, 1)?, qty(&mut session, 2)?), (2, 1, 30));
    Ok(())
}
