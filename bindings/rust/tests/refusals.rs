//! Both kinds of refusal: an argument that is at fault, and lack of room. Neither changes anything.
use totdb::{Db, NodeId, Refusal, Room, Semantics};

const SMALL: Room = Room {
    nodes: 4,
    inputs: 2,
    cells: 3,
    words: 9,
};

fn small(last: usize) -> (Db, NodeId, NodeId) {
    let mut db = Db::with_room(4, last, SMALL).unwrap();
    let (a, b) = (db.leaf(1).unwrap(), db.leaf(-2).unwrap());
    (db, a, b)
}

/// All that can be seen of a database.
fn seen(db: &Db) -> String {
    format!("{:?} {:?} {}", db.used(), db.words(), db.next_variable())
}

#[test]
fn bad_arguments() {
    for (first, last) in [(0, 9), (11, 9), (1, 2_147_483_648)] {
        assert_eq!(Db::new(first, last).err(), Some(Refusal::BadVariables));
    }
    let (mut db, a, b) = small(9);
    let top = db.inner(a, 3, b, 2).unwrap();
    let before = seen(&db);
    for x in [0, i32::MIN, 4, -4] {
        assert_eq!(db.leaf(x), Err(Refusal::BadLiteral));
    }
    assert_eq!(db.unit(a, NodeId(3)), Err(Refusal::NoSuchNode));
    assert_eq!(db.inner(a, 0, b, 1), Err(Refusal::BadMultiplier));
    assert_eq!(
        db.define_unweighted(NodeId(9), 0, Semantics::If),
        Err(Refusal::NoSuchNode)
    );
    assert_eq!(
        db.define_unweighted(top, 0, Semantics::If),
        Err(Refusal::GeneralNode)
    );
    assert_eq!(
        db.define_unweighted(a, 1, Semantics::If),
        Err(Refusal::NoSuchOutput)
    );
    assert_eq!(db.define_weighted(top, 4), Err(Refusal::NoSuchOutput));
    assert_eq!(db.reserve_vars(NodeId(9)), Err(Refusal::NoSuchNode));
    assert_eq!(db.value(top, &[true]), Err(Refusal::BadAssignment));
    assert_eq!(db.values(NodeId(9)), Err(Refusal::NoSuchNode));
    assert_eq!(seen(&db), before);
    assert!(db.check());
}

#[test]
fn lack_of_room() {
    let (mut db, a, b) = small(9);
    assert_eq!(db.leaf(3), Err(Refusal::NoRoom));
    let low = db.unit(a, b).unwrap();
    assert_eq!(db.unit(low, a), Err(Refusal::NoRoom));
    let before = seen(&db);
    assert_eq!(
        db.define_unweighted(low, 0, Semantics::IfAndOnlyIf),
        Err(Refusal::ClausesShort)
    );
    assert_eq!(seen(&db), before);
    assert_eq!(db.define_unweighted(low, 0, Semantics::If), Ok(4));

    let (mut db, a, b) = small(3);
    let low = db.unit(a, b).unwrap();
    let before = seen(&db);
    assert_eq!(
        db.define_unweighted(low, 0, Semantics::If),
        Err(Refusal::VariablesOut)
    );
    assert_eq!(db.reserve_vars(low), Err(Refusal::VariablesOut));
    assert_eq!(seen(&db), before);
    assert!(Refusal::VariablesOut.is_lack_of_room() && !Refusal::BadLiteral.is_lack_of_room());
}

#[test]
fn a_key_above_the_limit() {
    let mut db = Db::new(3, 9).unwrap();
    let (a, b) = (db.leaf(1).unwrap(), db.leaf(2).unwrap());
    let low = db.inner(a, 65_535, b, 1).unwrap();
    assert_eq!(db.inner(low, 32_768, b, 1), Err(Refusal::KeyTooLarge));
    let top = db.inner(low, 32_767, b, 1).unwrap();
    assert_eq!(db.values(top).unwrap().last(), Some(&2_147_418_113));
}

#[test]
fn numbers() {
    for number in 1..=15 {
        assert_eq!(Refusal::from_number(number).unwrap().number(), number);
    }
    assert_eq!(Refusal::from_number(0), None);
    assert_eq!(Refusal::from_number(16), None);
}
