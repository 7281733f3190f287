//! The cases of docs/RULES.md, section 11: P1 to P8 and those after them.
use totdb::{Db, NodeId, Refusal, Room, Semantics};

fn two() -> (Db, NodeId) {
    let mut db = Db::new(3, 9).unwrap();
    let (a, b) = (db.leaf(1).unwrap(), db.leaf(2).unwrap());
    let top = db.unit(a, b).unwrap();
    (db, top)
}

fn three(last: usize, words: usize) -> (Db, NodeId) {
    let mut db = Db::with_room(
        4,
        last,
        Room {
            words,
            ..Room::default()
        },
    )
    .unwrap();
    let leaves = [1, 2, 3].map(|x| db.leaf(x).unwrap());
    let low = db.unit(leaves[0], leaves[1]).unwrap();
    let top = db.unit(low, leaves[2]).unwrap();
    (db, top)
}

const P3: [i32; 17] = [-2, 4, 0, -1, 4, 0, -1, -2, 5, 0, -4, -3, 6, 0, -5, 6, 0];

#[test]
fn p1_p2_and_p1_again() {
    let (mut db, top) = two();
    assert_eq!(db.define_unweighted(top, 0, Semantics::IfAndOnlyIf), Ok(3));
    assert_eq!(db.words(), [-2, 3, 0, -1, 3, 0, 1, 2, -3, 0]);
    db.empty_clauses().unwrap();
    assert_eq!(db.define_unweighted(top, 1, Semantics::IfAndOnlyIf), Ok(4));
    assert_eq!(db.words(), [-1, -2, 4, 0, 1, -4, 0, 2, -4, 0]);
    db.empty_clauses().unwrap();
    assert_eq!(db.define_unweighted(top, 0, Semantics::IfAndOnlyIf), Ok(3));
    assert!(db.words().is_empty());
    assert_eq!(db.next_variable(), 5);
    assert!(db.check());
}

#[test]
fn p7_if_then_both() {
    let (mut db, top) = two();
    assert_eq!(db.define_unweighted(top, 0, Semantics::If), Ok(3));
    assert_eq!(db.words(), [-2, 3, 0, -1, 3, 0]);
    assert_eq!(db.define_unweighted(top, 0, Semantics::IfAndOnlyIf), Ok(3));
    assert_eq!(&db.words()[6..], [1, 2, -3, 0]);
}

#[test]
fn p3_and_p4() {
    let (mut db, top) = three(9, 99);
    assert_eq!(db.define_unweighted(top, 1, Semantics::If), Ok(6));
    assert_eq!(db.words(), P3);
    let (mut db, top) = three(9, 16);
    assert_eq!(
        db.define_unweighted(top, 1, Semantics::If),
        Err(Refusal::ClausesShort)
    );
    let (mut db, top) = three(9, 17);
    assert_eq!(db.define_unweighted(top, 1, Semantics::If), Ok(6));
    assert_eq!(db.words(), P3);
    let (mut db, top) = three(5, 16);
    assert_eq!(
        db.define_unweighted(top, 1, Semantics::If),
        Err(Refusal::VariablesOut)
    );
}

#[test]
fn p5() {
    let mut db = Db::new(3, 9).unwrap();
    let (a, b) = (db.leaf(1).unwrap(), db.leaf(2).unwrap());
    let top = db.inner(a, 3, b, 2).unwrap();
    assert_eq!(db.values(top), Ok(&[2, 3, 5][..]));
    assert_eq!(db.define_weighted(top, 5), Ok(3));
    assert_eq!(db.words(), [-1, -2, 3, 0]);
    assert_eq!(db.define_weighted(top, 3), Ok(4));
    assert_eq!(&db.words()[4..], [-1, 4, 0]);
    assert_eq!(db.define_weighted(top, 4), Err(Refusal::NoSuchOutput));
}

#[test]
fn p6() {
    let mut db = Db::new(2, 9).unwrap();
    let (a, b) = (db.dummy().unwrap(), db.leaf(1).unwrap());
    let top = db.unit(a, b).unwrap();
    assert_eq!(db.define_unweighted(top, 0, Semantics::IfAndOnlyIf), Ok(2));
    assert_eq!(db.words(), [-1, 2, 0, 1, -2, 0]);
}

#[test]
fn p8() {
    let mut db = Db::new(2, 9).unwrap();
    let a = db.leaf(1).unwrap();
    assert_eq!(db.leaf(1), Ok(a));
    let top = db.unit(a, a).unwrap();
    assert_eq!(db.define_unweighted(top, 1, Semantics::If), Ok(2));
    assert_eq!(db.words(), [-1, -1, 2, 0]);
}

#[test]
fn multipliers_and_depth() {
    let mut db = Db::new(3, 9).unwrap();
    let (a, b, none) = (
        db.leaf(1).unwrap(),
        db.leaf(2).unwrap(),
        db.dummy().unwrap(),
    );
    assert_eq!(db.inner(a, 2, b, 2), Err(Refusal::BadMultiplier));
    assert_eq!(db.inner(none, 2, none, 3), Err(Refusal::NoValue));
    assert!(db.inner(a, 65_535, b, 1).is_ok());
    assert_eq!(db.inner(a, 65_536, b, 1), Err(Refusal::BadMultiplier));
    let mut top = none;
    for _ in 2..=64 {
        top = db.unit(top, none).unwrap();
    }
    assert_eq!(db.unit(top, none), Err(Refusal::TooDeep));
}

#[test]
fn reserve_reset_and_value() {
    let (mut db, top) = three(9, 99);
    db.reserve_vars(top).unwrap();
    assert_eq!(db.next_variable(), 9);
    assert_eq!(db.define_unweighted(top, 1, Semantics::If), Ok(7));
    let made = db.words().len();
    db.reset().unwrap();
    assert_eq!(db.define_unweighted(top, 1, Semantics::If), Ok(7));
    assert_eq!(db.words()[..made], db.words()[made..]);
    assert_eq!(db.value(top, &[true, false, true]), Ok(2));
    assert_eq!(db.value(top, &[true, false]), Err(Refusal::BadAssignment));
    assert_eq!(db.clauses().count(), 10);
}
