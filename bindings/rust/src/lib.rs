//! A totalizer database: it makes the CNF clauses that count true literals ([`Db::define_unweighted`]) or add up their
//! weights ([`Db::define_weighted`]).
//!
//! The work is done by a library whose every call is proved to do what its document says, for any input; this crate owns the
//! rows that the calls are lent, and gives them the types that a Rust user expects.
//!
//! ```
//! use totdb::{Db, Semantics};
//!
//! # fn main() -> Result<(), totdb::Refusal> {
//! // the inputs are the variables 1 and 2; 3 to 9 may be taken for outputs
//! let mut db = Db::new(3, 9)?;
//! let a = db.leaf(1)?;
//! let b = db.leaf(2)?;
//! let both = db.unit(a, b)?;
//! // variable 3 is true exactly if at least one of them is
//! let some = db.define_unweighted(both, 0, Semantics::IfAndOnlyIf)?;
//! assert_eq!(some, 3);
//! let clauses: Vec<&[i32]> = db.clauses().collect();
//! assert_eq!(clauses, [&[-2, 3][..], &[-1, 3], &[1, 2, -3]]);
//! # Ok(())
//! # }
//! ```
mod ffi;
mod refusal;

pub use refusal::Refusal;

/// What an unweighted demand asks for: that the output is true if that many inputs are, only if, or both.
#[derive(Clone, Copy, Debug, PartialEq, Eq, Hash)]
pub enum Semantics {
    If,
    OnlyIf,
    IfAndOnlyIf,
}

impl Semantics {
    fn number(self) -> u32 {
        match self {
            Semantics::If => 1,
            Semantics::OnlyIf => 2,
            Semantics::IfAndOnlyIf => 3,
        }
    }
}

/// A node of a [`Db`], as the call that added it gave it back.
#[derive(Clone, Copy, Debug, PartialEq, Eq, PartialOrd, Ord, Hash)]
pub struct NodeId(pub usize);

/// How much a [`Db`] has room for. The default is the most that a table can have, and a million clause words.
#[derive(Clone, Copy, Debug, PartialEq, Eq)]
pub struct Room {
    pub nodes: usize,
    pub inputs: usize,
    pub cells: usize,
    pub words: usize,
}

impl Default for Room {
    fn default() -> Room {
        Room {
            nodes: NODE_LIMIT,
            inputs: NODE_LIMIT,
            cells: CELL_LIMIT,
            words: 1_000_000,
        }
    }
}

/// The most nodes that a table can have.
pub const NODE_LIMIT: usize = 4096;
/// The most cells (outputs of inner nodes) that a table can have.
pub const CELL_LIMIT: usize = 16384;
const NODE_WORDS: usize = 8;

const NEXT: usize = 1;
const NODES: usize = 3;
const INPUTS: usize = 4;
const CELLS: usize = 5;
const WORDS: usize = 6;

/// A table of nodes with the clauses made so far. It owns its rows, which never grow: see [`Room`].
///
/// Every call that gives `Err` has changed nothing.
#[derive(Clone, Debug)]
pub struct Db {
    nodes: Vec<u32>,
    inputs: Vec<i32>,
    keys: Vec<u32>,
    lits: Vec<i32>,
    marks: Vec<u8>,
    clauses: Vec<i32>,
    ints: Vec<i32>,
    bytes: Vec<u8>,
    counters: [usize; 7],
}

fn done(number: u32) -> Result<(), Refusal> {
    match Refusal::from_number(number) {
        None => Ok(()),
        Some(why) => Err(why),
    }
}

macro_rules! pointer {
    (read $row:expr) => {
        $row.as_ptr()
    };
    (write $row:expr) => {
        $row.as_mut_ptr()
    };
}

// A call over rows of a Db, in the order of include/totdb.h.
macro_rules! call {
    ($db:ident.$name:ident[$($kind:ident $row:ident),*]($($arg:expr),*)) => {
        // SAFETY: each row is a vector of its own, whose pointer is never null, is aligned, and is valid for its length; a row
        // that the call writes is borrowed from `&mut self`. The library keeps none of the pointers.
        done(unsafe { ffi::$name($(pointer!($kind $db.$row), $db.$row.len(),)* $($arg),*) })
    };
}

impl Db {
    /// A table without nodes: the inputs are the variables 1 to `first` - 1, and outputs take their variables from `first` to
    /// `last`. There is room for the largest table and a million clause words. Refused: 15.
    pub fn new(first: usize, last: usize) -> Result<Db, Refusal> {
        Db::with_room(first, last, Room::default())
    }

    /// The same with room of your own. Room beyond the limits of a table is not used.
    pub fn with_room(first: usize, last: usize, room: Room) -> Result<Db, Refusal> {
        let mut counters = [0; 7];
        // SAFETY: the call takes nothing but the seven counters.
        done(unsafe { ffi::totdb_fresh(&mut counters, first, last) })?;
        let work = room.cells.max(room.nodes);
        Ok(Db {
            nodes: vec![0; room.nodes * NODE_WORDS],
            inputs: vec![0; room.inputs],
            keys: vec![0; room.cells],
            lits: vec![0; room.cells],
            marks: vec![0; room.cells],
            clauses: vec![0; room.words],
            ints: vec![0; work],
            bytes: vec![0; work],
            counters,
        })
    }

    /// Whether the table passes the table check. It always does: the calls keep it.
    pub fn check(&self) -> bool {
        call!(self.totdb_check[read nodes, read inputs, read keys, read lits, read marks, read clauses](&self.counters)).is_ok()
    }

    /// A leaf with this literal (v, or -v for the negation of variable v). Where there is one already, the same id is given
    /// back. Refused: 6, 11.
    pub fn leaf(&mut self, literal: i32) -> Result<NodeId, Refusal> {
        let mut id = 0;
        call!(self.totdb_leaf[write nodes, write inputs, read keys, read lits, read marks, read clauses](
            &mut self.counters, literal, &mut id
        ))?;
        Ok(NodeId(id))
    }

    /// The dummy, a node without outputs and of value 0. There is at most one. Refused: 11.
    pub fn dummy(&mut self) -> Result<NodeId, Refusal> {
        let mut id = 0;
        call!(self.totdb_dummy[write nodes, read inputs, read keys, read lits, read marks, read clauses](
            &mut self.counters, &mut id
        ))?;
        Ok(NodeId(id))
    }

    /// A node whose value is `left` times its multiplier plus `right` times its multiplier. Where no child is general and the
    /// multipliers are equal they must both be 1, and the node is a unit; otherwise it is general. Refused: 4, 7, 8, 9, 10, 11.
    pub fn inner(
        &mut self,
        left: NodeId,
        left_multiplier: usize,
        right: NodeId,
        right_multiplier: usize,
    ) -> Result<NodeId, Refusal> {
        let mut id = 0;
        call!(self.totdb_inner[write nodes, read inputs, write keys, write lits, write marks, read clauses](
            &mut self.counters, left.0, left_multiplier, right.0, right_multiplier, &mut id
        ))?;
        Ok(NodeId(id))
    }

    /// A node that counts what is true below both: [`Db::inner`] with both multipliers 1.
    pub fn unit(&mut self, left: NodeId, right: NodeId) -> Result<NodeId, Refusal> {
        self.inner(left, 1, right, 1)
    }

    /// Demands output `index` of a leaf or unit, which stands for "at least `index` + 1 are true", and gives its literal. The
    /// clauses that are missing for it are appended; asked again it appends none. Refused: 4, 5, 1, 12, 13.
    pub fn define_unweighted(
        &mut self,
        node: NodeId,
        index: usize,
        semantics: Semantics,
    ) -> Result<i32, Refusal> {
        let mut lit = 0;
        call!(self.totdb_define_unweighted[
            read nodes, read inputs, read keys, write lits, write marks, write clauses, write ints, write bytes
        ](&mut self.counters, node.0, index, semantics.number(), &mut lit))?;
        Ok(lit)
    }

    /// Demands the output with this value, in the direction If: where what is below adds up to `value`, the literal given back
    /// is true. It is **not** "at least `value`": to cap a node at k, demand every one of its [`Db::values`] above k and
    /// forbid each. Refused: 4, 1, 12, 13.
    pub fn define_weighted(&mut self, node: NodeId, value: usize) -> Result<i32, Refusal> {
        let mut lit = 0;
        call!(self.totdb_define_weighted[
            read nodes, read inputs, read keys, write lits, write marks, write clauses, write ints, write bytes
        ](&mut self.counters, node.0, value, &mut lit))?;
        Ok(lit)
    }

    /// Gives a variable to every output without one of the node and of what is below it. Refused: 4, 12.
    pub fn reserve_vars(&mut self, node: NodeId) -> Result<(), Refusal> {
        call!(self.totdb_reserve_vars[
            read nodes, read inputs, read keys, write lits, read marks, read clauses, write ints, write bytes
        ](&mut self.counters, node.0))
    }

    /// The value of a node under an assignment: `assignment[v - 1]` is variable v. Refused: 4, 14.
    pub fn value(&mut self, node: NodeId, assignment: &[bool]) -> Result<usize, Refusal> {
        let mut value = 0;
        let bytes: Vec<u8> = assignment.iter().map(|&b| u8::from(b)).collect();
        call!(self.totdb_value[
            read nodes, read inputs, read keys, read lits, read marks, read clauses, write ints, write bytes
        ](&self.counters, node.0, bytes.as_ptr(), bytes.len(), &mut value))?;
        Ok(value)
    }

    /// Forgets which clauses have been made, and keeps the outputs' literals: for a new solver.
    pub fn reset(&mut self) -> Result<(), Refusal> {
        call!(self.totdb_reset[read nodes, read inputs, read keys, read lits, write marks, read clauses](&mut self.counters))
    }

    /// Drops the clauses, once they have been handed on. What has been made is not made again.
    pub fn empty_clauses(&mut self) -> Result<(), Refusal> {
        call!(self.totdb_empty_clauses[read nodes, read inputs, read keys, read lits, read marks, read clauses](
            &mut self.counters
        ))
    }

    /// The clauses, as words: the literals of each, then 0.
    pub fn words(&self) -> &[i32] {
        &self.clauses[..self.counters[WORDS]]
    }

    /// The clauses, one after the other.
    pub fn clauses(&self) -> impl Iterator<Item = &[i32]> {
        self.words()
            .split_inclusive(|&word| word == 0)
            .map(|clause| &clause[..clause.len() - 1])
    }

    /// The values that a node's outputs stand for, ascending: 1 for a leaf, none for the dummy, 1, 2, .. for a unit.
    pub fn values(&self, node: NodeId) -> Result<&[u32], Refusal> {
        if node.0 >= self.counters[NODES] {
            return Err(Refusal::NoSuchNode);
        }
        let words = &self.nodes[node.0 * NODE_WORDS..][..NODE_WORDS];
        Ok(match words[0] {
            0 => &[1],
            3 => &[],
            _ => &self.keys[words[5] as usize..][..words[6] as usize],
        })
    }

    /// The first variable that is not taken: variables below it may stand in clauses.
    pub fn next_variable(&self) -> usize {
        self.counters[NEXT]
    }

    /// How much is in use.
    pub fn used(&self) -> Room {
        Room {
            nodes: self.counters[NODES],
            inputs: self.counters[INPUTS],
            cells: self.counters[CELLS],
            words: self.counters[WORDS],
        }
    }
}
