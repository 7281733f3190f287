//! The calls of libtotdb.a, as include/totdb.h has them. A slice goes as a pointer and a length.
#![allow(clippy::too_many_arguments)]

macro_rules! calls {
    ($(fn $name:ident($($param:ident: $type:ty),* $(,)?);)*) => {
        extern "C" {
            $(pub fn $name($($param: $type),*) -> u32;)*
        }
    };
}

calls! {
    fn totdb_check(
        nodes: *const u32, nodes_len: usize, inputs: *const i32, inputs_len: usize, keys: *const u32, keys_len: usize,
        lits: *const i32, lits_len: usize, marks: *const u8, marks_len: usize, clauses: *const i32, clauses_len: usize,
        counters: *const [usize; 7],
    );
    fn totdb_fresh(counters: *mut [usize; 7], first: usize, last: usize);
    fn totdb_leaf(
        nodes: *mut u32, nodes_len: usize, inputs: *mut i32, inputs_len: usize, keys: *const u32, keys_len: usize,
        lits: *const i32, lits_len: usize, marks: *const u8, marks_len: usize, clauses: *const i32, clauses_len: usize,
        counters: *mut [usize; 7], x: i32, id: *mut usize,
    );
    fn totdb_dummy(
        nodes: *mut u32, nodes_len: usize, inputs: *const i32, inputs_len: usize, keys: *const u32, keys_len: usize,
        lits: *const i32, lits_len: usize, marks: *const u8, marks_len: usize, clauses: *const i32, clauses_len: usize,
        counters: *mut [usize; 7], id: *mut usize,
    );
    fn totdb_inner(
        nodes: *mut u32, nodes_len: usize, inputs: *const i32, inputs_len: usize, keys: *mut u32, keys_len: usize,
        lits: *mut i32, lits_len: usize, marks: *mut u8, marks_len: usize, clauses: *const i32, clauses_len: usize,
        counters: *mut [usize; 7], left: usize, left_multiplier: usize, right: usize, right_multiplier: usize, id: *mut usize,
    );
    fn totdb_define_unweighted(
        nodes: *const u32, nodes_len: usize, inputs: *const i32, inputs_len: usize, keys: *const u32, keys_len: usize,
        lits: *mut i32, lits_len: usize, marks: *mut u8, marks_len: usize, clauses: *mut i32, clauses_len: usize,
        ints: *mut i32, ints_len: usize, bytes: *mut u8, bytes_len: usize,
        counters: *mut [usize; 7], id: usize, i: usize, demand: u32, lit: *mut i32,
    );
    fn totdb_define_weighted(
        nodes: *const u32, nodes_len: usize, inputs: *const i32, inputs_len: usize, keys: *const u32, keys_len: usize,
        lits: *mut i32, lits_len: usize, marks: *mut u8, marks_len: usize, clauses: *mut i32, clauses_len: usize,
        ints: *mut i32, ints_len: usize, bytes: *mut u8, bytes_len: usize,
        counters: *mut [usize; 7], id: usize, v: usize, lit: *mut i32,
    );
    fn totdb_reserve_vars(
        nodes: *const u32, nodes_len: usize, inputs: *const i32, inputs_len: usize, keys: *const u32, keys_len: usize,
        lits: *mut i32, lits_len: usize, marks: *const u8, marks_len: usize, clauses: *const i32, clauses_len: usize,
        ints: *mut i32, ints_len: usize, bytes: *mut u8, bytes_len: usize,
        counters: *mut [usize; 7], id: usize,
    );
    fn totdb_value(
        nodes: *const u32, nodes_len: usize, inputs: *const i32, inputs_len: usize, keys: *const u32, keys_len: usize,
        lits: *const i32, lits_len: usize, marks: *const u8, marks_len: usize, clauses: *const i32, clauses_len: usize,
        ints: *mut i32, ints_len: usize, bytes: *mut u8, bytes_len: usize,
        counters: *const [usize; 7], id: usize, assignment: *const u8, assignment_len: usize, value: *mut usize,
    );
    fn totdb_reset(
        nodes: *const u32, nodes_len: usize, inputs: *const i32, inputs_len: usize, keys: *const u32, keys_len: usize,
        lits: *const i32, lits_len: usize, marks: *mut u8, marks_len: usize, clauses: *const i32, clauses_len: usize,
        counters: *mut [usize; 7],
    );
    fn totdb_empty_clauses(
        nodes: *const u32, nodes_len: usize, inputs: *const i32, inputs_len: usize, keys: *const u32, keys_len: usize,
        lits: *const i32, lits_len: usize, marks: *const u8, marks_len: usize, clauses: *const i32, clauses_len: usize,
        counters: *mut [usize; 7],
    );
}
