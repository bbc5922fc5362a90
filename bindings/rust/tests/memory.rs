//! What calls on graphs and of tables return when memory runs out: the first request of each is refused.

#![cfg(target_env = "gnu")]

use conthiral::{BitMatrix, Graph, GraphError, Masks, Table, TableError};
use std::cell::Cell;
use std::ffi::c_void;
use std::ptr;

thread_local! {
    static REFUSED: Cell<bool> = const { Cell::new(false) };
}

extern "C" {
    fn __libc_malloc(size: usize) -> *mut c_void;
}

/// Stands in for that of the library of C, and refuses one request if asked to.
#[no_mangle]
extern "C" fn malloc(size: usize) -> *mut c_void {
    if REFUSED.replace(false) {
        return ptr::null_mut();
    }
    unsafe { __libc_malloc(size) }
}

/// Refuses the first request of the library. Zeros for results are asked of `calloc`.
fn refused<T>(call: impl FnOnce() -> T) -> T {
    REFUSED.set(true);
    let result = call();
    assert!(!REFUSED.replace(false), "nothing was asked for");
    result
}

#[test]
fn a_call_without_memory_changes_nothing() {
    let graph = Graph::from_edges(2, [(0, 1), (1, 1)]).unwrap();
    let own = BitMatrix::from_edges(2, [(0, 0), (1, 1)]);
    let mut sets = own.clone();
    assert_eq!(refused(|| graph.dominators(0)), Err(GraphError::Memory));
    assert_eq!(refused(|| graph.components()), Err(GraphError::Memory));
    assert_eq!(refused(|| graph.liveness(&own, &own)), Err(GraphError::Memory));
    assert_eq!(refused(|| graph.least(&mut sets, Masks::All)), Err(GraphError::Memory));
    assert_eq!(refused(|| graph.greatest(&mut sets, Masks::Keep(&own), Some(0))), Err(GraphError::Memory));
    assert_eq!(sets, own);
    assert_eq!(graph.components(), Ok((vec![1, 0], 2)));
}

#[test]
fn a_table_without_memory_is_refused() {
    assert_eq!(refused(|| Table::new("%% s: 'x';")).err(), Some(TableError::Memory));
    let table = Table::new("%% s: 'x';").unwrap();
    let tokens = [table.terminal("x").unwrap()];
    assert_eq!(refused(|| table.parse(&tokens)), Err(TableError::Memory));
    assert_eq!(table.parse(&tokens), Ok(vec![1]));
}
