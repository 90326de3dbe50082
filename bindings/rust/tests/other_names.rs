//! A program that calls functions of its own by the names of those for memory, and whatever these do: no task asks by them.

use eevdf::{Queue, QueueMemory};
use std::ffi::c_void;
use std::process::abort;

const SLICE: u64 = 3_000_000;

#[no_mangle]
pub extern "C" fn eevdf_alloc() -> u64 {
    16
}

#[no_mangle]
pub extern "C" fn eevdf_dealloc(_: *mut c_void) {
    abort()
}

#[no_mangle]
pub extern "C" fn rattle_alloc() -> u64 {
    16
}

#[no_mangle]
pub extern "C" fn rattle_dealloc(_: *mut c_void) {
    abort()
}

#[test]
fn tasks_come_and_end() {
    let mut memory = QueueMemory::new();
    let mut queue = Queue::open(&mut memory);
    for task in 0..100 {
        queue.admit(task, 0, SLICE, 0).unwrap();
    }
    for task in 0..50 {
        queue.end(task).unwrap();
    }
    assert_eq!(queue.len(), 50);
}
