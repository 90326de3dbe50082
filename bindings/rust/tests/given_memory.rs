//! Tasks in memory that the caller lends: the functions for memory are never called.

use eevdf::{Error, Hand, HandMemory, Queue, QueueMemory, TaskMemory};
use std::collections::BTreeSet;
use std::ffi::c_void;
use std::process::abort;
use std::ptr::NonNull;

const TASKS: u64 = 20;
const SLICE: u64 = 3_000_000;

#[repr(C)]
pub struct Memory {
    ok: u64,
    block: *mut c_void,
}

#[no_mangle]
pub extern "C" fn eevdf_alloc(_size: usize, _align: usize) -> Memory {
    abort()
}

#[no_mangle]
pub extern "C" fn eevdf_dealloc(_block: *mut c_void) {
    abort()
}

#[test]
fn each_task_gives_its_memory_back() {
    let mut memory = QueueMemory::new();
    let mut queue = Queue::open(&mut memory);
    let mut tasks: Vec<TaskMemory> = (0..TASKS).map(|_| TaskMemory::new()).collect();
    let blocks: Vec<NonNull<TaskMemory>> = tasks.iter_mut().map(NonNull::from).collect();
    for (task, &block) in (0..TASKS).zip(&blocks) {
        // SAFETY: nobody else uses it, and the task ends by `end_out`, of the queue or of a hand
        unsafe { queue.admit_in(block, task, task as i64 - 10, SLICE, 0) }.unwrap();
    }
    // SAFETY: it isn't taken, since the task is here
    assert_eq!(unsafe { queue.admit_in(blocks[0], 0, 0, SLICE, 0) }, Err(Error::Present));
    for _ in 0..100 {
        queue.pick().unwrap();
        queue.tick(SLICE).unwrap();
    }
    let mut hand_memory = HandMemory::new();
    let mut hand = Hand::open(&mut hand_memory);
    queue.take(&mut hand, 0).unwrap();
    let mut given_back: BTreeSet<_> = (1..TASKS).map(|task| queue.end_out(task).unwrap()).collect();
    given_back.insert(hand.end_out().unwrap());
    assert_eq!(given_back, blocks.into_iter().collect());
    assert_eq!(queue.end_out(0), Err(Error::Absent));
    assert_eq!(hand.end_out(), None);
    assert_eq!(hand.task(), None);
    assert!(queue.is_empty());
}

#[test]
fn a_queue_is_dropped_with_tasks_in_lent_memory() {
    let mut tasks: Vec<TaskMemory> = (0..TASKS).map(|_| TaskMemory::new()).collect();
    let mut memory = QueueMemory::new();
    let mut queue = Queue::open(&mut memory);
    for (task, lent) in (0..TASKS).zip(&mut tasks) {
        // SAFETY: nobody else uses it while the queue lives
        unsafe { queue.admit_in(NonNull::from(lent), task, 0, SLICE, 0) }.unwrap();
    }
    queue.end(3).unwrap();
    assert_eq!(queue.len(), TASKS - 1);
}
