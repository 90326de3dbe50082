//! An allocator that counts the memory of tasks, and refuses it where it is told to.

use eevdf::{Error, Hand, HandMemory, Queue, QueueMemory, TaskMemory};
use std::alloc::{GlobalAlloc, Layout, System};
use std::ptr::null_mut;
use std::sync::atomic::{AtomicI64, AtomicU64, Ordering::SeqCst};

const SLICE: u64 = 3_000_000;

/// How many tasks have memory, and how many more are given some.
static USED: AtomicI64 = AtomicI64::new(0);
static LEFT: AtomicU64 = AtomicU64::new(0);

struct Counting;

// SAFETY: it is the system's, but for what is refused
unsafe impl GlobalAlloc for Counting {
    unsafe fn alloc(&self, layout: Layout) -> *mut u8 {
        if layout == Layout::new::<TaskMemory>() {
            if LEFT.fetch_update(SeqCst, SeqCst, |left| left.checked_sub(1)).is_err() {
                return null_mut();
            }
            USED.fetch_add(1, SeqCst);
        }
        unsafe { System.alloc(layout) }
    }

    unsafe fn dealloc(&self, at: *mut u8, layout: Layout) {
        if layout == Layout::new::<TaskMemory>() {
            USED.fetch_sub(1, SeqCst);
        }
        unsafe { System.dealloc(at, layout) }
    }
}

#[global_allocator]
static ALLOCATOR: Counting = Counting;

fn used() -> i64 {
    USED.load(SeqCst)
}

#[test]
fn each_task_has_memory_until_it_ends() {
    let mut memory = QueueMemory::new();
    let mut queue = Queue::open(&mut memory);
    LEFT.store(4, SeqCst);
    for task in 0..3 {
        assert_eq!(queue.admit(task, 0, SLICE, 0), Ok(()));
    }
    assert_eq!(queue.admit(3, 0, SLICE, 1 << 60), Err(Error::Range));
    assert_eq!(used(), 3);
    assert_eq!(queue.admit(3, 0, SLICE, 0), Err(Error::NoMemory));
    assert_eq!(queue.admit(3, 20, SLICE, 0), Err(Error::Invalid));
    assert_eq!(queue.admit(2, 0, SLICE, 0), Err(Error::Present));
    assert_eq!((queue.len(), used()), (3, 3));
    queue.end(0).unwrap();
    assert_eq!(used(), 2);
    assert_eq!(queue.end(0), Err(Error::Absent));
    let mut place = HandMemory::new();
    let mut hand = Hand::open(&mut place);
    queue.take(&mut hand, 2).unwrap();
    drop(hand);
    assert_eq!(used(), 1);
    queue.pick();
    queue.sleep(1).unwrap();
    drop(queue);
    assert_eq!(used(), 0);
}
