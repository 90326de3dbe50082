//! Queues that own their memory.

use eevdf::{Queue, QueueMemory};
use std::mem;
use std::thread;

const SLICE: u64 = 3_000_000;

/// What a scheduler keeps of a CPU, with no lifetime.
struct Cpu {
    queue: Queue<'static>,
}

/// Two tasks take turns.
fn take_turns(queue: &mut Queue<'_>, turns: u64) {
    for turn in 0..turns {
        assert_eq!(queue.pick(), Some(turn % 2));
        assert_eq!(queue.tick(SLICE), Ok(true));
    }
}

fn with_two_tasks() -> Cpu {
    let mut queue = Queue::boxed();
    queue.admit(0, 0, SLICE, 0).unwrap();
    queue.admit(1, 0, SLICE, 0).unwrap();
    Cpu { queue }
}

#[test]
fn it_is_moved_while_its_tasks_take_turns() {
    let mut cpus = vec![with_two_tasks()];
    for _ in 0..100 {
        take_turns(&mut cpus[0].queue, 10);
        // the list is moved to another place, and the queue with it
        cpus.push(with_two_tasks());
    }
    let last = cpus.remove(0);
    let handle = thread::spawn(move || {
        let mut cpu = last;
        take_turns(&mut cpu.queue, 10);
        cpu
    });
    assert_eq!(handle.join().unwrap().queue.len(), 2);
}

#[test]
fn it_stands_beside_a_queue_that_borrows() {
    let mut memory = QueueMemory::new();
    let mut borrowing = Queue::open(&mut memory);
    let mut owning = with_two_tasks().queue;
    take_turns(&mut owning, 4);
    mem::swap(&mut borrowing, &mut owning);
    take_turns(&mut borrowing, 4);
    assert!(owning.is_empty());
}
