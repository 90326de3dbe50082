//! A program whose functions for memory stand in another crate. It makes the calls of C, which ask for memory.

use eevdf::QueueMemory;
use own as _;

extern "C" {
    fn eevdf_open(queue: *mut QueueMemory);
    fn eevdf_admit(queue: *mut QueueMemory, task: u64, nice: i64, slice_ns: u64, start: i64) -> i64;
    fn eevdf_close(queue: *mut QueueMemory);
}

fn main() {
    let mut queue = QueueMemory::new();
    // SAFETY: nobody else uses the queue, which is opened first
    let answer = unsafe {
        eevdf_open(&mut queue);
        let answer = eevdf_admit(&mut queue, 0, 0, 3_000_000, 0);
        eevdf_close(&mut queue);
        answer
    };
    assert_eq!(answer, 0);
}
