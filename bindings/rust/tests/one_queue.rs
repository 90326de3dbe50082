//! One queue: turns, sleeps, errors.

use eevdf::{Entry, Error, Hand, HandMemory, Queue, QueueMemory, Result, Sleeper};
use std::time::Duration;

const SLICE: u64 = 3_000_000;

/// The virtual runtime and the deadline, the nice level and the slice.
fn entry(entry: Result<Entry>) -> Result<(i64, i64, i64, u64)> {
    entry.map(|it| (it.vruntime, it.deadline, it.nice, it.slice_ns))
}

/// The lag, the nice level and the slice.
fn sleeper(sleeper: Result<Sleeper>) -> Result<(i64, i64, u64)> {
    sleeper.map(|it| (it.lag, it.nice, it.slice_ns))
}

#[test]
fn tasks_take_turns() {
    let mut memory = QueueMemory::new();
    let mut queue = Queue::open(&mut memory);
    for task in 0..3 {
        queue.admit(task, 0, SLICE, 0).unwrap();
    }
    let ran: Vec<_> = (0..6)
        .map(|_| {
            let task = queue.pick().unwrap();
            assert!(queue.tick(SLICE).unwrap());
            task
        })
        .collect();
    assert_eq!(ran, [0, 1, 2, 0, 1, 2]);
    assert_eq!((queue.len(), queue.load(), queue.floor_time()), (3, 3072, 6_000_000));
}

#[test]
fn a_sleeper_keeps_its_lag() {
    let mut memory = QueueMemory::new();
    let mut queue = Queue::open(&mut memory);
    queue.admit(0, 0, SLICE, 0).unwrap();
    queue.admit(1, 0, SLICE, 0).unwrap();
    assert_eq!(queue.pick(), Some(0));
    assert!(!queue.tick(2_000_000).unwrap());
    queue.sleep(0).unwrap();
    assert_eq!((queue.lag(0), queue.is_asleep(0), queue.running()), (Ok(-1_000_000), Ok(true), None));
    assert_eq!(sleeper(queue.sleeper(0)), Ok((-1_000_000, 0, SLICE)));
    assert_eq!(sleeper(queue.sleeper(1)), Err(Error::Absent));
    queue.wake(0).unwrap();
    assert_eq!(entry(queue.entry(0)), Ok((2_000_000, 5_000_000, 0, SLICE)));
    assert_eq!(queue.lag(0), Ok(-1_000_000));
}

#[test]
fn a_dozing_task_is_held_to_its_place() {
    let mut memory = QueueMemory::new();
    let mut queue = Queue::open(&mut memory);
    queue.admit(0, 0, SLICE, -5).unwrap();
    queue.admit(1, 0, SLICE, -5).unwrap();
    assert_eq!((queue.pick(), queue.tick(10 * SLICE)), (Some(0), Ok(true)));
    assert_eq!((queue.doze(1), queue.doze(eevdf::TASKS)), (Err(Error::Absent), Err(Error::Invalid)));
    assert_eq!(queue.doze(0), Ok(-6_000_000));
    assert_eq!((sleeper(queue.sleeper(0)), queue.place(0)), (Ok((0, 0, SLICE)), Ok(29_999_995)));
    assert_eq!((queue.place(1), queue.place(eevdf::TASKS)), (Err(Error::Absent), Err(Error::Invalid)));
    assert_eq!((queue.rebase(), queue.place(0)), (-5, Ok(30_000_000)));
    queue.wake(0).unwrap();
    assert_eq!((queue.entry(0).unwrap().vruntime, queue.place(0)), (30_000_000, Err(Error::Absent)));
}

#[test]
fn a_place_may_be_below_zero() {
    let mut memory = QueueMemory::new();
    let mut queue = Queue::open(&mut memory);
    queue.admit(0, 0, SLICE, -5).unwrap();
    queue.admit(1, 0, SLICE, -1).unwrap();
    queue.run(0).unwrap();
    assert_eq!((queue.doze(0), queue.place(0)), (Ok(2), Ok(-5)));
    queue.begin(0, 0, SLICE).unwrap();
    assert_eq!(queue.place(0), Err(Error::Absent));
}

#[test]
fn each_call_says_why_it_did_nothing() {
    let mut memory = QueueMemory::new();
    let mut queue = Queue::open(&mut memory);
    assert_eq!(queue.pick(), None);
    assert_eq!(queue.stop(), None);
    assert_eq!(queue.candidate(), None);
    assert_eq!(queue.tick(1), Err(Error::Absent));
    assert_eq!(queue.yield_now(), Err(Error::Absent));
    assert_eq!(queue.sleep(0), Err(Error::Absent));
    assert_eq!(queue.doze(0), Err(Error::Absent));
    assert_eq!(queue.wake(0), Err(Error::Absent));
    assert_eq!(queue.end(0), Err(Error::Absent));
    assert_eq!(queue.renice(0, 1), Err(Error::Absent));
    assert_eq!(queue.entry(eevdf::TASKS), Err(Error::Invalid));
    assert_eq!(queue.admit(0, 20, SLICE, 0), Err(Error::Invalid));
    assert_eq!(queue.admit(0, 0, SLICE, 1 << 60), Err(Error::Range));
    queue.admit(0, 0, SLICE, 0).unwrap();
    assert_eq!(queue.admit(0, 0, SLICE, 0), Err(Error::Present));
    assert_eq!(queue.wake(0), Err(Error::Present));
    assert_eq!(queue.can_place(0, SLICE, 6_000_001), Err(Error::Invalid));
    assert_eq!(queue.can_place(0, SLICE, 6_000_000), Ok(true));
    assert_eq!((queue.contains(0), queue.contains(1), queue.is_empty()), (Ok(true), Ok(false), false));
}

#[test]
fn all_other_calls_do_what_they_say() {
    let mut memory = QueueMemory::new();
    let mut queue = Queue::open(&mut memory);
    queue.admit(7, 0, SLICE, 5).unwrap();
    queue.admit(8, 0, SLICE, 5).unwrap();
    assert_eq!((queue.pick(), queue.running(), queue.candidate()), (Some(7), Some(7), Some(8)));
    queue.yield_now().unwrap();
    assert_eq!(queue.entry(7).unwrap().deadline, 6_000_005);
    queue.run(8).unwrap();
    assert_eq!((queue.run(9), queue.run(1024)), (Err(Error::Absent), Err(Error::Invalid)));
    assert_eq!((queue.running(), queue.candidate()), (Some(8), Some(7)));
    queue.run(7).unwrap();
    assert_eq!(queue.stop(), Some(7));
    assert_eq!(queue.running(), None);
    queue.renice(7, 5).unwrap();
    assert_eq!(queue.load(), 1024 + 335);
    queue.end(7).unwrap();
    assert_eq!(queue.len(), 1);
    assert_eq!(eevdf::version(), 8000);
}

#[test]
fn a_queue_and_an_error_print() {
    let mut memory = QueueMemory::new();
    let mut queue = Queue::open(&mut memory);
    queue.admit(7, 0, SLICE, 5).unwrap();
    assert_eq!(format!("{queue:?}"), "Queue { running: None, len: 1, load: 1024, floor_time: 5, .. }");
    let mut place = HandMemory::new();
    assert_eq!(format!("{:?}", Hand::open(&mut place)), "Hand { parcel: None, .. }");
    assert_eq!(Error::Absent.to_string(), "no such task here");
}

#[cfg(has_core_error)]
#[test]
fn an_error_is_one_of_the_language() {
    let error: Box<dyn core::error::Error> = Error::Busy.into();
    assert_eq!(error.to_string(), "the hand holds a task already");
}

#[test]
fn a_timer_needs_no_ticks() {
    let mut memory = QueueMemory::new();
    let mut queue = Queue::open(&mut memory);
    assert_eq!((queue.peek(), queue.time_to_resched()), (None, None));
    queue.admit(0, 0, SLICE, 0).unwrap();
    queue.admit(1, 0, SLICE, 0).unwrap();
    assert_eq!((queue.pick(), queue.peek(), queue.time_to_resched()), (Some(0), Some(0), Some(SLICE)));
    assert!(!queue.tick(SLICE - 1).unwrap());
    assert_eq!((queue.peek(), queue.running(), queue.time_to_resched()), (Some(1), Some(0), Some(1)));
    assert!(queue.tick(1).unwrap());
}

#[test]
fn a_slice_is_that_of_the_next_request() {
    let mut memory = QueueMemory::new();
    let mut queue = Queue::open(&mut memory);
    queue.admit(0, 0, SLICE, 0).unwrap();
    assert_eq!(queue.set_slice(0, 0), Err(Error::Invalid));
    assert_eq!(queue.set_slice(1, SLICE), Err(Error::Absent));
    queue.set_slice(0, 1_000_000).unwrap();
    assert_eq!(entry(queue.entry(0)), Ok((0, 3_000_000, 0, 1_000_000)));
    assert_eq!(queue.pick(), Some(0));
    assert!(queue.tick(SLICE).unwrap());
    assert_eq!(queue.entry(0).unwrap().deadline, 4_000_000);
}

#[test]
fn a_level_and_a_slice_change_together() {
    let mut memory = QueueMemory::new();
    let mut queue = Queue::open(&mut memory);
    queue.admit(0, 0, SLICE, 0).unwrap();
    assert_eq!(queue.set(0, 20, SLICE), Err(Error::Invalid));
    assert_eq!(queue.set(1, 5, SLICE), Err(Error::Absent));
    queue.set(0, 5, 1_000_000).unwrap();
    // the charge of 3 ms to the weight 335
    assert_eq!(entry(queue.entry(0)), Ok((0, 9_170_149, 5, 1_000_000)));
    queue.end(0).unwrap();
    queue.admit(2, 0, SLICE, (1 << 60) - SLICE as i64).unwrap();
    assert_eq!(queue.set(2, 19, 100_000), Err(Error::Range));
    assert_eq!((queue.entry(2).unwrap().nice, queue.entry(2).unwrap().slice_ns), (0, SLICE));
}

#[test]
fn a_sleeping_task_changes_and_begins_anew() {
    let mut memory = QueueMemory::new();
    let mut queue = Queue::open(&mut memory);
    queue.admit(0, 0, SLICE, 0).unwrap();
    queue.admit(1, 0, SLICE, 0).unwrap();
    assert_eq!(queue.pick(), Some(0));
    assert!(!queue.tick(2_000_000).unwrap());
    queue.sleep(0).unwrap();
    queue.set(0, 5, SLICE).unwrap();
    // -1000000 * 1024 / 335, rounded down
    assert_eq!(sleeper(queue.sleeper(0)), Ok((-3_056_717, 5, SLICE)));
    queue.set(0, 0, 100_000).unwrap();
    assert_eq!(sleeper(queue.sleeper(0)), Ok((-200_000, 0, 100_000)));
    assert_eq!(queue.begin(0, 0, 0), Err(Error::Invalid));
    assert_eq!(queue.begin(1, 3, SLICE), Err(Error::Present));
    assert_eq!(queue.begin(2, 3, SLICE), Err(Error::Absent));
    queue.begin(0, 3, SLICE).unwrap();
    assert_eq!(sleeper(queue.sleeper(0)), Ok((0, 3, SLICE)));
}

#[test]
fn a_queue_starts_from_time_zero_again() {
    let mut memory = QueueMemory::new();
    let mut queue = Queue::open(&mut memory);
    queue.admit(0, 0, SLICE, -5).unwrap();
    assert_eq!((queue.rebase(), queue.floor_time(), queue.rebase()), (-5, 0, 0));
    assert_eq!(entry(queue.entry(0)), Ok((0, 3_000_000, 0, SLICE)));
}

#[test]
fn a_queue_is_emptied_task_by_task() {
    let mut memory = QueueMemory::new();
    let mut queue = Queue::open(&mut memory);
    queue.admit(4, 0, SLICE, 0).unwrap();
    assert_eq!(queue.pick(), Some(4));
    queue.sleep(4).unwrap();
    queue.admit(5, 0, SLICE, 0).unwrap();
    queue.admit(6, 0, SLICE, 0).unwrap();
    let taken: Vec<_> = (0..4)
        .map(|_| {
            let mut place = HandMemory::new();
            let mut hand = Hand::open(&mut place);
            let taken = queue.take_any(&mut hand);
            assert_eq!(hand.task(), taken.ok());
            if taken.is_ok() {
                assert_eq!(queue.take_any(&mut hand), Err(Error::Busy));
            }
            taken
        })
        .collect();
    assert_eq!(taken, [Ok(5), Ok(6), Ok(4), Err(Error::Absent)]);
}

#[test]
fn a_time_is_a_number_or_a_duration() {
    let mut memory = QueueMemory::new();
    let mut queue = Queue::open(&mut memory);
    queue.admit(0, 0, Duration::from_millis(3), 0).unwrap();
    assert_eq!(queue.entry(0).unwrap().slice_ns, SLICE);
    assert_eq!(queue.can_place(0, Duration::from_millis(101), 0), Err(Error::Invalid));
    assert_eq!((queue.pick(), queue.duration_to_resched()), (Some(0), Some(Duration::from_millis(3))));
    assert_eq!(queue.tick(Duration::from_millis(2)), Ok(false));
    assert_eq!(queue.tick(Duration::MAX), Err(Error::Invalid));
    queue.set_slice(0, Duration::from_millis(1)).unwrap();
    queue.set(0, 0, Duration::from_millis(2)).unwrap();
    queue.sleep(0).unwrap();
    queue.begin(0, 0, Duration::from_millis(1)).unwrap();
    assert_eq!(queue.sleeper(0).unwrap().slice_ns, 1_000_000);
}

#[test]
fn a_charge_is_rounded_down() {
    let mut memory = QueueMemory::new();
    let mut queue = Queue::open(&mut memory);
    queue.admit(0, -20, SLICE, 0).unwrap();
    assert_eq!(queue.pick(), Some(0));
    for _ in 0..100 {
        assert_eq!(queue.tick(86), Ok(false));
    }
    assert_eq!(queue.entry(0).unwrap().vruntime, 0);
    assert_eq!(queue.tick(87), Ok(false));
    assert_eq!(queue.entry(0).unwrap().vruntime, 1);
}
