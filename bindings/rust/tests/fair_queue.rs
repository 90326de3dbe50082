//! A queue that says how late its requests can be: it answers as a queue does, and keeps its bounds.

use eevdf::{Error, FairQueue, Hand, HandMemory, Queue};

const MS: u64 = 1_000_000;

fn fair_queue() -> FairQueue<'static> {
    let mut queue = FairQueue::boxed();
    for task in 0..3 {
        queue.admit(task, 0, 3 * MS, 0).unwrap();
    }
    queue
}

#[test]
fn the_longest_turn_is_the_bound() {
    let mut queue = fair_queue();
    assert_eq!(queue.lateness_bound(), 0);
    assert_eq!(queue.pick(), Some(0));
    assert_eq!(queue.tick(2 * MS), Ok(false));
    assert_eq!(queue.tick(5 * MS), Ok(true));
    assert_eq!(queue.lateness_bound(), 7_000_000);
    assert_eq!(queue.lateness_bound_of(1), Ok(7_000_000));
    // three tasks of the weight 1024 take three nanoseconds for a unit
    assert_eq!(queue.lateness_bound_in_time(), Ok(21_000_000));
    assert_eq!(queue.pick(), Some(1));
    assert_eq!(queue.tick(3 * MS), Ok(true));
    assert_eq!(queue.lateness_bound(), 7_000_000);
}

#[test]
fn a_run_is_no_turn() {
    let mut queue = fair_queue();
    assert_eq!(queue.run(2), Ok(()));
    assert_eq!(queue.tick(9 * MS), Ok(true));
    // the deadline of the two others is at 3 ms, and the front at 9
    assert_eq!(queue.lateness_bound_of(0), Ok(6_000_000));
}

#[test]
fn a_task_that_waits_lacks_its_share() {
    let mut queue = fair_queue();
    let marks = [0, 1].map(|task| queue.share_mark(task).unwrap());
    assert_eq!(queue.pick(), Some(0));
    assert_eq!(queue.share_bound(1, marks[1]), Ok(0));
    assert_eq!(queue.tick(3 * MS), Ok(true));
    // of 3 ms each of three tasks has 1 ms, and task 0 had them all
    assert_eq!(queue.share_bound(1, marks[1]), Ok(1_000_000));
    assert_eq!(queue.share_bound(0, marks[0]), Ok(0));
    queue.end(2).unwrap();
    assert_eq!(queue.rebase(), 1_500_000);
    assert_eq!(queue.tick(2 * MS), Ok(false));
    // and of 2 ms each of two has 1 ms
    assert_eq!(queue.share_bound(1, marks[1]), Ok(2_000_000));
    let later = queue.share_mark(1).unwrap();
    assert_eq!(queue.share_bound(1, later), Ok(0));
    assert_eq!(queue.share_bound(2, marks[1]), Err(Error::Absent));
    assert_eq!(queue.share_mark(1024), Err(Error::Invalid));
}

#[test]
fn an_error_leaves_the_bounds() {
    let mut queue = fair_queue();
    queue.pick();
    queue.tick(4 * MS).unwrap();
    assert_eq!(queue.tick(0), Err(Error::Invalid));
    assert_eq!(queue.run(3), Err(Error::Absent));
    assert_eq!(queue.wake(1), Err(Error::Present));
    assert_eq!(queue.renice(3, 0), Err(Error::Absent));
    assert_eq!(queue.set(0, 20, 3 * MS), Err(Error::Invalid));
    assert_eq!(queue.admit(1, 0, 3 * MS, 0), Err(Error::Present));
    assert_eq!(queue.lateness_bound_of(3), Err(Error::Absent));
    assert_eq!(queue.lateness_bound(), 4_000_000);
}

#[test]
fn it_answers_as_a_queue_does() {
    let mut memory = HandMemory::new();
    let mut hand = Hand::open(&mut memory);
    let (mut fair, mut plain) = (fair_queue(), Queue::boxed());
    for task in 0..3 {
        plain.admit(task, 0, 3 * MS, 0).unwrap();
    }
    for turn in 0..100 {
        let picked = fair.pick();
        assert_eq!(picked, plain.pick());
        assert_eq!(fair.tick(1 + turn * 100_000), plain.tick(1 + turn * 100_000));
        let task = picked.unwrap();
        assert_eq!(fair.doze(task), plain.doze(task));
        assert_eq!(fair.wake(task), plain.wake(task));
        assert_eq!(fair.take(&mut hand, turn % 3), Ok(()));
        assert_eq!(fair.put(&mut hand), Ok(()));
        assert_eq!(plain.take(&mut hand, turn % 3), Ok(()));
        assert_eq!(plain.put(&mut hand), Ok(()));
        assert_eq!(fair.rebase(), plain.rebase());
        assert_eq!(fair.entry(task), plain.entry(task));
    }
}
