//! Two queues in locks of their own, and a task that moves between them in a hand.

use eevdf::{Error, Hand, HandMemory, Queue, QueueMemory};
use std::sync::Mutex;
use std::thread;

const SLICE: u64 = 3_000_000;

#[test]
fn a_task_moves_in_a_hand() {
    let (mut first, mut second, mut between) = (QueueMemory::new(), QueueMemory::new(), HandMemory::new());
    let (mut from, mut to) = (Queue::open(&mut first), Queue::open(&mut second));
    let mut hand = Hand::open(&mut between);
    assert_eq!(to.put(&mut hand), Err(Error::Absent));
    for task in 0..2 {
        from.admit(task, 0, SLICE, 0).unwrap();
    }
    from.take(&mut hand, 1).unwrap();
    assert_eq!(from.take(&mut hand, 0), Err(Error::Busy));
    assert_eq!((hand.task(), from.contains(1)), (Some(1), Ok(false)));
    let parcel = hand.parcel().unwrap();
    assert_eq!((parcel.task, parcel.nice, parcel.slice_ns, parcel.start, parcel.lag), (1, 0, SLICE, 0, 0));
    to.put(&mut hand).unwrap();
    assert_eq!((hand.task(), hand.parcel(), to.pick()), (None, None, Some(1)));
    to.take(&mut hand, 1).unwrap();
    from.put_asleep(&mut hand).unwrap();
    assert_eq!(from.is_asleep(1), Ok(true));
    from.take(&mut hand, 1).unwrap();
}

#[test]
fn a_task_comes_under_another_number() {
    let (mut first, mut second, mut between) = (QueueMemory::new(), QueueMemory::new(), HandMemory::new());
    let (mut from, mut to) = (Queue::open(&mut first), Queue::open(&mut second));
    let mut hand = Hand::open(&mut between);
    assert_eq!(hand.renumber(0), Err(Error::Absent));
    from.admit(0, 0, SLICE, 0).unwrap();
    to.admit(0, 5, SLICE, 0).unwrap();
    from.take(&mut hand, 0).unwrap();
    assert_eq!(to.put(&mut hand), Err(Error::Present));
    assert_eq!(hand.renumber(1024), Err(Error::Invalid));
    assert_eq!(hand.task(), Some(0));
    hand.renumber(1023).unwrap();
    to.put(&mut hand).unwrap();
    assert_eq!((to.entry(0).unwrap().nice, to.entry(1023).unwrap().nice), (5, 0));
    to.run(1023).unwrap();
    assert_eq!(to.running(), Some(1023));
}

#[test]
fn a_pull_levels_the_loads() {
    let (mut first, mut second) = (QueueMemory::new(), QueueMemory::new());
    let (mut from, mut to) = (Queue::open(&mut first), Queue::open(&mut second));
    assert_eq!(to.pull(&mut from), Err(Error::Absent));
    for task in 0..4 {
        from.admit(task, 0, SLICE, 0).unwrap();
    }
    assert_eq!(from.pick(), Some(0));
    assert_eq!(to.pull_task(&mut from, 0), Err(Error::Absent));
    assert_eq!(to.pull_task(&mut from, 1), Ok(1));
    assert_eq!(to.pull(&mut from), Ok(3));
    assert_eq!(to.pull(&mut from), Err(Error::Balanced));
    assert_eq!((from.load(), to.load()), (2048, 2048));
    from.admit(1, -5, SLICE, 0).unwrap();
    assert_eq!(to.pull_task(&mut from, 1), Err(Error::Balanced));
    from.admit(3, -15, SLICE, 0).unwrap();
    assert_eq!(to.pull_task(&mut from, 1), Err(Error::Present));
    assert_eq!(to.pull_task(&mut from, 1024), Err(Error::Invalid));
}

#[test]
fn threads_pull_from_each_other() {
    let mut memories = [QueueMemory::new(), QueueMemory::new()];
    let [first, second] = &mut memories;
    let queues = [Mutex::new(Queue::open(first)), Mutex::new(Queue::open(second))];
    for task in 0..16 {
        queues[0].lock().unwrap().admit(task, 0, SLICE, 0).unwrap();
    }
    thread::scope(|scope| {
        for own in 0..2 {
            let queues = &queues;
            scope.spawn(move || (0..1000).for_each(|_| pull(&queues[1 - own], &queues[own])));
        }
    });
    let lens: Vec<_> = queues.iter().map(|queue| queue.lock().unwrap().len()).collect();
    assert_eq!(lens[0] + lens[1], 16);
    for task in 0..16 {
        let places = queues.iter().filter(|queue| queue.lock().unwrap().contains(task).unwrap()).count();
        assert_eq!(places, 1, "task {task}");
    }
}

/// Moves the waiting task of latest deadline, with one lock held at a time.
fn pull(from: &Mutex<Queue<'_>>, to: &Mutex<Queue<'_>>) {
    let mut memory = HandMemory::new();
    let mut hand = Hand::open(&mut memory);
    {
        let mut from = from.lock().unwrap();
        match from.candidate() {
            Some(task) => from.take(&mut hand, task).unwrap(),
            None => return,
        }
    }
    to.lock().unwrap().put(&mut hand).unwrap();
}
