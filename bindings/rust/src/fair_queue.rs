//! A run queue that says how late its requests can be.

use crate::calls;
use crate::check_library;
use crate::error::{checked, done, Result};
use crate::hand::Hand;
use crate::memory::{BoundsMemory, QueueMemory, SharesMemory, TaskMemory};
use crate::nanoseconds::Nanoseconds;
use crate::queue::Queue;
use core::ffi::c_void;
use core::fmt;
use core::ops::Deref;
use core::ptr::{null_mut, NonNull};

/// A moment from which on the share of a task is told.
#[derive(Clone, Copy, PartialEq, Eq, Debug)]
pub struct ShareMark(calls::Place);

/// A [`Queue`] with bounds and shares beside it, which each of its calls keeps: how far its tasks can be past one another's deadlines, and
/// what they lack of their shares of the CPU. Each call does and answers what the queue's of the same name does; what is only read is read
/// of the queue.
///
/// ```
/// use eevdf::{FairQueue, QueueMemory, TaskMemory};
/// # use std::ptr::NonNull;
///
/// # fn main() -> eevdf::Result<()> {
/// # let mut tasks = [TaskMemory::new(), TaskMemory::new()];
/// # let [one, other] = &mut tasks;
/// let mut memory = QueueMemory::new();
/// let mut queue = FairQueue::open(&mut memory);
/// # // SAFETY: nobody else uses them, and they outlive the queue
/// # unsafe { queue.admit_in(NonNull::from(one), 0, 0, 3_000_000, 0)? };
/// # unsafe { queue.admit_in(NonNull::from(other), 1, 0, 3_000_000, 0)? };
/// // two tasks of nice level 0 have been admitted
/// assert_eq!(queue.pick(), Some(0));
/// queue.tick(5_000_000)?;
/// assert_eq!(queue.lateness_bound(), 5_000_000); // no request is later than the longest turn
/// # Ok(())
/// # }
/// ```
pub struct FairQueue<'a> {
    queue: Queue<'a>,
    bounds: BoundsMemory,
    shares: SharesMemory,
}

// SAFETY of all calls below: bounds and shares were opened, and are borrowed as the queue beside them is, of which they are no part.
impl<'a> FairQueue<'a> {
    /// A queue without tasks, at the virtual time 0.
    ///
    /// # Panics
    ///
    /// Where MAJOR or MINOR of the library that is linked, or the size of its queues, hands, bounds or shares, isn't the crate's.
    pub fn open(memory: &'a mut QueueMemory) -> FairQueue<'a> {
        FairQueue::beside(Queue::open(memory))
    }

    /// Fresh bounds and shares beside a queue in which nothing is runnable.
    fn beside(queue: Queue<'a>) -> FairQueue<'a> {
        check_library();
        let mut bounds = BoundsMemory::new();
        let mut shares = SharesMemory::new();
        unsafe { calls::eevdf_fair_open(bounds.0.as_mut_ptr().cast()) };
        unsafe { calls::eevdf_fair_share_open(shares.0.as_mut_ptr().cast()) };
        FairQueue { queue, bounds, shares }
    }

    /// Where the bounds stand, and where the queue, for a call that changes them. It borrows the shares too, so a pointer to these is taken
    /// after it.
    fn places(&mut self) -> (*mut c_void, *mut c_void) {
        (self.bounds.0.as_mut_ptr().cast(), self.queue.place_of_queue())
    }

    /// [`Queue::admit`].
    #[cfg(feature = "alloc")]
    pub fn admit(&mut self, task: u64, nice: i64, slice: impl Into<Nanoseconds>, start: i64) -> Result<()> {
        let memory = TaskMemory::boxed();
        // SAFETY: nobody else has it; where there is none the call says so, or what it says first
        let admitted = unsafe { self.admit_block(memory, task, nice, slice.into(), start) };
        if let (Err(_), Some(memory)) = (admitted, memory) {
            // SAFETY: it came out of a box, and the call hasn't taken it
            unsafe { TaskMemory::let_go(memory) };
        }
        admitted
    }

    /// [`Queue::admit_in`].
    ///
    /// # Safety
    ///
    /// As that of [`Queue::admit_in`].
    pub unsafe fn admit_in(
        &mut self,
        memory: NonNull<TaskMemory>,
        task: u64,
        nice: i64,
        slice: impl Into<Nanoseconds>,
        start: i64,
    ) -> Result<()> {
        // SAFETY: the caller lends it
        unsafe { self.admit_block(Some(memory), task, nice, slice.into(), start) }
    }

    /// # Safety
    ///
    /// As that of [`Queue::admit_in`], where there is memory.
    unsafe fn admit_block(
        &mut self,
        memory: Option<NonNull<TaskMemory>>,
        task: u64,
        nice: i64,
        slice: Nanoseconds,
        start: i64,
    ) -> Result<()> {
        let mut block = calls::Block { at: memory.map_or(null_mut(), TaskMemory::block) };
        let (bounds, queue) = self.places();
        done(unsafe { calls::eevdf_fair_admit_in(bounds, queue, &mut block, task, nice, slice.0, start) })
    }

    /// [`Queue::pick`]: the task has a turn from now on.
    pub fn pick(&mut self) -> Option<u64> {
        let (bounds, queue) = self.places();
        checked(unsafe { calls::eevdf_fair_pick(bounds, queue) }).ok()
    }

    /// [`Queue::run`]: what the task is charged until the next pick is no turn.
    pub fn run(&mut self, task: u64) -> Result<()> {
        let (bounds, queue) = self.places();
        done(unsafe { calls::eevdf_fair_run(bounds, queue, task) })
    }

    /// [`Queue::tick`]: the turn is longer by the charge, and each runnable task has its share of the time.
    pub fn tick(&mut self, time: impl Into<Nanoseconds>) -> Result<bool> {
        let (bounds, queue) = self.places();
        let shares = self.shares.0.as_mut_ptr().cast();
        checked(unsafe { calls::eevdf_fair_share_tick(shares, bounds, queue, time.into().0) }).map(|answer| answer == 1)
    }

    /// [`Queue::yield_now`].
    pub fn yield_now(&mut self) -> Result<()> {
        self.queue.yield_now()
    }

    /// [`Queue::stop`].
    pub fn stop(&mut self) -> Option<u64> {
        self.queue.stop()
    }

    /// [`Queue::sleep`].
    pub fn sleep(&mut self, task: u64) -> Result<()> {
        self.queue.sleep(task)
    }

    /// [`Queue::doze`].
    pub fn doze(&mut self, task: u64) -> Result<i64> {
        self.queue.doze(task)
    }

    /// [`Queue::wake`].
    pub fn wake(&mut self, task: u64) -> Result<()> {
        let (bounds, queue) = self.places();
        done(unsafe { calls::eevdf_fair_wake(bounds, queue, task) })
    }

    /// [`Queue::end`].
    pub fn end(&mut self, task: u64) -> Result<()> {
        self.queue.end(task)
    }

    /// [`Queue::end_out`].
    pub fn end_out(&mut self, task: u64) -> Result<NonNull<TaskMemory>> {
        self.queue.end_out(task)
    }

    /// [`Queue::renice`].
    pub fn renice(&mut self, task: u64, nice: i64) -> Result<()> {
        let (bounds, queue) = self.places();
        done(unsafe { calls::eevdf_fair_renice(bounds, queue, task, nice) })
    }

    /// [`Queue::set_slice`].
    pub fn set_slice(&mut self, task: u64, slice: impl Into<Nanoseconds>) -> Result<()> {
        self.queue.set_slice(task, slice)
    }

    /// [`Queue::set`].
    pub fn set(&mut self, task: u64, nice: i64, slice: impl Into<Nanoseconds>) -> Result<()> {
        let (bounds, queue) = self.places();
        done(unsafe { calls::eevdf_fair_set(bounds, queue, task, nice, slice.into().0) })
    }

    /// [`Queue::begin`].
    pub fn begin(&mut self, task: u64, nice: i64, slice: impl Into<Nanoseconds>) -> Result<()> {
        self.queue.begin(task, nice, slice)
    }

    /// [`Queue::rebase`], and lowers the bounds and the shares with the virtual times.
    pub fn rebase(&mut self) -> i64 {
        let mut by = 0;
        let (bounds, queue) = self.places();
        let shares = self.shares.0.as_mut_ptr().cast();
        unsafe { calls::eevdf_fair_share_rebase(shares, bounds, queue, &mut by) };
        by
    }

    /// [`Queue::take`].
    pub fn take(&mut self, hand: &mut Hand<'_>, task: u64) -> Result<()> {
        self.queue.take(hand, task)
    }

    /// [`Queue::take_any`].
    pub fn take_any(&mut self, hand: &mut Hand<'_>) -> Result<u64> {
        self.queue.take_any(hand)
    }

    /// [`Queue::put`].
    pub fn put(&mut self, hand: &mut Hand<'_>) -> Result<()> {
        let (bounds, queue) = self.places();
        done(unsafe { calls::eevdf_fair_put(bounds, queue, hand.place()) })
    }

    /// [`Queue::put_asleep`].
    pub fn put_asleep(&mut self, hand: &mut Hand<'_>) -> Result<()> {
        self.queue.put_asleep(hand)
    }

    /// By how much the virtual time can be past the deadline of any runnable task, at most: in virtual time, of which a CPU goes through
    /// `1024 * ns / load` in `ns` nanoseconds. 0 where nothing is runnable.
    pub fn lateness_bound(&self) -> i64 {
        unsafe { calls::eevdf_fair_lateness_bound(self.bounds.0.as_ptr().cast(), self.queue.shared_place()) }
    }

    /// The same in nanoseconds, rounded up: in so many a CPU goes through that virtual time, at the load that the queue has now. It isn't how
    /// long a request has been due: the load may have been another one meanwhile, and charges are rounded down.
    ///
    /// `Range`, where the number is 2^63 or more.
    pub fn lateness_bound_in_time(&self) -> Result<u64> {
        let mut ns = 0;
        let bounds = self.bounds.0.as_ptr().cast();
        done(unsafe { calls::eevdf_fair_lateness_bound_in_time(bounds, self.queue.shared_place(), &mut ns) })?;
        Ok(ns as u64)
    }

    /// By how much the virtual time can be past a task's own deadline, at most.
    ///
    /// `Invalid`, or `Absent` where it isn't runnable here.
    pub fn lateness_bound_of(&self, task: u64) -> Result<i64> {
        let mut by = 0;
        let bounds = self.bounds.0.as_ptr().cast();
        done(unsafe { calls::eevdf_fair_lateness_bound_of(bounds, self.queue.shared_place(), task, &mut by) })?;
        Ok(by)
    }

    /// Marks this moment for a task, which from now on has had nothing of its share of the CPU, and lacks nothing. It holds while the task
    /// stays runnable here and isn't placed anew: after a renice or a set, also to its own level, it is marked again.
    ///
    /// `Invalid`, or `Absent` where it isn't runnable here. `Range`, where the shares have left their range.
    pub fn share_mark(&self, task: u64) -> Result<ShareMark> {
        let mut mark = calls::Place::default();
        let shares = self.shares.0.as_ptr().cast();
        done(unsafe { calls::eevdf_fair_share_mark(shares, self.queue.shared_place(), task, &mut mark) })?;
        Ok(ShareMark(mark))
    }

    /// How many nanoseconds a task lacks of its share of the CPU since a mark, at most. Its share of each nanosecond that was charged is its
    /// weight over the load of then.
    ///
    /// `Invalid`, or `Absent` where it isn't runnable here. `Range`, where the shares, the mark or the number is out of range.
    pub fn share_bound(&self, task: u64, mark: ShareMark) -> Result<u64> {
        let mut ns = 0;
        let shares = self.shares.0.as_ptr().cast();
        done(unsafe { calls::eevdf_fair_share_bound(shares, self.queue.shared_place(), task, &mark.0, &mut ns) })?;
        // what is answered isn't below 0
        Ok(ns as u64)
    }
}

#[cfg(feature = "alloc")]
impl FairQueue<'static> {
    /// A queue without tasks, at the virtual time 0, in memory of its own.
    ///
    /// # Panics
    ///
    /// As [`FairQueue::open`].
    pub fn boxed() -> FairQueue<'static> {
        FairQueue::beside(Queue::boxed())
    }
}

/// What is read of the queue.
impl<'a> Deref for FairQueue<'a> {
    type Target = Queue<'a>;

    fn deref(&self) -> &Queue<'a> {
        &self.queue
    }
}

impl fmt::Debug for FairQueue<'_> {
    fn fmt(&self, f: &mut fmt::Formatter<'_>) -> fmt::Result {
        f.debug_struct("FairQueue").field("queue", &self.queue).field("lateness_bound", &self.lateness_bound()).finish()
    }
}
