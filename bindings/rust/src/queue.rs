//! The run queue of one CPU.

use crate::calls;
use crate::check_library;
use crate::error::{checked, done, Result};
use crate::hand::Hand;
use crate::memory::{QueueMemory, TaskMemory};
use crate::nanoseconds::Nanoseconds;
use crate::TASKS;
use core::ffi::c_void;
use core::fmt;
use core::marker::PhantomData;
use core::ptr::{null_mut, NonNull};
use core::time::Duration;

#[cfg(feature = "alloc")]
use alloc::boxed::Box;

/// What a queue knows of a runnable task.
#[non_exhaustive]
#[repr(C)]
#[derive(Clone, Copy, PartialEq, Eq, Debug, Default)]
pub struct Entry {
    /// The virtual runtime.
    pub vruntime: i64,
    /// The virtual deadline.
    pub deadline: i64,
    /// The nice level.
    pub nice: i64,
    /// The slice in nanoseconds.
    pub slice_ns: u64,
}

/// What a queue keeps of a sleeping task.
#[non_exhaustive]
#[repr(C)]
#[derive(Clone, Copy, PartialEq, Eq, Debug, Default)]
pub struct Sleeper {
    /// The lag that it keeps.
    pub lag: i64,
    /// The nice level.
    pub nice: i64,
    /// The slice in nanoseconds.
    pub slice_ns: u64,
}

/// The run queue of one CPU, with the tasks that are runnable here and those that sleep here. Where it is dropped, all of them end.
///
/// An error changes nothing. Every call that takes the number of a task answers [`Error::Invalid`](crate::Error::Invalid) from
/// [`TASKS`](crate::TASKS) on; its comment names what else it may answer.
pub struct Queue<'a> {
    at: NonNull<c_void>,
    memory: Memory<'a>,
}

/// Whose the bytes of a queue are.
enum Memory<'a> {
    Borrowed(PhantomData<&'a mut QueueMemory>),
    /// They were in a box, which is made again where the queue is dropped: as long as there is a `Box`, no other pointer may lead there.
    #[cfg(feature = "alloc")]
    Boxed,
}

// SAFETY: the library has no data of its own, and no call keeps a pointer
unsafe impl Send for Queue<'_> {}

#[cfg(feature = "alloc")]
impl Queue<'static> {
    /// A queue without tasks, at the virtual time 0, in memory of its own.
    ///
    /// # Panics
    ///
    /// Where MAJOR or MINOR of the library that is linked, or the size of its queues, hands or bounds, isn't the crate's.
    pub fn boxed() -> Queue<'static> {
        check_library();
        let at = NonNull::from(Box::leak(Box::new(QueueMemory::new()))).cast();
        // SAFETY: it points to the bytes of a queue, which are given back where the queue is dropped
        unsafe { calls::eevdf_open(at.as_ptr()) };
        Queue { at, memory: Memory::Boxed }
    }
}

// SAFETY of all calls below: `at` points to a queue that was opened in bytes that are its own, or borrowed for as long as it lives, and who
// calls has borrowed it: alone where the call changes it, and else shared with callers of the same thread, since it isn't `Sync`.
impl<'a> Queue<'a> {
    /// A queue without tasks, at the virtual time 0.
    ///
    /// # Panics
    ///
    /// Where MAJOR or MINOR of the library that is linked, or the size of its queues, hands or bounds, isn't the crate's.
    pub fn open(memory: &'a mut QueueMemory) -> Queue<'a> {
        check_library();
        let at = NonNull::from(&mut memory.0).cast();
        unsafe { calls::eevdf_open(at.as_ptr()) };
        Queue { at, memory: Memory::Borrowed(PhantomData) }
    }

    /// Makes a new task runnable, with a fresh request, at the virtual runtime `start`; [`Queue::floor_time`] gives the start of one that
    /// comes later. `nice` is from -20 to 19, `slice` from 0.1 to 100 ms. Its memory is a box of its own.
    ///
    /// `Invalid`, `Present`, `NoMemory` where the allocator gives none, or `Range` where its deadline would leave the range.
    #[cfg(feature = "alloc")]
    pub fn admit(&mut self, task: u64, nice: i64, slice: impl Into<Nanoseconds>, start: i64) -> Result<()> {
        let memory = TaskMemory::boxed();
        // SAFETY: nobody else has it; where there is none the call says so, or what it says first
        let admitted = unsafe { self.admit_block(memory, task, nice, slice.into(), start) };
        if let (Err(_), Some(memory)) = (admitted, memory) {
            // SAFETY: it came out of a box, and the call hasn't taken it
            unsafe { TaskMemory::let_go(memory) };
        }
        admitted
    }

    /// Makes a new task runnable as `admit` does, in memory that the caller lends. On an error the caller has it as before.
    ///
    /// `Invalid`, `Present`, or `Range`.
    ///
    /// # Safety
    ///
    /// The memory is a [`TaskMemory`] that [`TaskMemory::new`] has made or a call has given back. Uninitialised bytes won't do: where a task
    /// ends, the crate reads there whether they are a box.
    ///
    /// Nobody else uses it until [`Queue::end_out`] or [`Hand::end_out`] gives it back, of whichever task and whichever queue or hand to
    /// which tasks of this one may go; or until all of these queues and hands are dropped. Where a task ends otherwise, as by
    /// [`Queue::end`], nobody is told whose memory isn't used any more.
    pub unsafe fn admit_in(
        &mut self,
        memory: NonNull<TaskMemory>,
        task: u64,
        nice: i64,
        slice: impl Into<Nanoseconds>,
        start: i64,
    ) -> Result<()> {
        // SAFETY: the caller lends it
        unsafe { self.admit_block(Some(memory), task, nice, slice.into(), start) }
    }

    /// # Safety
    ///
    /// As that of [`Queue::admit_in`], where there is memory.
    unsafe fn admit_block(
        &mut self,
        memory: Option<NonNull<TaskMemory>>,
        task: u64,
        nice: i64,
        slice: Nanoseconds,
        start: i64,
    ) -> Result<()> {
        let mut block = calls::Block { at: memory.map_or(null_mut(), TaskMemory::block) };
        done(unsafe { calls::eevdf_admit_in(self.at.as_ptr(), &mut block, task, nice, slice.0, start) })
    }

    /// The place of the queue, for a call that changes it.
    pub(crate) fn place_of_queue(&mut self) -> *mut c_void {
        self.at.as_ptr()
    }

    /// The same for one that reads it.
    pub(crate) fn shared_place(&self) -> *const c_void {
        self.at.as_ptr()
    }

    /// Lets the eligible task of earliest deadline run. `None` where nothing is runnable.
    pub fn pick(&mut self) -> Option<u64> {
        checked(unsafe { calls::eevdf_pick(self.at.as_ptr()) }).ok()
    }

    /// The task that a pick would let run now. Where it isn't the running one, that one is to be preempted. `None` where nothing is
    /// runnable.
    pub fn peek(&self) -> Option<u64> {
        checked(unsafe { calls::eevdf_peek(self.at.as_ptr()) }).ok()
    }

    /// Lets a runnable task run that no pick chose, as where a CPU begins with a task on it. Who ran before waits,
    /// if it is another.
    ///
    /// `Absent` where it sleeps here, or isn't here, and whoever ran runs on.
    pub fn run(&mut self, task: u64) -> Result<()> {
        done(unsafe { calls::eevdf_run(self.at.as_ptr(), task) })
    }

    /// Charges the running task for 1 ns to 1 s. Whether its request is used up, so that it is time to pick.
    ///
    /// `Invalid`, `Absent` where nobody runs, or `Range`.
    pub fn tick(&mut self, time: impl Into<Nanoseconds>) -> Result<bool> {
        checked(unsafe { calls::eevdf_tick(self.at.as_ptr(), time.into().0) }).map(|answer| answer == 1)
    }

    /// The shortest time in nanoseconds whose tick uses up the running task's request. A timer is set to it after each pick and after each
    /// charge, since charges round down.
    ///
    /// `None` where nobody runs, or where the longest tick, of a second, leaves some of the request. [`Queue::running`] tells the two apart;
    /// in the second case the timer is set to a second.
    pub fn time_to_resched(&self) -> Option<u64> {
        checked(unsafe { calls::eevdf_time_to_resched(self.at.as_ptr()) }).ok()
    }

    /// [`Queue::time_to_resched`] as a duration.
    pub fn duration_to_resched(&self) -> Option<Duration> {
        self.time_to_resched().map(Duration::from_nanos)
    }

    /// Makes the running task's deadline later by the charge of a slice. It runs on until the next pick. A rebase takes nothing of it back;
    /// a task that sleeps and wakes gets a fresh request.
    ///
    /// `Absent` where nobody runs, or `Range`.
    pub fn yield_now(&mut self) -> Result<()> {
        done(unsafe { calls::eevdf_yield(self.at.as_ptr()) })
    }

    /// Lets nobody run, and gives the task that ran and waits now.
    pub fn stop(&mut self) -> Option<u64> {
        checked(unsafe { calls::eevdf_stop(self.at.as_ptr()) }).ok()
    }

    /// The running task falls asleep here, with the lag that it has, cut to the charge of two slices to either side.
    ///
    /// `Absent` where it doesn't run here, but waits or sleeps, or isn't here.
    pub fn sleep(&mut self, task: u64) -> Result<()> {
        done(unsafe { calls::eevdf_sleep(self.at.as_ptr(), task) })
    }

    /// The running task falls asleep here and dozes: it keeps what it is owed of its lag, and nothing of what it owes, and is held to its
    /// place, the virtual runtime at which it leaves. Gives the lag with which it leaves. The place is lost where the task begins anew, ends,
    /// or goes into a hand.
    ///
    /// `Absent` where it doesn't run here, but waits or sleeps, or isn't here.
    pub fn doze(&mut self, task: u64) -> Result<i64> {
        let mut lag = 0;
        done(unsafe { calls::eevdf_doze(self.at.as_ptr(), task, &mut lag) })?;
        Ok(lag)
    }

    /// A task that sleeps here is runnable again, placed with the lag that it kept, or where it dozes at its place, if that is later.
    ///
    /// `Present` where it is runnable here, `Absent` where it isn't here, or `Range`, and then it sleeps on.
    pub fn wake(&mut self, task: u64) -> Result<()> {
        done(unsafe { calls::eevdf_wake(self.at.as_ptr(), task) })
    }

    /// Ends a task, whether it runs, waits or sleeps. Where its memory was lent, the caller isn't told whose is free now.
    ///
    /// `Absent` where it isn't here.
    pub fn end(&mut self, task: u64) -> Result<()> {
        let memory = self.end_out(task)?;
        // SAFETY: it came in a box or was lent, and no task is in it
        unsafe { TaskMemory::let_go(memory) };
        Ok(())
    }

    /// Ends a task as [`Queue::end`] does, and gives the caller memory in which a task was, which need not be that in which this one came.
    /// Where tasks have come both by `admit` and by [`Queue::admit_in`], it may be that of a box: it is freed where it is lent again and
    /// its task ends otherwise.
    ///
    /// `Absent` where it isn't here.
    #[must_use = "the memory is the caller's again"]
    pub fn end_out(&mut self, task: u64) -> Result<NonNull<TaskMemory>> {
        let mut block = calls::Block { at: null_mut() };
        done(unsafe { calls::eevdf_end_out(self.at.as_ptr(), &mut block, task) })?;
        // SAFETY: where the call has ended a task it has given its memory
        Ok(unsafe { NonNull::new_unchecked(block.at.cast()) })
    }

    /// Gives a runnable task another nice level, and rescales its lag.
    ///
    /// `Invalid`, `Absent` where it sleeps here, which [`Queue::set`] allows, or isn't here, or `Range`.
    pub fn renice(&mut self, task: u64, nice: i64) -> Result<()> {
        done(unsafe { calls::eevdf_renice(self.at.as_ptr(), task, nice) })
    }

    /// Gives a task another slice, from 0.1 to 100 ms, runnable or asleep. The request that stands keeps its deadline,
    /// and the lag that a sleeping task keeps is cut to its new limit.
    ///
    /// `Invalid`, or `Absent` where it isn't here.
    pub fn set_slice(&mut self, task: u64, slice: impl Into<Nanoseconds>) -> Result<()> {
        done(unsafe { calls::eevdf_set_slice(self.at.as_ptr(), task, slice.into().0) })
    }

    /// Gives a task another nice level and slice at once, runnable or asleep. A runnable one is placed anew as by [`Queue::renice`], and
    /// the request after the fresh one is of the new slice. The lag that a sleeping one keeps is rescaled, and cut to its new limit.
    ///
    /// `Invalid`, `Absent` where it isn't here, or `Range`, and then it keeps its nice level and its slice.
    pub fn set(&mut self, task: u64, nice: i64, slice: impl Into<Nanoseconds>) -> Result<()> {
        done(unsafe { calls::eevdf_set(self.at.as_ptr(), task, nice, slice.into().0) })
    }

    /// A task that sleeps here begins anew: it sleeps on with this nice level and slice, and with the lag 0.
    ///
    /// `Invalid`, `Present` where it is runnable here, or `Absent` where it isn't here.
    pub fn begin(&mut self, task: u64, nice: i64, slice: impl Into<Nanoseconds>) -> Result<()> {
        done(unsafe { calls::eevdf_begin(self.at.as_ptr(), task, nice, slice.into().0) })
    }

    /// Lowers all virtual times by one number, so that the virtual time is 0, and gives the number. Where a virtual time would leave its
    /// range, as no task within 2^59 of the time 0 can make it, or the sum of all such numbers 2^120 either way, nothing changes, and the
    /// number is 0; [`Queue::floor_time`] isn't 0 then.
    pub fn rebase(&mut self) -> i64 {
        let mut by = 0;
        unsafe { calls::eevdf_rebase(self.at.as_ptr(), &mut by) };
        by
    }

    /// Takes a task into the hand, with its lag, whether it runs, waits or sleeps.
    ///
    /// `Busy` where the hand holds a task, or `Absent` where the task isn't here.
    pub fn take(&mut self, hand: &mut Hand<'_>, task: u64) -> Result<()> {
        done(unsafe { calls::eevdf_take(self.at.as_ptr(), hand.place(), task) })
    }

    /// Takes some task into the hand, with its lag, and gives its number: the one that a pick would let run, or, where none is runnable,
    /// the sleeping one of lowest number.
    ///
    /// `Busy` where the hand holds a task, or `Absent` where no task is here.
    #[must_use = "it says which task is in the hand"]
    pub fn take_any(&mut self, hand: &mut Hand<'_>) -> Result<u64> {
        checked(unsafe { calls::eevdf_take_any(self.at.as_ptr(), hand.place()) })
    }

    /// Puts the task in the hand here: runnable, placed with its lag. On an error the hand keeps it.
    ///
    /// `Absent` where the hand is empty, `Present` where the number is here, or `Range`.
    #[must_use = "on an error the hand keeps the task, which ends where the hand is dropped"]
    pub fn put(&mut self, hand: &mut Hand<'_>) -> Result<()> {
        done(unsafe { calls::eevdf_put(self.at.as_ptr(), hand.place()) })
    }

    /// Puts the task in the hand to sleep here, with its lag. On an error the hand keeps it.
    ///
    /// `Absent` where the hand is empty, or `Present` where the number is here.
    #[must_use = "on an error the hand keeps the task, which ends where the hand is dropped"]
    pub fn put_asleep(&mut self, hand: &mut Hand<'_>) -> Result<()> {
        done(unsafe { calls::eevdf_put_asleep(self.at.as_ptr(), hand.place()) })
    }

    /// Pulls the candidate of another queue here, where that brings the two loads closer: where this load and its weight come to less than
    /// the other load. Gives its number. On an error both queues are as before.
    ///
    /// `Absent` where no task waits there, `Balanced` where the loads would come no closer, `Present` where its number is here, or `Range`.
    #[must_use = "it says which task has come here"]
    pub fn pull(&mut self, from: &mut Queue<'_>) -> Result<u64> {
        // SAFETY: they are two queues, since both are borrowed alone
        checked(unsafe { calls::eevdf_pull(self.at.as_ptr(), from.at.as_ptr()) })
    }

    /// Pulls as [`Queue::pull`] does, but the task that is named, and only if it waits there.
    ///
    /// `Absent` where it doesn't wait there, `Balanced` where the loads would come no closer, `Present` where its number is here, or
    /// `Range`.
    #[must_use = "it says whether the task has come here"]
    pub fn pull_task(&mut self, from: &mut Queue<'_>, task: u64) -> Result<u64> {
        // SAFETY: they are two queues, since both are borrowed alone
        checked(unsafe { calls::eevdf_pull_task(self.at.as_ptr(), from.at.as_ptr(), task) })
    }

    /// How many tasks are runnable, of which the running one is one.
    pub fn len(&self) -> u64 {
        checked(unsafe { calls::eevdf_len(self.at.as_ptr()) }).unwrap_or(0)
    }

    /// Whether no task is runnable. Tasks may sleep here all the same.
    pub fn is_empty(&self) -> bool {
        self.len() == 0
    }

    /// The sum of the runnable tasks' weights; nice level 0 weighs 1024.
    pub fn load(&self) -> u64 {
        checked(unsafe { calls::eevdf_load(self.at.as_ptr()) }).unwrap_or(0)
    }

    /// The virtual time, rounded down.
    pub fn floor_time(&self) -> i64 {
        let mut time = 0;
        unsafe { calls::eevdf_floor_time(self.at.as_ptr(), &mut time) };
        time
    }

    /// The running task.
    pub fn running(&self) -> Option<u64> {
        checked(unsafe { calls::eevdf_running(self.at.as_ptr()) }).ok()
    }

    /// The task that another CPU may pull: the waiting one of latest deadline. `None` where no task waits.
    pub fn candidate(&self) -> Option<u64> {
        checked(unsafe { calls::eevdf_candidate(self.at.as_ptr()) }).ok()
    }

    /// What the queue knows of a runnable task.
    ///
    /// `Absent` where it isn't runnable here.
    pub fn entry(&self, task: u64) -> Result<Entry> {
        let mut entry = Entry::default();
        done(unsafe { calls::eevdf_entry_of(self.at.as_ptr(), task, &mut entry) })?;
        Ok(entry)
    }

    /// What the queue keeps of a sleeping task.
    ///
    /// `Absent` where it doesn't sleep here.
    pub fn sleeper(&self, task: u64) -> Result<Sleeper> {
        let mut sleeper = Sleeper::default();
        done(unsafe { calls::eevdf_sleeper_of(self.at.as_ptr(), task, &mut sleeper) })?;
        Ok(sleeper)
    }

    /// The place of a task that dozes, in the virtual times of now.
    ///
    /// `Absent` where it doesn't doze here.
    pub fn place(&self, task: u64) -> Result<i128> {
        let mut place = calls::Place::default();
        done(unsafe { calls::eevdf_place_of(self.at.as_ptr(), task, &mut place) })?;
        Ok(i128::from(place.high) << 64 | i128::from(place.low))
    }

    /// The lag that a runnable task would keep if it left now, or that a sleeping one keeps.
    ///
    /// `Absent` where it isn't here.
    pub fn lag(&self, task: u64) -> Result<i64> {
        let mut lag = 0;
        done(unsafe { calls::eevdf_lag(self.at.as_ptr(), task, &mut lag) })?;
        Ok(lag)
    }

    /// Whether a task sleeps here.
    pub fn is_asleep(&self, task: u64) -> Result<bool> {
        checked(unsafe { calls::eevdf_is_asleep(self.at.as_ptr(), task) }).map(|answer| answer == 1)
    }

    /// Whether a task is here, runnable or asleep.
    pub fn contains(&self, task: u64) -> Result<bool> {
        checked(unsafe { calls::eevdf_contains(self.at.as_ptr(), task) }).map(|answer| answer == 1)
    }

    /// Whether a task of this nice level, slice and lag can be put here.
    ///
    /// `Invalid` where a number is out of its limits, or the lag is beyond the charge of two slices.
    pub fn can_place(&self, nice: i64, slice: impl Into<Nanoseconds>, lag: i64) -> Result<bool> {
        checked(unsafe { calls::eevdf_can_place(self.at.as_ptr(), nice, slice.into().0, lag) }).map(|answer| answer == 1)
    }
}

impl fmt::Debug for Queue<'_> {
    fn fmt(&self, f: &mut fmt::Formatter<'_>) -> fmt::Result {
        f.debug_struct("Queue")
            .field("running", &self.running())
            .field("len", &self.len())
            .field("load", &self.load())
            .field("floor_time", &self.floor_time())
            .finish_non_exhaustive()
    }
}

impl Drop for Queue<'_> {
    fn drop(&mut self) {
        // task by task, so that the library gives back nothing by itself
        for task in 0..TASKS {
            let _ = self.end(task);
        }
        unsafe { calls::eevdf_close(self.at.as_ptr()) };
        match self.memory {
            Memory::Borrowed(_) => {}
            // SAFETY: `boxed` took them out of a box, and nothing leads there any more
            #[cfg(feature = "alloc")]
            Memory::Boxed => drop(unsafe { Box::from_raw(self.at.cast::<QueueMemory>().as_ptr()) }),
        }
    }
}
