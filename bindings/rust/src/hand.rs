//! A task on its way between two queues.

use crate::calls;
use crate::check_library;
use crate::error::{checked, done, Result};
use crate::memory::{HandMemory, TaskMemory};
use core::ffi::c_void;
use core::fmt;
use core::marker::PhantomData;
use core::ptr::{null_mut, NonNull};

/// What a task in a hand has.
#[non_exhaustive]
#[repr(C)]
#[derive(Clone, Copy, PartialEq, Eq, Debug, Default)]
pub struct Parcel {
    /// The number.
    pub task: u64,
    /// The nice level.
    pub nice: i64,
    /// The slice in nanoseconds.
    pub slice_ns: u64,
    /// The virtual runtime where it left; of one that slept, the virtual time there.
    pub start: i64,
    /// The lag.
    pub lag: i64,
}

/// A task on its way between two queues, or nothing. Where it is dropped, a task in it ends.
pub struct Hand<'a> {
    at: NonNull<c_void>,
    memory: PhantomData<&'a mut HandMemory>,
}

// SAFETY: the library has no data of its own, and no call keeps a pointer
unsafe impl Send for Hand<'_> {}

impl<'a> Hand<'a> {
    /// An empty hand.
    ///
    /// # Panics
    ///
    /// Where MAJOR or MINOR of the library that is linked, or the size of its queues, hands or bounds, isn't the crate's.
    pub fn open(memory: &'a mut HandMemory) -> Hand<'a> {
        check_library();
        let at = NonNull::from(&mut memory.0).cast();
        // SAFETY: it points to the bytes of a hand, which are borrowed for as long as the hand lives
        unsafe { calls::eevdf_hand_open(at.as_ptr()) };
        Hand { at, memory: PhantomData }
    }

    /// The task in the hand.
    pub fn task(&self) -> Option<u64> {
        // SAFETY: it points to an opened hand that is borrowed
        checked(unsafe { calls::eevdf_hand_task(self.at.as_ptr()) }).ok()
    }

    /// What the task in the hand has.
    pub fn parcel(&self) -> Option<Parcel> {
        let mut parcel = Parcel::default();
        // SAFETY: it points to an opened hand that is borrowed, and the parcel is written to alone
        done(unsafe { calls::eevdf_hand_parcel(self.at.as_ptr(), &mut parcel) }).ok()?;
        Some(parcel)
    }

    /// Gives the task in the hand another number, so that each queue can have 1024 tasks of its own.
    ///
    /// `Invalid`, or `Absent` where the hand is empty.
    pub fn renumber(&mut self, task: u64) -> Result<()> {
        // SAFETY: it points to an opened hand that is borrowed alone
        done(unsafe { calls::eevdf_hand_renumber(self.at.as_ptr(), task) })
    }

    /// Ends the task in the hand, and gives the caller memory in which a task was, as [`Queue::end_out`](crate::Queue::end_out) does.
    /// `None` where the hand is empty.
    #[must_use = "the memory is the caller's again"]
    pub fn end_out(&mut self) -> Option<NonNull<TaskMemory>> {
        let mut block = calls::Block { at: null_mut() };
        // SAFETY: it points to an opened hand that is borrowed alone, and the block is none
        done(unsafe { calls::eevdf_hand_end_out(self.at.as_ptr(), &mut block) }).ok()?;
        // where the call has ended a task it has given its memory
        NonNull::new(block.at.cast())
    }

    /// The place of the hand, for a call that changes it.
    pub(crate) fn place(&mut self) -> *mut c_void {
        self.at.as_ptr()
    }
}

impl fmt::Debug for Hand<'_> {
    fn fmt(&self, f: &mut fmt::Formatter<'_>) -> fmt::Result {
        f.debug_struct("Hand").field("parcel", &self.parcel()).finish_non_exhaustive()
    }
}

impl Drop for Hand<'_> {
    fn drop(&mut self) {
        if let Some(memory) = self.end_out() {
            // SAFETY: it came in a box or was lent, and no task is in it
            unsafe { TaskMemory::let_go(memory) };
        }
        // SAFETY: it points to an opened hand that nobody uses any more
        unsafe { calls::eevdf_hand_close(self.at.as_ptr()) };
    }
}
