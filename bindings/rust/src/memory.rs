//! The bytes that queues, hands and tasks stand in.

use core::ffi::c_void;
use core::mem::MaybeUninit;
use core::ptr::NonNull;

#[cfg(feature = "alloc")]
use alloc::{
    alloc::{alloc, Layout},
    boxed::Box,
};

/// The bytes of a queue, whatever it holds: 24688.
#[repr(C, align(16))]
pub struct QueueMemory(pub(crate) MaybeUninit<[u8; 24688]>);

/// The bytes of a hand: 16.
#[repr(C, align(16))]
pub struct HandMemory(pub(crate) MaybeUninit<[u8; 16]>);

/// The bytes of a queue's bounds: 40.
#[repr(C, align(8))]
pub(crate) struct BoundsMemory(pub(crate) MaybeUninit<[u8; 40]>);

/// The bytes of what a queue keeps of the shares of its tasks: 64.
#[repr(C, align(16))]
pub(crate) struct SharesMemory(pub(crate) MaybeUninit<[u8; 64]>);

/// The bytes of a task that comes by [`Queue::admit_in`](crate::Queue::admit_in): 152 for the library, and a word of the crate's that says
/// whether they are in a box of its own.
#[repr(C, align(8))]
pub struct TaskMemory {
    bytes: MaybeUninit<[u8; 152]>,
    is_boxed: bool,
}

impl TaskMemory {
    /// Bytes in which no task is.
    pub const fn new() -> TaskMemory {
        TaskMemory { bytes: MaybeUninit::uninit(), is_boxed: false }
    }

    /// Bytes in a box, or none where the allocator gives none. `let_go` frees them.
    #[cfg(feature = "alloc")]
    pub(crate) fn boxed() -> Option<NonNull<TaskMemory>> {
        // SAFETY: the layout isn't of no bytes
        let at = NonNull::new(unsafe { alloc(Layout::new::<TaskMemory>()) })?.cast::<TaskMemory>();
        // SAFETY: they are as large and as aligned as such memory, and nobody else's
        unsafe { at.as_ptr().write(TaskMemory { is_boxed: true, ..TaskMemory::new() }) };
        Some(at)
    }

    /// What the library calls the memory of a task.
    pub(crate) fn block(at: NonNull<TaskMemory>) -> *mut c_void {
        at.as_ptr().cast()
    }

    /// Frees memory that the library has given back, where it is in a box. Other memory is its owner's.
    ///
    /// # Safety
    ///
    /// `at` came from [`TaskMemory::boxed`] or from who lent it, and no task is in it.
    pub(crate) unsafe fn let_go(at: NonNull<TaskMemory>) {
        #[cfg(feature = "alloc")]
        // SAFETY: the library writes to the bytes alone, and whose word is set came out of a box
        if unsafe { (*at.as_ptr()).is_boxed } {
            drop(unsafe { Box::from_raw(at.as_ptr()) });
        }
        #[cfg(not(feature = "alloc"))]
        let _ = at;
    }
}

impl Default for TaskMemory {
    fn default() -> TaskMemory {
        TaskMemory::new()
    }
}

impl QueueMemory {
    /// Bytes in which no queue has been opened. They aren't written, so a `static` or a field of a large struct can be made of them.
    pub const fn new() -> QueueMemory {
        QueueMemory(MaybeUninit::uninit())
    }
}

impl HandMemory {
    /// Bytes in which no hand has been opened.
    pub const fn new() -> HandMemory {
        HandMemory(MaybeUninit::uninit())
    }
}

impl BoundsMemory {
    /// Bytes in which no bounds have been opened.
    pub(crate) const fn new() -> BoundsMemory {
        BoundsMemory(MaybeUninit::uninit())
    }
}

impl SharesMemory {
    /// Bytes in which no shares have been opened.
    pub(crate) const fn new() -> SharesMemory {
        SharesMemory(MaybeUninit::uninit())
    }
}

impl Default for QueueMemory {
    fn default() -> QueueMemory {
        QueueMemory::new()
    }
}

impl Default for HandMemory {
    fn default() -> HandMemory {
        HandMemory::new()
    }
}
