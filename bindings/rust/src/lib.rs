//! Run queues under EEVDF (Earliest Eligible Virtual Deadline First): a safe type over a static library whose calls are proved. The
//! crate needs no `std` and no other crate.
//!
//! A [`Queue`] says which of its tasks runs next. Its caller says which tasks there are, how long the running one ran, and who sleeps,
//! wakes and ends:
//!
#![cfg_attr(feature = "alloc", doc = "```")]
#![cfg_attr(not(feature = "alloc"), doc = "```ignore")]
//! use eevdf::{Queue, QueueMemory};
//!
//! # fn main() -> eevdf::Result<()> {
//! let mut memory = QueueMemory::new();
//! let mut queue = Queue::open(&mut memory);
//! queue.admit(0, 0, 3_000_000, 0)?;
//! queue.admit(1, 0, 3_000_000, 0)?;
//! assert_eq!(queue.pick(), Some(0));
//! assert!(queue.tick(3_000_000)?); // its request is used up
//! assert_eq!(queue.pick(), Some(1));
//! # Ok(())
//! # }
//! ```
//!
//! # Memory
//!
//! A queue stands in a [`QueueMemory`] of its caller's, or with the feature `alloc` in a box of its own, by `Queue::boxed`. Where that lies
//! doesn't matter to it, and it stays there for as long as the `Queue` lives. Each task takes one block of memory, in `Queue::admit`. That
//! is a box of the program's allocator, which the feature `alloc` has, and which is on by default. Without the feature a caller lends the
//! memory of each task, by [`Queue::admit_in`].
//!
//! The library for C has calls that ask for memory by the names `eevdf_alloc` and `eevdf_dealloc`. The crate makes none of them, so nothing
//! depends on what a program calls so. With the feature `malloc` the two are over C's `malloc` and `free`, for C in the same program; else
//! they give none. C's own take their place as an object, as functions of Rust's, or in an archive that is linked as a whole.
//!
//! # In a kernel
//!
//! With the feature `kernel` the crate links the library for kernels, `libeevdf_kernel.a`, which uses no registers of floating point, in
//! the place of that for programs. It stands alone, so the feature `malloc` does nothing beside it.
//!
//! # How late a request can be
//!
//! A [`FairQueue`] is a queue that says at every moment how late its requests can be, and what its tasks lack of their shares of the CPU,
//! whatever ticks are made and whoever comes and goes.
//!
//! # Errors
//!
//! [`Error`] is a `core::error::Error` from Rust 1.81 on, where that is there.
//!
//! # Threads
//!
//! A queue can be sent to another thread, and not be used by two: `Queue` is `Send` and not `Sync`. Queues of several CPUs stand each in
//! a lock, and a task moves from one to the other in a [`Hand`], with one lock held at a time, or by [`Queue::pull`] under both.
//!
//! ```
//! fn is_send<T: Send>() {}
//! is_send::<eevdf::Queue<'static>>();
//! is_send::<eevdf::Hand<'static>>();
//! ```
//!
//! ```compile_fail,E0277
//! fn is_sync<T: Sync>() {}
//! is_sync::<eevdf::Queue<'static>>();
//! ```
//!
//! # Units
//!
//! Times are nanoseconds, given as such or as a `Duration` ([`Nanoseconds`]). Virtual times and lags are in units of which a task of nice level 0 ages one a nanosecond.

#![no_std]
#![deny(missing_docs)]
#![deny(unsafe_op_in_unsafe_fn)]

#[cfg(feature = "alloc")]
extern crate alloc;

use core::mem::size_of;

mod calls;
mod error;
mod fair_queue;
mod hand;
mod memory;
mod nanoseconds;
mod queue;

pub use error::{Error, Result};
pub use fair_queue::{FairQueue, ShareMark};
pub use hand::{Hand, Parcel};
pub use memory::{HandMemory, QueueMemory, TaskMemory};
pub use nanoseconds::Nanoseconds;
pub use queue::{Entry, Queue, Sleeper};

use memory::{BoundsMemory, SharesMemory};

/// The example of README.md, which is run as those of the pages are.
#[cfg(all(doctest, feature = "alloc"))]
#[doc = include_str!("../README.md")]
struct Readme;

/// The version of the library that the crate is written for.
const VERSION: i64 = 8000;

/// Of a version, the two numbers that say which programs run over it.
const fn series(version: i64) -> i64 {
    version / 1000
}

/// Sees that the library which is linked has the two numbers of [`VERSION`], since the structs are only of those, and that its queues,
/// hands, bounds and shares take as many bytes as they are given.
fn check_library() {
    assert_eq!(series(version()), series(VERSION), "libeevdf.a is of another MAJOR or MINOR than the crate eevdf");
    // SAFETY: the calls have no condition
    let sizes = unsafe { [calls::eevdf_queue_size(), calls::eevdf_hand_size(), calls::eevdf_bounds_size(), calls::eevdf_shares_size()] };
    let given = [size_of::<QueueMemory>(), size_of::<HandMemory>(), size_of::<BoundsMemory>(), size_of::<SharesMemory>()];
    assert_eq!(sizes, given.map(|size| size as i64), "libeevdf.a has queues, hands, bounds or shares of other sizes");
}

/// How many numbers there are for tasks, from 0 on.
pub const TASKS: u64 = 1024;

/// The version of the library that is linked: major * 1000000 + minor * 1000 + patch.
pub fn version() -> i64 {
    // SAFETY: the call has no condition
    unsafe { calls::eevdf_version() }
}
