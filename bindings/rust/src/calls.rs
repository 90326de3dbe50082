//! The calls of eevdf.h, but for those that take memory by a name of the linker's, and those for a queue with bounds and no shares.

use crate::hand::Parcel;
use crate::queue::{Entry, Sleeper};
use core::ffi::c_void;

/// Memory for a task, or none, where it is null.
#[repr(C)]
pub struct Block {
    pub at: *mut c_void,
}

/// The place of a task that dozes, or a mark of its share, in two halves.
#[repr(C)]
#[derive(Clone, Copy, PartialEq, Eq, Debug, Default)]
pub struct Place {
    pub high: i64,
    pub low: u64,
}

extern "C" {
    pub fn eevdf_version() -> i64;
    pub fn eevdf_queue_size() -> i64;
    pub fn eevdf_hand_size() -> i64;
    pub fn eevdf_bounds_size() -> i64;
    pub fn eevdf_shares_size() -> i64;
    pub fn eevdf_open(queue: *mut c_void);
    pub fn eevdf_close(queue: *mut c_void);
    pub fn eevdf_admit_in(queue: *mut c_void, block: *mut Block, task: u64, nice: i64, slice_ns: u64, start: i64) -> i64;
    pub fn eevdf_pick(queue: *mut c_void) -> i64;
    pub fn eevdf_peek(queue: *const c_void) -> i64;
    pub fn eevdf_run(queue: *mut c_void, task: u64) -> i64;
    pub fn eevdf_tick(queue: *mut c_void, ns: u64) -> i64;
    pub fn eevdf_time_to_resched(queue: *const c_void) -> i64;
    pub fn eevdf_yield(queue: *mut c_void) -> i64;
    pub fn eevdf_stop(queue: *mut c_void) -> i64;
    pub fn eevdf_sleep(queue: *mut c_void, task: u64) -> i64;
    pub fn eevdf_doze(queue: *mut c_void, task: u64, lag: *mut i64) -> i64;
    pub fn eevdf_wake(queue: *mut c_void, task: u64) -> i64;
    pub fn eevdf_end_out(queue: *mut c_void, block: *mut Block, task: u64) -> i64;
    pub fn eevdf_renice(queue: *mut c_void, task: u64, nice: i64) -> i64;
    pub fn eevdf_set_slice(queue: *mut c_void, task: u64, slice_ns: u64) -> i64;
    pub fn eevdf_set(queue: *mut c_void, task: u64, nice: i64, slice_ns: u64) -> i64;
    pub fn eevdf_begin(queue: *mut c_void, task: u64, nice: i64, slice_ns: u64) -> i64;
    pub fn eevdf_rebase(queue: *mut c_void, by: *mut i64) -> i64;
    pub fn eevdf_hand_open(hand: *mut c_void);
    pub fn eevdf_hand_task(hand: *const c_void) -> i64;
    pub fn eevdf_hand_parcel(hand: *const c_void, out: *mut Parcel) -> i64;
    pub fn eevdf_hand_renumber(hand: *mut c_void, task: u64) -> i64;
    pub fn eevdf_hand_close(hand: *mut c_void);
    pub fn eevdf_hand_end_out(hand: *mut c_void, block: *mut Block) -> i64;
    pub fn eevdf_take(queue: *mut c_void, hand: *mut c_void, task: u64) -> i64;
    pub fn eevdf_take_any(queue: *mut c_void, hand: *mut c_void) -> i64;
    pub fn eevdf_put(queue: *mut c_void, hand: *mut c_void) -> i64;
    pub fn eevdf_put_asleep(queue: *mut c_void, hand: *mut c_void) -> i64;
    pub fn eevdf_pull(to: *mut c_void, from: *mut c_void) -> i64;
    pub fn eevdf_pull_task(to: *mut c_void, from: *mut c_void, task: u64) -> i64;
    pub fn eevdf_fair_open(bounds: *mut c_void);
    pub fn eevdf_fair_pick(bounds: *mut c_void, queue: *mut c_void) -> i64;
    pub fn eevdf_fair_run(bounds: *mut c_void, queue: *mut c_void, task: u64) -> i64;
    pub fn eevdf_fair_admit_in(
        bounds: *mut c_void,
        queue: *mut c_void,
        block: *mut Block,
        task: u64,
        nice: i64,
        slice_ns: u64,
        start: i64,
    ) -> i64;
    pub fn eevdf_fair_put(bounds: *mut c_void, queue: *mut c_void, hand: *mut c_void) -> i64;
    pub fn eevdf_fair_wake(bounds: *mut c_void, queue: *mut c_void, task: u64) -> i64;
    pub fn eevdf_fair_renice(bounds: *mut c_void, queue: *mut c_void, task: u64, nice: i64) -> i64;
    pub fn eevdf_fair_set(bounds: *mut c_void, queue: *mut c_void, task: u64, nice: i64, slice_ns: u64) -> i64;
    pub fn eevdf_fair_lateness_bound(bounds: *const c_void, queue: *const c_void) -> i64;
    pub fn eevdf_fair_lateness_bound_in_time(bounds: *const c_void, queue: *const c_void, ns: *mut i64) -> i64;
    pub fn eevdf_fair_lateness_bound_of(bounds: *const c_void, queue: *const c_void, task: u64, by: *mut i64) -> i64;
    pub fn eevdf_fair_share_open(shares: *mut c_void);
    pub fn eevdf_fair_share_tick(shares: *mut c_void, bounds: *mut c_void, queue: *mut c_void, ns: u64) -> i64;
    pub fn eevdf_fair_share_rebase(shares: *mut c_void, bounds: *mut c_void, queue: *mut c_void, by: *mut i64) -> i64;
    pub fn eevdf_fair_share_mark(shares: *const c_void, queue: *const c_void, task: u64, mark: *mut Place) -> i64;
    pub fn eevdf_fair_share_bound(shares: *const c_void, queue: *const c_void, task: u64, mark: *const Place, ns: *mut i64) -> i64;
    pub fn eevdf_len(queue: *const c_void) -> i64;
    pub fn eevdf_load(queue: *const c_void) -> i64;
    pub fn eevdf_floor_time(queue: *const c_void, time: *mut i64) -> i64;
    pub fn eevdf_running(queue: *const c_void) -> i64;
    pub fn eevdf_candidate(queue: *const c_void) -> i64;
    pub fn eevdf_entry_of(queue: *const c_void, task: u64, out: *mut Entry) -> i64;
    pub fn eevdf_sleeper_of(queue: *const c_void, task: u64, out: *mut Sleeper) -> i64;
    pub fn eevdf_place_of(queue: *const c_void, task: u64, out: *mut Place) -> i64;
    pub fn eevdf_lag(queue: *const c_void, task: u64, lag: *mut i64) -> i64;
    pub fn eevdf_is_asleep(queue: *const c_void, task: u64) -> i64;
    pub fn eevdf_contains(queue: *const c_void, task: u64) -> i64;
    pub fn eevdf_can_place(queue: *const c_void, nice: i64, slice_ns: u64, lag: i64) -> i64;
}
