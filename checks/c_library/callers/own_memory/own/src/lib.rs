//! The two functions for memory, over Rust's allocator. Each says that it was called.

use std::alloc::{alloc, dealloc, Layout};
use std::ffi::c_void;

/// A task's block, with room to spare.
type Block = [u128; 16];

#[repr(C)]
pub struct Memory {
    ok: u64,
    block: *mut c_void,
}

#[no_mangle]
pub extern "C" fn eevdf_alloc(_size: usize, _align: usize) -> Memory {
    println!("own");
    // SAFETY: a block has bytes
    let block = unsafe { alloc(Layout::new::<Block>()) };
    assert!(!block.is_null());
    Memory { ok: 1, block: block.cast() }
}

/// # Safety
///
/// The block is one that `eevdf_alloc` gave, and that nobody uses any more.
#[no_mangle]
pub unsafe extern "C" fn eevdf_dealloc(block: *mut c_void) {
    println!("given back");
    // SAFETY: what the caller has to keep
    unsafe { dealloc(block.cast(), Layout::new::<Block>()) }
}
