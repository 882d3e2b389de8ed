//! What the library takes memory by, over malloc, realloc and free.

use std::ffi::c_void;
use std::ptr::NonNull;

#[repr(C)]
pub struct Block {
    ok: bool,
    at: *mut c_void,
}

extern "C" {
    fn malloc(size: usize) -> *mut c_void;
    fn realloc(at: *mut c_void, size: usize) -> *mut c_void;
    fn free(at: *mut c_void);
}

fn block_of(at: *mut c_void) -> Block {
    let nowhere = NonNull::<c_void>::dangling().as_ptr();
    Block { ok: !at.is_null(), at: if at.is_null() { nowhere } else { at } }
}

#[no_mangle]
unsafe extern "C" fn rattle_alloc(size: usize, align: usize) -> Block {
    block_of(malloc(if size == 0 { align } else { size }))
}

#[no_mangle]
unsafe extern "C" fn rattle_realloc(at: *mut c_void, _kept: usize, size: usize, align: usize) -> Block {
    block_of(realloc(at, if size == 0 { align } else { size }))
}

#[no_mangle]
unsafe extern "C" fn rattle_dealloc(at: *mut c_void) {
    free(at);
}
