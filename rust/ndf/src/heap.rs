//! The heap that the library asks for: the C library's.
use std::ffi::c_void;

#[repr(C)]
pub struct Block {
    ok: bool,
    at: *mut c_void,
}

extern "C" {
    fn malloc(size: usize) -> *mut c_void;
    fn realloc(at: *mut c_void, size: usize) -> *mut c_void;
    fn free(at: *mut c_void);
}

/// A block is never null, also if there is none.
fn block(at: *mut c_void) -> Block {
    let ok = !at.is_null();
    Block { ok, at: if ok { at } else { std::ptr::NonNull::dangling().as_ptr() } }
}

#[no_mangle]
extern "C" fn rattle_alloc(size: usize, align: usize) -> Block {
    // SAFETY: malloc takes each size, and a zero is never asked for.
    block(unsafe { malloc(if size == 0 { align } else { size }) })
}

#[no_mangle]
unsafe extern "C" fn rattle_realloc(at: *mut c_void, _old: usize, size: usize, align: usize) -> Block {
    block(realloc(at, if size == 0 { align } else { size }))
}

#[no_mangle]
unsafe extern "C" fn rattle_dealloc(at: *mut c_void) {
    free(at);
}
