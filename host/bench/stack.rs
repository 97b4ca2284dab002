//! The stack of one call, by the painted stacks of `stack.c`.

use std::ffi::c_void;
use std::ptr;

extern "C" {
    fn stack_used(body: extern "C" fn(*mut c_void), argument: *mut c_void) -> usize;
}

extern "C" fn make_call(call: *mut c_void) {
    // `used_by` passes a reference that outlives the thread.
    let call = unsafe { &mut *call.cast::<&mut dyn FnMut() -> u32>() };
    call();
}

extern "C" fn do_nothing(_: *mut c_void) {}

/// What a thread that makes the call uses more than one that does nothing.
pub fn used_by(mut call: impl FnMut() -> u32) -> usize {
    let mut call: &mut dyn FnMut() -> u32 = &mut call;
    let argument: *mut &mut dyn FnMut() -> u32 = &mut call;
    let idle = unsafe { stack_used(do_nothing, ptr::null_mut()) };
    let busy = unsafe { stack_used(make_call, argument.cast()) };
    busy - idle
}
