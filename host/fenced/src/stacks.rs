//! Calls on a stack of so many bytes and no more.
//!
//! On x86-64 the stack pointer is moved to an address exactly so many bytes above
//! a fence, the call is made, and the pointer is moved back. Of these bytes the
//! way to the call takes some sixty. Elsewhere the call is made by a thread with
//! so much stack, which is less exact: the thread takes some for itself, and the
//! system makes a stack larger where it has a least size.

/// Makes the call on a stack of exactly so many bytes, rounded down to a
/// multiple of 16, and gives what it gives. A call that takes more is stopped
/// at the fence. It has to be a call that does not panic.
pub fn on_stack<R: Send>(bytes: usize, call: impl FnOnce() -> R + Send) -> R {
    let mut call = Some(call);
    let mut given = None;
    let mut once = || given = call.take().map(|call| call());
    make_on_stack(bytes, &mut once);
    given.expect("the call was made")
}

/// Makes a call whose words are all with the caller.
#[cfg(target_arch = "x86_64")]
fn make_on_stack(bytes: usize, mut call: &mut (dyn FnMut() + Send)) {
    use crate::field::Field;
    use std::arch::asm;

    let field = Field::with_space(bytes);
    let top = field.start().wrapping_add(bytes / 16 * 16);
    // SAFETY: the stack pointer is moved to memory that nobody else has, which
    // is aligned as a call wants it, and goes back to where it was: what is
    // called keeps r12, as the convention says, and does not leave by unwinding.
    unsafe {
        asm!(
            "mov r12, rsp",
            "mov rsp, {top}",
            "call {make}",
            "mov rsp, r12",
            top = in(reg) top,
            make = sym make,
            in("rdi") &raw mut call,
            out("r12") _,
            clobber_abi("C"),
        );
    }
}

/// Makes the call that stands there.
#[cfg(target_arch = "x86_64")]
unsafe extern "C" fn make(call: *mut &mut (dyn FnMut() + Send)) {
    // SAFETY: `make_on_stack` hands over a call that it has borrowed.
    unsafe { (*call)() }
}

/// Makes the call by a thread with so much stack beyond what it takes itself.
#[cfg(not(target_arch = "x86_64"))]
fn make_on_stack(bytes: usize, call: &mut (dyn FnMut() + Send)) {
    use std::thread;

    /// What a thread takes before it makes a call, and some more.
    const OF_THE_THREAD: usize = 16 * 1024;
    thread::scope(|scope| {
        let thread = thread::Builder::new().stack_size(bytes + OF_THE_THREAD);
        let thread = thread.spawn_scoped(scope, call);
        let thread = thread.expect("the system has a thread for the call");
        thread.join().expect("the call does not panic");
    });
}
