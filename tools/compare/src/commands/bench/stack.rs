//! How much stack a call uses: the stack below a thread's frame is painted, the call made, and the paint looked at.

use std::arch::asm;

/// How far down the paint goes.
const DEPTH: usize = 1 << 20;
/// What is left unpainted below the frame.
const NEAR: usize = 16;
/// The paint.
const PAINT: u64 = 0x5aa5_c33c_9669_0ff0;

/// The bytes of stack that a piece of work uses below its caller's frame.
pub fn used(work: impl FnMut() + Send + 'static) -> usize {
    let nothing = measured(|| {});
    measured(work).saturating_sub(nothing)
}

fn measured(mut work: impl FnMut() + Send + 'static) -> usize {
    let thread = std::thread::Builder::new().stack_size(2 * DEPTH);
    let thread = thread.spawn(move || painted(&mut work));
    thread.expect("a thread").join().expect("the work's end")
}

#[inline(never)]
fn painted(work: &mut dyn FnMut()) -> usize {
    let top: usize;
    // Only reads the stack pointer.
    unsafe { asm!("mov {}, rsp", out(reg) top, options(nomem, nostack)) };
    let high = (top - NEAR) & !7;
    let low = high - DEPTH;
    // The thread has twice the painted stack, and nothing lives below this frame but the calls made here.
    unsafe {
        let mut at = low;
        while at < high {
            (at as *mut u64).write_volatile(PAINT);
            at += 8;
        }
    }
    work();
    unsafe {
        let mut at = low;
        while at < high && (at as *const u64).read_volatile() == PAINT {
            at += 8;
        }
        top - at
    }
}
