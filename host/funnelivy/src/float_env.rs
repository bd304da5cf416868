//! The float environment of a call: rounding to nearest with ties to even,
//! subnormals kept, exceptions masked, as the scope document has it.
//!
//! A process may run in another one: linked with `-ffast-math` it starts with
//! subnormals taken for 0, and then the C interface's answers change. The static
//! library computes with SSE alone, so the register MXCSR is the whole of it; the
//! x87 control word does not matter.

use std::arch::asm;

/// MXCSR in the default environment, with no exception flag set.
pub const DEFAULT: u32 = 0x1f80;

/// The bits that say which exceptions happened. They change no answer.
const HAPPENED: u32 = 0x3f;

/// MXCSR of this thread.
#[must_use]
pub fn mxcsr() -> u32 {
    let mut bits = 0_u32;
    // SAFETY: writes the four bytes of `bits` and nothing else.
    unsafe { asm!("stmxcsr [{}]", in(reg) &raw mut bits, options(nostack, preserves_flags)) };
    bits
}

fn set_mxcsr(bits: u32) {
    // SAFETY: reads the four bytes of `bits`. Reserved bits, which would trap, are
    // set neither in DEFAULT nor in what `mxcsr` gave nor by who calls `with`.
    unsafe { asm!("ldmxcsr [{}]", in(reg) &raw const bits, options(nostack)) };
}

/// MXCSR as it was, to be restored: control, and which exceptions happened.
struct Kept(u32);

impl Drop for Kept {
    fn drop(&mut self) {
        if mxcsr() != self.0 {
            set_mxcsr(self.0);
        }
    }
}

/// Calls in the default environment and restores MXCSR as it was, which
/// exceptions happened included. For hosts that call [`crate::ffi`] themselves;
/// every other call of this package is made so.
pub fn with_default<R>(call: impl FnOnce() -> R) -> R {
    let kept = Kept(mxcsr());
    // Writing costs more than reading, so what is right is not written.
    if kept.0 & !HAPPENED != DEFAULT {
        set_mxcsr(DEFAULT);
    }
    call()
}

/// Calls with another MXCSR, so that tests can show what depends on it.
///
/// # Safety
/// No reserved bit of MXCSR is set. Rust takes the default environment for
/// granted, so `call` does no float operation in Rust.
pub unsafe fn with<R>(bits: u32, call: impl FnOnce() -> R) -> R {
    let _kept = Kept(mxcsr());
    set_mxcsr(bits);
    call()
}
