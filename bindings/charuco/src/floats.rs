//! The caller's floating-point settings. The library's results need rounding to nearest, subnormal numbers and masked exceptions. A program that
//! was linked with `-ffast-math`, or a thread that set another rounding mode, has other settings.

use std::arch::asm;

#[cfg(not(all(
    target_arch = "x86_64",
    target_os = "linux",
    target_pointer_width = "64"
)))]
compile_error!("libcharuco.a is compiled for x86-64 Linux with pointers of 64 bits");

/// MXCSR at the start of a program.
static DEFAULT: u32 = 0x1F80;

/// A call, and its result afterwards.
struct Call<F> {
    ask: Option<F>,
    answer: u32,
}

extern "C" fn run<F: FnOnce() -> u32>(call: &mut Call<F>) {
    if let Some(ask) = call.ask.take() {
        call.answer = ask();
    }
}

/// Calls with the default settings, then restores MXCSR with its exception flags.
///
/// One assembly block sets, calls and restores: the compiler assumes that MXCSR is unchanged, and moves no float operation into or out of the call.
pub(crate) fn with_default<F: FnOnce() -> u32>(ask: F) -> u32 {
    let mut call = Call {
        ask: Some(ask),
        answer: 0,
    };
    let mut saved = 0_u32;
    // SAFETY: `run` is called with its one argument, on a stack that the compiler has aligned for a call, and does not unwind, as it is `extern "C"`.
    // r12 and r13 are callee-saved; both point to words that live until the block ends.
    unsafe {
        asm!(
            "stmxcsr dword ptr [r12]",
            "ldmxcsr dword ptr [r13]",
            "call {run}",
            "ldmxcsr dword ptr [r12]",
            run = in(reg) run::<F> as extern "C" fn(&mut Call<F>),
            in("rdi") &raw mut call,
            in("r12") &raw mut saved,
            in("r13") &raw const DEFAULT,
            clobber_abi("C"),
        );
    }
    call.answer
}
