//! Interruption: after SIGINT or SIGTERM a flag is set, and the program ends in good order. A second signal ends it at once.
use std::sync::atomic::{AtomicBool, Ordering};

static INTERRUPTED: AtomicBool = AtomicBool::new(false);

/// Was the program interrupted?
pub fn interrupted() -> bool {
    INTERRUPTED.load(Ordering::Relaxed)
}

#[cfg(unix)]
pub fn listen() {
    use std::ffi::c_int;

    // The numbers that every Unix has for them.
    const SIGINT: c_int = 2;
    const SIGTERM: c_int = 15;

    extern "C" {
        /// The C library's. A handler is a function's address; 0 leaves a signal to what it does by itself, and 1 makes it do nothing. What it was before
        /// comes back.
        fn signal(number: c_int, handler: usize) -> usize;
    }

    extern "C" fn note(number: c_int) {
        INTERRUPTED.store(true, Ordering::Relaxed);
        // SAFETY: `signal` may be called in a handler.
        unsafe { signal(number, 0) };
    }

    let handler = note as extern "C" fn(c_int) as usize;
    for number in [SIGINT, SIGTERM] {
        // SAFETY: the handler has the type that C asks for, and does no more than a handler may.
        unsafe {
            // Who started the program may want the signal to do nothing.
            if signal(number, handler) == 1 {
                signal(number, 1);
            }
        }
    }
}

#[cfg(not(unix))]
pub fn listen() {}
