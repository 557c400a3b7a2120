//! What the host tells when a call of the library is stopped by a signal, as by a byte out of range.

use std::cell::Cell;
use std::ffi::c_int;

/// SIGILL, SIGABRT, SIGBUS, SIGFPE and SIGSEGV.
const SIGNALS: [c_int; 5] = [4, 6, 7, 8, 11];

extern "C" {
    fn signal(number: c_int, handler: extern "C" fn(c_int)) -> usize;
    fn _exit(status: c_int) -> !;
}

/// What a thread is calling, in words that are made only when they are told.
pub trait Told {
    fn words(&self) -> String;
}

thread_local! {
    /// What this thread is calling.
    static CALLED: Cell<Option<*const dyn Told>> = const { Cell::new(None) };
}

/// Makes a call; if it is stopped by a signal, what was called is told.
pub fn during<T>(called: &dyn Told, call: impl FnOnce() -> T) -> T {
    // SAFETY: only the lifetime is dropped, and the pointer is gone before it ends.
    CALLED.set(Some(unsafe { std::mem::transmute::<&dyn Told, &'static dyn Told>(called) }));
    let result = call();
    CALLED.set(None);
    result
}

extern "C" fn stopped(number: c_int) {
    let text = match CALLED.get() {
        // SAFETY: this thread is inside `during`, which borrows what is called. The library holds no
        // lock and allocates nothing, so that the text can be made here.
        Some(called) => unsafe { &*called }.words(),
        None => "not in a call of the library".to_string(),
    };
    println!("rust host: WRONG: stopped by signal {number}: {text}");
    // SAFETY: it only ends the process.
    unsafe { _exit(1) }
}

/// From now on a signal is told as the last line of the run, whose status is then 1.
pub fn tell_signals() {
    for number in SIGNALS {
        // SAFETY: the handler never returns to what the signal has stopped.
        unsafe { signal(number, stopped) };
    }
}
