//! A thread with a stack deep enough for the deepest legal image: struo's
//! lowering recurses, and a usual stack overflows on some of them.

use std::cell::Cell;
use std::panic::resume_unwind;
use std::thread;

const STACK_BYTES: usize = 512 << 20;

thread_local! {
    static ON_BIG_STACK: Cell<bool> = const { Cell::new(false) };
}

/// Runs `work` on a stack of 512 MB. Calls inside `work` stay on that stack, so
/// a batch pays for one thread only. A panic goes on in the caller.
pub fn with_big_stack<T: Send>(work: impl FnOnce() -> T + Send) -> T {
    if ON_BIG_STACK.get() {
        return work();
    }
    thread::scope(|scope| {
        thread::Builder::new()
            .stack_size(STACK_BYTES)
            .spawn_scoped(scope, || {
                ON_BIG_STACK.set(true);
                work()
            })
            .expect("a thread can be started")
            .join()
            .unwrap_or_else(|payload| resume_unwind(payload))
    })
}
