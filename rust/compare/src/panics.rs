//! Work that panics: what it says is caught, and not printed.

use std::any::Any;
use std::cell::Cell;
use std::panic::{AssertUnwindSafe, catch_unwind, set_hook, take_hook};
use std::sync::Once;

thread_local! {
    /// Whether a panic of this thread is caught here.
    static CAUGHT: Cell<bool> = const { Cell::new(false) };
}

/// What some work panics with; none where it does not panic.
pub fn said<T>(work: impl FnOnce() -> T) -> Option<String> {
    hush();
    CAUGHT.set(true);
    let gives = catch_unwind(AssertUnwindSafe(work));
    CAUGHT.set(false);
    gives.err().map(words)
}

/// Has every panic printed as before but for those that are caught here.
fn hush() {
    static ONCE: Once = Once::new();
    ONCE.call_once(|| {
        let print = take_hook();
        set_hook(Box::new(move |what| {
            if !CAUGHT.get() {
                print(what);
            }
        }));
    });
}

/// The words of a panic; no words where it has none.
fn words(what: Box<dyn Any + Send>) -> String {
    let fixed = what.downcast_ref::<&str>().map(|words| words.to_string());
    fixed.or_else(|| what.downcast_ref::<String>().cloned()).unwrap_or_default()
}
