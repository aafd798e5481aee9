//! Questions to the original. One that makes it panic has no answer, but the panic's message.

use std::cell::Cell;
use std::panic::{catch_unwind, set_hook, take_hook, AssertUnwindSafe};

thread_local! {
    static ASKING: Cell<bool> = const { Cell::new(false) };
}

/// From here on a panic in a question prints nothing; every other one prints what it always does.
pub fn keep_panics_quiet() {
    let usual = take_hook();
    set_hook(Box::new(move |panic| {
        if !ASKING.get() {
            usual(panic);
        }
    }));
}

pub fn ask<T>(question: impl FnOnce() -> T) -> Result<T, String> {
    ASKING.set(true);
    let answer = catch_unwind(AssertUnwindSafe(question));
    ASKING.set(false);
    answer.map_err(|panic| {
        let text = panic.downcast_ref::<String>().map(String::as_str);
        text.or(panic.downcast_ref::<&str>().copied()).unwrap_or("without a message").to_string()
    })
}
