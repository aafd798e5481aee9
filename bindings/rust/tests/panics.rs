//! The panics of the functions that return no `Result`: they name the place of the call that is at fault.

use std::panic::{self, UnwindSafe};
use std::sync::{Arc, Mutex};

use warpboulder::{analyze, analyze_integers, bitpack, CompressionLevel, MAX_CHUNK_ELEMENTS};

/// The file that a panic of `call` names. The hook is the whole program's, so that one test alone may set it.
fn file_of_panic(call: impl FnOnce() + UnwindSafe) -> String {
    let file = Arc::new(Mutex::new(String::new()));
    let seen = Arc::clone(&file);
    let before = panic::take_hook();
    panic::set_hook(Box::new(move |info| {
        *seen.lock().unwrap() = info.location().map_or(String::new(), |location| location.file().to_string());
    }));
    let outcome = panic::catch_unwind(call);
    panic::set_hook(before);
    assert!(outcome.is_err(), "the call did not panic");
    let file = file.lock().unwrap().clone();
    file
}

#[test]
fn a_panic_names_the_callers_file() {
    let too_long = vec![0; MAX_CHUNK_ELEMENTS + 1];
    let places = [
        file_of_panic(|| drop(analyze_integers(&too_long))),
        file_of_panic(|| {
            analyze(&too_long, CompressionLevel::BALANCED);
        }),
        file_of_panic(|| {
            bitpack::packed_len(1, 65);
        }),
    ];
    assert_eq!(places, [file!(); 3]);
}
