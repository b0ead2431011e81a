//! Panics of the Rust, caught and kept quiet: where it panics is part of what is compared.

use std::panic::{self, AssertUnwindSafe};

/// No panic writes to the terminal any more; the caught ones hand their text over.
pub fn hush() {
    panic::set_hook(Box::new(|_| {}));
}

/// The result of `run`, or the text of its panic.
pub fn caught<T>(run: impl FnOnce() -> T) -> Result<T, String> {
    panic::catch_unwind(AssertUnwindSafe(run)).map_err(|payload| {
        payload
            .downcast_ref::<&str>()
            .map(ToString::to_string)
            .or_else(|| payload.downcast_ref::<String>().cloned())
            .unwrap_or_else(|| String::from("a panic without a text"))
    })
}

/// Whether this build panics where a sum does not fit.
pub fn sums_are_checked() -> bool {
    let most = std::hint::black_box(u32::MAX);
    caught(|| std::hint::black_box(most + std::hint::black_box(1))).is_err()
}
