//! Work on many inputs, shared by some threads; what comes of it does not depend on them.

use std::ops::Range;
use std::panic::{catch_unwind, AssertUnwindSafe};
use std::sync::atomic::{AtomicU64, Ordering};
use std::sync::Mutex;

const THREADS: usize = 2;

/// What came of each input, by its number; nothing of a crash. Progress goes to standard error under this name.
pub fn spread<T: Send>(name: &str, inputs: u64, of: impl Fn(u64) -> T + Sync) -> Vec<Option<T>> {
    part(name, 0..inputs, inputs, of)
}

/// The same for a part of the inputs.
pub fn part<T: Send>(name: &str, own: Range<u64>, inputs: u64, of: impl Fn(u64) -> T + Sync) -> Vec<Option<T>> {
    let next = AtomicU64::new(own.start);
    let done = Mutex::new(Vec::new());
    // A crash is told as a difference, once, and not by every thread in its own words.
    let hook = std::panic::take_hook();
    std::panic::set_hook(Box::new(|_| {}));
    std::thread::scope(|scope| {
        for _ in 0..THREADS {
            scope.spawn(|| loop {
                let k = next.fetch_add(1, Ordering::Relaxed);
                if k >= own.end {
                    break;
                }
                if k > 0 && k % (inputs / 20).max(500) == 0 {
                    progress(&format!("{name}: {k} of {inputs}"));
                }
                let come = catch_unwind(AssertUnwindSafe(|| of(k))).ok();
                if let Ok(mut done) = done.lock() {
                    done.push((k, come));
                }
            });
        }
    });
    std::panic::set_hook(hook);
    let mut done = done.into_inner().unwrap_or_default();
    done.sort_by_key(|(k, _)| *k);
    done.into_iter().map(|(_, come)| come).collect()
}

/// A line to standard error; whether anybody reads it does not matter.
pub fn progress(line: &str) {
    use std::io::Write;
    let _ = writeln!(std::io::stderr(), "{line}");
}
