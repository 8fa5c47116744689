//! What `speed` measures with: both sides by turns in one process, instructions counted by callgrind on runs of one side
//! alone, and the stack that a call takes.

use std::process::Command;

/// How often each side is measured, after one time that does not count.
const REPEATS: usize = 21;

/// Seconds of processor time that this thread has taken. Whoever else uses the machine is not in it.
pub fn clock() -> f64 {
    #[repr(C)]
    struct Time {
        seconds: i64,
        nanoseconds: i64,
    }
    extern "C" {
        fn clock_gettime(clock: i32, time: *mut Time) -> i32;
    }
    /// Linux's number of the clock of a thread.
    const OF_THREAD: i32 = 3;
    let mut time = Time { seconds: 0, nanoseconds: 0 };
    // SAFETY: the C library's own function, with room for what it writes.
    let told = unsafe { clock_gettime(OF_THREAD, &mut time) };
    assert_eq!(told, 0, "there is no clock of a thread");
    time.seconds as f64 + time.nanoseconds as f64 * 1e-9
}

#[derive(Clone, Copy, Debug, PartialEq, Eq)]
pub enum Side {
    Rust,
    Proved,
}

impl Side {
    pub const BOTH: [Side; 2] = [Side::Rust, Side::Proved];

    pub fn named(name: &str) -> Option<Side> {
        Side::BOTH.into_iter().find(|side| side.name() == name)
    }

    fn name(self) -> &'static str {
        match self {
            Side::Rust => "rust",
            Side::Proved => "proved",
        }
    }
}

/// Measurements in rising order.
pub struct Measured(Vec<f64>);

impl Measured {
    pub fn new(values: impl IntoIterator<Item = f64>) -> Measured {
        let mut values: Vec<f64> = values.into_iter().collect();
        values.sort_by(f64::total_cmp);
        Measured(values)
    }

    pub fn median(&self) -> f64 {
        self.0[self.0.len() / 2]
    }

    /// From the least to the greatest.
    pub fn spread(&self) -> String {
        format!("({} to {})", short(self.0[0]), short(self.0[self.0.len() - 1]))
    }

    /// The median with the spread.
    pub fn shown(&self) -> String {
        format!("{} {}", short(self.median()), self.spread())
    }
}

/// A number with as many decimals as it is small.
pub fn short(number: f64) -> String {
    let decimals = match number {
        ..10.0 => 2,
        ..100.0 => 1,
        _ => 0,
    };
    format!("{number:.decimals$}")
}

/// The Rust's and the library's measurements, the sides taking turns.
pub fn by_turns(mut of: impl FnMut(Side) -> Result<f64, String>) -> Result<Vec<[f64; 2]>, String> {
    let mut pairs = Vec::new();
    for _ in 0..=REPEATS {
        pairs.push([of(Side::Rust)?, of(Side::Proved)?]);
    }
    Ok(pairs.split_off(1))
}

/// Instructions of one time, of the Rust and of the library: a run with `many` times less one with `few`. The runs are
/// this program's, `speed --only SIDE WORK PLAN TIMES`.
pub fn instructions(work: &str, plan: &str, [few, many]: [usize; 2]) -> Result<[f64; 2], String> {
    let mut counts = [0.0; 2];
    for (side, count) in Side::BOTH.into_iter().zip(&mut counts) {
        let run = |times: usize| counted(&["speed", "--only", side.name(), work, plan, &times.to_string()]);
        *count = (run(many)? - run(few)?) / (many - few) as f64;
    }
    Ok(counts)
}

/// The instructions of this program with these arguments.
fn counted(arguments: &[&str]) -> Result<f64, String> {
    let own = std::env::current_exe().map_err(|why| why.to_string())?;
    let run = Command::new("valgrind")
        .args(["--tool=callgrind", "--callgrind-out-file=/dev/null"])
        .arg(own)
        .args(arguments)
        .output()
        .map_err(|why| format!("valgrind: {why}"))?;
    let said = String::from_utf8_lossy(&run.stderr);
    let count = said.lines().find_map(|line| line.split_once("Collected :")?.1.trim().parse().ok());
    count.ok_or_else(|| "valgrind says no count".to_string())
}

/// So much of a thread's stack is painted, and the thread has more.
const PAINTED: usize = 1 << 20;
const STACK: usize = 2 << 20;

/// What no call writes.
const PAINT: u64 = 0x6c61_766b_6b65_7374;

/// Bytes of stack that a call takes at its deepest. It runs in a thread of its own, whose stack is painted below it before;
/// what is no longer paint was used.
pub fn stack(call: impl FnOnce() + Send) -> Result<usize, String> {
    let measured = std::thread::scope(|scope| {
        let thread = std::thread::Builder::new().stack_size(STACK);
        let thread = thread.spawn_scoped(scope, || {
            let top = paint();
            call();
            used(top)
        });
        thread.map(|thread| thread.join())
    });
    match measured {
        Ok(Ok(bytes)) if bytes < PAINTED => Ok(bytes),
        Ok(_) => Err("a call took more stack than was painted".to_string()),
        Err(why) => Err(format!("no thread: {why}")),
    }
}

/// Paints from a little below its own frame on; where the paint begins.
#[inline(never)]
fn paint() -> usize {
    let here = 0u64;
    let top = (std::ptr::from_ref(&here) as usize - 256) & !7;
    for place in (top - PAINTED..top).step_by(8) {
        // SAFETY: the thread's stack goes farther down than this, and nothing lives there now.
        unsafe { std::ptr::write_volatile(place as *mut u64, PAINT) };
    }
    top
}

/// How far down from there something else than paint stands.
#[inline(never)]
fn used(top: usize) -> usize {
    // SAFETY: as above; it was written before.
    let changed = |place: &usize| unsafe { std::ptr::read_volatile(*place as *const u64) } != PAINT;
    (top - PAINTED..top).step_by(8).find(changed).map_or(0, |place| top - place)
}

#[cfg(test)]
mod tests {
    use super::*;

    #[test]
    fn a_call_takes_the_stack_that_it_takes() {
        let deep = |bytes: usize| {
            stack(move || {
                fn down(bytes: usize) -> u64 {
                    let room = std::hint::black_box([bytes as u64; 128]);
                    if bytes < 1_024 {
                        room[1]
                    } else {
                        down(bytes - 1_024) + std::hint::black_box(room)[0]
                    }
                }
                std::hint::black_box(down(std::hint::black_box(bytes)));
            })
        };
        let [few, many] = [10 << 10, 110 << 10].map(|bytes| deep(bytes).unwrap_or_else(|why| panic!("{why}")));
        assert!(few >= 10 << 10 && many >= few + (100 << 10), "{few} {many}");
        assert!(stack(|| {}).is_ok_and(|bytes| bytes < 4_096));
    }

    #[test]
    fn the_middle_and_both_ends_are_shown() {
        assert_eq!(Measured::new([30.0, 0.5, 2_000.0]).shown(), "30.0 (0.50 to 2000)");
    }
}
