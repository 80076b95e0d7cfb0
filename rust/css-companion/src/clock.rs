//! Clocks of Linux, where a pointer has 64 bits. They aren't proved.
use std::ffi::c_int;

const MONOTONIC: c_int = 1;
const BOOTTIME: c_int = 7;

#[repr(C)]
#[derive(Default)]
struct Time {
    seconds: i64,
    nanoseconds: i64,
}

extern "C" {
    fn clock_gettime(clock: c_int, time: *mut Time) -> c_int;
}

fn nanoseconds(clock: c_int) -> i64 {
    let mut time = Time::default();
    // SAFETY: the pointer is that of a value on this stack, of the form that the system writes.
    unsafe { clock_gettime(clock, &mut time) };
    time.seconds * 1_000_000_000 + time.nanoseconds
}

/// A reading of the own clock: nobody sets it, and it stands still while the machine sleeps.
pub fn reading() -> u64 {
    nanoseconds(MONOTONIC) as u64
}

/// Notices sleeps of the machine. Each companion has its own.
pub struct Sleep {
    /// The most that the machine has slept by the last look.
    most: i64,
}

impl Sleep {
    #[allow(clippy::new_without_default)]
    pub fn new() -> Sleep {
        Sleep { most: i64::MAX }
    }

    /// Whether the machine slept since the last look. Look before the calls of each turn, and say `slept` where it did.
    /// One clock goes on in a sleep and the other doesn't; their difference is signed.
    pub fn has_slept(&mut self) -> bool {
        let (before, boot, after) = (nanoseconds(MONOTONIC), nanoseconds(BOOTTIME), nanoseconds(MONOTONIC));
        let slept = boot - after > self.most;
        if slept || boot - before < self.most {
            self.most = boot - before;
        }
        slept
    }
}
