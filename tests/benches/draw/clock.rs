//! The processor time of a thread, which other programs do not add to.

/// The clock of the calling thread's processor time (Linux: `CLOCK_THREAD_CPUTIME_ID`).
const THREAD_CLOCK: i32 = 3;

/// A time as the C library gives it (`struct timespec`, Linux on x86-64).
#[repr(C)]
struct Time {
    seconds: i64,
    nanoseconds: i64,
}

extern "C" {
    fn clock_gettime(clock: i32, time: *mut Time) -> i32;
}

/// The processor time of this thread in nanoseconds.
fn now() -> i64 {
    let mut time = Time {
        seconds: 0,
        nanoseconds: 0,
    };
    // SAFETY: the pointer is to a time that can be written.
    let status = unsafe { clock_gettime(THREAD_CLOCK, &mut time) };
    assert_eq!(status, 0, "the clock of the thread");
    time.seconds * 1_000_000_000 + time.nanoseconds
}

/// A clock that knows what reading it takes.
pub struct Clock {
    reading: i64,
}

impl Clock {
    /// A clock that has been read often enough.
    pub fn new() -> Clock {
        let reading = (0..1000).map(|_| -now() + now()).min();
        Clock {
            reading: reading.unwrap_or(0),
        }
    }

    /// The microseconds that a call takes, without those of reading the clock, and its answer.
    pub fn time<T>(&self, call: impl FnOnce() -> T) -> (f64, T) {
        let start = now();
        let answer = call();
        let time = now() - start - self.reading;
        (time as f64 / 1e3, answer)
    }
}
