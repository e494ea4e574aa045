//! Processor time of two ways to do the same, measured in turn.

#[repr(C)]
struct Timespec {
    seconds: i64,
    nanoseconds: i64,
}

unsafe extern "C" {
    fn clock_gettime(clock: i32, time: *mut Timespec) -> i32;
}

const CLOCK_PROCESS_CPUTIME_ID: i32 = 2;

/// The processor time of this process so far, in nanoseconds.
fn processor_time() -> f64 {
    let mut time = Timespec { seconds: 0, nanoseconds: 0 };
    let answer = unsafe { clock_gettime(CLOCK_PROCESS_CPUTIME_ID, &mut time) };
    assert_eq!(answer, 0, "no clock of processor time");
    time.seconds as f64 * 1e9 + time.nanoseconds as f64
}

/// The processor time of some work.
pub fn timed(mut work: impl FnMut()) -> f64 {
    let start = processor_time();
    work();
    processor_time() - start
}

/// The least times of the verified library and of the twin, in nanoseconds.
#[derive(Clone, Copy)]
pub struct Times {
    pub verified: f64,
    pub twin: f64,
}

impl Times {
    /// How many times as long the verified library takes.
    pub fn ratio(&self) -> f64 {
        self.verified / self.twin
    }

    /// The columns of a table: both times in units of so many nanoseconds, and the ratio.
    pub fn columns(&self, unit: f64, width: usize, digits: usize) -> String {
        let (verified, twin) = (self.verified / unit, self.twin / unit);
        format!("{verified:width$.digits$} {twin:width$.digits$} {:5.2}", self.ratio())
    }

    /// The times of one of so many equal pieces.
    pub fn each(&self, pieces: usize) -> Times {
        Times { verified: self.verified / pieces as f64, twin: self.twin / pieces as f64 }
    }
}

/// Runs both in turn and keeps the least time of each. A first turn warms up and is not counted.
pub fn race(repeats: usize, mut verified: impl FnMut(), mut twin: impl FnMut()) -> Times {
    verified();
    twin();
    let mut least = Times { verified: f64::MAX, twin: f64::MAX };
    for _ in 0..repeats {
        least.verified = least.verified.min(timed(&mut verified));
        least.twin = least.twin.min(timed(&mut twin));
    }
    least
}
