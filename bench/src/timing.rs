//! What is timed, in turn, by the time that the thread has on a CPU, so that other work of the machine counts little.

/// Linux on x86-64.
#[repr(C)]
struct Timespec {
    seconds: i64,
    nanos: i64,
}

const CLOCK_THREAD_CPUTIME_ID: i32 = 3;

extern "C" {
    fn clock_gettime(clock: i32, time: *mut Timespec) -> i32;
}

/// The thread's time on a CPU so far, in nanoseconds.
fn now() -> u64 {
    let mut time = Timespec { seconds: 0, nanos: 0 };
    // SAFETY: the pointer is that of a timespec, laid out as C's.
    let status = unsafe { clock_gettime(CLOCK_THREAD_CPUTIME_ID, &mut time) };
    assert_eq!(status, 0, "the thread's clock cannot be read");
    (time.seconds * 1_000_000_000 + time.nanos) as u64
}

/// The times of one thing over all rounds, in nanoseconds and in order.
pub struct Times(Vec<u64>);

impl Times {
    /// The time that a share of the rounds, in percent, did not exceed, in microseconds: 0 is the least, 50 the median.
    pub fn at(&self, percent: usize) -> f64 {
        self.0[(self.0.len() - 1) * percent / 100] as f64 / 1000.0
    }
}

/// The value itself, by a way that the compiler does not see through: no call is left out or moved out of its round.
pub fn black_box<T>(value: T) -> T {
    // SAFETY: the one value is read, and then forgotten where it stood.
    unsafe {
        let read = std::ptr::read_volatile(&value);
        std::mem::forget(value);
        read
    }
}

/// Something that is timed.
pub trait Timed {
    /// What comes before it in every round, outside the time.
    fn before(&mut self) {}

    /// What is timed. The answer is 0, or something is wrong.
    fn run(&mut self) -> u64;
}

impl<F: FnMut() -> u64> Timed for F {
    fn run(&mut self) -> u64 {
        self()
    }
}

fn time(timed: &mut dyn Timed) -> u64 {
    timed.before();
    let start = now();
    let answer = black_box(timed.run());
    let taken = now() - start;
    assert_eq!(answer, 0, "what is timed was refused");
    taken
}

/// Times all of them in every round, each first equally often, after rounds that do not count.
pub fn in_turn<const N: usize>(rounds: usize, timed: [&mut dyn Timed; N]) -> [Times; N] {
    let mut times = [(); N].map(|_| Vec::new());
    let warm = rounds / 4;
    for round in 0..warm + rounds {
        for turn in 0..N {
            let which = (round + turn) % N;
            let taken = time(timed[which]);
            if round >= warm {
                times[which].push(taken);
            }
        }
    }
    times.map(|mut times| {
        times.sort_unstable();
        Times(times)
    })
}
