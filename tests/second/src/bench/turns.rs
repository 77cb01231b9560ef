//! Calls timed in turns, in one process.

const TURNS: usize = 9;

/// About so many seconds of calls are timed in a turn.
const TURN: f64 = 0.005;

#[repr(C)]
struct Timespec {
    seconds: i64,
    nanoseconds: i64,
}

extern "C" {
    fn clock_gettime(clock: i32, time: *mut Timespec) -> i32;
}

/// Seconds that this thread has had a processor, by Linux's clock for that: what
/// other processes take does not count.
fn processor_seconds() -> f64 {
    const THREAD_CPUTIME: i32 = 3;
    let mut time = Timespec { seconds: 0, nanoseconds: 0 };
    // SAFETY: the pointer is that of a variable laid out as C's.
    let outcome = unsafe { clock_gettime(THREAD_CPUTIME, &mut time) };
    assert_eq!(outcome, 0);
    time.seconds as f64 + time.nanoseconds as f64 / 1e9
}

/// Seconds for one call, by many of them.
fn seconds(call: &mut dyn FnMut(), calls: usize) -> f64 {
    let started = processor_seconds();
    (0..calls).for_each(|_| call());
    (processor_seconds() - started) / calls as f64
}

/// Nanoseconds of a call by each contestant, turn by turn.
pub struct Turns {
    times: Vec<Vec<f64>>,
}

impl Turns {
    /// Times so many contestants, each known by its number, in turns.
    pub fn of(contestants: usize, mut call: impl FnMut(usize)) -> Self {
        let mut time = |which: usize| {
            let mut call = || call(which);
            let calls = (TURN / seconds(&mut call, 3)).max(1.0) as usize;
            1e9 * seconds(&mut call, calls)
        };
        Turns { times: (0..TURNS).map(|_| (0..contestants).map(&mut time).collect()).collect() }
    }

    /// The best time of a contestant.
    pub fn best(&self, which: usize) -> f64 {
        self.times.iter().map(|turn| turn[which]).fold(f64::INFINITY, f64::min)
    }

    /// The median of the ratios of one to another.
    pub fn ratio(&self, one: usize, other: usize) -> f64 {
        let mut ratios: Vec<f64> = self.times.iter().map(|turn| turn[one] / turn[other]).collect();
        ratios.sort_by(f64::total_cmp);
        ratios[ratios.len() / 2]
    }

    /// What a bench says of its figures.
    pub fn said() -> String {
        format!("the best of {TURNS} turns; ratios: the median of those of the turns")
    }
}
