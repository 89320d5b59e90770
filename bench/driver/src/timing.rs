//! Times of things that take turns.

use std::time::Duration;

use crate::side::Runner;

/// How many rounds there are of what takes longer than a hundred turns.
const FEW_ROUNDS: usize = 3;

/// How long a turn lasts at least, and how many rounds of turns there are. Where turns are short, most of them fall
/// between two interruptions by other programs, so that the median does not see what these do to the caches.
#[derive(Clone, Copy)]
pub struct Plan {
    pub turn: Duration,
    pub rounds: usize,
}

/// Nanoseconds of one time: the median of the rounds, and the quartiles.
pub struct Spread {
    pub median: f64,
    pub low: f64,
    pub high: f64,
}

/// In each round each runner has a turn, one after the other, so that what disturbs the machine disturbs all alike.
pub fn in_turns(runners: &mut [Runner], plan: Plan) -> Vec<Spread> {
    let times: Vec<u64> =
        runners.iter_mut().map(|runner| times_of_a_turn(runner, plan.turn)).collect();
    let mut taken = vec![Vec::with_capacity(plan.rounds); runners.len()];
    let start = processor_time();
    for round in 1..=plan.rounds {
        for (at, runner) in runners.iter_mut().enumerate() {
            let spent = spent(runner, times[at]);
            taken[at].push(spent.as_nanos() as f64 / times[at] as f64);
        }
        if round == FEW_ROUNDS && processor_time() - start > plan.turn * 100 * FEW_ROUNDS as u32 {
            break;
        }
    }
    taken.into_iter().map(spread).collect()
}

/// How often it is to be done in a turn. Finding it warms the caches too. It is tried twice, since what others do to
/// the caches makes a turn look longer than it is.
fn times_of_a_turn(runner: &mut Runner, turn: Duration) -> u64 {
    let mut times = 1;
    runner(1);
    while spent(runner, times) < turn || spent(runner, times) < turn {
        times *= 2;
    }
    times
}

fn spent(runner: &mut Runner, times: u64) -> Duration {
    let start = processor_time();
    runner(times);
    processor_time() - start
}

/// What this program and those that it has run have used of the processor: that others take it away meanwhile does not
/// count.
fn processor_time() -> Duration {
    const CLOCK_PROCESS_CPUTIME_ID: i32 = 2;
    const RUSAGE_CHILDREN: i32 = -1;
    let mut time = Time { seconds: 0, parts: 0 };
    let mut used = Used { time: [Time { seconds: 0, parts: 0 }; 2], rest: [0; 14] };
    // SAFETY: the pointers are to values of the form that 64-bit Linux has for them.
    let failed = unsafe {
        clock_gettime(CLOCK_PROCESS_CPUTIME_ID, &mut time) | getrusage(RUSAGE_CHILDREN, &mut used)
    };
    assert_eq!(failed, 0, "no clock of processor time");
    let own = Duration::new(time.seconds as u64, time.parts as u32);
    used.time.iter().fold(own, |sum, time| {
        sum + Duration::from_secs(time.seconds as u64) + Duration::from_micros(time.parts as u64)
    })
}

/// Seconds, and nanoseconds or microseconds.
#[repr(C)]
#[derive(Clone, Copy)]
struct Time {
    seconds: i64,
    parts: i64,
}

/// What was used of the processor by programs and by the system for them, and what is not looked at.
#[repr(C)]
struct Used {
    time: [Time; 2],
    rest: [i64; 14],
}

extern "C" {
    fn clock_gettime(clock: i32, time: *mut Time) -> i32;
    fn getrusage(who: i32, used: *mut Used) -> i32;
}

fn spread(mut taken: Vec<f64>) -> Spread {
    taken.sort_by(f64::total_cmp);
    let at = |part: usize| taken[(taken.len() - 1) * part / 4];
    Spread { median: at(2), low: at(1), high: at(3) }
}
