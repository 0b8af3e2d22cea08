//! What calls take, in rounds of both programs by turns.

use crate::calls::Row;
use std::fs;
use std::thread;
use std::time::{Duration, Instant};

/// Rounds of each program, by turns.
const ROUNDS: usize = 5;
const ROUND: Duration = Duration::from_millis(200);

/// What the rounds of one program took.
pub struct Times {
    /// The fastest round: whatever else the machine did can only have slowed one.
    pub least: f64,
    /// The middle one: near the fastest when the machine was quiet.
    pub median: f64,
}

impl Times {
    pub fn of<const ROUNDS: usize>(mut rounds: [f64; ROUNDS]) -> Times {
        rounds.sort_by(f64::total_cmp);
        Times {
            least: rounds[0],
            median: rounds[ROUNDS / 2],
        }
    }
}

/// Nanoseconds of a call, by the library, then by the second program.
pub fn both(row: &Row) -> [Times; 2] {
    let passes = row.passes.each_ref().map(|run| passes_of_a_round(run));
    let mut rounds = [[0.0; ROUNDS]; 2];
    for n in 0..2 * ROUNDS {
        let (side, round) = (n % 2, n / 2);
        let took = timed(&row.passes[side], passes[side]);
        let calls = (passes[side] * row.calls) as f64;
        rounds[side][round] = took.as_secs_f64() * 1e9 / calls;
    }
    rounds.map(Times::of)
}

fn timed(run: &dyn Fn(u64), passes: u64) -> Duration {
    let (start, before) = (Instant::now(), on_processor());
    run(passes);
    match (before, on_processor()) {
        (Some(before), Some(after)) => after - before,
        _ => start.elapsed(),
    }
}

/// How long this thread has run, without the time that others had its processor;
/// Linux tells it.
fn on_processor() -> Option<Duration> {
    // It is brought up to date when the thread gives way.
    thread::yield_now();
    let text = fs::read_to_string("/proc/thread-self/schedstat").ok()?;
    let nanoseconds = text.split(' ').next()?.parse().ok()?;
    Some(Duration::from_nanos(nanoseconds))
}

/// As many as fill a round; the trials warm the caches too.
fn passes_of_a_round(run: &dyn Fn(u64)) -> u64 {
    let mut passes = 1;
    loop {
        let took = timed(run, passes);
        if took * 8 >= ROUND {
            let fill = ROUND.as_secs_f64() / took.as_secs_f64();
            return (passes as f64 * fill).ceil() as u64;
        }
        passes *= 2;
    }
}
