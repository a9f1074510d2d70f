//! Time, taken of several sides in turn.

use std::hint::black_box;
use std::time::{Duration, Instant};

/// How long one sample takes at least.
const SAMPLE: Duration = Duration::from_micros(1_500);
pub const ROUNDS: usize = 41;

/// A piece of work that is done again and again. It answers a number, so that none of it is left out.
pub type Work<'a> = Box<dyn FnMut() -> u64 + 'a>;

/// Nanoseconds that each side takes for its work once: the least of several rounds, in each of which all sides have
/// their turn. All sides must answer the same number.
pub fn race(sides: &mut [Work]) -> Vec<f64> {
    let answers: Vec<u64> = sides.iter_mut().map(|side| side()).collect();
    if answers.iter().any(|&answer| answer != answers[0]) {
        panic!("the sides do not do the same work: {answers:?}");
    }
    let repeats: Vec<u32> = sides.iter_mut().map(|side| repeats(side)).collect();
    let mut least = vec![f64::INFINITY; sides.len()];
    for round in 0..ROUNDS {
        for turn in 0..sides.len() {
            let side = (round + turn) % sides.len();
            let start = Instant::now();
            for _ in 0..repeats[side] {
                black_box(sides[side]());
            }
            let time = start.elapsed().as_nanos() as f64 / f64::from(repeats[side]);
            least[side] = least[side].min(time);
        }
    }
    least
}

/// How often the work fits into a sample.
fn repeats(side: &mut Work) -> u32 {
    let mut repeats = 1;
    loop {
        let start = Instant::now();
        for _ in 0..repeats {
            black_box(side());
        }
        if start.elapsed() >= SAMPLE || repeats > 1 << 24 {
            return repeats;
        }
        repeats *= 2;
    }
}
