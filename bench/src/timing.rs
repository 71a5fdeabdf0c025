//! Both versions of a call in one run, by turns, so that whatever else the machine does meets both.

use std::hint::black_box;
use std::time::{Duration, Instant};

/// The median times of the two versions.
pub struct Medians {
    pub proved: Duration,
    pub plain: Duration,
}

/// Rounds that are not counted: caches and branch predictors warm up. A call so long that it has but few rounds is warm soon after it began.
const WARMING: usize = 3;
const FEW: usize = 10;

fn timed<T>(call: &mut impl FnMut() -> T) -> Duration {
    let began = Instant::now();
    black_box(call());
    began.elapsed()
}

fn median(mut times: Vec<Duration>) -> Duration {
    times.sort();
    times[times.len() / 2]
}

/// Times so many rounds; which of the two goes first changes from round to round.
pub fn medians<T>(rounds: usize, mut proved: impl FnMut() -> T, mut plain: impl FnMut() -> T) -> Medians {
    let (mut of_proved, mut of_plain) = (vec![], vec![]);
    let warming = if rounds < FEW { 0 } else { WARMING };
    for round in 0..warming + rounds {
        let (a, b) = if round % 2 == 0 {
            let a = timed(&mut proved);
            (a, timed(&mut plain))
        } else {
            let b = timed(&mut plain);
            (timed(&mut proved), b)
        };
        if round >= warming {
            of_proved.push(a);
            of_plain.push(b);
        }
    }
    Medians { proved: median(of_proved), plain: median(of_plain) }
}
