// The best time of a call, of both, by turns: what else the machine does slows some rounds and not the best one.
use crate::callers::{Who, ROOM};
use crate::cases::Case;
use std::hint::black_box;
use std::time::Instant;

const ROUNDS: usize = 300;
const CALLS: usize = 8;

/// Microseconds for one call.
#[derive(Clone, Copy)]
pub struct Times {
    pub product: f64,
    pub second: f64,
}

impl Times {
    pub fn ratio(self) -> f64 {
        self.product / self.second
    }

    /// What is left without another case's time.
    pub fn beyond(self, other: Times) -> Times {
        Times { product: self.product - other.product, second: self.second - other.second }
    }
}

/// Both answer alike, byte for byte, or there is nothing to measure.
pub fn best(name: &str, case: &Case) -> Times {
    let (mut own, mut lent) = ([0; ROOM], [0; ROOM]);
    assert_eq!(Who::Product.answer(case, &mut lent), Who::Second.answer(case, &mut own), "the answers to {name}");
    assert!(own == lent, "the holdings of {name}");
    let mut best = Times { product: f64::MAX, second: f64::MAX };
    for _ in 0..ROUNDS {
        best.product = best.product.min(round(Who::Product, case, &mut lent));
        best.second = best.second.min(round(Who::Second, case, &mut own));
    }
    best
}

fn round(who: Who, case: &Case, buffer: &mut [u8; ROOM]) -> f64 {
    let start = Instant::now();
    for _ in 0..CALLS {
        black_box(who.answer(black_box(case), buffer));
    }
    start.elapsed().as_secs_f64() * 1e6 / CALLS as f64
}
