//! Times of many calls of one kind.

use std::hint::black_box;
use std::time::Instant;

#[derive(Default)]
pub struct Times(Vec<u64>);

impl Times {
    pub fn add<T>(&mut self, call: impl FnOnce() -> T) -> T {
        let start = Instant::now();
        let result = black_box(call());
        self.0.push(start.elapsed().as_nanos() as u64);
        result
    }

    /// The median in nanoseconds: other work on the machine moves a mean, and this hardly.
    pub fn median(&self) -> f64 {
        let mut sorted = self.0.clone();
        sorted.sort_unstable();
        sorted.get(sorted.len() / 2).map_or(f64::NAN, |&time| time as f64)
    }
}
