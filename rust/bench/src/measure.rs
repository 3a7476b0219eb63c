//! Measuring: the median time of several runs.

use std::time::{Duration, Instant};

/// The median time of an odd number of runs, and what the last one gave.
pub fn median_of<T>(runs: usize, mut run: impl FnMut() -> T) -> (Duration, T) {
    let mut last = None;
    let mut times: Vec<Duration> = (0..runs)
        .map(|_| {
            let begin = Instant::now();
            last = Some(run());
            begin.elapsed()
        })
        .collect();
    (median(&mut times), last.expect("there is at least one run"))
}

fn median(times: &mut [Duration]) -> Duration {
    times.sort();
    times[times.len() / 2]
}

#[cfg(test)]
mod tests {
    use super::*;

    #[test]
    fn the_middle_one_of_an_odd_number() {
        let mut times = [5, 1, 100, 2, 7].map(Duration::from_millis);
        assert_eq!(median(&mut times), Duration::from_millis(5));
    }

    #[test]
    fn each_run_is_made_and_the_last_one_is_handed_back() {
        let mut runs = 0;
        let (_, last) = median_of(7, || {
            runs += 1;
            runs
        });
        assert_eq!((runs, last), (7, 7));
    }
}
