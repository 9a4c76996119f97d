//! Times of things that are run in turn, so that all meet the same noise.

use crate::clock::cpu_seconds;

/// Seconds that a sample takes at least, and that all samples of one call take about.
const SAMPLE: f64 = 0.001;
const TOTAL: f64 = 0.3;
/// A sample also takes at least this part of the longest lap.
const PART: f64 = 0.1;
/// Samples at least and at most.
const SAMPLES: (usize, usize) = (5, 41);
/// Where one lap takes longer than this, the least number of samples is smaller.
const LONG: f64 = 0.5;
const FEW: usize = 3;

/// Seconds of the processor for one lap: the least and the median of the samples.
#[derive(Clone, Copy, Debug, PartialEq)]
pub struct Times {
    pub least: f64,
    pub median: f64,
}

impl Times {
    fn of(mut samples: Vec<f64>) -> Times {
        samples.sort_by(f64::total_cmp);
        Times { least: samples[0], median: samples[samples.len() / 2] }
    }

    /// What is left of it without another part.
    pub fn without(self, part: Times) -> Times {
        Times { least: self.least - part.least, median: self.median - part.median }
    }
}

fn seconds(laps: usize, run: &mut dyn FnMut()) -> f64 {
    let start = cpu_seconds();
    (0..laps).for_each(|_| run());
    cpu_seconds() - start
}

/// Times some things in turn, after two laps of each to warm up.
pub fn in_turn<const N: usize>(mut runs: [&mut dyn FnMut(); N]) -> [Times; N] {
    let once = runs.each_mut().map(|run| seconds(1, *run).min(seconds(1, *run)).max(1e-8));
    let longest = once.into_iter().fold(0.0, f64::max);
    let laps = once.map(|once| (SAMPLE.max(PART * longest) / once).ceil() as usize);
    let turn: f64 = (0..N).map(|which| laps[which] as f64 * once[which]).sum();
    let least = if turn > LONG { FEW } else { SAMPLES.0 };
    let number = ((TOTAL / turn) as usize).clamp(least, SAMPLES.1);
    let mut samples = [(); N].map(|()| Vec::new());
    for _ in 0..number {
        for which in 0..N {
            samples[which].push(seconds(laps[which], runs[which]) / laps[which] as f64);
        }
    }
    samples.map(Times::of)
}

#[cfg(test)]
mod tests {
    use super::*;

    #[test]
    fn least_and_median() {
        let times = Times::of(vec![3.0, 1.0, 2.0, 9.0, 8.0]);
        assert_eq!(times, Times { least: 1.0, median: 3.0 });
        let part = Times { least: 0.5, median: 1.0 };
        assert_eq!(times.without(part), Times { least: 0.5, median: 2.0 });
    }
}
