//! Scales of an axis: the range they show, the place of a value in it, the ticks.

use crate::table::grouped;

#[derive(Clone, Copy, PartialEq)]
pub enum Scale {
    /// From 0 up to a round tick.
    Linear,
    /// From 0 to the largest value, in quarters.
    Quarters,
    Log2,
    /// From one power of ten to another.
    Log10,
}

/// Steps between linear ticks, about so many.
const TICKS: f64 = 6.0;
/// Ticks of a doubling scale at most; else every second power.
const DOUBLINGS: i32 = 9;

impl Scale {
    pub fn range(self, values: impl Iterator<Item = f64>) -> (f64, f64) {
        let (low, high) = values.fold((f64::MAX, 0.0_f64), |(low, high), value| {
            (low.min(value), high.max(value))
        });
        match self {
            Scale::Linear => (0.0, (high / step(high)).ceil() * step(high)),
            Scale::Quarters => (0.0, high),
            Scale::Log2 => (low, high),
            Scale::Log10 => (
                10_f64.powf(low.log10().floor()),
                10_f64.powf(high.log10().ceil()),
            ),
        }
    }

    /// From 0 at the low end to 1 at the high end.
    pub fn part(self, (low, high): (f64, f64), value: f64) -> f64 {
        match self {
            Scale::Linear | Scale::Quarters => (value - low) / (high - low),
            Scale::Log2 | Scale::Log10 => (value / low).ln() / (high / low).ln(),
        }
    }

    pub fn ticks(self, range: (f64, f64)) -> Vec<(f64, String)> {
        let values = match self {
            Scale::Linear => multiples(step(range.1), range),
            Scale::Quarters => multiples(range.1 / 4.0, range),
            Scale::Log2 => powers(2.0, range, |count| if count > DOUBLINGS { 2 } else { 1 }),
            Scale::Log10 => powers(10.0, range, |_| 1),
        };
        values
            .into_iter()
            .map(|value| (value, grouped(value as u64)))
            .collect()
    }
}

fn multiples(step: f64, (low, high): (f64, f64)) -> Vec<f64> {
    (0..)
        .map(|k| low + step * f64::from(k))
        .take_while(|&value| value <= high * 1.0001)
        .collect()
}

/// 1, 2 or 5 times a power of ten, and at least 1.
fn step(high: f64) -> f64 {
    let rough = high / TICKS;
    let power = 10_f64.powf(rough.log10().floor());
    let factor = [1.0, 2.0, 5.0, 10.0]
        .into_iter()
        .find(|factor| factor * power >= rough)
        .unwrap_or(10.0);
    (factor * power).max(1.0)
}

fn powers(base: f64, (low, high): (f64, f64), stride: impl Fn(i32) -> i32) -> Vec<f64> {
    let first = (low.ln() / base.ln() - 1e-9).ceil() as i32;
    let last = (high.ln() / base.ln() + 1e-9).floor() as i32;
    let stride = stride(last - first + 1);
    (first..=last)
        .step_by(stride as usize)
        .map(|power| base.powi(power))
        .collect()
}
