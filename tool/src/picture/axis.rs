//! From places and ranks to the paper, and the two axes.

use super::svg::Svg;
use super::{Scene, HEIGHT, LEFT, TOP, WIDTH};
use crate::words;

/// Whole numbers along a line of the paper.
pub struct Axis {
    pub first: i64,
    pub last: i64,
    from: f64,
    to: f64,
    /// Numbers of spots that lie before and behind what is shown.
    pub before: usize,
    pub behind: usize,
}

impl Axis {
    /// An axis for these numbers. A few that lie far away from all others would squeeze the rest into a line: where there are many, they are left out and counted, but for those
    /// that have to be there.
    pub fn of(numbers: impl Iterator<Item = i32>, needed: impl Iterator<Item = i32>, from: f64, to: f64) -> Axis {
        let mut all: Vec<i64> = numbers.map(i64::from).collect();
        all.sort_unstable();
        let (first, last) = shown(&all, needed.map(i64::from));
        let before = all.partition_point(|n| *n < first);
        let behind = all.len() - all.partition_point(|n| *n <= last);
        Axis { first, last, from, to, before, behind }
    }

    /// Where a number lies; `by` moves it by that part of one.
    fn at(&self, n: i64, by: f64) -> f64 {
        let share = (n as f64 + by - self.first as f64 + 0.5) / (self.last - self.first + 1) as f64;
        self.from + share * (self.to - self.from)
    }

    pub fn holds(&self, n: i32) -> bool {
        (self.first..=self.last).contains(&n.into())
    }

    pub fn place(&self, n: i32) -> f64 {
        self.at(n.into(), 0.0)
    }

    /// The edge of a number, inside what is shown.
    pub fn edge(&self, n: i32, by: f64) -> f64 {
        let (low, high) = (self.from.min(self.to), self.from.max(self.to));
        self.at(n.into(), by).clamp(low, high)
    }

    /// How many numbers lie on so much paper, at least one.
    pub fn numbers_on(&self, paper: f64) -> i64 {
        let all = (self.last - self.first + 1) as f64;
        ((all * paper / (self.to - self.from).abs()).ceil() as i64).max(1)
    }

    /// The paper from the start of this number on, so many numbers long.
    pub fn stretch(&self, n: i64, long: i64) -> (f64, f64) {
        let (a, b) = (self.at(n, -0.5), self.at(n + long, -0.5));
        let (low, high) = (self.from.min(self.to), self.from.max(self.to));
        (a.min(b).max(low), a.max(b).min(high))
    }

    /// Round numbers, about so many.
    fn ticks(&self, about: i64) -> Vec<i64> {
        let rough = ((self.last - self.first) / about).max(1);
        let mut step = 1;
        for factor in [2, 5, 10].iter().cycle().take(60) {
            if step >= rough {
                break;
            }
            step = if *factor == 5 { step / 2 * 5 } else { step * 2 };
        }
        let start = self.first.div_euclid(step) * step;
        (0..).map(|i| start + i * step).skip_while(|n| *n < self.first).take_while(|n| *n <= self.last).collect()
    }
}

/// Of so many numbers none is left out.
const FEW: usize = 1000;

/// The first and the last number to show.
fn shown(sorted: &[i64], needed: impl Iterator<Item = i64>) -> (i64, i64) {
    let (Some(&least), Some(&most)) = (sorted.first(), sorted.last()) else {
        return (0, 100);
    };
    let at = |percent: usize| sorted[(sorted.len() - 1) * percent / 100];
    let (low, high) = (at(2), at(98));
    let core = (high - low).max(10);
    let (mut first, mut last) = (least, most);
    if sorted.len() > FEW && most - least > 6 * core {
        first = sorted[sorted.partition_point(|n| *n < low - core)];
        last = sorted[sorted.partition_point(|n| *n <= high + core) - 1];
    }
    for n in needed {
        (first, last) = (first.min(n), last.max(n));
    }
    let margin = ((last - first) / 40).max(1);
    (first - margin, last + margin)
}

pub fn draw(svg: &mut Svg, scene: &Scene) {
    let floor = scene.floor();
    for n in scene.x.ticks(8) {
        let x = scene.x.at(n, 0.0);
        svg.path(&format!("M{x:.1} {TOP:.1}V{floor:.1}"), "class=\"grid\"");
        svg.text(x, floor + 18.0, "tick mid", &words::number(n));
    }
    for n in scene.y.ticks(6) {
        let y = scene.y.at(n, 0.0);
        svg.path(&format!("M{LEFT:.1} {y:.1}h{WIDTH:.1}"), "class=\"grid\"");
        svg.text(LEFT - 8.0, y + 4.0, "tick end", &words::number(n));
    }
    svg.path(&format!("M{LEFT:.1} {TOP:.1}V{floor:.1}h{WIDTH:.1}"), "class=\"axis\"");
    svg.text(LEFT + WIDTH / 2.0, floor + 38.0, "mid", "place along the route (cm)");
    svg.upright(18.0, TOP + HEIGHT / 2.0, "mid", "rank");
}

#[cfg(test)]
mod tests {
    use super::*;

    #[test]
    fn ticks_are_round_and_inside() {
        for (first, last) in [(0, 10), (-7, 123456), (i32::MIN as i64 - 9, i32::MAX as i64 + 9), (5, 7)] {
            let axis = Axis { first, last, from: 0.0, to: 1.0, before: 0, behind: 0 };
            let ticks = axis.ticks(8);
            assert!(!ticks.is_empty() && ticks.len() <= 12, "{ticks:?}");
            assert!(ticks.iter().all(|n| (first..=last).contains(n)));
        }
    }

    #[test]
    fn numbers_far_away_are_left_out_and_counted() {
        let mut numbers: Vec<i32> = (0..1000).collect();
        numbers.extend([i32::MIN, i32::MAX, i32::MAX]);
        let axis = |needed: &[i32], few: usize| Axis::of(numbers.iter().copied().rev().take(few), needed.iter().copied(), 0.0, 100.0);
        let many = axis(&[], 9999);
        assert_eq!((many.before, many.behind), (1, 2));
        assert!(many.holds(0) && many.holds(999) && many.last < 1100);
        let found = axis(&[i32::MAX], 9999);
        assert!((found.before, found.behind) == (1, 0) && found.holds(i32::MAX));
        let few = axis(&[], 1000);
        assert!((few.before, few.behind) == (0, 0) && few.holds(i32::MAX) && few.holds(i32::MIN));
        let even = Axis::of([i32::MIN, 0, i32::MAX].into_iter(), [].into_iter(), 0.0, 100.0);
        assert_eq!((even.before, even.behind), (0, 0));
    }
}
