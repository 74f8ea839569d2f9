//! The spots: a dot each, or squares that are darker where more lie, where dots would cover each other.

use super::svg::Svg;
use super::{areas, colour, Dot, Scene, HEIGHT, LEFT, TOP, WIDTH};
use crate::spot::Spot;
use std::collections::{BTreeMap, BTreeSet};

/// Shades of a square, from one that has few spots to the one that has most.
pub const SHADES: [f64; 5] = [0.25, 0.42, 0.6, 0.8, 1.0];
/// No square is wider or higher.
const WIDEST: f64 = 14.0;
/// With more spots than this no dot carries words.
const MOST_TITLES: usize = 3000;
/// So many spots of an answer are ringed.
const MOST_RINGS: usize = 300;
const ROOM_A_RING: f64 = 40.0;

/// How the spots of a picture are drawn.
pub struct Plan {
    pub radius: f64,
    /// The most spots of one square, if there are squares.
    pub most: Option<usize>,
    cells: BTreeMap<(i64, i64), Vec<Dot>>,
    wide: i64,
    high: i64,
    highest: i64,
    least_square: usize,
}

impl Plan {
    pub fn of(scene: &Scene) -> Plan {
        let shown = |d: &&Dot| scene.x.holds(d.spot.place) && scene.y.holds(d.spot.rank);
        let dots: Vec<Dot> = scene.dots.iter().filter(shown).copied().collect();
        let room = WIDTH * HEIGHT / dots.len().max(1) as f64;
        let radius = (0.25 * room.sqrt()).clamp(2.0, 5.0);
        // With so little room a picture of squares only is quieter.
        let is_dense = room < 20.0;
        let side = if is_dense { 6.0 } else { 2.0 * radius };
        let (wide, high) = (scene.x.numbers_on(side), scene.y.numbers_on(side));
        // Rows of squares are counted from the highest rank down: the best spots fill a row.
        let highest = dots.iter().map(|d| i64::from(d.spot.rank)).max().unwrap_or(0);
        let mut cells: BTreeMap<(i64, i64), Vec<Dot>> = BTreeMap::new();
        for dot in dots {
            let column = (i64::from(dot.spot.place) - scene.x.first).div_euclid(wide);
            let row = (highest - i64::from(dot.spot.rank)).div_euclid(high);
            cells.entry((column, row)).or_default().push(dot);
        }
        let least_square = if is_dense { 1 } else { 3 };
        let sizes = cells.values().map(|c| c.len()).filter(|n| *n >= least_square);
        let most = sizes.max();
        Plan { radius, most, cells, wide, high, highest, least_square }
    }

    pub fn has_dots(&self) -> bool {
        self.cells.values().any(|c| c.len() < self.least_square)
    }

    /// The fewest spots of a square.
    pub fn least(&self) -> usize {
        self.least_square
    }

    fn shade(&self, n: usize) -> usize {
        let most = self.most.unwrap_or(1).max(2) as f64;
        let share = (n as f64).ln() / most.ln();
        ((share * SHADES.len() as f64) as usize).min(SHADES.len() - 1)
    }
}

pub fn draw(svg: &mut Svg, scene: &Scene) {
    let plan = Plan::of(scene);
    let mut squares: BTreeMap<(usize, usize), String> = BTreeMap::new();
    let mut single = vec![];
    for ((column, row), dots) in &plan.cells {
        if dots.len() < plan.least_square {
            single.extend(dots);
            continue;
        }
        let column = scene.x.first + column * plan.wide;
        let row = plan.highest + 1 - (row + 1) * plan.high;
        let (x, right) = slim(scene.x.stretch(column, plan.wide));
        let (y, bottom) = slim(scene.y.stretch(row, plan.high));
        let d = format!("M{x:.1} {y:.1}H{right:.1}V{bottom:.1}H{x:.1}z");
        let key = (commonest_level(dots), plan.shade(dots.len()));
        squares.entry(key).or_default().push_str(&d);
    }
    for ((level, shade), d) in &squares {
        svg.path(d, &format!("fill=\"{}\" fill-opacity=\"{}\"", colour(*level), SHADES[*shade]));
    }
    for dot in &single {
        draw_dot(svg, scene, dot, plan.radius, scene.dots.len() <= MOST_TITLES);
    }
    rings(svg, scene, plan.radius);
    if scene.dots.is_empty() {
        svg.text(LEFT + WIDTH / 2.0, TOP + HEIGHT / 2.0, "mid", "no spots on this card");
    }
}

/// Where one place or one rank takes much paper, a square in the middle of it is enough.
fn slim((from, to): (f64, f64)) -> (f64, f64) {
    let (middle, half) = ((from + to) / 2.0, ((to - from) / 2.0).min(WIDEST / 2.0));
    (middle - half, middle + half)
}

/// The level that most of these spots have; of two the higher one, whose spots are fewer.
fn commonest_level(dots: &[Dot]) -> usize {
    let mut counts = [0; 256];
    dots.iter().for_each(|d| counts[d.home.level.min(255)] += 1);
    (0..256).max_by_key(|level| counts[*level]).unwrap_or(0)
}

pub fn look(level: usize, is_waiting: bool, radius: f64) -> String {
    let colour = colour(level);
    if is_waiting {
        format!("fill=\"#fff\" stroke=\"{colour}\" stroke-width=\"{:.1}\"", radius * 0.45)
    } else {
        format!("fill=\"{colour}\" stroke=\"#fff\" stroke-width=\"0.5\"")
    }
}

fn draw_dot(svg: &mut Svg, scene: &Scene, dot: &Dot, radius: f64, is_titled: bool) {
    let (spot, home) = (dot.spot, dot.home);
    let state = if home.is_waiting { "waiting" } else { "settled" };
    let called = scene.titles.map(|t| t.words(spot)).filter(|words| !words.is_empty()).map(|words| format!("{words}: "));
    let title = format!("{}{} track {}, {state} in block {}", called.unwrap_or_default(), spot.key(), spot.track, home.block);
    let look = look(home.level, home.is_waiting, radius);
    let radius = if home.is_waiting { radius * 0.78 } else { radius };
    svg.circle(scene.x.place(spot.place), scene.y.place(spot.rank), radius, &look, is_titled.then_some(&title));
}

/// The spots of the answer, where there is room to see them one by one.
fn rings(svg: &mut Svg, scene: &Scene, radius: f64) {
    let found: BTreeSet<Spot> = scene.queries.iter().flat_map(|q| q.found.spots.iter().copied()).collect();
    let room: f64 = areas(scene).iter().map(|a| (a.right - a.left) * (a.floor - TOP + 8.0)).sum();
    let n = found.len();
    if n > MOST_RINGS || room < ROOM_A_RING * n as f64 {
        return;
    }
    let line = if n <= 60 { 1.2 } else { 0.7 };
    let look = format!("fill=\"none\" stroke=\"#000\" stroke-width=\"{line}\"");
    for spot in &found {
        if scene.x.holds(spot.place) && scene.y.holds(spot.rank) {
            let (x, y) = (scene.x.place(spot.place), scene.y.place(spot.rank));
            svg.circle(x, y, radius + 1.6, &look, None);
        }
    }
}
