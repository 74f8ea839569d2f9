//! A picture of a card: places to the right, ranks upwards, a dot for each live spot, and below a bar for each node over its range.

mod axis;
mod bars;
mod dots;
mod legend;
mod svg;

use crate::spot::Spot;
use crate::store::{Found, Table};
use crate::titles::Titles;
use crate::tree::{self, Home, Node};
use crate::words;
use anyhow::Result;
use axis::Axis;
use spot_reference::stretches;
use std::collections::BTreeSet;
use std::path::Path;
use svg::Svg;

/// Room for the longest number on the axis of ranks.
const LEFT: f64 = 116.0;
const TOP: f64 = 84.0;
const WIDTH: f64 = 860.0;
const HEIGHT: f64 = 460.0;
/// From the plot down to the first lane of bars: the axis stands there.
const AXIS: f64 = 62.0;
const LANE: f64 = 26.0;
const LEGEND: f64 = LEFT + WIDTH + 34.0;
const ALL: f64 = LEGEND + 270.0;
/// A picture has this in its first line, and only such a file is replaced without asking.
const MARK: &str = "data-made-by=\"spotcard\"";

/// For each level from the leaves up: a colour that can be told from the others also without red or green.
const COLOURS: [&str; 7] = ["#0072b2", "#e69f00", "#009e73", "#cc79a7", "#d55e00", "#6a3d9a", "#333333"];

pub fn colour(level: usize) -> &'static str {
    COLOURS[level.min(COLOURS.len() - 1)]
}

/// What was asked, and what came of it.
pub struct Query {
    pub x1: i32,
    pub x2: i32,
    /// The lowest rank of a report.
    pub least: Option<i32>,
    /// The number of a top.
    pub best: Option<u32>,
    pub found: Found,
}

impl Query {
    fn words(&self) -> [String; 3] {
        let (past, to) = if self.x1 <= self.x2 { ("", "to") } else { (" past the door", "on to") };
        let places = format!("places {} {to} {}", self.x1, self.x2);
        match (self.least, self.best) {
            (Some(y), _) => [format!("report{past}"), places, format!("rank {y} or more")],
            (None, k) => [format!("top{past}"), places, format!("the best {}", k.unwrap_or(0))],
        }
    }

    /// The rank from which on all spots of its places are found, if not all are.
    fn bottom(&self) -> Option<i32> {
        let is_all = self.best.is_some_and(|k| self.found.spots.len() < k as usize);
        let lowest = self.found.spots.iter().map(|s| s.rank).min();
        self.least.or(if is_all { None } else { lowest })
    }
}

/// A live spot and the node that holds it.
#[derive(Clone, Copy)]
pub struct Dot {
    spot: Spot,
    home: Home,
}

/// Everything that is drawn.
struct Scene<'a> {
    dots: Vec<Dot>,
    nodes: Vec<Node>,
    levels: usize,
    queries: &'a [Query],
    titles: Option<&'a Titles>,
    read: BTreeSet<usize>,
    x: Axis,
    y: Axis,
}

impl Scene<'_> {
    /// The bottom of the plot, and of everything below it.
    fn floor(&self) -> f64 {
        TOP + HEIGHT
    }

    fn bottom(&self) -> f64 {
        self.floor() + AXIS + LANE * self.levels as f64
    }
}

/// Whether a file holds a picture that we made.
pub fn is_ours(file: &[u8]) -> bool {
    let first = file.split(|b| *b == b'\n').next().unwrap_or_default();
    String::from_utf8_lossy(first).contains(MARK)
}

pub fn draw(name: &str, table: &Table, queries: &[Query], titles: Option<&Titles>) -> Result<String> {
    let nodes = tree::nodes(table.bytes());
    let homes = tree::homes(&nodes);
    let with_home = |spot: Spot| Some(Dot { spot, home: *homes.get(&spot.key())? });
    let dots: Vec<Dot> = table.all()?.into_iter().filter_map(with_home).collect();
    let found = || queries.iter().flat_map(|q| &q.found.spots);
    let x = Axis::of(dots.iter().map(|d| d.spot.place), found().map(|s| s.place), LEFT, LEFT + WIDTH);
    let y = Axis::of(dots.iter().map(|d| d.spot.rank), found().map(|s| s.rank), TOP + HEIGHT, TOP);
    let levels = tree::levels(table.bytes());
    let read = queries.iter().flat_map(|q| q.found.blocks.iter().copied()).collect();
    let scene = Scene { dots, nodes, levels, queries, titles, read, x, y };
    let height = (scene.bottom() + 30.0).max(TOP + legend::height(&scene) + 30.0);
    let mut svg = Svg::new(ALL, height, MARK);
    title(&mut svg, name, table, &scene);
    axis::draw(&mut svg, &scene);
    dots::draw(&mut svg, &scene);
    areas(&scene).iter().for_each(|area| outline(&mut svg, &scene, area));
    bars::draw(&mut svg, &scene);
    legend::draw(&mut svg, &scene);
    Ok(svg.finish())
}

fn title(svg: &mut Svg, name: &str, table: &Table, scene: &Scene) {
    let file = Path::new(name).file_name().map(|n| n.to_string_lossy().into_owned());
    let n = |n: usize| words::number(n as i128);
    let waiting: usize = scene.nodes.iter().map(|n| n.waiting()).sum();
    let (live, capacity) = (n(scene.dots.len()), n(table.capacity()));
    let sub = format!(
        "{live} of {capacity} spots, {} in {}, {} waiting",
        words::count(scene.nodes.len(), "node"),
        words::count(scene.levels, "level"),
        words::count(waiting, "change")
    );
    svg.text(LEFT, 36.0, "title", &file.unwrap_or_else(|| name.into()));
    svg.text(LEFT, 58.0, "sub", &sub);
}

/// A stretch of the query's places on the paper.
struct Area {
    left: f64,
    right: f64,
    floor: f64,
    /// Whether the query begins here and ends here, or runs on past the door.
    begins: bool,
    ends: bool,
}

/// The queries on the paper: as much of their places as is shown, one stretch or two of each.
fn areas(scene: &Scene) -> Vec<Area> {
    scene.queries.iter().flat_map(|query| areas_of(scene, query)).collect()
}

fn areas_of(scene: &Scene, query: &Query) -> Vec<Area> {
    let floor = query.bottom().map_or(scene.floor(), |y| scene.y.edge(y, -0.5));
    let mut out = vec![];
    for (first, last) in stretches(query.x1, query.x2) {
        let (left, right) = (scene.x.edge(first, -0.5), scene.x.edge(last, 0.5));
        if left < right {
            let (begins, ends) = (first == query.x1, last == query.x2);
            out.push(Area { left, right: right.max(left + 2.0), floor, begins, ends });
        }
    }
    out
}

/// The outline of a stretch: open towards the top, as the query has no highest rank, and where it runs on past the door.
fn outline(svg: &mut Svg, scene: &Scene, area: &Area) {
    let Area { left, right, floor, begins, ends } = *area;
    let top = TOP - 8.0;
    let fill = "fill=\"#000\" fill-opacity=\"0.06\"";
    svg.rect(left, top, right - left, floor - top, fill);
    let from = if begins { format!("{top:.1}V{floor:.1}") } else { format!("{floor:.1}") };
    let to = if ends { format!("V{top:.1}") } else { String::new() };
    svg.path(&format!("M{left:.1} {from}H{right:.1}{to}"), "class=\"query\"");
    // Down to the bars, but not through the numbers of the axis.
    let (axis, lanes, end) = (scene.floor(), scene.floor() + AXIS - 8.0, scene.bottom());
    for x in [begins.then_some(left), ends.then_some(right)].into_iter().flatten() {
        let d = format!("M{x:.1} {floor:.1}V{axis:.1}M{x:.1} {lanes:.1}V{end:.1}");
        svg.path(&d, "class=\"query fine\"");
    }
}
