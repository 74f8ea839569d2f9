//! What the colours and shapes mean.

use super::bars::{is_narrow, PALE};
use super::dots::{look, Plan, SHADES};
use super::svg::Svg;
use super::{areas, colour, Query, Scene, LEGEND, TOP};
use crate::words;

const ROW: f64 = 22.0;

enum Row {
    Head(String),
    Text(String),
    Dot { level: usize, is_waiting: bool, words: String },
    Shades(String),
    Outline(String),
    Bar { level: usize, is_read: bool, words: String },
    Gap,
}

pub fn height(scene: &Scene) -> f64 {
    ROW * rows(scene).len() as f64
}

pub fn draw(svg: &mut Svg, scene: &Scene) {
    for (i, row) in rows(scene).iter().enumerate() {
        draw_row(svg, row, TOP + 12.0 + ROW * i as f64);
    }
}

fn rows(scene: &Scene) -> Vec<Row> {
    let mut out = vec![Row::Head("Spots, by level of their node".into())];
    let plan = Plan::of(scene);
    for level in (0..scene.levels).rev() {
        let n = scene.dots.iter().filter(|d| d.home.level == level).count();
        let root = if level + 1 == scene.levels { ", root" } else { "" };
        let leaf = if level == 0 && scene.levels > 1 { ", leaves" } else { "" };
        let words = format!("level {level}{root}{leaf}: {}", words::number(n as i128));
        out.push(Row::Dot { level, is_waiting: false, words });
    }
    let is_waiting = scene.dots.iter().any(|d| d.home.is_waiting);
    if is_waiting && plan.has_dots() {
        out.push(Row::Dot { level: scene.levels - 1, is_waiting: true, words: "hollow: waits to go down".into() });
    }
    if let Some(most) = plan.most {
        out.push(Row::Shades(format!("{} to {} spots", plan.least(), words::number(most as i128))));
        out.push(Row::Text("coloured by the level of most".into()));
    }
    out.extend(left_out(scene));
    out.push(Row::Gap);
    let level = scene.levels - 1;
    out.push(Row::Head("Nodes, over their places".into()));
    out.push(Row::Bar { level, is_read: false, words: "a node (number: its block)".into() });
    if scene.nodes.iter().any(|n| is_narrow(scene, n)) {
        out.push(Row::Text("narrow ones run together".into()));
    }
    if !scene.queries.is_empty() {
        out.push(Row::Bar { level, is_read: true, words: "a node that the query read".into() });
        out.push(Row::Gap);
        out.extend(of_queries(scene));
    }
    out
}

fn of_queries(scene: &Scene) -> Vec<Row> {
    let mut out = match scene.queries {
        [query] => of_query(query),
        queries => of_many(queries),
    };
    let read = words::number(scene.read.len() as i128);
    let used = words::number(scene.nodes.len() as i128 + 1);
    out.push(Row::Text(format!("{read} of {used} blocks in use read")));
    out.push(Row::Text("(block 0 is always read)".into()));
    if areas(scene).is_empty() {
        out.push(Row::Text("it lies outside this picture".into()));
    }
    out
}

fn of_query(query: &Query) -> Vec<Row> {
    let found = words::count(query.found.spots.len(), "spot");
    let [what, places, limit] = query.words();
    vec![Row::Head("The query".into()), Row::Outline(what), Row::Text(places), Row::Text(limit), Row::Text(format!("{found} found"))]
}

/// So many signs fit in a line of the legend.
const MOST_SIGNS: usize = 36;
/// So many queries are described.
const MOST_DESCRIBED: usize = 12;

fn of_many(queries: &[Query]) -> Vec<Row> {
    let mut out = vec![Row::Head("The queries".into()), Row::Outline(words::count(queries.len(), "report"))];
    for query in queries.iter().take(MOST_DESCRIBED) {
        let [_, places, _] = query.words();
        let (y, found) = (query.least.unwrap_or_default(), words::count(query.found.spots.len(), "spot"));
        let (places, limit) = (places.replace("places ", ""), format!("rank {y}: {found}"));
        if places.len() + limit.len() < MOST_SIGNS {
            out.push(Row::Text(format!("{places}, {limit}")));
        } else {
            out.extend([Row::Text(places), Row::Text(limit)]);
        }
    }
    if queries.len() > MOST_DESCRIBED {
        out.push(Row::Text(format!("... and {} more", queries.len() - MOST_DESCRIBED)));
    }
    out
}

fn left_out(scene: &Scene) -> Vec<Row> {
    let sides = [(scene.x.before, "to the left"), (scene.x.behind, "to the right"), (scene.y.before, "below"), (scene.y.behind, "above")];
    let out: Vec<Row> = sides
        .iter()
        .filter(|(n, _)| *n > 0)
        .map(|(n, side)| Row::Text(format!("not shown, far {side}: {}", words::count(*n, "spot"))))
        .collect();
    out
}

fn draw_row(svg: &mut Svg, row: &Row, y: f64) {
    let (mid, text) = (y - 4.5, LEGEND + 40.0);
    match row {
        Row::Gap => {}
        Row::Head(words) => svg.text(LEGEND, y, "head", words),
        Row::Text(words) => svg.text(text, y, "sub", words),
        Row::Dot { level, is_waiting, words } => {
            svg.circle(LEGEND + 16.0, mid, 5.0, &look(*level, *is_waiting, 5.0), None);
            svg.text(text, y, "", words);
        }
        Row::Shades(words) => {
            for (i, shade) in SHADES.iter().enumerate() {
                let fill = format!("fill=\"{}\" fill-opacity=\"{shade}\"", colour(0));
                svg.rect(LEGEND + 7.0 * i as f64, mid - 5.0, 7.0, 10.0, &fill);
            }
            svg.text(text, y, "", words);
        }
        Row::Outline(words) => {
            let (left, right) = (LEGEND + 2.0, LEGEND + 30.0);
            svg.path(&format!("M{left} {:.1}V{:.1}H{right}V{:.1}", mid - 8.0, mid + 6.0, mid - 8.0), "class=\"query\"");
            svg.text(text, y, "", words);
        }
        Row::Bar { level, is_read, words } => {
            let colour = colour(*level);
            let opacity = if *is_read { 1.0 } else { PALE };
            let look = format!("fill=\"{colour}\" fill-opacity=\"{opacity}\" stroke=\"{colour}\"");
            svg.rect(LEGEND + 0.5, mid - 6.0, 31.0, 12.0, &look);
            svg.text(text, y, "", words);
        }
    }
}
