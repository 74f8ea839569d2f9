//! The nodes: a lane for each level, a bar for each node over its range of places.

use super::svg::Svg;
use super::{colour, Scene, AXIS, LANE, LEFT, WIDTH};
use crate::tree::Node;
use crate::words;

const HIGH: f64 = 17.0;
/// How much colour a node has that was not read.
pub const PALE: f64 = 0.18;
/// Narrower bars are drawn without an outline, side by side as one band.
const NARROW: f64 = 4.0;

pub fn draw(svg: &mut Svg, scene: &Scene) {
    for level in 0..scene.levels {
        let y = scene.floor() + AXIS + LANE * (scene.levels - 1 - level) as f64;
        let name = if level + 1 == scene.levels { format!("root, level {level}") } else { format!("level {level}") };
        svg.text(LEFT - 8.0, y + 13.0, "tick end", &name);
        let nodes: Vec<&Node> = scene.nodes.iter().filter(|n| n.level == level).collect();
        lane(svg, scene, &nodes, y);
    }
}

fn lane(svg: &mut Svg, scene: &Scene, nodes: &[&Node], y: f64) {
    let (mut read, mut wide) = (vec![], vec![]);
    for node in nodes {
        let (left, right) = ends(scene, node);
        if right - left >= NARROW {
            wide.push((*node, left, right));
        } else if scene.read.contains(&node.block) {
            read.push((*node, left, right));
        }
    }
    band(svg, nodes, &wide, y);
    for (node, left, right) in wide {
        bar(svg, scene, node, [left, y, right - left, HIGH]);
    }
    for (node, left, right) in read {
        let x = left.min(LEFT + WIDTH - 1.2);
        let look = format!("fill=\"{}\"", colour(node.level));
        svg.titled_rect([x, y, (right - left).max(1.2), HIGH], &look, &title(scene, node));
    }
}

/// A pale band where the narrow nodes lie: everywhere between the wide ones.
fn band(svg: &mut Svg, nodes: &[&Node], wide: &[(&Node, f64, f64)], y: f64) {
    let Some(level) = nodes.first().map(|n| n.level) else {
        return;
    };
    let look = format!("fill=\"{}\" fill-opacity=\"{PALE}\"", colour(level));
    let mut start = LEFT;
    let ends = wide.iter().map(|(_, left, right)| (*left, *right));
    for (left, right) in ends.chain([(LEFT + WIDTH, LEFT + WIDTH)]) {
        if left - start > 0.1 {
            svg.rect(start, y, left - start, HIGH, &look);
        }
        start = right;
    }
}

/// Whether a node's bar is too narrow to be drawn by itself.
pub fn is_narrow(scene: &Scene, node: &Node) -> bool {
    let (left, right) = ends(scene, node);
    right - left < NARROW
}

fn ends(scene: &Scene, node: &Node) -> (f64, f64) {
    let left = node.from.map_or(LEFT, |k| scene.x.edge(k.place, -0.5));
    let right = node.to.map_or(LEFT + WIDTH, |k| scene.x.edge(k.place, -0.5));
    (left, right)
}

fn bar(svg: &mut Svg, scene: &Scene, node: &Node, place: [f64; 4]) {
    let is_read = scene.read.contains(&node.block);
    let colour = colour(node.level);
    let [x, y, width, high] = place;
    let opacity = if is_read { 1.0 } else { PALE };
    let line = (width / 20.0).clamp(0.4, 1.0);
    let look = format!("fill=\"{colour}\" fill-opacity=\"{opacity}\" stroke=\"{colour}\" stroke-width=\"{line:.1}\"");
    let inner = [x + line / 2.0, y, width - line, high];
    svg.titled_rect(inner, &look, &title(scene, node));
    if width >= 26.0 {
        let class = if is_read { "small inv" } else { "small" };
        svg.text(x + width / 2.0, y + 12.5, class, &node.block.to_string());
    }
}

fn title(scene: &Scene, node: &Node) -> String {
    let from = node.from.map_or("the start".into(), |k| k.to_string());
    let to = node.to.map_or("the end".into(), |k| k.to_string());
    let points = words::count(node.points.len(), "spot");
    let waiting = words::count(node.waiting(), "change");
    let read = if scene.read.contains(&node.block) { "; read by the query" } else { "" };
    format!("block {}, level {}: from {from} to {to}; {points} settled, {waiting} waiting{read}", node.block, node.level)
}
