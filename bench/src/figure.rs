//! The plot of what a call costs by the number of watched nodes, as SVG.

use crate::measure::Times;
use rows::Work;
use std::fmt::Write;

const WIDTH: f64 = 640.0;
const HEIGHT: f64 = 360.0;
const LEFT: f64 = 56.0;
const RIGHT: f64 = 150.0;
const TOP: f64 = 20.0;
const BOTTOM: f64 = 44.0;
const NODES: f64 = 32.0;

/// A line of the plot: the row, the side, its color and what is written at its end.
const LINES: [(&str, usize, &str, &str); 4] = [
    ("tick", 0, "#1f5fa8", "tick, ours"),
    ("tick", 2, "#8ab4e0", "tick, Rust"),
    ("heard", 0, "#b03a2e", "heard, ours"),
    ("heard", 2, "#e8a49c", "heard, Rust"),
];

/// Where a number of nodes and a time stand.
struct Axes {
    highest: f64,
}

impl Axes {
    fn x(&self, nodes: f64) -> f64 {
        LEFT + (WIDTH - LEFT - RIGHT) * nodes / NODES
    }

    fn y(&self, time: f64) -> f64 {
        HEIGHT - BOTTOM - (HEIGHT - TOP - BOTTOM) * time / self.highest
    }
}

/// The points of a line, by the number of nodes.
fn points(times: &Times, row: &str, side: usize) -> Vec<(f64, f64)> {
    let mut points: Vec<(f64, f64)> = times
        .rows
        .iter()
        .filter(|(name, ..)| name == row)
        .filter_map(|(_, work, three)| match work {
            Work::Point(nodes) => Some((*nodes as f64, three[side])),
            _ => None,
        })
        .collect();
    points.sort_by(|one, other| one.0.total_cmp(&other.0));
    points
}

pub fn svg(times: &Times) -> String {
    let lines = LINES.map(|(row, side, color, text)| (points(times, row, side), color, text));
    let all = lines.iter().flat_map(|(points, ..)| points);
    let highest = all.map(|(_, time)| *time).fold(1.0, f64::max);
    let axes = Axes {
        highest: (highest / 20.0).ceil() * 20.0,
    };
    let mut svg = format!(
        "<svg xmlns=\"http://www.w3.org/2000/svg\" viewBox=\"0 0 {WIDTH} {HEIGHT}\" \
         font-family=\"sans-serif\" font-size=\"12\">\n\
         <title>ns a call by the number of watched nodes</title>\n\
         <rect width=\"{WIDTH}\" height=\"{HEIGHT}\" fill=\"#ffffff\"/>\n"
    );
    frame(&mut svg, &axes);
    for (number, (points, color, text)) in lines.iter().enumerate() {
        line(&mut svg, &axes, points, color, text, number);
    }
    svg + "</svg>\n"
}

fn write(svg: &mut String, element: std::fmt::Arguments) {
    svg.write_fmt(element).expect("a text takes it");
    svg.push('\n');
}

/// The two axes with their numbers.
fn frame(svg: &mut String, axes: &Axes) {
    let (end, bottom) = (WIDTH - RIGHT, HEIGHT - BOTTOM);
    for nodes in (0..=32).step_by(8) {
        let x = axes.x(nodes.into());
        write(
            svg,
            format_args!(
                "<text x=\"{x:.1}\" y=\"{:.1}\" text-anchor=\"middle\">{nodes}</text>",
                bottom + 18.0
            ),
        );
    }
    for part in 0..=4 {
        let time = axes.highest * f64::from(part) / 4.0;
        let y = axes.y(time);
        write(
            svg,
            format_args!("<path d=\"M{LEFT} {y:.1}H{end}\" stroke=\"#dddddd\"/>"),
        );
        write(
            svg,
            format_args!(
                "<text x=\"{:.1}\" y=\"{:.1}\" text-anchor=\"end\">{time:.0}</text>",
                LEFT - 8.0,
                y + 4.0
            ),
        );
    }
    let middle = (LEFT + end) / 2.0;
    write(
        svg,
        format_args!(
            "<text x=\"{middle:.1}\" y=\"{:.1}\" text-anchor=\"middle\">watched nodes</text>",
            HEIGHT - 8.0
        ),
    );
    write(
        svg,
        format_args!("<text x=\"{LEFT}\" y=\"12\" text-anchor=\"end\">ns</text>"),
    );
}

fn line(
    svg: &mut String,
    axes: &Axes,
    points: &[(f64, f64)],
    color: &str,
    text: &str,
    number: usize,
) {
    let places = points
        .iter()
        .map(|(nodes, time)| format!("{:.1},{:.1}", axes.x(*nodes), axes.y(*time)));
    let places: Vec<String> = places.collect();
    write(
        svg,
        format_args!(
            "<polyline points=\"{}\" fill=\"none\" stroke=\"{color}\" stroke-width=\"2\"/>",
            places.join(" ")
        ),
    );
    // The names stand one below another, so that none covers another.
    let (x, y) = (WIDTH - RIGHT + 14.0, TOP + 14.0 + 20.0 * number as f64);
    write(
        svg,
        format_args!(
            "<path d=\"M{x:.1} {:.1}h18\" stroke=\"{color}\" stroke-width=\"2\"/>",
            y - 4.0
        ),
    );
    let last = points.last().map_or(0.0, |(_, time)| *time);
    write(
        svg,
        format_args!(
            "<text x=\"{:.1}\" y=\"{y:.1}\">{text} ({last:.0})</text>",
            x + 24.0
        ),
    );
}
