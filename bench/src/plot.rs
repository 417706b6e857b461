//! The plot as SVG: instructions over a transfer's length, and over the words of a wait.

use crate::count::Counts;
use std::fmt::Write;

/// One curve: its name and, for each place along the axis, the counts.
pub struct Drawn {
    pub name: &'static str,
    pub points: Vec<(usize, Counts)>,
}

/// One picture of several curves.
pub struct Panel {
    pub title: &'static str,
    pub along: &'static str,
    pub curves: Vec<Drawn>,
}

/// The picture inside its axes, and the room around it.
const WIDTH: f64 = 310.0;
const HEIGHT: f64 = 300.0;
const LEFT: f64 = 70.0;
const RIGHT: f64 = 30.0;
const ABOVE: f64 = 44.0;
const BELOW: f64 = 116.0;

/// A side's name, colour and count.
type Side = (&'static str, &'static str, fn(&Counts) -> u64);
const SIDES: [Side; 2] = [
    ("original", "#1f5fa8", |counts| counts.original),
    ("ours", "#c23b22", |counts| counts.ours),
];
/// The second curve of a panel is dashed.
const DASHES: [&str; 2] = ["none", "6 4"];

/// All panels, side by side.
pub fn svg(panels: &[Panel]) -> String {
    let wide = LEFT + WIDTH + RIGHT;
    let (width, height) = (wide * panels.len() as f64, ABOVE + HEIGHT + BELOW);
    let size = format!("width=\"{width}\" height=\"{height}\"");
    let font = "font-family=\"sans-serif\" font-size=\"12\"";
    let mut out = format!("<svg xmlns=\"http://www.w3.org/2000/svg\" {size} {font}>\n");
    out += "<rect width=\"100%\" height=\"100%\" fill=\"white\"/>\n";
    for (i, panel) in panels.iter().enumerate() {
        let left = i as f64 * wide + LEFT;
        writeln!(out, "<g transform=\"translate({left} {ABOVE})\">").unwrap();
        let (right, top) = axes(&mut out, panel);
        for (i, curve) in panel.curves.iter().enumerate() {
            draw(&mut out, curve, i, right, top);
        }
        out += "</g>\n";
    }
    out + "</svg>\n"
}

/// Draws the axes; the numbers at their ends.
fn axes(out: &mut String, panel: &Panel) -> (f64, f64) {
    let points = || panel.curves.iter().flat_map(|curve| &curve.points);
    let right = points().map(|(at, _)| *at).max().unwrap_or(0).max(1) as f64;
    let most = points()
        .map(|(_, counts)| counts.original.max(counts.ours))
        .max();
    let most = most.unwrap_or(0).max(1) as f64;
    let step = step(most / 5.0);
    let steps = (most / step).ceil();
    text(out, 0.0, -24.0, "font-weight=\"bold\"", panel.title);
    text(out, -60.0, -8.0, "fill=\"#555\"", "instructions");
    for i in 0..=steps as usize {
        let y = HEIGHT * (1.0 - i as f64 / steps);
        writeln!(out, "<path d=\"M0 {y:.1}H{WIDTH}\" stroke=\"#ddd\"/>").unwrap();
        let number = format!("{}", i as f64 * step);
        text(out, -6.0, y + 4.0, "text-anchor=\"end\"", &number);
    }
    for i in 0..=4 {
        let part = i as f64 / 4.0;
        let number = format!("{:.0}", right * part);
        text(
            out,
            WIDTH * part,
            HEIGHT + 16.0,
            "text-anchor=\"middle\"",
            &number,
        );
    }
    text(
        out,
        WIDTH / 2.0,
        HEIGHT + 32.0,
        "text-anchor=\"middle\"",
        panel.along,
    );
    (right, step * steps)
}

/// Draws a curve of both sides, each with its line of the legend.
fn draw(out: &mut String, curve: &Drawn, i: usize, right: f64, top: f64) {
    for (side, (name, colour, count)) in SIDES.iter().enumerate() {
        let place = |(at, counts): &(usize, Counts)| {
            let (x, y) = (*at as f64 / right, count(counts) as f64 / top);
            format!("{:.1},{:.1}", WIDTH * x, HEIGHT * (1.0 - y))
        };
        let places: Vec<String> = curve.points.iter().map(place).collect();
        let places = places.join(" ");
        let dashes = DASHES[i % 2];
        let style = format!("stroke=\"{colour}\" stroke-width=\"2\" stroke-dasharray=\"{dashes}\"");
        writeln!(out, "<polyline fill=\"none\" {style} points=\"{places}\"/>").unwrap();
        let y = HEIGHT + 52.0 + 16.0 * (2 * i + side) as f64;
        writeln!(out, "<path d=\"M0 {}h28\" {style}/>", y - 4.0).unwrap();
        text(out, 34.0, y, "", &format!("{name}: {}", curve.name));
    }
}

fn text(out: &mut String, x: f64, y: f64, style: &str, text: &str) {
    writeln!(out, "<text x=\"{x:.1}\" y=\"{y:.1}\" {style}>{text}</text>").unwrap();
}

/// The next of 1, 2 or 5 times a power of ten.
fn step(least: f64) -> f64 {
    let power = 10f64.powf(least.max(1.0).log10().floor());
    let times = [1.0, 2.0, 5.0]
        .into_iter()
        .find(|times| times * power >= least);
    times.unwrap_or(10.0) * power
}
