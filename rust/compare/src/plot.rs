//! A plot of times over lengths, as an SVG.

use std::fmt::Write;

/// One line of the plot: its name, its colour, and its points.
pub struct Line {
    pub name: &'static str,
    pub colour: &'static str,
    pub points: Vec<(f64, f64)>,
}

const WIDTH: f64 = 640.0;
const HEIGHT: f64 = 400.0;
const MARGIN: f64 = 60.0;

/// A round number that is at least this one.
fn above(x: f64) -> f64 {
    let unit = 10f64.powf(x.log10().floor());
    (x / unit).ceil() * unit
}

/// Where a value from 0 to `most` lies on an axis of this length.
fn along(value: f64, most: f64, length: f64) -> f64 {
    MARGIN + value / most * (length - 2.0 * MARGIN)
}

fn most(lines: &[Line], of: impl Fn(&(f64, f64)) -> f64) -> f64 {
    above(
        lines
            .iter()
            .flat_map(|line| &line.points)
            .map(of)
            .fold(0.0, f64::max),
    )
}

/// The lines over two axes from 0, each with five marks.
pub fn svg(title: &str, across: &str, up: &str, lines: &[Line]) -> String {
    let (x_most, y_most) = (most(lines, |point| point.0), most(lines, |point| point.1));
    let x = |value| along(value, x_most, WIDTH);
    let y = |value| HEIGHT - along(value, y_most, HEIGHT);
    let mut out = format!(
        "<svg xmlns=\"http://www.w3.org/2000/svg\" viewBox=\"0 0 {WIDTH} {HEIGHT}\" font-family=\"sans-serif\" font-size=\"12\">\n\
         <rect width=\"100%\" height=\"100%\" fill=\"white\"/>\n\
         <text x=\"{}\" y=\"24\" text-anchor=\"middle\" font-size=\"14\">{title}</text>\n\
         <text x=\"{}\" y=\"{}\" text-anchor=\"middle\">{across}</text>\n\
         <text x=\"16\" y=\"40\">{up}</text>\n",
        WIDTH / 2.0,
        WIDTH / 2.0,
        HEIGHT - 14.0
    );
    for mark in 0..=5 {
        let (a, b) = (x_most * mark as f64 / 5.0, y_most * mark as f64 / 5.0);
        writeln!(
            out,
            "<path d=\"M{:.1} {:.1}V{:.1}M{:.1} {:.1}H{:.1}\" stroke=\"#ddd\"/>\n\
             <text x=\"{:.1}\" y=\"{:.1}\" text-anchor=\"middle\">{a}</text>\n\
             <text x=\"{:.1}\" y=\"{:.1}\" text-anchor=\"end\">{b}</text>",
            x(a),
            y(0.0),
            y(y_most),
            x(0.0),
            y(b),
            x(x_most),
            x(a),
            y(0.0) + 18.0,
            x(0.0) - 8.0,
            y(b) + 4.0
        )
        .expect("a string takes everything");
    }
    for (k, line) in lines.iter().enumerate() {
        let points: Vec<_> = line
            .points
            .iter()
            .map(|point| format!("{:.1},{:.1}", x(point.0), y(point.1)))
            .collect();
        writeln!(
            out,
            "<polyline points=\"{}\" fill=\"none\" stroke=\"{}\" stroke-width=\"2\"/>\n\
             <text x=\"{:.1}\" y=\"{:.1}\" fill=\"{}\">{}</text>",
            points.join(" "),
            line.colour,
            x(0.0) + 16.0,
            y(y_most) + 20.0 + 18.0 * k as f64,
            line.colour,
            line.name
        )
        .expect("a string takes everything");
    }
    out + "</svg>\n"
}
