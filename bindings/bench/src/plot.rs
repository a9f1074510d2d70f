//! A plot of lines over two logarithmic axes, as SVG.

use std::fmt::Write;

/// A line of a plot.
pub struct Line {
    name: &'static str,
    color: &'static str,
    dashed: bool,
    pub points: Vec<(f64, f64)>,
}

impl Line {
    pub fn new(name: &'static str, color: &'static str, dashed: bool) -> Line {
        Line {
            name,
            color,
            dashed,
            points: Vec::new(),
        }
    }
}

const WIDTH: f64 = 860.0;
const HEIGHT: f64 = 520.0;
const LEFT: f64 = 80.0;
const RIGHT: f64 = 20.0;
const TOP: f64 = 50.0;
const BOTTOM: f64 = 60.0;

/// Draws the lines: nanoseconds per byte over the length of values.
pub fn draw(title: &str, lines: &[Line]) -> String {
    let all = || lines.iter().flat_map(|line| &line.points);
    let most_x = all().map(|point| point.0).fold(1.0, f64::max).log10();
    let lowest = all().map(|point| point.1).fold(f64::INFINITY, f64::min);
    let highest = all().map(|point| point.1).fold(0.0, f64::max);
    let (low, high) = (lowest.log10().floor(), highest.log10().ceil());
    let x = |value: f64| LEFT + value.log10() / most_x * (WIDTH - LEFT - RIGHT);
    let y =
        |value: f64| TOP + (high - value.log10()) / (high - low).max(1.0) * (HEIGHT - TOP - BOTTOM);

    let mut svg = String::new();
    let mut put = |text: String| {
        svg.push_str(&text);
        svg.push('\n');
    };
    put(format!(
        r#"<svg xmlns="http://www.w3.org/2000/svg" viewBox="0 0 {WIDTH} {HEIGHT}" font-family="sans-serif" font-size="13">"#
    ));
    put(r#"<rect width="100%" height="100%" fill="white"/>"#.to_string());
    put(format!(
        r#"<text x="{LEFT}" y="26" font-size="16">{title}</text>"#
    ));
    let bottom = HEIGHT - BOTTOM;
    let mut power = 0.0;
    while power <= most_x {
        let value = 10f64.powf(power);
        let place = x(value);
        put(format!(
            r##"<path d="M{place:.1} {TOP} V{bottom}" stroke="#e5e5e5"/><text x="{place:.1}" y="{:.1}" text-anchor="middle">{value}</text>"##,
            bottom + 18.0
        ));
        power += 1.0;
    }
    let mut power = low;
    while power <= high {
        let value = 10f64.powf(power);
        let place = y(value);
        let end = WIDTH - RIGHT;
        put(format!(
            r##"<path d="M{LEFT} {place:.1} H{end}" stroke="#e5e5e5"/><text x="{:.1}" y="{:.1}" text-anchor="end">{value}</text>"##,
            LEFT - 8.0,
            place + 4.0
        ));
        power += 1.0;
    }
    put(format!(
        r#"<text x="{:.1}" y="{:.1}" text-anchor="middle">length of a value, bytes</text>"#,
        (LEFT + WIDTH - RIGHT) / 2.0,
        HEIGHT - 18.0
    ));
    put(format!(
        r#"<text transform="translate(22 {:.1}) rotate(-90)" text-anchor="middle">nanoseconds per byte of the stream</text>"#,
        (TOP + bottom) / 2.0
    ));
    for (number, line) in lines.iter().enumerate() {
        let mut path = String::new();
        for (point, (across, up)) in line.points.iter().enumerate() {
            let letter = if point == 0 { 'M' } else { 'L' };
            write!(path, "{letter}{:.1} {:.1} ", x(*across), y(*up)).expect("a string takes all");
        }
        let dashes = if line.dashed {
            r#" stroke-dasharray="6 4""#
        } else {
            ""
        };
        let color = line.color;
        put(format!(
            r#"<path d="{}" fill="none" stroke="{color}" stroke-width="2"{dashes}/>"#,
            path.trim_end()
        ));
        let key = TOP + 18.0 + 20.0 * number as f64;
        let start = WIDTH - 250.0;
        put(format!(
            r#"<path d="M{start} {key} h34" stroke="{color}" stroke-width="2"{dashes}/><text x="{:.1}" y="{:.1}">{}</text>"#,
            start + 42.0,
            key + 4.0,
            line.name
        ));
    }
    put("</svg>".to_string());
    svg
}
