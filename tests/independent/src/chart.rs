//! A line chart as an SVG: axes with labels, scales from the data, a legend with each curve's stroke, a dot for each measured point.

use std::fmt::Write;

pub struct Curve {
    pub name: String,
    pub colour: &'static str,
    pub dashes: &'static str,
    pub points: Vec<(f64, f64)>,
}

/// How an axis is drawn: from 0 in steps, or by powers of ten between round numbers (1, 2 or 5 times a power).
#[derive(Clone, Copy)]
pub enum Scale {
    Steps(f64),
    Powers,
}

pub struct Axis {
    pub label: &'static str,
    pub unit: &'static str,
    pub scale: Scale,
}

const TOP: f64 = 50.0;
const ACROSS: f64 = 440.0;
const UP: f64 = 280.0;
const BOTTOM: f64 = TOP + UP;
const STROKE: f64 = 34.0;
/// Of a letter, more than the widest common fonts take on the average.
const LETTER: f64 = 7.2;

/// An axis with its ticks: the first and the last are its ends.
pub struct Ruled {
    ticks: Vec<f64>,
    scale: Scale,
}

impl Ruled {
    pub fn over(scale: Scale, values: impl Iterator<Item = f64>) -> Self {
        let (low, high) =
            values.fold((f64::MAX, 0.0), |(low, high): (f64, f64), value| (low.min(value), high.max(value)));
        let ticks = match scale {
            Scale::Steps(step) => {
                (0..=(high / step).ceil().max(1.0) as i32).map(|tick| step * f64::from(tick)).collect()
            }
            Scale::Powers => {
                let round = || (-3..15).flat_map(|power| [1.0, 2.0, 5.0].map(|times| times * 10f64.powi(power)));
                let first = round().filter(|&end| end <= low).last().unwrap_or(low);
                let last = round().find(|&end| end >= high && end > first).unwrap_or(high);
                let within = (-3..15).map(|power| 10f64.powi(power)).filter(|&power| first < power && power < last);
                std::iter::once(first).chain(within).chain([last]).collect()
            }
        };
        Ruled { ticks, scale }
    }

    /// From 0 at its first end to 1 at its last.
    pub fn place(&self, value: f64) -> f64 {
        let (first, last) = (self.ticks[0], self.ticks[self.ticks.len() - 1]);
        match self.scale {
            Scale::Steps(_) => (value - first) / (last - first),
            Scale::Powers => (value / first).log10() / (last / first).log10(),
        }
    }
}

/// The axes, and where they begin.
struct Frame {
    left: f64,
    across: Ruled,
    up: Ruled,
}

impl Frame {
    fn x(&self, value: f64) -> f64 {
        self.left + ACROSS * self.across.place(value)
    }

    fn y(&self, value: f64) -> f64 {
        BOTTOM - UP * self.up.place(value)
    }

    /// Where the legend begins.
    fn legend(&self) -> f64 {
        self.left + ACROSS + 24.0
    }
}

pub fn svg(title: &str, across: &Axis, up: &Axis, curves: &[Curve]) -> String {
    let points = || curves.iter().flat_map(|curve| &curve.points);
    let horizontal = Ruled::over(across.scale, points().map(|&(x, _)| x));
    let vertical = Ruled::over(up.scale, points().map(|&(_, y)| y));
    let left = 44.0 + widest(vertical.ticks.iter().map(|tick| format!("{tick}{}", up.unit)));
    let frame = Frame { left, across: horizontal, up: vertical };
    let width = frame.legend() + STROKE + 20.0 + widest(curves.iter().map(|curve| curve.name.clone()));
    let sizes = format!("viewBox=\"0 0 {width:.0} {:.0}\" font-family=\"sans-serif\" font-size=\"12\"", BOTTOM + 56.0);
    let mut svg = format!("<svg xmlns=\"http://www.w3.org/2000/svg\" {sizes}>\n");
    svg += "<rect width=\"100%\" height=\"100%\" fill=\"white\"/>\n";
    let _ = writeln!(svg, "<text x=\"{left:.1}\" y=\"26\" font-size=\"14\">{title}</text>");
    axes(&mut svg, &frame, across, up);
    for (number, curve) in curves.iter().enumerate() {
        draw(&mut svg, &frame, curve, TOP + 14.0 + 22.0 * number as f64);
    }
    svg + "</svg>\n"
}

fn widest(texts: impl Iterator<Item = String>) -> f64 {
    LETTER * texts.map(|text| text.chars().count()).max().unwrap_or(0) as f64
}

fn text(svg: &mut String, (x, y): (f64, f64), more: &str, words: &str) {
    let _ = writeln!(svg, "<text x=\"{x:.1}\" y=\"{y:.1}\" {more}>{words}</text>");
}

fn axes(svg: &mut String, frame: &Frame, across: &Axis, up: &Axis) {
    let (left, middle, centre) = (frame.left, frame.left + ACROSS / 2.0, BOTTOM - UP / 2.0);
    for &tick in &frame.across.ticks {
        let x = frame.x(tick);
        let _ = writeln!(svg, "<path d=\"M{x:.1} {BOTTOM}V{TOP}\" stroke=\"#ddd\"/>");
        text(svg, (x, BOTTOM + 18.0), "text-anchor=\"middle\"", &format!("{tick}{}", across.unit));
    }
    for &tick in &frame.up.ticks {
        let y = frame.y(tick);
        let _ = writeln!(svg, "<path d=\"M{left:.1} {y:.1}H{:.1}\" stroke=\"#ddd\"/>", left + ACROSS);
        text(svg, (left - 8.0, y + 4.0), "text-anchor=\"end\"", &format!("{tick}{}", up.unit));
    }
    text(svg, (middle, BOTTOM + 42.0), "text-anchor=\"middle\"", across.label);
    let upright = format!("text-anchor=\"middle\" transform=\"rotate(-90 20 {centre})\"");
    text(svg, (20.0, centre), &upright, up.label);
}

/// A curve with its dots, and its stroke and name in the legend at this height.
fn draw(svg: &mut String, frame: &Frame, curve: &Curve, height: f64) {
    let (Curve { name, colour, dashes, points }, start) = (curve, frame.legend());
    let style = format!("fill=\"none\" stroke=\"{colour}\" stroke-width=\"2\" stroke-dasharray=\"{dashes}\"");
    let line: Vec<String> = points.iter().map(|&(x, y)| format!("{:.1},{:.1}", frame.x(x), frame.y(y))).collect();
    let _ = writeln!(svg, "<polyline {style} points=\"{}\"/>", line.join(" "));
    let _ = writeln!(svg, "<path {style} d=\"M{start:.1} {height}h{STROKE}\"/>");
    let in_legend = (start + STROKE / 2.0, height);
    for (x, y) in points.iter().map(|&(x, y)| (frame.x(x), frame.y(y))).chain([in_legend]) {
        let _ = writeln!(svg, "<circle cx=\"{x:.1}\" cy=\"{y:.1}\" r=\"2.5\" fill=\"{colour}\"/>");
    }
    text(svg, (start + STROKE + 8.0, height + 4.0), "", name);
}
