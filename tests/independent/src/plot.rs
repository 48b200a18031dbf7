//! The plot of decode rate against load, of the very figures that sizing prints.

use crate::chart::{svg, Axis, Curve, Scale};
use crate::sizing::Decoded;

const CURVES: [(u8, u8, &str, &str); 4] =
    [(2, 16, "#b35806", "none"), (3, 4, "#5e9bd1", "none"), (3, 16, "#08519c", "none"), (4, 12, "#4d9221", "7 4")];

pub fn decode_plot(seed: u64, runs: usize, figures: &[Decoded]) -> String {
    let curves = CURVES.map(|(k, q, colour, dashes)| {
        let of_table = |figure: &&Decoded| (figure.sizes.k, figure.sizes.q) == (k, q);
        let points = figures.iter().filter(of_table).map(|figure| (figure.load as f64, figure.whole)).collect();
        Curve { name: format!("k = {k}, q = {q}, N = {}", 24 * u32::from(k) * u32::from(q)), colour, dashes, points }
    });
    let title = format!("Flowsets of random keys that settle whole (seed {seed}, {runs} flowsets a point)");
    let across = Axis { label: "load: flows in per cent of the cells N", unit: "%", scale: Scale::Steps(20.0) };
    let up = Axis { label: "flowsets that settle whole, in per cent", unit: "%", scale: Scale::Steps(20.0) };
    svg(&title, &across, &up, &curves)
}
