//! The plot of settling time against load; times on a scale of powers of ten.

use crate::chart::{svg, Axis, Curve, Scale};

const ENGINES: [(&str, &str); 3] =
    [("Rattle", "#08519c"), ("independent, marked", "#4d9221"), ("independent, rescanning", "#b35806")];

/// Of k = 3 (full lines) and k = 4 (dashed): the three engines' nanoseconds per flow at each load.
pub fn plot(loads: &[usize], curves: &[[Vec<f64>; 3]; 2]) -> String {
    let mut drawn = Vec::new();
    for (engine, (name, colour)) in ENGINES.into_iter().enumerate() {
        for ((k, dashes), of_k) in [(3, "none"), (4, "7 4")].into_iter().zip(curves) {
            let points = loads.iter().zip(&of_k[engine]).map(|(&load, &time)| (load as f64, time)).collect();
            drawn.push(Curve { name: format!("{name}, k = {k}"), colour, dashes, points });
        }
    }
    let across = Axis { label: "load: flows in per cent of the cells N", unit: "%", scale: Scale::Steps(20.0) };
    let up = Axis { label: "time per listed flow, in nanoseconds", unit: " ns", scale: Scale::Powers };
    svg("Settling with its session test (medians; powers of ten upwards)", &across, &up, &drawn)
}
