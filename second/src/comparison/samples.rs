//! The generated traces of the comparison.

use std::io;

use crate::generator::generate::generate;
use crate::generator::style::Style;

/// Styles, how many traces of each, and their records. Those that tell most
/// mistakes apart come first, and last come those of deep trees, which tell
/// apart what hardly any other does. Setup faults come one to a trace, so traces
/// of `trees` and short ones are the most numerous.
const TRACES: &[(Style, u64, u64)] = &[
    (Style::Weights, 25, 10_000),
    (Style::Asks, 60, 800),
    (Style::Long, 25, 10_000),
    (Style::Deep, 8, 12_000),
    (Style::Full, 8, 12_000),
    (Style::Idle, 8, 12_000),
    (Style::Few, 8, 12_000),
    (Style::Edges, 300, 700),
    (Style::Flushes, 120, 200),
    (Style::Clock, 120, 200),
    (Style::Valid, 200, 500),
    (Style::Damaged, 500, 120),
    (Style::Noise, 120, 300),
    (Style::Trees, 700, 40),
    (Style::Short, 900, 40),
    (Style::Shares, 60, 300),
];

/// A generated trace of the comparison.
#[derive(Clone, Copy)]
pub struct Sample {
    style: Style,
    seed: u64,
    records: u64,
}

impl Sample {
    pub fn trace(&self) -> io::Result<Vec<u8>> {
        let mut trace = Vec::new();
        generate(self.seed, self.records, self.style, &mut trace)?;
        Ok(trace)
    }

    pub fn name(&self) -> String {
        format!("{} {}", self.style.name(), self.seed)
    }

    /// Its style and seed, and how to make it again.
    pub fn title(&self) -> String {
        format!(
            "style {0}, seed {1} (second gen {1} {2} {0})",
            self.style.name(),
            self.seed,
            self.records
        )
    }
}

/// All generated traces of the comparison, from a first seed on.
pub fn samples(first_seed: u64) -> Vec<Sample> {
    let of_style = |&(style, count, records): &(Style, u64, u64)| {
        (0..count).map(move |step| Sample {
            style,
            seed: first_seed.wrapping_add(step),
            records,
        })
    };
    TRACES.iter().flat_map(of_style).collect()
}
