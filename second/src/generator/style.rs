//! The styles of generated traces.

named_list! {
    Style {
        Short = "short",
        Long = "long",
        Valid = "valid",
        Damaged = "damaged",
        Edges = "edges",
        Deep = "deep",
        Few = "few",
        Idle = "idle",
        Full = "full",
        Noise = "noise",
        Weights = "weights",
        Trees = "trees",
        Clock = "clock",
        Flushes = "flushes",
        Shares = "shares",
        Asks = "asks",
    }
}

impl Style {
    pub fn named(name: &str) -> Option<Style> {
        Style::ALL
            .iter()
            .copied()
            .find(|style| style.name() == name)
    }

    /// How many records follow the start if nothing else is asked for; how
    /// many bytes there are in all for `noise`.
    pub fn usual_records(self) -> u64 {
        match self {
            Style::Short | Style::Trees => 40,
            Style::Deep | Style::Few | Style::Idle | Style::Full => 3_000,
            Style::Long | Style::Weights => 3_000,
            Style::Valid => 500,
            Style::Clock | Style::Flushes | Style::Shares => 200,
            Style::Damaged => 120,
            Style::Edges => 700,
            Style::Asks => 800,
            Style::Noise => 300,
        }
    }
}
