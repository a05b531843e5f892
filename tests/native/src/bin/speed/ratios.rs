//! The ratios to C, beside the bars that were set.

use std::process::ExitCode;

/// The least time of the proved library over the least time of C, which took turns.
pub struct Ratio {
    pub name: String,
    pub ratio: f64,
    pub bar: f64,
}

/// What a ratio may be above its bar and does not count as over it: the noise of the timer and of the machine, since the least of many
/// times varies too.
const NOISE: f64 = 0.05;

impl Ratio {
    fn over(&self) -> bool {
        self.ratio > self.bar + NOISE
    }
}

/// Prints one line for each. Fails where one is over its bar; without C there are none.
pub fn judge(ratios: &[Ratio]) -> ExitCode {
    if !ratios.is_empty() {
        println!("\n{:<36} {:>9} {:>6}", "ratios", "proved/C", "bar");
    }
    for ratio in ratios {
        let Ratio { name, ratio: times, bar } = ratio;
        println!("{name:<36} {times:>9.2} {bar:>6.1}{}", if ratio.over() { "  over" } else { "" });
    }
    ExitCode::from(u8::from(ratios.iter().any(Ratio::over)))
}
