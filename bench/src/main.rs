//! Times of the sound test, of announce and of the other calls. Prints the tables of docs/BENCHMARKS.md.
//!
//!     bench [--runs N] [--sound] [--calls] [--rows TEXT]
//!
//! --sound: the table of the sound test alone; --calls: that of the other calls; --rows: of that those rows whose names have the text in them

#[cfg(feature = "source")]
mod announcing;
#[cfg(feature = "source")]
mod calls;
mod chosen;
mod clock;
#[cfg(feature = "source")]
mod linked;
#[cfg(feature = "source")]
mod scenes;
mod soundness;
mod timing;

use std::{env, fs};

const RUNS: usize = 31;

fn machine() -> String {
    let field = |path: &str, start: &str| {
        let text = fs::read_to_string(path).unwrap_or_default();
        let line = text.lines().find(|line| line.starts_with(start)).unwrap_or_default().to_owned();
        line.split_once(':').map_or(line.clone(), |(_, value)| value.trim().to_owned())
    };
    format!("{}; load before the run: {}", field("/proc/cpuinfo", "model name"), field("/proc/loadavg", ""))
}

fn main() {
    let after = |option: &str| env::args().skip_while(|argument| argument != option).nth(1);
    let runs = after("--runs").map_or(RUNS, |text| text.parse().expect("--runs wants a number"));
    println!("{}; medians of {runs} runs\n", machine());
    let asked = |option| env::args().any(|argument| argument == option);
    let (sound, alone) = (asked("--sound"), asked("--calls"));
    if !alone {
        soundness::table(runs);
        println!();
    }
    if sound {
        return;
    }
    #[cfg(feature = "source")]
    {
        if !alone {
            announcing::table(runs);
            println!();
        }
        calls::table(runs, &after("--rows").unwrap_or_default());
    }
    #[cfg(not(feature = "source"))]
    println!("Without the Rust: no table of announce and of the other calls.");
}
