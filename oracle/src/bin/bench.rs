//! Times the oracle's six rules on the fixed images. Usage: bench [COUNT]

use std::fmt::Write;
use std::process::ExitCode;
use std::time::Duration;

use oracle::bench::{MAX_CONNECTORS, Measured, RUNS, SEED, asked, measure};
use oracle::tool;

fn main() -> ExitCode {
    tool::run("bench", |arguments| {
        let count = asked(arguments)?;
        let all: Vec<Measured> = (0..count).map(measure).collect();
        Ok(report(&all).into_bytes())
    })
}

fn report(all: &[Measured]) -> String {
    let sum = |part: fn(&Measured) -> usize| all.iter().map(part).sum::<usize>();
    let mut out = format!(
        "seed {SEED}, images {}, bytes {}, connectors {}, connections {}, diagnostics {}\n\n",
        all.len(),
        sum(|m| m.bytes),
        sum(|m| m.connectors),
        sum(|m| m.connections),
        sum(|m| m.diagnostics)
    );
    let _ = writeln!(
        out,
        "Microseconds for an image, least of {RUNS} runs; sums in milliseconds.\n"
    );
    out.push_str("| images | count | sum | mean | median | maximum | sum of first runs |\n");
    out.push_str("|---|---|---|---|---|---|---|\n");
    row(&mut out, "all", &all.iter().collect::<Vec<_>>());
    for (name, with_errors) in [("without errors", false), ("with errors", true)] {
        let half: Vec<&Measured> = all
            .iter()
            .filter(|m| m.with_errors == with_errors)
            .collect();
        row(&mut out, name, &half);
    }
    let step = MAX_CONNECTORS / 10;
    for low in (1..=MAX_CONNECTORS).step_by(step) {
        let sizes = low..low + step;
        let part: Vec<&Measured> = all
            .iter()
            .filter(|m| sizes.contains(&m.connectors))
            .collect();
        row(
            &mut out,
            &format!("{low} to {} connectors", low + step - 1),
            &part,
        );
    }
    out
}

fn row(out: &mut String, name: &str, part: &[&Measured]) {
    let mut times: Vec<Duration> = part.iter().map(|m| m.least).collect();
    times.sort();
    let Some(maximum) = times.last() else { return };
    let sum: Duration = times.iter().sum();
    let first: Duration = part.iter().map(|m| m.first).sum();
    let (low, high) = (times[(times.len() - 1) / 2], times[times.len() / 2]);
    let median = (low + high) / 2;
    let micro = |time: Duration| time.as_secs_f64() * 1e6;
    let milli = |time: Duration| time.as_secs_f64() * 1e3;
    let _ = writeln!(
        out,
        "| {name} | {} | {:.1} | {:.2} | {:.2} | {:.2} | {:.1} |",
        part.len(),
        milli(sum),
        micro(sum) / part.len() as f64,
        micro(median),
        micro(*maximum),
        milli(first)
    );
}
