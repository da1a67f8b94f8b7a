//! Generates images and prints what they show. Usage: coverage SEED COUNT

use std::collections::BTreeMap;
use std::fmt::Write;
use std::process::ExitCode;

use oracle::answer::answer;
use oracle::coverage::Coverage;
use oracle::generator::generate_with_family;
use oracle::tool;

fn main() -> ExitCode {
    tool::run("coverage", |arguments| match arguments {
        [seed, count] => {
            let (seed, count) = (tool::number("SEED", seed)?, tool::number("COUNT", count)?);
            Ok(table(seed, count).into_bytes())
        }
        _ => Err("usage: coverage SEED COUNT".to_owned()),
    })
}

fn table(seed: u64, count: u64) -> String {
    let mut coverage = Coverage::default();
    let mut families: BTreeMap<String, usize> = BTreeMap::new();
    let mut bytes = 0;
    for index in 0..count {
        let (family, image) = generate_with_family(seed, index);
        *families.entry(format!("{family:?}")).or_default() += 1;
        bytes += image.len();
        coverage.add(&answer(&image));
    }
    let mut out = format!("seed {seed}, images {count}, bytes {bytes}\n\n");
    out.push_str("| family | images |\n|---|---|\n");
    for (family, images) in families {
        let _ = writeln!(out, "| {family} | {images} |");
    }
    let _ = write!(out, "\n{}", coverage.table());
    let _ = writeln!(out, "\nnever seen: {:?}", coverage.missing());
    out
}
