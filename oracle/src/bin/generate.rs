//! Writes one made-up image to standard output. Usage: generate SEED INDEX, generate bench INDEX

use std::process::ExitCode;

use oracle::bench;
use oracle::generator::generate;
use oracle::tool;

fn main() -> ExitCode {
    tool::run("generate", |arguments| {
        let [seed, index] = arguments else {
            return Err("usage: generate SEED INDEX, or generate bench INDEX".to_owned());
        };
        let index = tool::number("INDEX", index)?;
        if seed != "bench" {
            let seed = tool::number("SEED", seed)?;
            eprintln!("seed {seed}, index {index}");
            return Ok(generate(seed, index));
        }
        if index >= bench::IMAGES {
            return Err(format!(
                "INDEX must be below {}, got {index}",
                bench::IMAGES
            ));
        }
        eprintln!("seed {}, index {index}", bench::SEED);
        Ok(bench::image(index))
    })
}
