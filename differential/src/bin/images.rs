//! Writes generated images to standard output, each behind its length (4 bytes, low byte first).
//! Usage: images COUNT SEED

use std::io::{BufWriter, Write};
use std::process::ExitCode;

use oracle::generator::generate;
use oracle::tool::{self, number};

fn main() -> ExitCode {
    tool::run("images", |arguments| {
        let [count, seed] = arguments else {
            return Err("usage: images COUNT SEED".to_owned());
        };
        let (count, seed) = (number("COUNT", count)?, number("SEED", seed)?);
        write(count, seed).map_err(|e| format!("cannot write: {e}"))?;
        Ok(Vec::new())
    })
}

fn write(count: u64, seed: u64) -> std::io::Result<()> {
    let mut out = BufWriter::new(std::io::stdout().lock());
    for index in 0..count {
        let image = generate(seed, index);
        out.write_all(&(image.len() as u32).to_le_bytes())?;
        out.write_all(&image)?;
    }
    out.flush()
}
