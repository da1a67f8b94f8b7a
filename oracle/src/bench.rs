//! The images of the benchmark, fixed by their seed, and the time of the six rules on each.

use std::time::{Duration, Instant};

use crate::format::MAX_IMAGE;
use crate::generator::{FAULTS, Size, inject, plant};
use crate::random::Random;
use crate::reader::{Accepted, read};
use crate::tool;
use crate::validate;

pub const SEED: u64 = 10_000;
pub const IMAGES: u64 = 10_000;
pub const MAX_CONNECTORS: usize = 1_000;
/// Runs of one image, each on a fresh copy of the model.
pub const RUNS: usize = 5;

/// How many images a benchmark's arguments ask for.
pub fn asked(arguments: &[String]) -> Result<u64, String> {
    let count = match arguments {
        [] => IMAGES,
        [count] => tool::number("COUNT", count)?,
        _ => return Err("usage: bench [COUNT]".to_owned()),
    };
    if !(1..=IMAGES).contains(&count) {
        return Err(format!("COUNT must be from 1 to {IMAGES}, got {count}"));
    }
    Ok(count)
}

/// Draws of one image before one is of the kind asked for.
const DRAWS: u64 = 64;

/// Bytes of an image of `connectors` connectors without names, on average and with some room:
/// connector, port, and shares of a connection, an external input and a block.
const BYTES_PER_CONNECTOR: usize = 51 + 4 + 6 + 1 + 1;
const BYTES_BESIDE: usize = 1_200;
const BYTES_PER_NAME: usize = 8;
const CONNECTORS_PER_BLOCK: usize = 16;

/// The image of an index: with errors if the index is odd, without if it is even.
pub fn image(index: u64) -> Vec<u8> {
    let with_errors = index % 2 == 1;
    let connectors = Random::new(SEED, index * DRAWS).between(1, MAX_CONNECTORS);
    for draw in 1..DRAWS {
        let mut r = Random::new(SEED, index * DRAWS + draw);
        let image = draw_image(&mut r, connectors, with_errors);
        let fits = |accepted: &Accepted| {
            let diags = validate(&mut accepted.model.clone());
            diags.iter().any(|d| d.is_error()) == with_errors
        };
        if read(&image).as_ref().is_ok_and(fits) {
            return image;
        }
    }
    panic!("no image of index {index} in {DRAWS} draws")
}

fn draw_image(r: &mut Random, connectors: usize, with_errors: bool) -> Vec<u8> {
    let used = BYTES_BESIDE + connectors * BYTES_PER_CONNECTOR;
    let names = MAX_IMAGE.saturating_sub(used) / BYTES_PER_NAME;
    let size = Size {
        connectors,
        blocks: 1 + connectors / CONNECTORS_PER_BLOCK,
        names: names.min(connectors),
        boundary: 8,
    };
    let mut draft = plant(r, size);
    if with_errors {
        for _ in 0..r.between(1, 3) {
            let (rule, detail) = r.pick(&FAULTS);
            inject(r, &mut draft, rule, detail);
        }
    }
    draft.bytes()
}

/// What was measured of one image.
pub struct Measured {
    pub connectors: usize,
    pub connections: usize,
    pub bytes: usize,
    pub diagnostics: usize,
    pub with_errors: bool,
    pub first: Duration,
    pub least: Duration,
}

/// Time the six calls alone: the model is read and copied before the clock starts, and the
/// diagnostics are dropped after it has stopped.
pub fn measure(index: u64) -> Measured {
    let image = image(index);
    let accepted = match read(&image) {
        Ok(accepted) => accepted,
        Err(refusal) => panic!("benchmark image {index} is refused {}", refusal.number),
    };
    let mut times = [Duration::ZERO; RUNS];
    let mut diagnostics = Vec::new();
    for time in &mut times {
        let mut model = accepted.model.clone();
        let start = Instant::now();
        let diags = validate(&mut model);
        *time = start.elapsed();
        diagnostics = diags;
    }
    Measured {
        connectors: accepted.model.connectors.len(),
        connections: accepted.model.connections.len(),
        bytes: image.len(),
        diagnostics: diagnostics.len(),
        with_errors: diagnostics.iter().any(|d| d.is_error()),
        first: times[0],
        least: times.iter().min().copied().unwrap_or_default(),
    }
}
