//! Made-up images. Every image follows from its seed and index alone.

mod attributes;
mod clusters;
mod damaged;
mod faults;
mod groups;
mod limits;
mod plant;
mod refused;
mod wild;

pub use faults::{FAULTS, inject};
pub use limits::CASES as LIMIT_CASES;
pub use limits::case as limit_case;
pub use plant::{Size, plant};

use crate::image::Draft;
use crate::random::Random;

/// What an image is made to show.
#[derive(Clone, Copy, PartialEq, Eq, Debug)]
pub enum Family {
    /// A plant without errors.
    Clean,
    /// A plant with one to four faults.
    Faulty,
    /// A hand-built graph: chains through In connectors, self-loops, ids out of range, repeated
    /// and near 2^32.
    Wild,
    /// Chains through In connectors whose later clusters meet what earlier ones filled.
    Chains,
    /// Few clusters whose members declare texts, Reals and Integers out of small pools: equal
    /// bytes under different numbers, empty texts, NaN, infinities, zeros, subnormals, ends
    /// around the defaults.
    Clusters,
    /// The same with attribute kinds that differ from the type.
    Kinds,
    /// In connectors and boundary inputs that share iris.
    Groups,
    /// Counts at and one above a limit.
    Limits,
    /// Images to be turned away.
    Refused,
    /// Images with a byte changed, cut, lengthened, fields swapped.
    Damaged,
    /// Integer defaults of the head that aren't the Rust's: for reading alone.
    Defaults,
}

/// The families with their shares of a hundred.
pub const FAMILIES: [(Family, usize); 11] = [
    (Family::Clean, 11),
    (Family::Faulty, 20),
    (Family::Wild, 12),
    (Family::Chains, 4),
    (Family::Clusters, 15),
    (Family::Kinds, 6),
    (Family::Groups, 10),
    (Family::Limits, 1),
    (Family::Refused, 10),
    (Family::Damaged, 10),
    (Family::Defaults, 1),
];

/// The image of this seed and index.
pub fn generate(seed: u64, index: u64) -> Vec<u8> {
    generate_with_family(seed, index).1
}

pub fn generate_with_family(seed: u64, index: u64) -> (Family, Vec<u8>) {
    let mut r = Random::new(seed, index);
    let family = pick_family(&mut r);
    let image = match family {
        Family::Limits => {
            let number = r.below(LIMIT_CASES);
            limit_case(&mut r, number)
        }
        Family::Refused => {
            let base = base(&mut r);
            refused::image(&mut r, base)
        }
        Family::Damaged => {
            let base = base(&mut r);
            damaged::image(&mut r, &base)
        }
        Family::Defaults => {
            let mut draft = base(&mut r);
            draft.default_min = attributes::integer(&mut r);
            draft.default_max = attributes::integer(&mut r);
            draft.bytes()
        }
        other => draft(&mut r, other).bytes(),
    };
    (family, image)
}

fn pick_family(r: &mut Random) -> Family {
    let all = FAMILIES.iter().map(|(_, share)| share).sum();
    let mut left = r.below(all);
    for (family, share) in FAMILIES {
        if left < share {
            return family;
        }
        left -= share;
    }
    Family::Clean
}

/// A draft to be damaged, turned away or given other defaults.
fn base(r: &mut Random) -> Draft {
    let family = r.pick(&[
        Family::Clean,
        Family::Faulty,
        Family::Wild,
        Family::Clusters,
        Family::Groups,
    ]);
    draft(r, family)
}

fn draft(r: &mut Random, family: Family) -> Draft {
    match family {
        Family::Wild => wild::graph(r),
        Family::Chains => clusters::chains(r),
        Family::Clusters => clusters::clusters(r, false),
        Family::Kinds => clusters::clusters(r, true),
        Family::Groups => groups::groups(r),
        Family::Faulty => {
            let size = small(r);
            let mut draft = plant(r, size);
            // 6.8 shows only where nothing else is wrong, but beside warnings and other roots.
            if r.chance(1, 6) {
                for detail in r.pick(&[&[8][..], &[8, 8], &[8, 8, 8], &[7, 8], &[8, 1], &[8, 6]]) {
                    inject(r, &mut draft, 6, *detail);
                }
                return draft;
            }
            for _ in 0..r.pick(&[1, 1, 1, 2, 3, 4]) {
                let (rule, detail) = r.pick(&FAULTS);
                inject(r, &mut draft, rule, detail);
            }
            draft
        }
        _ => {
            let size = small(r);
            plant(r, size)
        }
    }
}

fn small(r: &mut Random) -> Size {
    let connectors = match r.below(10) {
        0 => r.between(0, 2),
        9 => r.between(20, 60),
        _ => r.between(3, 20),
    };
    Size {
        connectors,
        blocks: r.between(1, 1 + connectors / 3),
        names: connectors,
        boundary: r.between(0, 4),
    }
}
