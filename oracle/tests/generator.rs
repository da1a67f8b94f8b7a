//! The generator is fixed by its seed, shows everything, and the oracle tells everything of it.

use oracle::answer::{Answer, COMBINED, answer};
use oracle::coverage::Coverage;
use oracle::format::*;
use oracle::generator::{
    FAMILIES, Family, LIMIT_CASES, generate, generate_with_family, limit_case,
};
use oracle::random::Random;

const SEED: u64 = 1;
const COUNT: u64 = 6_000;

#[test]
fn an_image_follows_from_seed_and_index() {
    for index in 0..50 {
        assert_eq!(generate(SEED, index), generate(SEED, index));
    }
    let differ = (0..50).filter(|&index| generate(SEED, index) != generate(SEED + 1, index));
    assert!(differ.count() > 40);
}

#[test]
fn every_refusal_and_detail_occurs() {
    let mut coverage = Coverage::default();
    for index in 0..COUNT {
        coverage.add(&answer(&generate(SEED, index)));
    }
    assert_eq!(coverage.missing(), Vec::<String>::new());
}

#[test]
fn every_family_occurs_and_clean_plants_are_clean() {
    let mut seen = Vec::new();
    for index in 0..COUNT {
        let (family, image) = generate_with_family(SEED, index);
        if !seen.contains(&family) {
            seen.push(family);
        }
        if family == Family::Clean {
            let Answer::Accepted(report) = answer(&image) else {
                panic!("index {index} is refused")
            };
            assert_eq!(report.errors(), 0, "index {index}");
        }
    }
    assert_eq!(seen.len(), FAMILIES.len());
}

#[test]
fn the_oracle_tells_all_but_the_place_and_number_of_combined_ranges() {
    for index in 0..COUNT {
        let Answer::Accepted(report) = answer(&generate(SEED, index)) else {
            continue;
        };
        for told in &report.diagnostics {
            assert!(
                told.code != 0 && told.detail != 0,
                "index {index}: {told:?}"
            );
            let known = (told.rule, told.detail) != COMBINED;
            assert_eq!(told.place.is_some(), known, "index {index}: {told:?}");
            assert_eq!(
                told.subject.number.is_some(),
                known,
                "index {index}: {told:?}"
            );
        }
        if report.errors() > 0 {
            assert!(report.filled.is_empty(), "index {index}");
        }
        for slot in &report.filled {
            assert_ne!(slot.tag, TAG_BOUNDARY_INPUT, "index {index}");
        }
    }
}

#[test]
fn limits_are_met_and_passed() {
    let refusal = |number: usize| {
        let image = limit_case(&mut Random::new(SEED, 0), number);
        match answer(&image) {
            Answer::Refused(refusal) => Some(refusal.number),
            Answer::Accepted(_) => None,
        }
    };
    // Counts, ports twice, text bytes, shortest and longest image; then report sizes.
    let beyond = [5, 5, 5, 5, 5, 5, 5, 4, 4, 4, 1, 1];
    for (pair, number) in beyond.into_iter().enumerate() {
        assert_eq!(refusal(2 * pair), None, "case {}", 2 * pair);
        assert_eq!(refusal(2 * pair + 1), Some(number), "case {}", 2 * pair + 1);
    }
    for number in 2 * beyond.len()..LIMIT_CASES {
        assert_eq!(refusal(number), None, "case {number}");
    }
}
