//! The benchmark's images are of the kind that is promised.

use oracle::bench::{MAX_CONNECTORS, image, measure};

#[test]
fn images_are_fixed_and_every_other_one_has_errors() {
    for index in 0..30 {
        assert_eq!(image(index), image(index));
        let measured = measure(index);
        assert_eq!(measured.with_errors, index % 2 == 1);
        assert!((1..=MAX_CONNECTORS).contains(&measured.connectors));
    }
}
