//! Copies of an image with a little damage. Many of them are still accepted.

use crate::format::*;
use crate::image::{Draft, field};
use crate::random::Random;

pub fn image(r: &mut Random, base: &Draft) -> Vec<u8> {
    let mut image = base.bytes();
    for _ in 0..r.pick(&[1, 1, 1, 2]) {
        image = damage(r, image);
    }
    image
}

fn damage(r: &mut Random, mut image: Vec<u8>) -> Vec<u8> {
    match r.below(9) {
        0 | 1 => change(r, &mut image, FIELD_START + HEAD_LEN),
        2 => change(r, &mut image, 0),
        3 => image.truncate(r.below(image.len() + 1)),
        4 => image.extend((0..r.between(1, 4)).map(|_| r.pick(&[0, 1, 8, 255]))),
        5 => image.extend(field(TAG_BOUNDARY_OUTPUT, &[0; BOUNDARY_OUTPUT_LEN])),
        6 => {
            return with_fields(r, &image, |r, fields| {
                let (one, other) = (r.below(fields.len()), r.below(fields.len()));
                fields.swap(one, other);
            });
        }
        7 => {
            return with_fields(r, &image, |r, fields| {
                let at = r.below(fields.len());
                fields.remove(at);
            });
        }
        _ => {
            return with_fields(r, &image, |r, fields| {
                let at = r.below(fields.len());
                fields.insert(at, fields[at].clone());
            });
        }
    }
    image
}

/// Change one byte, by one bit, by one, or to anything.
fn change(r: &mut Random, image: &mut [u8], from: usize) {
    let count = image.len().saturating_sub(from);
    if count == 0 {
        return;
    }
    let byte = &mut image[from + r.below(count)];
    *byte = match r.below(4) {
        0 => *byte ^ (1 << r.below(8)),
        1 => byte.wrapping_add(1),
        2 => byte.wrapping_sub(1),
        _ => r.bits() as u8,
    };
}

/// Change the list of fields, as far as they can be walked.
fn with_fields(
    r: &mut Random,
    image: &[u8],
    change: impl Fn(&mut Random, &mut Vec<Vec<u8>>),
) -> Vec<u8> {
    let mut fields = Vec::new();
    let mut rest = image;
    while rest.len() >= FIELD_START {
        let length = usize::from(u16::from_le_bytes([rest[1], rest[2]]));
        let end = (FIELD_START + length).min(rest.len());
        fields.push(rest[..end].to_vec());
        rest = &rest[end..];
    }
    if fields.is_empty() {
        return image.to_vec();
    }
    change(r, &mut fields);
    fields.push(rest.to_vec());
    fields.concat()
}
