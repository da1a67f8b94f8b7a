//! Images to be turned away: one fault of a chosen refusal, now and then a second one elsewhere.

use crate::format::*;
use crate::generator::limits;
use crate::image::{Draft, field};
use crate::random::Random;

pub fn image(r: &mut Random, base: Draft) -> Vec<u8> {
    let first = r.pick(&[
        REFUSED_SIZE,
        REFUSED_CUT,
        REFUSED_CUT,
        REFUSED_TAG,
        REFUSED_TAG,
        REFUSED_LENGTH,
        REFUSED_LENGTH,
        REFUSED_COUNT,
        REFUSED_VALUE,
        REFUSED_VALUE,
        REFUSED_VALUE,
        REFUSED_TEXT_BYTE,
        REFUSED_TEXT_BYTE,
        REFUSED_TEXT_NUMBER,
        REFUSED_TEXT_NUMBER,
    ]);
    match first {
        REFUSED_SIZE => return bad_size(r, &base),
        REFUSED_COUNT => {
            // The kinds whose first record beyond costs few bytes.
            let tag = r.pick(&[TAG_TEXT, TAG_BLOCK, TAG_BOUNDARY_INPUT, TAG_BOUNDARY_OUTPUT]);
            return limits::beyond(r, tag);
        }
        _ => {}
    }
    let mut fields = base.fields();
    spoil(r, &mut fields, first);
    if r.chance(1, 4) {
        let second = r.pick(&[
            REFUSED_TAG,
            REFUSED_LENGTH,
            REFUSED_VALUE,
            REFUSED_TEXT_BYTE,
            REFUSED_TEXT_NUMBER,
        ]);
        spoil(r, &mut fields, second);
    }
    let mut image = fields.concat();
    if first == REFUSED_CUT {
        let keep = r.between(MIN_IMAGE, image.len());
        image.truncate(keep);
        if r.chance(1, 3) {
            image.push(r.pick(&[0, 1, 2, 4, 9]));
        }
    }
    image
}

fn bad_size(r: &mut Random, base: &Draft) -> Vec<u8> {
    let mut image = base.bytes();
    image.truncate(r.below(MIN_IMAGE));
    image
}

/// The fields of one of these tags.
fn of_tags(fields: &[Vec<u8>], tags: &[u8]) -> Vec<usize> {
    (0..fields.len())
        .filter(|&f| tags.contains(&fields[f][0]))
        .collect()
}

fn spoil(r: &mut Random, fields: &mut Vec<Vec<u8>>, number: u8) {
    match number {
        REFUSED_TAG => bad_tag(r, fields),
        REFUSED_LENGTH => bad_length(r, fields),
        REFUSED_VALUE => bad_value(r, fields),
        REFUSED_TEXT_BYTE => bad_text_byte(r, fields),
        REFUSED_TEXT_NUMBER => bad_text_number(r, fields),
        _ => {}
    }
}

fn bad_tag(r: &mut Random, fields: &mut Vec<Vec<u8>>) {
    let at = r.below(fields.len());
    match r.below(5) {
        0 => fields[at][0] = r.pick(&[0, LAST_TAG + 1, u8::MAX]),
        1 => fields.insert(r.below(at + 1) + 1, fields[0].clone()),
        2 => fields[0][0] = r.pick(&[0, TAG_TEXT, TAG_BOUNDARY_OUTPUT]),
        3 => fields.push(field(r.pick(&[TAG_TEXT, TAG_HEAD, 0, LAST_TAG + 1]), b"")),
        _ => fields.reverse(),
    }
}

fn bad_length(r: &mut Random, fields: &mut [Vec<u8>]) {
    let at = r.below(fields.len());
    let tag = fields[at][0];
    let contents = fields[at][FIELD_START..].to_vec();
    let longer = |r: &mut Random, mut contents: Vec<u8>| {
        contents.resize(contents.len() + r.pick(&[1, 2, 4, 300]), b' ');
        contents
    };
    match tag {
        TAG_TEXT => fields[at] = field(tag, &[b'x'; MAX_TEXT + 1]),
        TAG_BLOCK if r.chance(1, 2) && contents.len() >= BLOCK_START => {
            // A port count above 256 whose length fits, or a count that doesn't fit.
            let mut contents = contents[..BLOCK_START].to_vec();
            let count = (MAX_PORTS + 1) as u16;
            let spot = r.pick(&[place::BLOCK_INPUTS, place::BLOCK_OUTPUTS]);
            contents[place::BLOCK_INPUTS..].fill(0);
            contents[spot..spot + 2].copy_from_slice(&count.to_le_bytes());
            if r.chance(1, 2) {
                contents.resize(BLOCK_START + PORT_LEN * usize::from(count), 0);
            }
            fields[at] = field(tag, &contents);
        }
        _ if r.chance(1, 2) && !contents.is_empty() => {
            let keep = r.below(contents.len());
            fields[at] = field(tag, &contents[..keep]);
        }
        _ => {
            let contents = longer(r, contents);
            fields[at] = field(tag, &contents);
        }
    }
}

/// Where the attributes of a record stand in its field.
fn attrs_at(field: &[u8]) -> usize {
    field.len().saturating_sub(ATTRS_LEN)
}

fn bad_value(r: &mut Random, fields: &mut [Vec<u8>]) {
    let tags = [
        TAG_CONNECTOR,
        TAG_CONNECTOR,
        TAG_BOUNDARY_INPUT,
        TAG_BOUNDARY_OUTPUT,
    ];
    let tag = r.pick(&tags);
    let all = of_tags(fields, &[tag]);
    let Some(at) = r.any(&all).filter(|_| r.chance(7, 8)) else {
        // Version and zero bytes of the head.
        if let Some(byte) = fields[0].get_mut(FIELD_START + r.below(4)) {
            *byte = byte.wrapping_add(r.between(1, 255) as u8);
        }
        return;
    };
    let field = &mut fields[at];
    if field.len() < ATTRS_LEN {
        return;
    }
    let attrs = attrs_at(field);
    match r.below(9) {
        0 if tag == TAG_CONNECTOR => field[FIELD_START + place::CONNECTOR_DIR] = r.pick(&[2, 255]),
        1 if tag == TAG_CONNECTOR => {
            field[FIELD_START + place::CONNECTOR_TYPE] = r.pick(&[LAST_KIND + 1, 255])
        }
        2 if tag == TAG_CONNECTOR => {
            field[FIELD_START + place::CONNECTOR_TYPE] = r.pick(&[KIND_REAL, KIND_STRING]);
            field[FIELD_START + place::CONNECTOR_ENUM_CLASS + r.below(4)] = 1;
        }
        3 => field[attrs + place::KIND] = r.pick(&[LAST_KIND + 1, 255]),
        4 => field[attrs + place::SET] = (field[attrs + place::SET] | UNBOUNDED) & !SET_UNBOUNDED,
        5 => {
            field[attrs + place::KIND] = KIND_INTEGER;
            field[attrs + place::SET] |=
                r.pick(&[SET_QUANTITY, SET_UNIT, SET_NOMINAL, SET_UNBOUNDED]);
        }
        6 => {
            field[attrs + place::KIND] = r.pick(&[KIND_BOOLEAN, KIND_STRING, KIND_ENUM]);
            field[attrs + place::SET] |= 1 << r.below(8);
        }
        _ => {
            // A byte behind an unset mark.
            field[attrs + place::SET] = 0;
            field[attrs + r.between(place::QUANTITY, ATTRS_LEN - 1)] = r.pick(&[1, 0x80, 255]);
        }
    }
}

fn bad_text_byte(r: &mut Random, fields: &mut Vec<Vec<u8>>) {
    let byte = r.pick(&[0, FIRST_TEXT_BYTE - 1, LAST_TEXT_BYTE + 1, 0x80, 0xC3, 0xFF]);
    let texts = of_tags(fields, &[TAG_TEXT]);
    match r.any(&texts) {
        Some(at) if fields[at].len() > FIELD_START => {
            let spot = r.between(FIELD_START, fields[at].len() - 1);
            fields[at][spot] = byte;
        }
        _ => fields.insert(1, field(TAG_TEXT, &[b'K', byte])),
    }
}

fn bad_text_number(r: &mut Random, fields: &mut [Vec<u8>]) {
    let texts = of_tags(fields, &[TAG_TEXT]).len() as u16;
    let number = r.pick(&[texts, texts + 1, NO_TEXT, NO_TEXT - 1]);
    let tags = [
        TAG_BLOCK,
        TAG_CONNECTOR,
        TAG_BOUNDARY_INPUT,
        TAG_BOUNDARY_OUTPUT,
    ];
    let all = of_tags(fields, &tags);
    let Some(at) = r.any(&all) else { return };
    let field = &mut fields[at];
    let attrs = attrs_at(field);
    let own = match field[0] {
        TAG_BLOCK => FIELD_START + place::BLOCK_INSTANCE,
        TAG_CONNECTOR => FIELD_START + place::CONNECTOR_IRI,
        _ => FIELD_START,
    };
    let has_attrs = field[0] != TAG_BLOCK && field.len() >= FIELD_START + ATTRS_LEN;
    let spot = if has_attrs && r.chance(2, 3) {
        let (bit, part) = r.pick(&[
            (SET_QUANTITY, place::QUANTITY),
            (SET_UNIT, place::UNIT),
            (SET_DISPLAY_UNIT, place::DISPLAY_UNIT),
        ]);
        field[attrs + place::KIND] = KIND_REAL;
        field[attrs + place::SET] |= bit;
        attrs + part
    } else {
        own
    };
    if field.len() >= spot + 2 {
        field[spot..spot + 2].copy_from_slice(&number.to_le_bytes());
    }
}
