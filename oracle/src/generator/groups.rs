//! In connectors and boundary inputs that share iris, for rule 5's combined ranges.

use crate::format::*;
use crate::generator::attributes::{self, Pool, crossed, range, set_number, text};
use crate::image::{Block, BoundaryInput, Connector, Draft};
use crate::random::Random;

/// Iris in no order, one a start of another, one empty, one that looks synthetic.
const IRIS: [&[u8]; 6] = [b"u", b"T", b"", b"uu", b"connector#0", b"~"];

pub fn groups(r: &mut Random) -> Draft {
    let mut draft = Draft::default();
    let pool = Pool::new(r);
    let kind = r.pick(&[KIND_REAL, KIND_REAL, KIND_INTEGER]);
    if r.chance(1, 4) {
        empty_groups(r, &mut draft, kind);
    } else {
        mixed_groups(r, &mut draft, &pool, kind);
    }
    draft.blocks.push(Block {
        id: 0,
        instance: NO_TEXT,
        inputs: Vec::new(),
        outputs: Vec::new(),
    });
    draft
}

/// Several groups, each of two members without a common value: their order is that of the iris.
fn empty_groups(r: &mut Random, draft: &mut Draft, kind: u8) {
    let start = r.below(IRIS.len());
    for step in 0..r.between(2, IRIS.len()) {
        let iri = IRIS[(start + step) % IRIS.len()];
        let (min, max) = crossed(r, kind);
        let mut low = RawAttrs::of_kind(kind);
        set_number(&mut low, SET_MAX, max);
        let mut high = RawAttrs::of_kind(kind);
        set_number(&mut high, SET_MIN, min);
        add_input(r, draft, iri, low);
        if r.chance(1, 2) {
            add_input(r, draft, iri, high);
        } else {
            let iri = text(r, draft, iri);
            draft
                .boundary_inputs
                .push(BoundaryInput { iri, attrs: high });
        }
    }
}

/// An external In.
fn add_input(r: &mut Random, draft: &mut Draft, iri: &[u8], attrs: RawAttrs) {
    let iri = text(r, draft, iri);
    let id = draft.connectors.len() as u32;
    draft.external_inputs.push(id);
    let input = Connector::of_first_block(id, DIR_IN, iri, attrs.kind, attrs);
    draft.connectors.push(input);
}

/// Groups of any members, most of them external.
fn mixed_groups(r: &mut Random, draft: &mut Draft, pool: &Pool, kind: u8) {
    let iris: Vec<&[u8]> = (0..r.between(1, 3)).map(|_| r.pick(&IRIS)).collect();
    for id in 0..r.between(1, 8) as u32 {
        let iri = if r.chance(9, 10) {
            let iri = r.pick(&iris);
            text(r, draft, iri)
        } else {
            NO_TEXT
        };
        let attrs = member(r, draft, pool, kind);
        let dir = r.pick(&[DIR_IN, DIR_IN, DIR_IN, DIR_IN, DIR_IN, DIR_OUT]);
        // Some aren't external, and some externals aren't Ins.
        if r.chance(7, 8) {
            draft.external_inputs.push(id);
        }
        let member = Connector::of_first_block(id, dir, iri, kind, attrs);
        draft.connectors.push(member);
    }
    for _ in 0..r.between(0, 3) {
        let iri = if r.chance(7, 8) {
            r.pick(&iris)
        } else {
            attributes::word(r)
        };
        let iri = text(r, draft, iri);
        let attrs = member(r, draft, pool, kind);
        draft.boundary_inputs.push(BoundaryInput { iri, attrs });
    }
}

/// Mostly a range that isn't crossed alone; now and then one that silences its group.
fn member(r: &mut Random, draft: &mut Draft, pool: &Pool, kind: u8) -> RawAttrs {
    let other = if kind == KIND_REAL {
        KIND_INTEGER
    } else {
        KIND_REAL
    };
    let kind = if r.chance(1, 12) { other } else { kind };
    let mut attrs = RawAttrs::of_kind(kind);
    let (min, max) = match r.below(24) {
        0 => return pool.attrs(r, draft, kind),
        1 => return RawAttrs::of_kind(r.pick(&[KIND_BOOLEAN, KIND_STRING, KIND_ENUM])),
        2 => crossed(r, kind),
        _ => range(r, kind),
    };
    if r.chance(3, 4) {
        set_number(&mut attrs, SET_MIN, min);
    }
    if r.chance(3, 4) {
        set_number(&mut attrs, SET_MAX, max);
    }
    // One end that isn't finite takes the whole range away.
    if kind == KIND_REAL && r.chance(1, 12) {
        set_number(
            &mut attrs,
            r.pick(&[SET_MIN, SET_MAX]),
            attributes::odd_real(r),
        );
    }
    // An Integer end alone may cross the other end's default.
    if kind == KIND_INTEGER && r.chance(1, 12) {
        set_number(
            &mut attrs,
            r.pick(&[SET_MIN, SET_MAX]),
            attributes::integer(r) as u64,
        );
    }
    attrs
}
