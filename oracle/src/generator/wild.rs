//! Hand-built graphs that no drawing tool would write: any id anywhere, chains through In
//! connectors, self-loops, repeated ids, ids near 2^32.

use crate::format::*;
use crate::generator::attributes::{Pool, text, word};
use crate::image::{Block, BoundaryInput, BoundaryOutput, Connection, Connector, Draft};
use crate::random::Random;

pub fn graph(r: &mut Random) -> Draft {
    let mut draft = Draft::default();
    let pool = Pool::new(r);
    let connectors = r.between(0, 12);
    let blocks = r.between(0, 4);
    // How often a number is a stray one: some graphs are nearly in order.
    let stray = r.pick(&[0, 1, 2, 8]);
    let value_type = r.below(usize::from(LAST_KIND) + 1) as u8;
    let one_type = r.chance(2, 3);

    for index in 0..blocks {
        let instance = maybe_text(r, &mut draft);
        let mut ports = || (0..r.below(4)).map(|_| id(r, connectors, stray)).collect();
        let (inputs, outputs) = (ports(), ports());
        draft.blocks.push(Block {
            id: own_id(r, index, blocks, stray),
            instance,
            inputs,
            outputs,
        });
    }
    for index in 0..connectors {
        let value_type = if one_type {
            value_type
        } else {
            r.below(usize::from(LAST_KIND) + 1) as u8
        };
        let kind = if r.chance(4, 5) {
            value_type
        } else {
            r.below(usize::from(LAST_KIND) + 1) as u8
        };
        let attrs = pool.attrs(r, &mut draft, kind);
        let iri = maybe_text(r, &mut draft);
        draft.connectors.push(Connector {
            id: own_id(r, index, connectors, stray),
            block: id(r, blocks, stray),
            dir: r.pick(&[DIR_IN, DIR_OUT]),
            value_type,
            enum_class: if value_type == KIND_ENUM {
                r.below(3) as u32
            } else {
                0
            },
            iri,
            attrs,
        });
    }
    for _ in 0..r.between(0, connectors * 3 / 2) {
        let connection = connection(r, &draft, connectors, stray);
        draft.connections.push(connection);
    }
    for _ in 0..r.below(connectors + 2) {
        draft.external_inputs.push(id(r, connectors, stray));
    }
    for _ in 0..r.pick(&[0, 0, 1, 3]) {
        let iri = some_text(r, &mut draft);
        let attrs = any_attrs(r, &mut draft, &pool);
        draft.boundary_inputs.push(BoundaryInput { iri, attrs });
    }
    for _ in 0..r.pick(&[0, 0, 1, 3]) {
        let iri = some_text(r, &mut draft);
        let source = id(r, connectors, stray);
        let attrs = any_attrs(r, &mut draft, &pool);
        draft
            .boundary_outputs
            .push(BoundaryOutput { iri, source, attrs });
    }
    draft
}

/// A chain from where the last connection ended, a self-loop, or any two connectors.
fn connection(r: &mut Random, draft: &Draft, connectors: usize, stray: usize) -> Connection {
    let from = match draft.connections.last() {
        Some(last) if r.chance(1, 4) => last.to,
        _ => id(r, connectors, stray),
    };
    let to = if r.chance(1, 12) {
        from
    } else {
        id(r, connectors, stray)
    };
    Connection { from, to }
}

/// A number below `count`, or now and then a stray one.
fn id(r: &mut Random, count: usize, stray: usize) -> u32 {
    if count == 0 || r.chance(stray, 32) {
        let count = count as u32;
        r.pick(&[count, count + 1, 1 << 16, 1 << 31, u32::MAX - 1, u32::MAX])
    } else {
        r.below(count) as u32
    }
}

/// A record's own id: its index, or now and then another record's or a stray one.
fn own_id(r: &mut Random, index: usize, count: usize, stray: usize) -> u32 {
    if r.chance(stray, 16) {
        id(r, count, stray)
    } else {
        index as u32
    }
}

fn maybe_text(r: &mut Random, draft: &mut Draft) -> u16 {
    if r.chance(1, 2) {
        NO_TEXT
    } else {
        some_text(r, draft)
    }
}

fn some_text(r: &mut Random, draft: &mut Draft) -> u16 {
    let bytes = word(r);
    text(r, draft, bytes)
}

fn any_attrs(r: &mut Random, draft: &mut Draft, pool: &Pool) -> RawAttrs {
    let kind = r.below(usize::from(LAST_KIND) + 1) as u8;
    pool.attrs(r, draft, kind)
}
