//! Few clusters in good order, whose members declare odd values out of small pools.

use crate::format::*;
use crate::generator::attributes::{Pool, text, word};
use crate::image::{Block, BoundaryInput, BoundaryOutput, Connection, Connector, Draft};
use crate::random::Random;

/// One to three Outs with their inputs and boundary outputs. With `mixed`, attribute kinds are
/// drawn apart from the type.
pub fn clusters(r: &mut Random, mixed: bool) -> Draft {
    let mut draft = Draft::default();
    let pool = Pool::new(r);
    for _ in 0..r.between(1, 3) {
        cluster(r, &mut draft, &pool, mixed);
    }
    if r.chance(1, 3) {
        external(r, &mut draft, &pool, mixed);
    }
    let ids = |dir: u8| {
        let of_dir = |c: &&Connector| c.dir == dir;
        draft
            .connectors
            .iter()
            .filter(of_dir)
            .map(|c| c.id)
            .collect()
    };
    let (inputs, outputs) = (ids(DIR_IN), ids(DIR_OUT));
    draft.blocks.push(Block {
        id: 0,
        instance: NO_TEXT,
        inputs,
        outputs,
    });
    draft
}

/// Chains: each connector drives the next, in ascending, descending or any order of roots, so
/// that what one root fills another root meets.
pub fn chains(r: &mut Random) -> Draft {
    let mut draft = Draft::default();
    let pool = Pool::new(r);
    let value_type = r.pick(&[KIND_REAL, KIND_REAL, KIND_INTEGER]);
    let count = r.between(3, 6) as u32;
    let first = r.pick(&[DIR_IN, DIR_OUT]);
    for id in 0..count {
        let dir = if id == 0 { first } else { DIR_IN };
        add(r, &mut draft, &pool, dir, value_type, false);
    }
    let mut order: Vec<u32> = (0..count).collect();
    match r.below(3) {
        0 => {}
        1 => order.reverse(),
        _ => (1..order.len()).for_each(|left| order.swap(left, r.below(left + 1))),
    }
    for pair in order.windows(2) {
        let (from, to) = (pair[0], pair[1]);
        draft.connections.push(Connection { from, to });
    }
    if r.chance(1, 4) {
        let (from, to) = (r.pick(&order), order[0]);
        draft.connections.push(Connection { from, to });
    }
    draft.external_inputs.push(order[0]);
    draft.blocks.push(Block {
        id: 0,
        instance: NO_TEXT,
        inputs: order,
        outputs: Vec::new(),
    });
    draft
}

fn cluster(r: &mut Random, draft: &mut Draft, pool: &Pool, mixed: bool) {
    let value_type = r.pick(&[
        KIND_REAL,
        KIND_REAL,
        KIND_REAL,
        KIND_INTEGER,
        KIND_INTEGER,
        KIND_ENUM,
    ]);
    let root = add(r, draft, pool, DIR_OUT, value_type, mixed);
    for _ in 0..r.between(0, 4) {
        let to = add(r, draft, pool, DIR_IN, value_type, mixed);
        draft.connections.push(Connection { from: root, to });
    }
    for _ in 0..r.pick(&[0, 0, 1, 2]) {
        let iri = word(r);
        let iri = text(r, draft, iri);
        let attrs = pool.attrs(r, draft, value_type);
        draft.boundary_outputs.push(BoundaryOutput {
            iri,
            source: root,
            attrs,
        });
    }
    // The order of connections decides which text number is filled in.
    if r.chance(1, 2) {
        draft.connections.reverse();
    }
}

/// External inputs that share an iri with a boundary input.
fn external(r: &mut Random, draft: &mut Draft, pool: &Pool, mixed: bool) {
    let value_type = r.pick(&[KIND_REAL, KIND_INTEGER]);
    let iri = word(r);
    for _ in 0..r.between(1, 2) {
        let id = add(r, draft, pool, DIR_IN, value_type, mixed);
        let iri = text(r, draft, iri);
        draft.connectors[id as usize].iri = iri;
        draft.external_inputs.push(id);
    }
    let iri = text(r, draft, iri);
    let attrs = pool.attrs(r, draft, value_type);
    draft.boundary_inputs.push(BoundaryInput { iri, attrs });
}

fn add(
    r: &mut Random,
    draft: &mut Draft,
    pool: &Pool,
    dir: u8,
    value_type: u8,
    mixed: bool,
) -> u32 {
    let id = draft.connectors.len() as u32;
    let kind = if mixed && r.chance(1, 2) {
        r.pick(&[
            KIND_REAL,
            KIND_INTEGER,
            KIND_BOOLEAN,
            KIND_STRING,
            KIND_ENUM,
        ])
    } else {
        value_type
    };
    let attrs = pool.attrs(r, draft, kind);
    let iri = if r.chance(1, 2) {
        text(r, draft, format!("c{id}").as_bytes())
    } else {
        NO_TEXT
    };
    let member = Connector::of_first_block(id, dir, iri, value_type, attrs);
    draft.connectors.push(member);
    id
}
