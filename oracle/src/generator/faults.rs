//! One fault after the other: for every detail of rules 1 to 6 a change that brings it about.

use crate::format::*;
use crate::generator::attributes::{self, clear_ends, crossed, set_number, set_text, text};
use crate::image::{BoundaryInput, BoundaryOutput, Connection, Connector, Draft};
use crate::random::Random;

/// Every detail, as rule and detail.
pub const FAULTS: [(u8, u8); 26] = [
    (1, 1),
    (1, 2),
    (1, 3),
    (1, 4),
    (1, 5),
    (2, 1),
    (2, 2),
    (2, 3),
    (3, 1),
    (3, 2),
    (4, 1),
    (4, 2),
    (4, 3),
    (4, 4),
    (5, 1),
    (5, 2),
    (5, 3),
    (5, 4),
    (6, 1),
    (6, 2),
    (6, 3),
    (6, 4),
    (6, 5),
    (6, 6),
    (6, 7),
    (6, 8),
];

/// Bring a detail about, if the draft has a place for it; whether it had. 6.8 only shows where
/// nothing else is wrong.
pub fn inject(r: &mut Random, draft: &mut Draft, rule: u8, detail: u8) -> bool {
    let done = match rule {
        1 => rule_1(r, draft, detail),
        2 => rule_2(r, draft, detail),
        3 => rule_3(r, draft, detail),
        4 => rule_4(r, draft, detail),
        5 => rule_5(r, draft, detail),
        _ => rule_6(r, draft, detail),
    };
    done.is_some()
}

/// An index or id that isn't below `count`.
fn beyond(r: &mut Random, count: usize) -> u32 {
    let count = count as u32;
    r.pick(&[
        count,
        count + 1,
        count + 100,
        1 << 31,
        u32::MAX - 1,
        u32::MAX,
    ])
}

/// An id that isn't `index`: beyond, or another record's.
fn other_id(r: &mut Random, index: usize, count: usize) -> u32 {
    if count > 1 && r.chance(1, 2) {
        ((index + r.between(1, count - 1)) % count) as u32
    } else {
        beyond(r, count)
    }
}

fn of_dir(draft: &Draft, dir: u8) -> Vec<usize> {
    let all = 0..draft.connectors.len();
    all.filter(|&c| draft.connectors[c].dir == dir).collect()
}

/// Records of these kinds, by index.
fn of_kinds<'a>(attrs: impl Iterator<Item = &'a RawAttrs>, kinds: &[u8]) -> Vec<usize> {
    attrs
        .enumerate()
        .filter(|(_, a)| kinds.contains(&a.kind))
        .map(|(index, _)| index)
        .collect()
}

const NUMERIC: [u8; 2] = [KIND_REAL, KIND_INTEGER];

fn rule_1(r: &mut Random, draft: &mut Draft, detail: u8) -> Option<()> {
    let (blocks, connectors) = (draft.blocks.len(), draft.connectors.len());
    match detail {
        1 => {
            let index = r.below(blocks);
            draft.blocks.get_mut(index)?.id = other_id(r, index, blocks);
        }
        2 | 3 => {
            let bad = beyond(r, connectors);
            let index = r.below(blocks);
            let block = draft.blocks.get_mut(index)?;
            let ports = if detail == 2 {
                &mut block.inputs
            } else {
                &mut block.outputs
            };
            let room = ports.len() < MAX_PORTS;
            let port = r.below(ports.len() + 1);
            match ports.get_mut(port) {
                Some(port) => *port = bad,
                None if room => ports.push(bad),
                None => return None,
            }
        }
        4 => {
            let index = r.below(connectors);
            draft.connectors.get_mut(index)?.id = other_id(r, index, connectors);
        }
        _ => {
            let index = r.below(connectors);
            draft.connectors.get_mut(index)?.block = beyond(r, blocks);
        }
    }
    Some(())
}

/// A boundary output to spoil: one that is there, or a new one on an Out of these kinds.
fn boundary_output(r: &mut Random, draft: &mut Draft, kinds: &[u8]) -> Option<usize> {
    let there = of_kinds(draft.boundary_outputs.iter().map(|o| &o.attrs), kinds);
    if let Some(index) = r.any(&there) {
        return Some(index);
    }
    if draft.boundary_outputs.len() >= most(TAG_BOUNDARY_OUTPUT) {
        return None;
    }
    let fits = |c: &usize| kinds.contains(&draft.connectors[*c].value_type);
    let outs: Vec<usize> = of_dir(draft, DIR_OUT).into_iter().filter(fits).collect();
    let source = r.any(&outs)?;
    let iri = text(r, draft, b"y");
    draft.boundary_outputs.push(BoundaryOutput {
        iri,
        source: source as u32,
        attrs: RawAttrs::of_kind(draft.connectors[source].value_type),
    });
    Some(draft.boundary_outputs.len() - 1)
}

const ALL_KINDS: [u8; 5] = [
    KIND_REAL,
    KIND_INTEGER,
    KIND_BOOLEAN,
    KIND_STRING,
    KIND_ENUM,
];

fn rule_2(r: &mut Random, draft: &mut Draft, detail: u8) -> Option<()> {
    let index = boundary_output(r, draft, &ALL_KINDS)?;
    let connectors = draft.connectors.len();
    let source = match detail {
        1 => Some(beyond(r, connectors)),
        2 => Some(r.any(&of_dir(draft, DIR_IN))? as u32),
        _ => None,
    };
    let output = &mut draft.boundary_outputs[index];
    match source {
        Some(source) => output.source = source,
        None => {
            let kind = (output.attrs.kind + r.between(1, 4) as u8) % (LAST_KIND + 1);
            output.attrs = RawAttrs::of_kind(kind);
        }
    }
    Some(())
}

fn rule_3(r: &mut Random, draft: &mut Draft, detail: u8) -> Option<()> {
    let to = r.any(&of_dir(draft, DIR_IN))? as u32;
    if detail == 1 {
        draft.connections.retain(|c| c.to != to);
        draft.external_inputs.retain(|id| *id != to);
    } else {
        let degree = draft.connections.iter().filter(|c| c.to == to).count();
        let outs = of_dir(draft, DIR_OUT);
        for _ in degree..r.pick(&[2, 2, 2, 3]).max(degree + 1) {
            let from = r.any(&outs)? as u32;
            add_connection(r, draft, Connection { from, to })?;
        }
    }
    Some(())
}

/// Put a connection anywhere among the others.
fn add_connection(r: &mut Random, draft: &mut Draft, connection: Connection) -> Option<()> {
    if draft.connections.len() >= most(TAG_CONNECTION) {
        return None;
    }
    let at = r.below(draft.connections.len() + 1);
    draft.connections.insert(at, connection);
    Some(())
}

fn rule_4(r: &mut Random, draft: &mut Draft, detail: u8) -> Option<()> {
    let connectors = draft.connectors.len();
    if detail == 1 && (draft.connections.is_empty() || r.chance(1, 2)) {
        let (good, bad) = (r.below(connectors.max(1)) as u32, beyond(r, connectors));
        let (from, to) = r.pick(&[(good, bad), (bad, good), (bad, bad)]);
        return add_connection(r, draft, Connection { from, to });
    }
    let index = r.below(draft.connections.len());
    let connection = *draft.connections.get(index)?;
    match detail {
        1 => {
            let bad = beyond(r, connectors);
            let connection = &mut draft.connections[index];
            let (from, to) = (&mut connection.from, &mut connection.to);
            *(if r.chance(1, 2) { from } else { to }) = bad;
        }
        2 => draft.connections[index].from = r.any(&of_dir(draft, DIR_IN))? as u32,
        3 => draft.connections[index].to = r.any(&of_dir(draft, DIR_OUT))? as u32,
        _ => {
            let end = r.pick(&[connection.from, connection.to]) as usize;
            other_type(r, draft.connectors.get_mut(end)?);
        }
    }
    Some(())
}

/// Another type, or for an Enum another class.
fn other_type(r: &mut Random, c: &mut Connector) {
    if c.value_type == KIND_ENUM && r.chance(1, 2) {
        c.enum_class = c.enum_class.wrapping_add(1);
        return;
    }
    c.value_type = (c.value_type + r.between(1, 4) as u8) % (LAST_KIND + 1);
    c.enum_class = 0;
    if r.chance(2, 3) {
        c.attrs = RawAttrs::of_kind(c.value_type);
    }
}

fn rule_5(r: &mut Random, draft: &mut Draft, detail: u8) -> Option<()> {
    match detail {
        1 => {
            let all = of_kinds(draft.connectors.iter().map(|c| &c.attrs), &NUMERIC);
            let index = r.any(&all)?;
            cross(r, &mut draft.connectors[index].attrs);
        }
        2 => {
            let all = of_kinds(draft.boundary_inputs.iter().map(|i| &i.attrs), &NUMERIC);
            let index = match r.any(&all) {
                Some(index) => index,
                None => add_boundary_input(r, draft, b"w")?,
            };
            cross(r, &mut draft.boundary_inputs[index].attrs);
        }
        3 => {
            let index = boundary_output(r, draft, &NUMERIC)?;
            cross(r, &mut draft.boundary_outputs[index].attrs);
        }
        _ => combine(r, draft)?,
    }
    Some(())
}

/// Give a record a crossed range; an Integer now and then with one end alone, or at the ends of
/// 64 bits.
fn cross(r: &mut Random, attrs: &mut RawAttrs) {
    clear_ends(attrs);
    let (min, max) = crossed(r, attrs.kind);
    let odd = attrs.kind == KIND_INTEGER && r.chance(1, 2);
    match r.below(3) {
        0 if odd => set_number(attrs, SET_MIN, (RUST_DEFAULT_MAX + 1) as u64),
        1 if odd => set_number(attrs, SET_MAX, (RUST_DEFAULT_MIN - 1) as u64),
        2 if odd => {
            set_number(attrs, SET_MIN, i64::MAX as u64);
            set_number(attrs, SET_MAX, i64::MIN as u64);
        }
        _ => {
            set_number(attrs, SET_MIN, min);
            set_number(attrs, SET_MAX, max);
        }
    }
}

fn add_boundary_input(r: &mut Random, draft: &mut Draft, iri: &[u8]) -> Option<usize> {
    if draft.boundary_inputs.len() >= most(TAG_BOUNDARY_INPUT) {
        return None;
    }
    let iri = text(r, draft, iri);
    let attrs = RawAttrs::of_kind(r.pick(&NUMERIC));
    draft.boundary_inputs.push(BoundaryInput { iri, attrs });
    Some(draft.boundary_inputs.len() - 1)
}

/// An external input and a boundary input of its iri, each with a range, none in common.
fn combine(r: &mut Random, draft: &mut Draft) -> Option<()> {
    let numeric = of_kinds(draft.connectors.iter().map(|c| &c.attrs), &NUMERIC);
    let external = |c: &usize| {
        let c = &draft.connectors[*c];
        c.dir == DIR_IN && draft.external_inputs.contains(&c.id)
    };
    let inputs: Vec<usize> = numeric.into_iter().filter(external).collect();
    let input = r.any(&inputs)?;
    if draft.connectors[input].iri == NO_TEXT {
        draft.connectors[input].iri = text(r, draft, b"u");
    }
    let iri = draft.texts[usize::from(draft.connectors[input].iri)].clone();
    let index = add_boundary_input(r, draft, &iri)?;
    let attrs = &mut draft.connectors[input].attrs;
    let (min, max) = crossed(r, attrs.kind);
    clear_ends(attrs);
    set_number(attrs, SET_MAX, max);
    let mut other = RawAttrs::of_kind(attrs.kind);
    set_number(&mut other, SET_MIN, min);
    draft.boundary_inputs[index].attrs = other;
    Some(())
}

fn rule_6(r: &mut Random, draft: &mut Draft, detail: u8) -> Option<()> {
    let kinds: &[u8] = match detail {
        5 | 6 => &[KIND_INTEGER],
        8 => &NUMERIC,
        _ => &[KIND_REAL],
    };
    let fits = |end: u32, kind: u8| {
        draft
            .connectors
            .get(end as usize)
            .is_some_and(|c| c.attrs.kind == kind)
    };
    let both = |c: &&Connection| {
        kinds
            .iter()
            .any(|&kind| fits(c.from, kind) && fits(c.to, kind))
    };
    let pairs: Vec<Connection> = draft.connections.iter().filter(both).copied().collect();
    let Connection { from, to } = r.any(&pairs)?;
    let (from, to) = (from as usize, to as usize);
    match detail {
        1 => conflict_of_texts(r, draft, from, to, SET_UNIT),
        2 => conflict_of_texts(r, draft, from, to, SET_QUANTITY),
        7 => conflict_of_texts(r, draft, from, to, SET_DISPLAY_UNIT),
        3 | 5 => conflict_of_ends(r, draft, from, to, SET_MIN),
        4 | 6 => conflict_of_ends(r, draft, from, to, SET_MAX),
        _ => cross_by_filling(r, draft, from, to),
    }
    Some(())
}

fn conflict_of_texts(r: &mut Random, draft: &mut Draft, from: usize, to: usize, bit: u8) {
    let one = attributes::word(r);
    let other = loop {
        let other = attributes::word(r);
        if other != one {
            break other;
        }
    };
    for (index, word) in [(from, one), (to, other)] {
        let number = text(r, draft, word);
        set_text(&mut draft.connectors[index].attrs, bit, number);
    }
}

fn conflict_of_ends(r: &mut Random, draft: &mut Draft, from: usize, to: usize, bit: u8) {
    let integer = draft.connectors[from].attrs.kind == KIND_INTEGER;
    let mut value = || {
        if integer {
            attributes::integer(r) as u64
        } else {
            attributes::real(r)
        }
    };
    let one = value();
    let other = loop {
        let other = value();
        if other != one {
            break other;
        }
    };
    for (index, bits) in [(from, one), (to, other)] {
        let attrs = &mut draft.connectors[index].attrs;
        clear_ends(attrs);
        set_number(attrs, bit, bits);
    }
}

/// One member of a cluster has the min, another the max, and no member both.
fn cross_by_filling(r: &mut Random, draft: &mut Draft, from: usize, to: usize) {
    let (min, max) = crossed(r, draft.connectors[from].attrs.kind);
    let members: Vec<usize> = draft
        .connections
        .iter()
        .filter(|c| c.from as usize == from)
        .map(|c| c.to as usize)
        .chain([from])
        .collect();
    for index in members {
        if let Some(c) = draft.connectors.get_mut(index) {
            clear_ends(&mut c.attrs);
        }
    }
    for output in &mut draft.boundary_outputs {
        if output.source as usize == from {
            clear_ends(&mut output.attrs);
        }
    }
    let (one, other) = if r.chance(1, 2) {
        (from, to)
    } else {
        (to, from)
    };
    set_number(&mut draft.connectors[one].attrs, SET_MIN, min);
    set_number(&mut draft.connectors[other].attrs, SET_MAX, max);
}
