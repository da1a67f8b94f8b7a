//! Counts, ports, texts and sizes at and one above each limit.

use crate::format::*;
use crate::generator::attributes::{Pool, set_number, set_text};
use crate::generator::plant::{Size, plant};
use crate::image::{Block, BoundaryInput, BoundaryOutput, Connection, Connector, Draft};
use crate::random::Random;

const COUNTED: [u8; 7] = [
    TAG_TEXT,
    TAG_BLOCK,
    TAG_CONNECTOR,
    TAG_CONNECTION,
    TAG_EXTERNAL_INPUT,
    TAG_BOUNDARY_INPUT,
    TAG_BOUNDARY_OUTPUT,
];

/// As many diagnostics as a report buffer holds that is as long as the longest image.
const REPORTED: usize = MAX_IMAGE / DIAGNOSTIC_LEN;

/// Two cases for each count, then input ports, output ports, text bytes, the shortest and the
/// longest image, the diagnostics that fill the program's report buffer, each at the limit and
/// one beyond, and an image that is full of port diagnostics.
pub const CASES: usize = 2 * COUNTED.len() + 2 * 6 + 1;

/// The image of a case: even numbers are at the limit, odd ones beyond it.
pub fn case(r: &mut Random, number: usize) -> Vec<u8> {
    let over = number % 2;
    match COUNTED.get(number / 2) {
        Some(&tag) => of_count(r, tag, most(tag) + over).bytes(),
        None => match number / 2 - COUNTED.len() {
            0 => with_ports(MAX_PORTS + over, 1).bytes(),
            1 => with_ports(2, MAX_PORTS + over).bytes(),
            2 => with_text(MAX_TEXT + over).bytes(),
            3 => Draft::default().bytes()[..MIN_IMAGE - over].to_vec(),
            4 => longest(r, MAX_IMAGE + over).bytes(),
            5 => with_bad_ports(r, REPORTED + over).bytes(),
            _ => with_bad_ports(r, FULL).bytes(),
        },
    }
}

/// An image with one record of a tag too many.
pub fn beyond(r: &mut Random, tag: u8) -> Vec<u8> {
    of_count(r, tag, most(tag) + 1).bytes()
}

/// A draft with this many records of one tag, in good order where that is possible.
fn of_count(r: &mut Random, tag: u8, count: usize) -> Draft {
    let pool = Pool::new(r);
    let mut draft = pair();
    match tag {
        TAG_TEXT => draft.texts = vec![Vec::new(); count],
        TAG_BLOCK => add_blocks(&mut draft, count),
        TAG_CONNECTOR => many_connectors(r, &mut draft, count),
        TAG_CONNECTION => many_connections(r, &mut draft, count),
        TAG_EXTERNAL_INPUT => draft.external_inputs = (0..count as u32).collect(),
        TAG_BOUNDARY_INPUT => {
            let iri = draft.new_text(b"u");
            draft.boundary_inputs = (0..count)
                .map(|_| BoundaryInput {
                    iri,
                    attrs: RawAttrs::of_kind(KIND_REAL),
                })
                .collect();
        }
        _ => {
            let iri = draft.new_text(b"y");
            for _ in 0..count {
                let attrs = pool.attrs(r, &mut draft, KIND_REAL);
                draft.boundary_outputs.push(BoundaryOutput {
                    iri,
                    source: 0,
                    attrs,
                });
            }
        }
    }
    draft
}

/// One block with a Real Out connected to a Real In.
fn pair() -> Draft {
    Draft {
        connectors: vec![connector(0, DIR_OUT), connector(1, DIR_IN)],
        connections: vec![Connection { from: 0, to: 1 }],
        blocks: vec![Block {
            id: 0,
            instance: NO_TEXT,
            inputs: vec![1],
            outputs: vec![0],
        }],
        ..Draft::default()
    }
}

fn connector(id: u32, dir: u8) -> Connector {
    Connector::of_first_block(id, dir, NO_TEXT, KIND_REAL, RawAttrs::of_kind(KIND_REAL))
}

fn add_blocks(draft: &mut Draft, count: usize) {
    for id in draft.blocks.len()..count {
        draft.blocks.push(Block {
            id: id as u32,
            instance: NO_TEXT,
            inputs: Vec::new(),
            outputs: Vec::new(),
        });
    }
}

/// An Out drives every other connector; some declare what all then take.
fn many_connectors(r: &mut Random, draft: &mut Draft, count: usize) {
    let mut declared = RawAttrs::of_kind(KIND_REAL);
    let unit = draft.new_text(b"K");
    set_text(&mut declared, SET_UNIT, unit);
    set_number(&mut declared, SET_MIN, 0.0_f64.to_bits());
    for id in 2..count as u32 {
        let mut c = connector(id, DIR_IN);
        if r.chance(1, 16) {
            c.attrs = declared;
        }
        draft.connectors.push(c);
        draft.connections.push(Connection { from: 0, to: id });
    }
}

fn many_connections(r: &mut Random, draft: &mut Draft, count: usize) {
    draft.connectors.push(connector(2, DIR_IN));
    draft.connections.push(Connection { from: 0, to: 2 });
    while draft.connections.len() < count {
        let to = r.pick(&[0, 1, 1, 3, u32::MAX]);
        draft.connections.push(Connection { from: 0, to });
    }
}

fn with_ports(inputs: usize, outputs: usize) -> Draft {
    let mut draft = pair();
    draft.blocks[0].inputs = vec![1; inputs];
    draft.blocks[0].outputs = vec![0; outputs];
    draft
}

fn with_text(length: usize) -> Draft {
    let mut draft = pair();
    draft.connectors[0].iri = draft.new_text(&vec![b'x'; length]);
    draft.connectors[0].block = 1;
    draft
}

/// A large plant, filled up with texts to this many bytes.
fn longest(r: &mut Random, bytes: usize) -> Draft {
    let size = Size {
        connectors: 900,
        blocks: 100,
        names: 100,
        boundary: 8,
    };
    let mut draft = plant(r, size);
    let mut left = bytes.saturating_sub(draft.bytes().len());
    while left > 0 {
        // Never leave fewer bytes than a field's start.
        let most = FIELD_START + MAX_TEXT;
        let next = if left > most && left < most + FIELD_START {
            left - FIELD_START
        } else {
            left.min(most)
        };
        draft.new_text(&vec![b' '; next.saturating_sub(FIELD_START)]);
        left = left.saturating_sub(next);
    }
    draft
}

/// The bad ports of 31 full blocks, which is what an image of the greatest size has room for.
const FULL: usize = 31 * 2 * MAX_PORTS;

/// Blocks with this many ports, every one out of range: each gives a diagnostic.
fn with_bad_ports(r: &mut Random, ports: usize) -> Draft {
    let mut draft = Draft::default();
    let mut left = ports;
    while left > 0 {
        let inputs = left.min(MAX_PORTS);
        let outputs = (left - inputs).min(MAX_PORTS);
        draft.blocks.push(Block {
            id: draft.blocks.len() as u32,
            instance: NO_TEXT,
            inputs: vec![r.pick(&[0, u32::MAX]); inputs],
            outputs: vec![0; outputs],
        });
        left -= inputs + outputs;
    }
    draft
}
