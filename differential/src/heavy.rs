//! Images that are built to be slow: each fills most of the 65,535 bytes with one kind of work.

use oracle::format::*;
use oracle::image::{Block, BoundaryInput, Connection, Connector, Draft};

/// The longest text, as the format allows it.
const LONG: usize = MAX_TEXT;

/// Every image, with its name.
pub fn images() -> Vec<(&'static str, Vec<u8>)> {
    let drafts = [
        ("port ids that don't exist", ports()),
        ("long equal iris, all external", iris(false)),
        ("the same, one range apart", iris(true)),
        ("boundary inputs in one group", group()),
        ("iris that end alike, all external", endings()),
        ("one cluster, long equal texts", cluster(false)),
        ("the same, one display unit apart", cluster(true)),
        ("a chain through inputs", chain()),
        ("as many connections as fit", connections()),
        ("ids and external inputs that don't meet", strangers()),
    ];
    drafts.map(|(name, draft)| (name, draft.bytes())).into()
}

fn with_block() -> Draft {
    let mut draft = Draft::default();
    draft.blocks.push(block(0, 0));
    draft
}

/// A block whose ports, inputs and outputs alike, all lead to nothing.
fn block(id: u32, ports: usize) -> Block {
    let ids: Vec<u32> = (0..ports as u32).map(|port| u32::MAX - port).collect();
    Block {
        id,
        instance: NO_TEXT,
        inputs: ids.clone(),
        outputs: ids,
    }
}

fn ports() -> Draft {
    let mut draft = Draft::default();
    draft.blocks.extend((0..31).map(|id| block(id, MAX_PORTS)));
    draft
}

/// Texts of equal bytes under numbers of their own.
fn equal_texts(draft: &mut Draft, count: usize) {
    draft.texts.extend((0..count).map(|_| vec![b'u'; LONG]));
}

fn real(set: u8, min: f64, max: f64) -> RawAttrs {
    RawAttrs {
        set: set | SET_MIN | SET_MAX,
        min: min.to_bits(),
        max: max.to_bits(),
        ..RawAttrs::of_kind(KIND_REAL)
    }
}

fn connector(id: u32, dir: u8, iri: u16, attrs: RawAttrs) -> Connector {
    Connector::of_first_block(id, dir, iri, KIND_REAL, attrs)
}

fn iris(apart: bool) -> Draft {
    let (count, texts) = (1_024, 20);
    let mut draft = with_block();
    equal_texts(&mut draft, texts);
    for id in 0..count {
        let min = if apart && id + 1 == count { 20.0 } else { 0.0 };
        let attrs = real(0, min, min + 10.0);
        let iri = (id as usize % texts) as u16;
        draft.connectors.push(connector(id, DIR_IN, iri, attrs));
        draft.external_inputs.push(id);
    }
    draft
}

/// Iris that are told apart before their last eight bytes only.
fn endings() -> Draft {
    let mut draft = with_block();
    for id in 0..800 {
        let iri = draft.new_text(format!("{id:08}.setpoint").as_bytes());
        draft.connectors.push(connector(id, DIR_IN, iri, real(0, 0.0, 10.0)));
        draft.external_inputs.push(id);
    }
    draft
}

/// Inputs whose ids are high, and as many external inputs with other ids: each is looked for among all.
fn strangers() -> Draft {
    let mut draft = with_block();
    for k in 0..1_024 {
        draft.connectors.push(connector(u32::MAX - 2 * k, DIR_IN, NO_TEXT, real(0, 0.0, 10.0)));
        draft.external_inputs.push(u32::MAX - 2 * k - 1);
    }
    draft
}

fn group() -> Draft {
    let texts = 30;
    let mut draft = with_block();
    equal_texts(&mut draft, texts);
    for id in 0..820 {
        let iri = (id as usize % texts) as u16;
        draft
            .connectors
            .push(connector(id, DIR_IN, iri, real(0, 0.0, 1.0)));
        draft.external_inputs.push(id);
    }
    for index in 0..256 {
        draft.boundary_inputs.push(BoundaryInput {
            iri: (index % texts) as u16,
            attrs: real(0, 0.0, 1.0),
        });
    }
    draft
}

fn cluster(apart: bool) -> Draft {
    let (count, texts) = (970, 20);
    let mut draft = with_block();
    equal_texts(&mut draft, texts);
    let other = draft.new_text(b"other");
    for id in 0..count {
        let mut attrs = real(SET_QUANTITY | SET_UNIT | SET_DISPLAY_UNIT, 0.0, 1.0);
        let text = |add: u32| ((id + add) as usize % texts) as u16;
        (attrs.quantity, attrs.unit, attrs.display_unit) = (text(0), text(1), text(2));
        if apart && id + 1 == count {
            attrs.display_unit = other;
        }
        let dir = if id == 0 { DIR_OUT } else { DIR_IN };
        draft.connectors.push(connector(id, dir, NO_TEXT, attrs));
        if id > 0 {
            draft.connections.push(Connection { from: 0, to: id });
        }
    }
    draft
}

fn chain() -> Draft {
    let count = 1_024;
    let mut draft = with_block();
    for id in 0..count {
        let dir = if id == 0 { DIR_OUT } else { DIR_IN };
        draft
            .connectors
            .push(connector(id, dir, NO_TEXT, RawAttrs::of_kind(KIND_REAL)));
        if id > 0 {
            let from = id - 1;
            draft.connections.push(Connection { from, to: id });
        }
    }
    draft
}

fn connections() -> Draft {
    let count = 830;
    let mut draft = with_block();
    for id in 0..count {
        draft
            .connectors
            .push(connector(id, DIR_OUT, NO_TEXT, real(0, 0.0, 1.0)));
    }
    for index in 0..2_048 {
        draft.connections.push(Connection {
            from: index % count,
            to: (index * 7 + 1) % count,
        });
    }
    draft
}
