//! The models of docs/FORMAT.md: the printed example and the thirteen models a to m.

use crate::format::*;
use crate::image::{Block, BoundaryInput, Connection, Connector, Draft};

/// A model of docs/FORMAT.md and its name there.
pub struct Model {
    pub name: &'static str,
    pub image: Vec<u8>,
}

/// The first 30 bytes of the printed example; 48 zero bytes follow.
const EXAMPLE_START: [u8; 30] = [
    0x01, 0x14, 0x00, 0x01, 0x00, 0x00, 0x00, 0x00, 0x00, 0x00, 0x80, 0xFF, 0xFF, 0xFF, 0xFF, 0xFF,
    0xFF, 0xFF, 0x7F, 0x00, 0x00, 0x00, 0x00, 0x02, 0x01, 0x00, 0x75, 0x04, 0x30, 0x00,
];
const EXAMPLE_ZEROS: usize = 48;

/// The printed example, then a to m.
pub fn models() -> Vec<Model> {
    let named = |name, draft: Draft| Model {
        name,
        image: draft.bytes(),
    };
    vec![
        Model {
            name: "example",
            image: example(),
        },
        named("a", Draft::default()),
        named("b", pair_with_units("K", None)),
        named("c", pair_with_units("K", Some("degC"))),
        named("d", pair_with_mins(0.0, -0.0)),
        named("e", pair_with_mins(f64::NAN, f64::NAN)),
        named("f", model_f()),
        named("g", model_g()),
        named("h", model_h()),
        named("i", model_i()),
        named("j", integer_out(2_147_483_648)),
        named("k", integer_out(2_147_483_647)),
        named("l", model_l()),
        named("m", model_m()),
    ]
}

pub fn example() -> Vec<u8> {
    let mut image = EXAMPLE_START.to_vec();
    image.resize(EXAMPLE_START.len() + EXAMPLE_ZEROS, 0);
    image
}

/// Real attributes with these ends.
fn real(min: Option<f64>, max: Option<f64>) -> RawAttrs {
    let mut attrs = RawAttrs::of_kind(KIND_REAL);
    if let Some(min) = min {
        attrs.set |= SET_MIN;
        attrs.min = min.to_bits();
    }
    if let Some(max) = max {
        attrs.set |= SET_MAX;
        attrs.max = max.to_bits();
    }
    attrs
}

fn with_unit(mut attrs: RawAttrs, unit: u16) -> RawAttrs {
    attrs.set |= SET_UNIT;
    attrs.unit = unit;
    attrs
}

fn with_display_unit(mut attrs: RawAttrs, display_unit: u16) -> RawAttrs {
    attrs.set |= SET_DISPLAY_UNIT;
    attrs.display_unit = display_unit;
    attrs
}

/// One block whose ports are these connectors, ids in order, no iris.
fn one_block(connectors: &[(u8, RawAttrs)]) -> Draft {
    let ports = |dir: u8| {
        let of_dir = |(_, c): &(usize, &(u8, RawAttrs))| c.0 == dir;
        let all = connectors.iter().enumerate().filter(of_dir);
        all.map(|(index, _)| index as u32).collect()
    };
    Draft {
        blocks: vec![Block {
            id: 0,
            instance: NO_TEXT,
            inputs: ports(DIR_IN),
            outputs: ports(DIR_OUT),
        }],
        connectors: connectors
            .iter()
            .enumerate()
            .map(|(index, &(dir, attrs))| Connector {
                id: index as u32,
                block: 0,
                dir,
                value_type: attrs.kind,
                enum_class: 0,
                iri: NO_TEXT,
                attrs,
            })
            .collect(),
        ..Draft::default()
    }
}

/// An Out connected to an In.
fn pair(out: RawAttrs, input: RawAttrs) -> Draft {
    let mut draft = one_block(&[(DIR_OUT, out), (DIR_IN, input)]);
    draft.connections = vec![Connection { from: 0, to: 1 }];
    draft
}

fn pair_with_units(out: &str, input: Option<&str>) -> Draft {
    let mut draft = pair(real(None, None), real(None, None));
    let unit = draft.text(out.as_bytes());
    draft.connectors[0].attrs = with_unit(draft.connectors[0].attrs, unit);
    if let Some(input) = input {
        let unit = draft.text(input.as_bytes());
        draft.connectors[1].attrs = with_unit(draft.connectors[1].attrs, unit);
    }
    draft
}

fn pair_with_mins(out: f64, input: f64) -> Draft {
    pair(real(Some(out), None), real(Some(input), None))
}

fn model_f() -> Draft {
    pair(real(Some(5.0), None), real(None, Some(3.0)))
}

fn model_g() -> Draft {
    let none = real(None, None);
    let mut draft = one_block(&[(DIR_OUT, none), (DIR_OUT, none), (DIR_IN, none)]);
    let (k, deg_c) = (draft.text(b"K"), draft.text(b"degC"));
    draft.connectors[0].attrs = with_unit(none, k);
    draft.connectors[1].attrs = with_unit(none, deg_c);
    draft.connections = vec![Connection { from: 0, to: 2 }, Connection { from: 1, to: 2 }];
    draft
}

fn model_h() -> Draft {
    let mut draft = pair(real(None, None), real(None, None));
    draft.connections.push(Connection { from: 2, to: 1 });
    draft
}

fn model_i() -> Draft {
    let mut draft = pair(real(None, None), real(None, None));
    draft.external_inputs = vec![1];
    draft
}

fn integer_out(min: i64) -> Draft {
    let mut attrs = RawAttrs::of_kind(KIND_INTEGER);
    attrs.set = SET_MIN;
    attrs.min = min as u64;
    one_block(&[(DIR_OUT, attrs)])
}

fn model_l() -> Draft {
    let mut draft = one_block(&[(DIR_IN, real(Some(0.0), Some(10.0)))]);
    let u = draft.text(b"u");
    draft.connectors[0].iri = u;
    draft.external_inputs = vec![0];
    draft.boundary_inputs = vec![BoundaryInput {
        iri: u,
        attrs: real(Some(20.0), None),
    }];
    draft
}

fn model_m() -> Draft {
    let mut draft = pair_with_units("K", None);
    let (deg_c, deg_f) = (draft.text(b"degC"), draft.text(b"degF"));
    draft.connectors[0].attrs = with_display_unit(draft.connectors[0].attrs, deg_c);
    draft.connectors[1].attrs = with_display_unit(draft.connectors[1].attrs, deg_f);
    draft
}
