//! A plant: blocks, their ports, one driver for each input, and attributes that agree. It has no
//! error, though display units may differ.

use crate::format::*;
use crate::generator::attributes::{self, odd_real, range, set_number, set_text, text};
use crate::image::{Block, BoundaryInput, BoundaryOutput, Connection, Connector, Draft};
use crate::random::Random;

/// How large a plant is to be.
#[derive(Clone, Copy)]
pub struct Size {
    pub connectors: usize,
    pub blocks: usize,
    /// Most connectors and blocks with a name of their own.
    pub names: usize,
    /// Most boundary inputs, and most boundary outputs.
    pub boundary: usize,
}

/// What all members of a cluster, or of a point that a host supplies, have in common.
#[derive(Clone)]
struct Agreed {
    value_type: u8,
    enum_class: u32,
    quantity: Option<&'static [u8]>,
    unit: Option<&'static [u8]>,
    min: Option<u64>,
    max: Option<u64>,
    /// Display units may differ; then they are drawn for each member.
    display_unit: Option<&'static [u8]>,
    display_units_differ: bool,
}

impl Agreed {
    fn new(r: &mut Random) -> Self {
        let value_type = r.pick(&[0, 0, 0, 0, 0, 0, 1, 1, 2, 3, 4]);
        // Both ends are odd together: a member may declare one, and the filling brings the other.
        let (min, max) = if value_type == KIND_REAL && r.chance(1, 12) {
            (odd_real(r), odd_real(r))
        } else {
            range(r, value_type)
        };
        Self {
            value_type,
            enum_class: if value_type == KIND_ENUM {
                r.pick(&[0, 1, 2, u32::MAX])
            } else {
                0
            },
            quantity: r.chance(1, 3).then(|| attributes::word(r)),
            unit: r.chance(1, 2).then(|| attributes::word(r)),
            min: r.chance(1, 2).then_some(min),
            max: r.chance(1, 2).then_some(max),
            display_unit: r.chance(1, 4).then(|| attributes::word(r)),
            display_units_differ: r.chance(1, 20),
        }
    }

    /// What one member declares of it.
    fn declare(&self, r: &mut Random, draft: &mut Draft) -> RawAttrs {
        let mut attrs = RawAttrs::of_kind(self.value_type);
        let numeric = self.value_type <= KIND_INTEGER;
        for (bit, bits) in [(SET_MIN, self.min), (SET_MAX, self.max)] {
            if let Some(bits) = bits.filter(|_| numeric && r.chance(1, 2)) {
                set_number(&mut attrs, bit, bits);
            }
        }
        if self.value_type != KIND_REAL {
            return attrs;
        }
        for (bit, word) in [(SET_QUANTITY, self.quantity), (SET_UNIT, self.unit)] {
            if let Some(word) = word.filter(|_| r.chance(1, 2)) {
                set_text(&mut attrs, bit, text(r, draft, word));
            }
        }
        if let Some(word) = self.display_unit.filter(|_| r.chance(1, 2)) {
            let word = if self.display_units_differ {
                attributes::word(r)
            } else {
                word
            };
            set_text(&mut attrs, SET_DISPLAY_UNIT, text(r, draft, word));
        }
        if r.chance(1, 8) {
            set_number(&mut attrs, SET_NOMINAL, attributes::real(r));
        }
        if r.chance(1, 8) {
            attrs.set |= r.pick(&[SET_UNBOUNDED, SET_UNBOUNDED | UNBOUNDED]);
        }
        attrs
    }
}

/// A plant of this size.
pub fn plant(r: &mut Random, size: Size) -> Draft {
    let mut draft = Draft::default();
    let dirs: Vec<u8> = (0..size.connectors)
        .map(|_| r.pick(&[DIR_IN, DIR_IN, DIR_IN, DIR_OUT, DIR_OUT]))
        .collect();
    let outs: Vec<usize> = (0..dirs.len()).filter(|&c| dirs[c] == DIR_OUT).collect();
    let agreed: Vec<Agreed> = outs.iter().map(|_| Agreed::new(r)).collect();
    let mut points: Vec<(Agreed, Option<Vec<u8>>)> = Vec::new();
    let mut names = size.names;
    let mut driven = Vec::new();

    for (index, &dir) in dirs.iter().enumerate() {
        let (agreed, iri) = match outs.iter().position(|&out| out == index) {
            Some(net) => (agreed[net].clone(), name(r, &mut names, 'c', index)),
            None if !outs.is_empty() && r.chance(6, 7) => {
                let net = r.below(outs.len());
                driven.push(Connection {
                    from: outs[net] as u32,
                    to: index as u32,
                });
                if r.chance(1, 40) {
                    draft.external_inputs.push(index as u32);
                }
                (agreed[net].clone(), name(r, &mut names, 'c', index))
            }
            None => {
                draft.external_inputs.push(index as u32);
                let point = r.below(points.len() + 2);
                if point >= points.len() {
                    let iri = name(r, &mut names, 'p', points.len());
                    points.push((Agreed::new(r), iri));
                    points[points.len() - 1].clone()
                } else {
                    points[point].clone()
                }
            }
        };
        let attrs = agreed.declare(r, &mut draft);
        let iri = iri.map_or(NO_TEXT, |iri| text(r, &mut draft, &iri));
        draft.connectors.push(Connector {
            id: index as u32,
            block: (index * size.blocks / dirs.len()) as u32,
            dir,
            value_type: agreed.value_type,
            enum_class: agreed.enum_class,
            iri,
            attrs,
        });
    }
    shuffle(r, &mut driven);
    draft.connections = driven;
    add_blocks(r, &mut draft, size.blocks, &mut names);
    add_boundary(r, &mut draft, size.boundary, &points, &outs, &agreed);
    draft
}

fn name(r: &mut Random, names: &mut usize, kind: char, index: usize) -> Option<Vec<u8>> {
    if *names == 0 || r.chance(1, 3) {
        return None;
    }
    *names -= 1;
    Some(format!("{kind}{index}").into_bytes())
}

fn shuffle(r: &mut Random, connections: &mut [Connection]) {
    for left in (1..connections.len()).rev() {
        connections.swap(left, r.below(left + 1));
    }
}

fn add_blocks(r: &mut Random, draft: &mut Draft, count: usize, names: &mut usize) {
    for index in 0..count {
        let ports = |dir: u8| {
            let own = |c: &&Connector| c.block == index as u32 && c.dir == dir;
            let ids = draft.connectors.iter().filter(own).map(|c| c.id);
            ids.take(MAX_PORTS).collect::<Vec<u32>>()
        };
        let (inputs, outputs) = (ports(DIR_IN), ports(DIR_OUT));
        let instance = name(r, names, 'b', index).map_or(NO_TEXT, |name| text(r, draft, &name));
        draft.blocks.push(Block {
            id: index as u32,
            instance,
            inputs,
            outputs,
        });
    }
}

/// Boundary inputs that name a point, and boundary outputs that expose an Out.
fn add_boundary(
    r: &mut Random,
    draft: &mut Draft,
    most: usize,
    points: &[(Agreed, Option<Vec<u8>>)],
    outs: &[usize],
    agreed: &[Agreed],
) {
    for (agreed, iri) in points.iter().take(most) {
        if let Some(iri) = iri.as_ref().filter(|_| r.chance(2, 3)) {
            let iri = text(r, draft, iri);
            let attrs = agreed.declare(r, draft);
            draft.boundary_inputs.push(BoundaryInput { iri, attrs });
        }
    }
    for index in 0..most {
        if outs.is_empty() || r.chance(1, 4) {
            continue;
        }
        let net = r.below(outs.len());
        let iri = text(r, draft, format!("y{index}").as_bytes());
        let attrs = agreed[net].declare(r, draft);
        draft.boundary_outputs.push(BoundaryOutput {
            iri,
            source: outs[net] as u32,
            attrs,
        });
    }
}
