//! A second reading of the rules of docs/FORMAT.md, written from its words over the image's bytes and not
//! from the Rust, compared with the oracle on made-up images: report, places and fillings.

use oracle::answer::{Answer, COMBINED, Report, answer};
use oracle::format::*;
use oracle::generator::generate;
use oracle::models::models;
use oracle::stored::{files, images};

// ---- the model ------------------------------------------------------------------------------

struct Block {
    id: u32,
    instance: u16,
    inputs: Vec<u32>,
    outputs: Vec<u32>,
}

struct Connector {
    id: u32,
    block: u32,
    dir: u8,
    type_and_class: (u8, u32),
    iri: u16,
}

/// Slots are connectors, then boundary outputs: what rule 6 may fill.
struct Model {
    default_min: i64,
    default_max: i64,
    texts: Vec<Vec<u8>>,
    blocks: Vec<Block>,
    connectors: Vec<Connector>,
    connections: Vec<(u32, u32)>,
    externals: Vec<u32>,
    inputs: Vec<(u16, RawAttrs)>,
    outputs: Vec<(u16, u32)>,
    slots: Vec<RawAttrs>,
    /// In-degrees by connector number, counted once.
    degrees: Vec<usize>,
}

fn number(bytes: &[u8]) -> u64 {
    bytes
        .iter()
        .rev()
        .fold(0, |n, &byte| n << 8 | u64::from(byte))
}

fn attributes(b: &[u8]) -> RawAttrs {
    RawAttrs {
        kind: b[0],
        set: b[1],
        quantity: number(&b[2..4]) as u16,
        unit: number(&b[4..6]) as u16,
        display_unit: number(&b[6..8]) as u16,
        min: number(&b[8..16]),
        max: number(&b[16..24]),
        nominal: number(&b[24..32]),
    }
}

fn model(image: &[u8]) -> Model {
    let mut m = Model {
        default_min: number(&image[7..15]) as i64,
        default_max: number(&image[15..23]) as i64,
        texts: vec![],
        blocks: vec![],
        connectors: vec![],
        connections: vec![],
        externals: vec![],
        inputs: vec![],
        outputs: vec![],
        slots: vec![],
        degrees: vec![],
    };
    let mut at = 0;
    while at < image.len() {
        let length = number(&image[at + 1..at + 3]) as usize;
        let c = &image[at + 3..at + 3 + length];
        match image[at] {
            2 => m.texts.push(c.to_vec()),
            3 => {
                let ids: Vec<u32> = c[10..].chunks(4).map(|id| number(id) as u32).collect();
                let (inputs, outputs) = ids.split_at(number(&c[6..8]) as usize);
                m.blocks.push(Block {
                    id: number(&c[..4]) as u32,
                    instance: number(&c[4..6]) as u16,
                    inputs: inputs.to_vec(),
                    outputs: outputs.to_vec(),
                });
            }
            4 => {
                m.connectors.push(Connector {
                    id: number(&c[..4]) as u32,
                    block: number(&c[4..8]) as u32,
                    dir: c[8],
                    type_and_class: (c[9], number(&c[10..14]) as u32),
                    iri: number(&c[14..16]) as u16,
                });
                m.slots.push(attributes(&c[16..]));
            }
            5 => m
                .connections
                .push((number(&c[..4]) as u32, number(&c[4..]) as u32)),
            6 => m.externals.push(number(c) as u32),
            7 => m.inputs.push((number(&c[..2]) as u16, attributes(&c[2..]))),
            8 => {
                m.outputs
                    .push((number(&c[..2]) as u16, number(&c[2..6]) as u32));
                m.slots.push(attributes(&c[6..]));
            }
            _ => {}
        }
        at += 3 + length;
    }
    m.degrees = vec![0; m.connectors.len()];
    for &(_, to) in &m.connections {
        if let Some(degree) = m.degrees.get_mut(to as usize) {
            *degree += 1;
        }
    }
    m
}

// ---- the report -----------------------------------------------------------------------------

#[derive(Clone, Debug, PartialEq)]
struct Diagnostic {
    severity: u8,
    code: u8,
    rule: u8,
    detail: u8,
    /// Kind and number.
    subject: (u8, u32),
    place: u32,
}

type Subject = (u8, u32);
const NONE: Subject = (0, 0);

fn error(code: u8, rule: u8, detail: u8, subject: Subject, place: usize) -> Diagnostic {
    Diagnostic {
        severity: 0,
        code,
        rule,
        detail,
        subject,
        place: place as u32,
    }
}

fn text_or(number: u16, kind: u8, id: u32) -> Subject {
    if number == 65_535 {
        (kind, id)
    } else {
        (1, u32::from(number))
    }
}

impl Model {
    fn connector(&self, index: usize) -> Subject {
        let c = &self.connectors[index];
        text_or(c.iri, 2, c.id)
    }

    fn below(&self, id: u32) -> Option<usize> {
        Some(id as usize).filter(|&index| index < self.connectors.len())
    }

    fn external(&self, index: usize) -> bool {
        self.externals.contains(&self.connectors[index].id)
    }

    fn rule_1(&self, out: &mut Vec<Diagnostic>) {
        for (index, block) in self.blocks.iter().enumerate() {
            let subject = text_or(block.instance, 3, block.id);
            if block.id as usize != index {
                out.push(error(1, 1, 1, subject, index));
            }
            for (detail, ports) in [(2, &block.inputs), (3, &block.outputs)] {
                for (port, &id) in ports.iter().enumerate() {
                    if self.below(id).is_none() {
                        out.push(error(1, 1, detail, subject, port));
                    }
                }
            }
        }
        for (index, c) in self.connectors.iter().enumerate() {
            if c.id as usize != index {
                out.push(error(1, 1, 4, self.connector(index), index));
            }
            if c.block as usize >= self.blocks.len() {
                out.push(error(1, 1, 5, self.connector(index), index));
            }
        }
    }

    /// The faults of a boundary output, as code and detail.
    fn output_faults(&self, index: usize) -> Vec<(u8, u8)> {
        let Some(source) = self.below(self.outputs[index].1) else {
            return vec![(1, 1)];
        };
        let source = &self.connectors[source];
        let mut faults = vec![];
        if source.dir != 1 {
            faults.push((2, 2));
        }
        if self.slots[self.connectors.len() + index].kind != source.type_and_class.0 {
            faults.push((1, 3));
        }
        faults
    }

    fn rule_2(&self, out: &mut Vec<Diagnostic>) {
        for (index, (iri, _)) in self.outputs.iter().enumerate() {
            for (code, detail) in self.output_faults(index) {
                out.push(error(code, 2, detail, (1, u32::from(*iri)), index));
            }
        }
    }

    fn rule_3(&self, out: &mut Vec<Diagnostic>) {
        for (index, c) in self
            .connectors
            .iter()
            .enumerate()
            .filter(|(_, c)| c.dir == 0)
        {
            let degree = self.below(c.id).map_or(0, |own| self.degrees[own]);
            if degree == 0 && !self.external(index) {
                out.push(error(3, 3, 1, self.connector(index), index));
            }
            if degree > 1 {
                out.push(error(3, 3, 2, self.connector(index), degree));
            }
        }
    }

    fn rule_4(&self, out: &mut Vec<Diagnostic>) {
        for (index, &(from, to)) in self.connections.iter().enumerate() {
            let (Some(from), Some(to)) = (self.below(from), self.below(to)) else {
                out.push(error(1, 4, 1, NONE, index));
                continue;
            };
            if self.connectors[from].dir != 1 {
                out.push(error(2, 4, 2, self.connector(from), index));
            }
            if self.connectors[to].dir != 0 {
                out.push(error(2, 4, 3, self.connector(to), index));
            }
            if self.connectors[from].type_and_class != self.connectors[to].type_and_class {
                out.push(error(4, 4, 4, self.connector(to), index));
            }
        }
    }

    /// A range of numbers, an unset Real end as none; nothing where there is no range.
    fn range(&self, a: &RawAttrs) -> Option<Range> {
        match a.kind {
            0 => {
                let end = |bit| {
                    move |bits| {
                        if a.has(bit) {
                            Some(f64::from_bits(bits))
                        } else {
                            None
                        }
                    }
                };
                let (min, max) = (end(SET_MIN)(a.min), end(SET_MAX)(a.max));
                let finite = |end: Option<f64>| end.is_none_or(|end| end.is_finite());
                (finite(min) && finite(max)).then_some(Range::Real(min, max))
            }
            1 => Some(Range::Integer(
                if a.has(SET_MIN) {
                    a.min as i64
                } else {
                    self.default_min
                },
                if a.has(SET_MAX) {
                    a.max as i64
                } else {
                    self.default_max
                },
            )),
            _ => None,
        }
    }

    fn crossed(&self, a: &RawAttrs) -> bool {
        match self.range(a) {
            Some(Range::Real(Some(min), Some(max))) => min > max,
            Some(Range::Integer(min, max)) => min > max,
            _ => false,
        }
    }

    fn rule_5(&self, out: &mut Vec<Diagnostic>) {
        let connectors = self.connectors.len();
        for index in (0..connectors).filter(|&i| self.crossed(&self.slots[i])) {
            out.push(error(7, 5, 1, self.connector(index), index));
        }
        for (index, (iri, attrs)) in self.inputs.iter().enumerate() {
            if self.crossed(attrs) {
                out.push(error(7, 5, 2, (1, u32::from(*iri)), index));
            }
        }
        for (index, (iri, _)) in self.outputs.iter().enumerate() {
            if self.crossed(&self.slots[connectors + index]) {
                out.push(error(7, 5, 3, (1, u32::from(*iri)), index));
            }
        }
        self.combined(out);
    }

    fn combined(&self, out: &mut Vec<Diagnostic>) {
        let text = |number: u16| &self.texts[usize::from(number)];
        let all = 0..self.connectors.len();
        let ins: Vec<usize> = all
            .filter(|&c| self.connectors[c].dir == 0 && self.connectors[c].iri != 65_535)
            .collect();
        let mut iris: Vec<&Vec<u8>> = ins.iter().map(|&c| text(self.connectors[c].iri)).collect();
        iris.sort();
        iris.dedup();
        for iri in iris {
            let group: Vec<usize> = ins
                .iter()
                .copied()
                .filter(|&c| text(self.connectors[c].iri) == iri)
                .collect();
            let of_connectors = group.iter().map(|&c| self.slots[c]);
            let of_inputs = self.inputs.iter().filter(|i| text(i.0) == iri).map(|i| i.1);
            let members: Vec<RawAttrs> = of_connectors.chain(of_inputs).collect();
            let counts = group.iter().any(|&c| self.external(c))
                && members.len() >= 2
                && members
                    .iter()
                    .all(|a| self.range(a).is_some() && !self.crossed(a))
                && members.iter().all(|a| a.kind == members[0].kind);
            let ranges: Vec<Range> = members.iter().filter_map(|a| self.range(a)).collect();
            if counts && !some_value_in_all(&ranges) {
                let first = self.connectors[group[0]].iri;
                out.push(error(7, 5, 4, (1, u32::from(first)), members.len()));
            }
        }
    }

    fn rule_6(&mut self, out: &mut Vec<Diagnostic>) {
        let image = self.slots.clone();
        let connectors = self.connectors.len();
        let mut roots = vec![];
        for root in 0..connectors {
            let mut members = vec![root];
            for &(from, to) in &self.connections {
                if from as usize != root {
                    continue;
                }
                if let Some(to) = self.below(to).filter(|&to| self.degrees[to] == 1) {
                    members.push(to);
                }
            }
            for (index, output) in self.outputs.iter().enumerate() {
                if output.1 as usize == root && self.output_faults(index).is_empty() {
                    members.push(connectors + index);
                }
            }
            if members.len() > 1 {
                roots.push(root);
                self.unify(root, &members, out);
            }
        }
        if !out.iter().any(|d| d.severity == 0) {
            for root in roots {
                if self.crossed(&self.slots[root]) {
                    out.push(error(7, 6, 8, self.connector(root), root));
                }
            }
        }
        if out.iter().any(|d| d.severity == 0) {
            self.slots = image;
        }
    }

    fn unify(&mut self, root: usize, members: &[usize], out: &mut Vec<Diagnostic>) {
        let subject = self.connector(root);
        let details: [(u8, u8, u8, u8); 7] = [
            (1, 0, SET_UNIT, 5),
            (2, 0, SET_QUANTITY, 5),
            (3, 0, SET_MIN, 6),
            (4, 0, SET_MAX, 6),
            (5, 1, SET_MIN, 6),
            (6, 1, SET_MAX, 6),
            (7, 0, SET_DISPLAY_UNIT, 8),
        ];
        for (detail, kind, bit, code) in details {
            let of_kind: Vec<usize> = members
                .iter()
                .copied()
                .filter(|&s| self.slots[s].kind == kind)
                .collect();
            let declared: Vec<u64> = of_kind
                .iter()
                .filter(|&&s| self.slots[s].has(bit))
                .map(|&s| field(&self.slots[s], bit))
                .collect();
            let is_text = bit & (SET_UNIT | SET_QUANTITY | SET_DISPLAY_UNIT) != 0;
            let alike = |a: u64, b: u64| {
                a == b || (is_text && self.texts[a as usize] == self.texts[b as usize])
            };
            let Some(&first) = declared.first() else {
                continue;
            };
            if !declared.iter().all(|&value| alike(value, first)) {
                let mut d = error(code, 6, detail, subject, root);
                d.severity = u8::from(detail == 7);
                out.push(d);
            } else if detail != 7 {
                for s in of_kind {
                    if !self.slots[s].has(bit) {
                        fill(&mut self.slots[s], bit, first);
                    }
                }
            }
        }
    }
}

#[derive(Clone, Copy)]
enum Range {
    Real(Option<f64>, Option<f64>),
    Integer(i64, i64),
}

/// A value that lies in every range is found among the ends, or anywhere where there are none.
fn some_value_in_all(ranges: &[Range]) -> bool {
    let inside = |value: f64, integer: i64| {
        ranges.iter().all(|range| match *range {
            Range::Real(min, max) => {
                min.is_none_or(|min| min <= value) && max.is_none_or(|max| value <= max)
            }
            Range::Integer(min, max) => min <= integer && integer <= max,
        })
    };
    inside(0.0, 0)
        || ranges.iter().any(|range| match *range {
            Range::Real(min, max) => [min, max].into_iter().flatten().any(|end| inside(end, 0)),
            Range::Integer(min, max) => inside(0.0, min) || inside(0.0, max),
        })
}

fn field(a: &RawAttrs, bit: u8) -> u64 {
    match bit {
        SET_QUANTITY => u64::from(a.quantity),
        SET_UNIT => u64::from(a.unit),
        SET_DISPLAY_UNIT => u64::from(a.display_unit),
        SET_MIN => a.min,
        _ => a.max,
    }
}

fn fill(a: &mut RawAttrs, bit: u8, value: u64) {
    a.set |= bit;
    match bit {
        SET_QUANTITY => a.quantity = value as u16,
        SET_UNIT => a.unit = value as u16,
        SET_MIN => a.min = value,
        _ => a.max = value,
    }
}

/// The report and the slots after the call.
fn check(image: &[u8]) -> (Vec<Diagnostic>, Model) {
    let mut m = model(image);
    let mut out = vec![];
    m.rule_1(&mut out);
    m.rule_2(&mut out);
    m.rule_3(&mut out);
    m.rule_4(&mut out);
    m.rule_5(&mut out);
    m.rule_6(&mut out);
    (out, m)
}

// ---- refusals -------------------------------------------------------------------------------

/// The refusal of an image: the least of all pairs of number and offset that apply.
fn refusal(image: &[u8]) -> Option<(u8, u32)> {
    if image.len() < 23 || image.len() > 65_535 {
        return Some((1, 0));
    }
    let mut faults = vec![];
    let mut had = [0; 256];
    let (mut at, mut before) = (0, 0);
    let mut used: Vec<(usize, u16, bool)> = vec![];
    while at < image.len() {
        let rest = &image[at..];
        if rest.len() < 3 || rest.len() < 3 + number(&rest[1..3]) as usize {
            faults.push((2, at));
            break;
        }
        let tag = rest[0];
        let c = &rest[3..3 + number(&rest[1..3]) as usize];
        had[usize::from(tag)] += 1;
        if tag == 0 || tag > 8 || tag < before || (at == 0) != (tag == 1) {
            faults.push((3, at));
        }
        let ports = c.len() >= 10 && {
            let (inputs, outputs) = (number(&c[6..8]), number(&c[8..10]));
            inputs <= 256 && outputs <= 256 && c.len() as u64 == 10 + 4 * (inputs + outputs)
        };
        let (fits, most) = match tag {
            1 => (c.len() == 20, 1),
            2 => (c.len() <= 255, 1024),
            3 => (ports, 256),
            4 => (c.len() == 48, 1024),
            5 => (c.len() == 8, 2048),
            6 => (c.len() == 4, 1024),
            7 => (c.len() == 34, 256),
            _ => (c.len() == 38, 256),
        };
        if !fits {
            faults.push((4, at));
        } else {
            if had[usize::from(tag)] > most {
                faults.push((5, at));
            }
            if !values(tag, c) {
                faults.push((6, at));
            }
            if tag == 2 && c.iter().any(|byte| !(0x20..=0x7E).contains(byte)) {
                faults.push((7, at));
            }
            used.extend(
                text_numbers(tag, c)
                    .into_iter()
                    .map(|(n, none)| (at, n, none)),
            );
        }
        before = tag;
        at += 3 + c.len();
    }
    for (at, number, none_allowed) in used {
        let none = none_allowed && number == 65_535;
        if usize::from(number) >= had[2] && !none {
            faults.push((8, at));
        }
    }
    faults
        .into_iter()
        .min()
        .map(|(number, at)| (number, at as u32))
}

/// Whether version, zero bytes, direction, type, enum class and attributes are as asked.
fn values(tag: u8, c: &[u8]) -> bool {
    match tag {
        1 => c[..4] == [1, 0, 0, 0],
        4 => {
            let class = number(&c[10..14]);
            c[8] <= 1 && c[9] <= 4 && (c[9] == 4 || class == 0) && attributes_fit(&c[16..])
        }
        7 => attributes_fit(&c[2..]),
        8 => attributes_fit(&c[6..]),
        _ => true,
    }
}

fn attributes_fit(b: &[u8]) -> bool {
    let places = [2..4, 4..6, 6..8, 8..16, 16..24, 24..32];
    let set = |bit: usize| b[1] >> bit & 1 == 1;
    let unset_is_zero = |bit: usize| set(bit) || b[places[bit].clone()].iter().all(|&z| z == 0);
    let bits_fit = match b[0] {
        0 => !set(7) || set(6),
        1 => (0..8).all(|bit| bit == 3 || bit == 4 || !set(bit)),
        2..=4 => b[1] == 0,
        _ => false,
    };
    bits_fit && (0..6).all(unset_is_zero)
}

/// The text numbers in use, and whether each may be none.
fn text_numbers(tag: u8, c: &[u8]) -> Vec<(u16, bool)> {
    let at = |place: usize| number(&c[place..place + 2]) as u16;
    let (own, attributes) = match tag {
        3 => ((at(4), true), None),
        4 => ((at(14), true), Some(16)),
        7 => ((at(0), false), Some(2)),
        8 => ((at(0), false), Some(6)),
        _ => return vec![],
    };
    let mut all = vec![own];
    if let Some(start) = attributes {
        let set = |bit: usize| c[start + 1] >> bit & 1 == 1;
        all.extend(
            (0..3)
                .filter(|&bit| set(bit))
                .map(|bit| (at(start + 2 + 2 * bit), false)),
        );
    }
    all
}

// ---- the comparison -------------------------------------------------------------------------

fn compare(image: &[u8], report: &Report, name: &str) {
    let (diagnostics, after) = check(image);
    assert_eq!(diagnostics.len(), report.diagnostics.len(), "{name}");
    for (mine, told) in diagnostics.iter().zip(&report.diagnostics) {
        let mut want = mine.clone();
        // Not told by the Rust: compared by the text's bytes, below.
        let combined = (mine.rule, mine.detail) == COMBINED;
        if combined {
            want.place = 0;
            want.subject.1 = 0;
        }
        let have = Diagnostic {
            severity: told.severity,
            code: told.code,
            rule: told.rule,
            detail: told.detail,
            subject: (told.subject.kind, told.subject.number.unwrap_or(0)),
            place: told.place.unwrap_or(0),
        };
        assert_eq!(want, have, "{name}: {}", told.message);
        let bytes = match mine.subject {
            (1, number) => Some(after.texts[number as usize].clone()),
            (2, id) => Some(format!("connector#{id}").into_bytes()),
            (3, id) => Some(format!("block#{id}").into_bytes()),
            _ => None,
        };
        assert_eq!(
            bytes.as_deref(),
            told.subject.text.as_ref().map(|t| t.as_bytes()),
            "{name}"
        );
    }
    let before = model(image);
    let changed: Vec<(u8, u32, RawAttrs)> = (0..before.slots.len())
        .filter(|&s| before.slots[s] != after.slots[s])
        .map(|s| match s.checked_sub(before.connectors.len()) {
            None => (TAG_CONNECTOR, s as u32, after.slots[s]),
            Some(output) => (TAG_BOUNDARY_OUTPUT, output as u32, after.slots[s]),
        })
        .collect();
    let told: Vec<(u8, u32, RawAttrs)> = report
        .filled
        .iter()
        .map(|f| (f.tag, f.index, f.after))
        .collect();
    assert_eq!(changed, told, "{name}");
}

/// Compare the answers to an image; whether its report could be compared too.
fn compare_answer(image: &[u8], name: &str) -> bool {
    match answer(image) {
        Answer::Refused(told) => {
            assert_eq!(refusal(image), Some((told.number, told.at)), "{name}");
            false
        }
        Answer::Accepted(report) => {
            assert_eq!(refusal(image), None, "{name}");
            if report.comparable {
                compare(image, &report, name);
            }
            report.comparable
        }
    }
}

fn compare_generated(seed: u64, count: u64) {
    let mut compared = 0;
    for index in 0..count {
        let image = generate(seed, index);
        let name = format!("seed {seed}, index {index}");
        compared += usize::from(compare_answer(&image, &name));
    }
    println!("seed {seed}: {count} images, {compared} of them accepted and compared in full");
}

#[test]
fn the_models_of_document_01() {
    for model in models() {
        assert!(compare_answer(&model.image, model.name));
    }
}

#[test]
fn the_stored_images() {
    for file in files() {
        for (index, image) in images(&file.bytes).expect("a file").iter().enumerate() {
            compare_answer(image, &format!("{}, image {index}", file.name));
        }
    }
}

#[test]
fn some_made_up_images() {
    compare_generated(2, 4_000);
}

/// The long run: cargo test --release --offline -- --ignored --nocapture
#[test]
#[ignore = "takes long"]
fn many_made_up_images() {
    compare_generated(3, 1_000_000);
}

/// docs/DIFFERENCES.md: the smallest image on which the head's defaults tell.
#[test]
fn integer_defaults_are_the_heads_or_fixed() {
    let mut draft = oracle::image::Draft {
        default_min: 1,
        default_max: 0,
        ..Default::default()
    };
    let iri = draft.text(b"");
    let attrs = RawAttrs::of_kind(KIND_INTEGER);
    draft
        .boundary_inputs
        .push(oracle::image::BoundaryInput { iri, attrs });
    let image = draft.bytes();
    assert_eq!(image.len(), 63);
    let hex: Vec<String> = image.iter().map(|byte| format!("{byte:02X}")).collect();
    println!("{}", hex.join(" "));
    assert_eq!(check(&image).0, [error(7, 5, 2, (1, 0), 0)]);
    let Answer::Accepted(report) = answer(&image) else {
        panic!("refused")
    };
    assert!(report.diagnostics.is_empty() && !report.comparable);
}
