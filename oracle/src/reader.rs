//! Reads a model image for the oracle alone: refusals 1 to 8, or the published `ModelGraph`.
//!
//! Each refusal is asked of the whole image before the next one, so the lowest number wins over
//! any offset; inside one refusal the first field at fault wins.

use std::collections::HashMap;
use std::sync::Arc;

use oce_model::{
    Attrs, BlockId, BlockInstance, BoundaryInput, BoundaryOutput, Connection, Connector,
    ConnectorId, Dir, EnumClassId, IntAttrs, ModelGraph, NoAttrs, ParamTable, RealAttrs, ValueType,
};

use crate::format::*;

/// Why an image is turned away, and where.
#[derive(Clone, Copy, PartialEq, Eq, Debug)]
pub struct Refusal {
    pub number: u8,
    pub at: u32,
}

/// An accepted image: its texts by number, the defaults of its head, and the published model.
pub struct Accepted {
    pub default_min: i64,
    pub default_max: i64,
    pub texts: Texts,
    pub model: ModelGraph,
}

impl Accepted {
    /// Whether the Rust can be compared: the head has the Integer defaults that the Rust has
    /// fixed, or no record has Integer attributes, so that the defaults play no part.
    pub fn comparable(&self) -> bool {
        (self.default_min, self.default_max) == (RUST_DEFAULT_MIN, RUST_DEFAULT_MAX)
            || !self.has_integer_attrs()
    }

    fn has_integer_attrs(&self) -> bool {
        let connectors = self.model.connectors.iter().map(|c| &c.attrs);
        let inputs = self.model.boundary_inputs.iter().map(|i| &i.attrs);
        let outputs = self.model.boundary_outputs.iter().map(|o| &o.attrs);
        connectors
            .chain(inputs)
            .chain(outputs)
            .any(|attrs| attrs.as_integer().is_some())
    }
}

/// The image's texts. Each number has an `Arc` of its own, which the Rust only ever clones, so a
/// filled text's number can be told even where other texts have the same bytes.
pub struct Texts {
    by_number: Vec<Arc<str>>,
    numbers: HashMap<*const u8, u16>,
}

impl Texts {
    fn new(by_number: Vec<Arc<str>>) -> Self {
        let numbers = by_number
            .iter()
            .enumerate()
            .map(|(number, text)| (text.as_ptr(), number as u16))
            .collect();
        Self { by_number, numbers }
    }

    pub fn len(&self) -> usize {
        self.by_number.len()
    }

    pub fn is_empty(&self) -> bool {
        self.by_number.is_empty()
    }

    /// The number under which this very text was read; none for one that the Rust made itself.
    pub fn number(&self, text: &Arc<str>) -> Option<u16> {
        self.numbers.get(&text.as_ptr()).copied()
    }

    fn get(&self, number: u16) -> Arc<str> {
        Arc::clone(&self.by_number[usize::from(number)])
    }

    fn get_unless_none(&self, number: u16) -> Option<Arc<str>> {
        (number != NO_TEXT).then(|| self.get(number))
    }
}

/// One field of an image that isn't cut.
#[derive(Clone, Copy)]
struct Field<'a> {
    at: usize,
    tag: u8,
    contents: &'a [u8],
}

/// Read an image.
pub fn read(image: &[u8]) -> Result<Accepted, Refusal> {
    if !(MIN_IMAGE..=MAX_IMAGE).contains(&image.len()) {
        return Err(refused(REFUSED_SIZE, 0));
    }
    let fields = fields(image)?;
    let texts = count(&fields, TAG_TEXT);
    first_fault(REFUSED_TAG, &fields, tag_fault(&fields))?;
    first_fault(REFUSED_LENGTH, &fields, |_, f| !length_fits(f))?;
    first_fault(REFUSED_COUNT, &fields, count_fault())?;
    first_fault(REFUSED_VALUE, &fields, |_, f| value_fault(f))?;
    first_fault(REFUSED_TEXT_BYTE, &fields, |_, f| text_byte_fault(f))?;
    first_fault(REFUSED_TEXT_NUMBER, &fields, |_, f| {
        text_number_fault(f, texts)
    })?;
    Ok(decode(&fields))
}

fn refused(number: u8, at: usize) -> Refusal {
    Refusal {
        number,
        at: at as u32,
    }
}

/// Walk the fields by their lengths alone, whatever their tags.
fn fields(image: &[u8]) -> Result<Vec<Field<'_>>, Refusal> {
    let mut fields = Vec::new();
    let mut at = 0;
    while at < image.len() {
        let cut = refused(REFUSED_CUT, at);
        let start = image.get(at..at + FIELD_START).ok_or(cut)?;
        let length = usize::from(u16_at(start, 1));
        let contents_at = at + FIELD_START;
        let contents = image.get(contents_at..contents_at + length).ok_or(cut)?;
        fields.push(Field {
            at,
            tag: start[0],
            contents,
        });
        at = contents_at + length;
    }
    Ok(fields)
}

/// The first field that is at fault, as a refusal.
fn first_fault(
    number: u8,
    fields: &[Field<'_>],
    mut fault: impl FnMut(usize, &Field<'_>) -> bool,
) -> Result<(), Refusal> {
    match fields
        .iter()
        .enumerate()
        .find(|(index, f)| fault(*index, f))
    {
        Some((_, f)) => Err(refused(number, f.at)),
        None => Ok(()),
    }
}

fn count(fields: &[Field<'_>], tag: u8) -> usize {
    fields.iter().filter(|f| f.tag == tag).count()
}

fn tag_fault<'a>(fields: &'a [Field<'a>]) -> impl Fn(usize, &Field<'_>) -> bool + 'a {
    move |index, f| {
        let outside = !(TAG_HEAD..=LAST_TAG).contains(&f.tag);
        match index.checked_sub(1) {
            None => outside || f.tag != TAG_HEAD,
            Some(before) => outside || f.tag < fields[before].tag || f.tag == TAG_HEAD,
        }
    }
}

fn length_fits(f: &Field<'_>) -> bool {
    let length = f.contents.len();
    match f.tag {
        TAG_HEAD => length == HEAD_LEN,
        TAG_TEXT => length <= MAX_TEXT,
        TAG_BLOCK => {
            length >= BLOCK_START && {
                let (inputs, outputs) = port_counts(f.contents);
                inputs <= MAX_PORTS
                    && outputs <= MAX_PORTS
                    && length == BLOCK_START + PORT_LEN * (inputs + outputs)
            }
        }
        TAG_CONNECTOR => length == CONNECTOR_LEN,
        TAG_CONNECTION => length == CONNECTION_LEN,
        TAG_EXTERNAL_INPUT => length == EXTERNAL_INPUT_LEN,
        TAG_BOUNDARY_INPUT => length == BOUNDARY_INPUT_LEN,
        _ => length == BOUNDARY_OUTPUT_LEN,
    }
}

fn count_fault() -> impl FnMut(usize, &Field<'_>) -> bool {
    let mut had = [0_usize; LAST_TAG as usize + 1];
    move |_, f| {
        let had = &mut had[usize::from(f.tag)];
        *had += 1;
        *had > most(f.tag)
    }
}

fn value_fault(f: &Field<'_>) -> bool {
    let c = f.contents;
    match f.tag {
        TAG_HEAD => u16_at(c, 0) != VERSION || u16_at(c, place::HEAD_ZEROS) != 0,
        TAG_CONNECTOR => {
            let (dir, value_type, enum_class) = (
                c[place::CONNECTOR_DIR],
                c[place::CONNECTOR_TYPE],
                u32_at(c, place::CONNECTOR_ENUM_CLASS),
            );
            dir > DIR_OUT
                || value_type > LAST_KIND
                || (value_type != KIND_ENUM && enum_class != 0)
                || attrs_fault(&attrs_of(f))
        }
        TAG_BOUNDARY_INPUT | TAG_BOUNDARY_OUTPUT => attrs_fault(&attrs_of(f)),
        _ => false,
    }
}

/// The attribute rules: which bits a kind may set, and that an unset field is all zero bytes.
fn attrs_fault(a: &RawAttrs) -> bool {
    let allowed = match a.kind {
        KIND_REAL => u8::MAX,
        KIND_INTEGER => SET_MIN | SET_MAX,
        KIND_BOOLEAN | KIND_STRING | KIND_ENUM => 0,
        _ => return true,
    };
    a.set & !allowed != 0
        || (a.has(UNBOUNDED) && !a.has(SET_UNBOUNDED))
        || (!a.has(SET_QUANTITY) && a.quantity != 0)
        || (!a.has(SET_UNIT) && a.unit != 0)
        || (!a.has(SET_DISPLAY_UNIT) && a.display_unit != 0)
        || (!a.has(SET_MIN) && a.min != 0)
        || (!a.has(SET_MAX) && a.max != 0)
        || (!a.has(SET_NOMINAL) && a.nominal != 0)
}

fn text_byte_fault(f: &Field<'_>) -> bool {
    let printable = FIRST_TEXT_BYTE..=LAST_TEXT_BYTE;
    f.tag == TAG_TEXT && f.contents.iter().any(|byte| !printable.contains(byte))
}

fn text_number_fault(f: &Field<'_>, texts: usize) -> bool {
    let beyond = |number: u16| usize::from(number) >= texts;
    let beyond_unless_none = |number: u16| number != NO_TEXT && beyond(number);
    let in_attrs = || {
        let a = attrs_of(f);
        (a.has(SET_QUANTITY) && beyond(a.quantity))
            || (a.has(SET_UNIT) && beyond(a.unit))
            || (a.has(SET_DISPLAY_UNIT) && beyond(a.display_unit))
    };
    match f.tag {
        TAG_BLOCK => beyond_unless_none(u16_at(f.contents, place::BLOCK_INSTANCE)),
        TAG_CONNECTOR => beyond_unless_none(u16_at(f.contents, place::CONNECTOR_IRI)) || in_attrs(),
        TAG_BOUNDARY_INPUT | TAG_BOUNDARY_OUTPUT => beyond(u16_at(f.contents, 0)) || in_attrs(),
        _ => false,
    }
}

// ---- accepted images ------------------------------------------------------------------------

fn decode(fields: &[Field<'_>]) -> Accepted {
    let of_tag = |tag: u8| fields.iter().filter(move |f| f.tag == tag);
    let texts = Texts::new(
        of_tag(TAG_TEXT)
            .map(|f| Arc::from(String::from_utf8_lossy(f.contents)))
            .collect(),
    );
    let head = fields[0].contents;
    let model = ModelGraph {
        blocks: of_tag(TAG_BLOCK).map(|f| block(f, &texts)).collect(),
        connectors: of_tag(TAG_CONNECTOR)
            .map(|f| connector(f, &texts))
            .collect(),
        connections: of_tag(TAG_CONNECTION)
            .map(|f| Connection {
                from: ConnectorId(u32_at(f.contents, 0)),
                to: ConnectorId(u32_at(f.contents, place::CONNECTION_TO)),
            })
            .collect(),
        external_inputs: of_tag(TAG_EXTERNAL_INPUT)
            .map(|f| ConnectorId(u32_at(f.contents, 0)))
            .collect(),
        boundary_inputs: of_tag(TAG_BOUNDARY_INPUT)
            .map(|f| BoundaryInput {
                iri: texts.get(u16_at(f.contents, 0)),
                attrs: attrs(f, &texts),
            })
            .collect(),
        boundary_outputs: of_tag(TAG_BOUNDARY_OUTPUT)
            .map(|f| BoundaryOutput {
                iri: texts.get(u16_at(f.contents, 0)),
                source: ConnectorId(u32_at(f.contents, place::BOUNDARY_OUTPUT_SOURCE)),
                attrs: attrs(f, &texts),
            })
            .collect(),
    };
    Accepted {
        default_min: u64_at(head, place::HEAD_DEFAULT_MIN) as i64,
        default_max: u64_at(head, place::HEAD_DEFAULT_MAX) as i64,
        texts,
        model,
    }
}

fn block(f: &Field<'_>, texts: &Texts) -> BlockInstance {
    let c = f.contents;
    let (inputs, _) = port_counts(c);
    let mut ids = c[BLOCK_START..]
        .chunks_exact(PORT_LEN)
        .map(|port| ConnectorId(u32_at(port, 0)));
    BlockInstance {
        id: BlockId(u32_at(c, 0)),
        class_iri: Arc::from(""),
        inputs: ids.by_ref().take(inputs).collect(),
        outputs: ids.collect(),
        params: ParamTable::default(),
        decl_order: 0,
        instance_iri: texts.get_unless_none(u16_at(c, place::BLOCK_INSTANCE)),
    }
}

fn connector(f: &Field<'_>, texts: &Texts) -> Connector {
    let c = f.contents;
    Connector {
        id: ConnectorId(u32_at(c, 0)),
        block: BlockId(u32_at(c, place::CONNECTOR_BLOCK)),
        dir: if c[place::CONNECTOR_DIR] == DIR_OUT {
            Dir::Out
        } else {
            Dir::In
        },
        value_type: match c[place::CONNECTOR_TYPE] {
            KIND_REAL => ValueType::Real,
            KIND_INTEGER => ValueType::Integer,
            KIND_BOOLEAN => ValueType::Boolean,
            KIND_STRING => ValueType::String,
            _ => ValueType::Enum(EnumClassId(u32_at(c, place::CONNECTOR_ENUM_CLASS))),
        },
        attrs: attrs(f, texts),
        decl_order: 0,
        iri: texts.get_unless_none(u16_at(c, place::CONNECTOR_IRI)),
    }
}

fn attrs(f: &Field<'_>, texts: &Texts) -> Attrs {
    let raw = attrs_of(f);
    let text = |bit, number| raw.has(bit).then(|| texts.get(number));
    let real = |bit, bits| raw.has(bit).then(|| f64::from_bits(bits));
    let integer = |bit, bits: u64| raw.has(bit).then_some(bits as i64);
    match raw.kind {
        KIND_REAL => Attrs::Real(RealAttrs {
            quantity: text(SET_QUANTITY, raw.quantity),
            unit: text(SET_UNIT, raw.unit),
            display_unit: text(SET_DISPLAY_UNIT, raw.display_unit),
            min: real(SET_MIN, raw.min),
            max: real(SET_MAX, raw.max),
            nominal: real(SET_NOMINAL, raw.nominal),
            unbounded: raw.has(SET_UNBOUNDED).then(|| raw.has(UNBOUNDED)),
        }),
        KIND_INTEGER => Attrs::Integer(IntAttrs {
            min: integer(SET_MIN, raw.min),
            max: integer(SET_MAX, raw.max),
        }),
        KIND_BOOLEAN => Attrs::Boolean(NoAttrs),
        KIND_STRING => Attrs::String(NoAttrs),
        _ => Attrs::Enum(NoAttrs),
    }
}

/// The attribute bytes that the image would hold for these attributes.
pub fn raw_attrs(attrs: &Attrs, texts: &Texts) -> RawAttrs {
    let text = |text: &Option<Arc<str>>| {
        text.as_ref().map(|text| {
            texts
                .number(text)
                .expect("an attribute's text is one of the image's")
        })
    };
    let mut raw = RawAttrs::default();
    let mut mark = |bit: u8, there: bool| raw.set |= if there { bit } else { 0 };
    match attrs {
        Attrs::Real(real) => {
            mark(SET_QUANTITY, real.quantity.is_some());
            mark(SET_UNIT, real.unit.is_some());
            mark(SET_DISPLAY_UNIT, real.display_unit.is_some());
            mark(SET_MIN, real.min.is_some());
            mark(SET_MAX, real.max.is_some());
            mark(SET_NOMINAL, real.nominal.is_some());
            mark(SET_UNBOUNDED, real.unbounded.is_some());
            mark(UNBOUNDED, real.unbounded == Some(true));
            raw.kind = KIND_REAL;
            raw.quantity = text(&real.quantity).unwrap_or(0);
            raw.unit = text(&real.unit).unwrap_or(0);
            raw.display_unit = text(&real.display_unit).unwrap_or(0);
            raw.min = real.min.map_or(0, f64::to_bits);
            raw.max = real.max.map_or(0, f64::to_bits);
            raw.nominal = real.nominal.map_or(0, f64::to_bits);
        }
        Attrs::Integer(int) => {
            mark(SET_MIN, int.min.is_some());
            mark(SET_MAX, int.max.is_some());
            raw.kind = KIND_INTEGER;
            raw.min = int.min.unwrap_or(0) as u64;
            raw.max = int.max.unwrap_or(0) as u64;
        }
        Attrs::Boolean(_) => raw.kind = KIND_BOOLEAN,
        Attrs::String(_) => raw.kind = KIND_STRING,
        Attrs::Enum(_) => raw.kind = KIND_ENUM,
    }
    raw
}

// ---- bytes ----------------------------------------------------------------------------------

/// The attributes of a connector or boundary record: the last bytes of its contents.
fn attrs_of(f: &Field<'_>) -> RawAttrs {
    let a = &f.contents[f.contents.len() - ATTRS_LEN..];
    RawAttrs {
        kind: a[place::KIND],
        set: a[place::SET],
        quantity: u16_at(a, place::QUANTITY),
        unit: u16_at(a, place::UNIT),
        display_unit: u16_at(a, place::DISPLAY_UNIT),
        min: u64_at(a, place::MIN),
        max: u64_at(a, place::MAX),
        nominal: u64_at(a, place::NOMINAL),
    }
}

fn port_counts(contents: &[u8]) -> (usize, usize) {
    (
        usize::from(u16_at(contents, place::BLOCK_INPUTS)),
        usize::from(u16_at(contents, place::BLOCK_OUTPUTS)),
    )
}

fn u16_at(bytes: &[u8], at: usize) -> u16 {
    u16::from_le_bytes([bytes[at], bytes[at + 1]])
}

fn u32_at(bytes: &[u8], at: usize) -> u32 {
    u32::from(u16_at(bytes, at)) | u32::from(u16_at(bytes, at + 2)) << 16
}

fn u64_at(bytes: &[u8], at: usize) -> u64 {
    u64::from(u32_at(bytes, at)) | u64::from(u32_at(bytes, at + 4)) << 32
}
