//! Records of an image before they are bytes. Nothing is checked: a draft can be turned away.

use crate::format::*;

#[derive(Clone, Debug)]
pub struct Draft {
    pub version: u16,
    pub zeros: [u8; 2],
    pub default_min: i64,
    pub default_max: i64,
    pub texts: Vec<Vec<u8>>,
    pub blocks: Vec<Block>,
    pub connectors: Vec<Connector>,
    pub connections: Vec<Connection>,
    pub external_inputs: Vec<u32>,
    pub boundary_inputs: Vec<BoundaryInput>,
    pub boundary_outputs: Vec<BoundaryOutput>,
}

#[derive(Clone, Debug)]
pub struct Block {
    pub id: u32,
    pub instance: u16,
    pub inputs: Vec<u32>,
    pub outputs: Vec<u32>,
}

#[derive(Clone, Copy, Debug)]
pub struct Connector {
    pub id: u32,
    pub block: u32,
    pub dir: u8,
    pub value_type: u8,
    pub enum_class: u32,
    pub iri: u16,
    pub attrs: RawAttrs,
}

impl Connector {
    /// One of block 0, with no enumeration's class.
    pub fn of_first_block(id: u32, dir: u8, iri: u16, value_type: u8, attrs: RawAttrs) -> Self {
        Connector {
            id,
            block: 0,
            dir,
            value_type,
            enum_class: 0,
            iri,
            attrs,
        }
    }
}

#[derive(Clone, Copy, Debug, PartialEq, Eq)]
pub struct Connection {
    pub from: u32,
    pub to: u32,
}

#[derive(Clone, Copy, Debug)]
pub struct BoundaryInput {
    pub iri: u16,
    pub attrs: RawAttrs,
}

#[derive(Clone, Copy, Debug)]
pub struct BoundaryOutput {
    pub iri: u16,
    pub source: u32,
    pub attrs: RawAttrs,
}

impl Default for Draft {
    /// An empty model with the Rust's Integer defaults.
    fn default() -> Self {
        Self {
            version: VERSION,
            zeros: [0, 0],
            default_min: RUST_DEFAULT_MIN,
            default_max: RUST_DEFAULT_MAX,
            texts: Vec::new(),
            blocks: Vec::new(),
            connectors: Vec::new(),
            connections: Vec::new(),
            external_inputs: Vec::new(),
            boundary_inputs: Vec::new(),
            boundary_outputs: Vec::new(),
        }
    }
}

/// One field: tag, length, contents. A length above two bytes is cut, as a damaged image has it.
pub fn field(tag: u8, contents: &[u8]) -> Vec<u8> {
    let mut bytes = Vec::with_capacity(FIELD_START + contents.len());
    bytes.push(tag);
    bytes.extend((contents.len() as u16).to_le_bytes());
    bytes.extend(contents);
    bytes
}

impl Draft {
    /// The number of a text with these bytes: the first such one, or a new one.
    pub fn text(&mut self, bytes: &[u8]) -> u16 {
        match self.texts.iter().position(|text| text == bytes) {
            Some(number) => number as u16,
            None => self.new_text(bytes),
        }
    }

    /// A text under a number of its own, even where its bytes are there already.
    pub fn new_text(&mut self, bytes: &[u8]) -> u16 {
        self.texts.push(bytes.to_vec());
        (self.texts.len() - 1) as u16
    }

    /// The fields in order, each with its tag and length.
    pub fn fields(&self) -> Vec<Vec<u8>> {
        let mut fields = vec![self.head()];
        fields.extend(self.texts.iter().map(|text| field(TAG_TEXT, text)));
        fields.extend(self.blocks.iter().map(Block::field));
        fields.extend(self.connectors.iter().map(Connector::field));
        fields.extend(self.connections.iter().map(Connection::field));
        fields.extend(
            self.external_inputs
                .iter()
                .map(|id| field(TAG_EXTERNAL_INPUT, &id.to_le_bytes())),
        );
        fields.extend(self.boundary_inputs.iter().map(BoundaryInput::field));
        fields.extend(self.boundary_outputs.iter().map(BoundaryOutput::field));
        fields
    }

    pub fn bytes(&self) -> Vec<u8> {
        self.fields().concat()
    }

    fn head(&self) -> Vec<u8> {
        let mut contents = Vec::with_capacity(HEAD_LEN);
        contents.extend(self.version.to_le_bytes());
        contents.extend(self.zeros);
        contents.extend(self.default_min.to_le_bytes());
        contents.extend(self.default_max.to_le_bytes());
        field(TAG_HEAD, &contents)
    }
}

impl Block {
    fn field(&self) -> Vec<u8> {
        let mut contents = Vec::new();
        contents.extend(self.id.to_le_bytes());
        contents.extend(self.instance.to_le_bytes());
        contents.extend((self.inputs.len() as u16).to_le_bytes());
        contents.extend((self.outputs.len() as u16).to_le_bytes());
        for port in self.inputs.iter().chain(&self.outputs) {
            contents.extend(port.to_le_bytes());
        }
        field(TAG_BLOCK, &contents)
    }
}

impl Connector {
    fn field(&self) -> Vec<u8> {
        let mut contents = Vec::with_capacity(CONNECTOR_LEN);
        contents.extend(self.id.to_le_bytes());
        contents.extend(self.block.to_le_bytes());
        contents.push(self.dir);
        contents.push(self.value_type);
        contents.extend(self.enum_class.to_le_bytes());
        contents.extend(self.iri.to_le_bytes());
        contents.extend(self.attrs.to_bytes());
        field(TAG_CONNECTOR, &contents)
    }
}

impl Connection {
    fn field(&self) -> Vec<u8> {
        let mut contents = Vec::with_capacity(CONNECTION_LEN);
        contents.extend(self.from.to_le_bytes());
        contents.extend(self.to.to_le_bytes());
        field(TAG_CONNECTION, &contents)
    }
}

impl BoundaryInput {
    fn field(&self) -> Vec<u8> {
        let mut contents = Vec::with_capacity(BOUNDARY_INPUT_LEN);
        contents.extend(self.iri.to_le_bytes());
        contents.extend(self.attrs.to_bytes());
        field(TAG_BOUNDARY_INPUT, &contents)
    }
}

impl BoundaryOutput {
    fn field(&self) -> Vec<u8> {
        let mut contents = Vec::with_capacity(BOUNDARY_OUTPUT_LEN);
        contents.extend(self.iri.to_le_bytes());
        contents.extend(self.source.to_le_bytes());
        contents.extend(self.attrs.to_bytes());
        field(TAG_BOUNDARY_OUTPUT, &contents)
    }
}
