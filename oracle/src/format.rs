//! The numbers of the model image and of the report, as docs/FORMAT.md gives them, named once.

/// The shortest and the longest image.
pub const MIN_IMAGE: usize = 23;
pub const MAX_IMAGE: usize = 65_535;

/// A field's tag byte and two-byte length.
pub const FIELD_START: usize = 3;

pub const TAG_HEAD: u8 = 1;
pub const TAG_TEXT: u8 = 2;
pub const TAG_BLOCK: u8 = 3;
pub const TAG_CONNECTOR: u8 = 4;
pub const TAG_CONNECTION: u8 = 5;
pub const TAG_EXTERNAL_INPUT: u8 = 6;
pub const TAG_BOUNDARY_INPUT: u8 = 7;
pub const TAG_BOUNDARY_OUTPUT: u8 = 8;
pub const LAST_TAG: u8 = TAG_BOUNDARY_OUTPUT;

/// Contents of fixed size.
pub const HEAD_LEN: usize = 20;
pub const CONNECTOR_LEN: usize = 48;
pub const CONNECTION_LEN: usize = 8;
pub const EXTERNAL_INPUT_LEN: usize = 4;
pub const BOUNDARY_INPUT_LEN: usize = 34;
pub const BOUNDARY_OUTPUT_LEN: usize = 38;
pub const ATTRS_LEN: usize = 32;

/// Where the parts of a record stand in its contents; ids and iris of boundary records come first.
pub mod place {
    pub const HEAD_ZEROS: usize = 2;
    pub const HEAD_DEFAULT_MIN: usize = 4;
    pub const HEAD_DEFAULT_MAX: usize = 12;
    pub const BLOCK_INSTANCE: usize = 4;
    pub const BLOCK_INPUTS: usize = 6;
    pub const BLOCK_OUTPUTS: usize = 8;
    pub const CONNECTOR_BLOCK: usize = 4;
    pub const CONNECTOR_DIR: usize = 8;
    pub const CONNECTOR_TYPE: usize = 9;
    pub const CONNECTOR_ENUM_CLASS: usize = 10;
    pub const CONNECTOR_IRI: usize = 14;
    pub const CONNECTION_TO: usize = 4;
    pub const BOUNDARY_OUTPUT_SOURCE: usize = 2;

    /// Inside the attributes.
    pub const KIND: usize = 0;
    pub const SET: usize = 1;
    pub const QUANTITY: usize = 2;
    pub const UNIT: usize = 4;
    pub const DISPLAY_UNIT: usize = 6;
    pub const MIN: usize = 8;
    pub const MAX: usize = 16;
    pub const NOMINAL: usize = 24;
}

/// A block without ports, and one port id.
pub const BLOCK_START: usize = 10;
pub const PORT_LEN: usize = 4;

/// Most ports of one direction, most bytes of a text.
pub const MAX_PORTS: usize = 256;
pub const MAX_TEXT: usize = 255;

/// Most records of a tag. A head beyond the first is refusal 3's.
pub const fn most(tag: u8) -> usize {
    match tag {
        TAG_TEXT | TAG_CONNECTOR | TAG_EXTERNAL_INPUT => 1_024,
        TAG_CONNECTION => 2_048,
        TAG_BLOCK | TAG_BOUNDARY_INPUT | TAG_BOUNDARY_OUTPUT => 256,
        _ => 1,
    }
}

pub const VERSION: u16 = 1;
pub const FIRST_TEXT_BYTE: u8 = 0x20;
pub const LAST_TEXT_BYTE: u8 = 0x7E;

/// The text number that means none.
pub const NO_TEXT: u16 = 65_535;

pub const DIR_IN: u8 = 0;
pub const DIR_OUT: u8 = 1;

/// Types and attribute kinds.
pub const KIND_REAL: u8 = 0;
pub const KIND_INTEGER: u8 = 1;
pub const KIND_BOOLEAN: u8 = 2;
pub const KIND_STRING: u8 = 3;
pub const KIND_ENUM: u8 = 4;
pub const LAST_KIND: u8 = KIND_ENUM;

/// Bits of the attributes' set byte.
pub const SET_QUANTITY: u8 = 1;
pub const SET_UNIT: u8 = 1 << 1;
pub const SET_DISPLAY_UNIT: u8 = 1 << 2;
pub const SET_MIN: u8 = 1 << 3;
pub const SET_MAX: u8 = 1 << 4;
pub const SET_NOMINAL: u8 = 1 << 5;
pub const SET_UNBOUNDED: u8 = 1 << 6;
pub const UNBOUNDED: u8 = 1 << 7;

/// The Integer defaults that the Rust has fixed.
pub const RUST_DEFAULT_MIN: i64 = -2_147_483_648;
pub const RUST_DEFAULT_MAX: i64 = 2_147_483_647;

/// Refusals that reading alone decides.
pub const REFUSED_SIZE: u8 = 1;
pub const REFUSED_CUT: u8 = 2;
pub const REFUSED_TAG: u8 = 3;
pub const REFUSED_LENGTH: u8 = 4;
pub const REFUSED_COUNT: u8 = 5;
pub const REFUSED_VALUE: u8 = 6;
pub const REFUSED_TEXT_BYTE: u8 = 7;
pub const REFUSED_TEXT_NUMBER: u8 = 8;
pub const LAST_READING_REFUSAL: u8 = REFUSED_TEXT_NUMBER;

/// A diagnostic of the report, its tag and length included.
pub const DIAGNOSTIC_LEN: usize = 19;

/// Severities and subject kinds of the report.
pub const SEVERITY_ERROR: u8 = 0;
pub const SEVERITY_WARNING: u8 = 1;
pub const SUBJECT_NONE: u8 = 0;
pub const SUBJECT_TEXT: u8 = 1;
pub const SUBJECT_CONNECTOR: u8 = 2;
pub const SUBJECT_BLOCK: u8 = 3;

/// Details of rules 1 to 6.
pub const DETAILS: [u8; 6] = [5, 3, 2, 4, 4, 8];

/// The 32 attribute bytes of a record.
#[derive(Clone, Copy, PartialEq, Eq, Debug, Default)]
pub struct RawAttrs {
    pub kind: u8,
    pub set: u8,
    pub quantity: u16,
    pub unit: u16,
    pub display_unit: u16,
    /// Ends and nominal by their bits: binary64, or for ends of an Integer two's complement.
    pub min: u64,
    pub max: u64,
    pub nominal: u64,
}

impl RawAttrs {
    pub fn of_kind(kind: u8) -> Self {
        Self {
            kind,
            ..Self::default()
        }
    }

    pub fn has(&self, bit: u8) -> bool {
        self.set & bit != 0
    }

    pub fn to_bytes(self) -> [u8; ATTRS_LEN] {
        let mut bytes = [0; ATTRS_LEN];
        bytes[place::KIND] = self.kind;
        bytes[place::SET] = self.set;
        let mut put = |at: usize, part: &[u8]| bytes[at..at + part.len()].copy_from_slice(part);
        put(place::QUANTITY, &self.quantity.to_le_bytes());
        put(place::UNIT, &self.unit.to_le_bytes());
        put(place::DISPLAY_UNIT, &self.display_unit.to_le_bytes());
        put(place::MIN, &self.min.to_le_bytes());
        put(place::MAX, &self.max.to_le_bytes());
        put(place::NOMINAL, &self.nominal.to_le_bytes());
        bytes
    }
}
