//! Refusals 1 to 8 with their offsets, and the places where they are easily mixed up.

use oracle::format::*;
use oracle::image::{Block, BoundaryInput, BoundaryOutput, Connection, Connector, Draft, field};
use oracle::reader::{Refusal, read};

const HEAD: usize = FIELD_START + HEAD_LEN;

fn refusal(image: &[u8]) -> Option<(u8, u32)> {
    match read(image) {
        Ok(_) => None,
        Err(Refusal { number, at }) => Some((number, at)),
    }
}

fn of(draft: &Draft) -> Option<(u8, u32)> {
    refusal(&draft.bytes())
}

/// One record of each kind, accepted.
fn draft() -> Draft {
    let attrs = RawAttrs::of_kind(KIND_REAL);
    Draft {
        texts: vec![b"K".to_vec()],
        blocks: vec![Block {
            id: 0,
            instance: NO_TEXT,
            inputs: vec![],
            outputs: vec![0],
        }],
        connectors: vec![Connector {
            id: 0,
            block: 0,
            dir: DIR_OUT,
            value_type: KIND_REAL,
            enum_class: 0,
            iri: NO_TEXT,
            attrs,
        }],
        connections: vec![Connection { from: 0, to: 0 }],
        external_inputs: vec![0],
        boundary_inputs: vec![BoundaryInput { iri: 0, attrs }],
        boundary_outputs: vec![BoundaryOutput {
            iri: 0,
            source: 0,
            attrs,
        }],
        ..Draft::default()
    }
}

/// Where the first field of a tag stands.
fn at(draft: &Draft, tag: u8) -> u32 {
    let before = draft.fields().into_iter().take_while(|f| f[0] < tag);
    before.map(|f| f.len() as u32).sum()
}

#[test]
fn the_draft_is_accepted() {
    assert_eq!(of(&draft()), None);
}

#[test]
fn one_is_the_size_alone() {
    assert_eq!(refusal(&[]), Some((1, 0)));
    assert_eq!(refusal(&[0; MIN_IMAGE - 1]), Some((1, 0)));
    assert_eq!(refusal(&vec![0; MAX_IMAGE + 1]), Some((1, 0)));
    assert_eq!(refusal(&Draft::default().bytes()), None);
    // At the greatest size other refusals are asked.
    assert_eq!(refusal(&vec![0; MAX_IMAGE]), Some((3, 0)));
}

#[test]
fn two_is_a_cut_field() {
    let image = draft().bytes();
    let last = at(&draft(), TAG_BOUNDARY_OUTPUT);
    assert_eq!(refusal(&image[..image.len() - 1]), Some((2, last)));
    // One or two bytes of a field's start.
    let mut image = Draft::default().bytes();
    image.push(TAG_TEXT);
    assert_eq!(refusal(&image), Some((2, HEAD as u32)));
    image.push(0);
    assert_eq!(refusal(&image), Some((2, HEAD as u32)));
    image.push(0);
    assert_eq!(refusal(&image), None);
}

#[test]
fn two_wins_over_a_bad_tag_before_it() {
    let mut image = Draft::default().bytes();
    image.extend(field(9, b"abc"));
    image.extend([TAG_TEXT, 1, 0]);
    assert_eq!(refusal(&image), Some((2, HEAD as u32 + 6)));
    // A bad first tag is walked by its length as well.
    image[0] = 0;
    assert_eq!(refusal(&image), Some((2, HEAD as u32 + 6)));
}

#[test]
fn three_is_a_tag() {
    for tag in [0, 9, 0x20, 255] {
        let mut image = Draft::default().bytes();
        image.extend(field(tag, b""));
        assert_eq!(refusal(&image), Some((3, HEAD as u32)), "tag {tag}");
    }
    // The first isn't a head.
    let mut image = Draft::default().bytes();
    image[0] = TAG_TEXT;
    assert_eq!(refusal(&image), Some((3, 0)));
    // Below the one before.
    let mut image = Draft::default().bytes();
    image.extend(field(TAG_EXTERNAL_INPUT, &[0; 4]));
    image.extend(field(TAG_TEXT, b""));
    assert_eq!(refusal(&image), Some((3, HEAD as u32 + 7)));
}

#[test]
fn three_is_a_second_head_and_never_five() {
    let mut image = Draft::default().bytes();
    image.extend(Draft::default().bytes());
    assert_eq!(refusal(&image), Some((3, HEAD as u32)));
    let mut image = draft().bytes();
    let end = image.len() as u32;
    image.extend(Draft::default().bytes());
    assert_eq!(refusal(&image), Some((3, end)));
}

#[test]
fn three_wins_over_an_earlier_length() {
    let mut image = Draft::default().bytes();
    image.extend(field(TAG_CONNECTION, &[0; 7]));
    let at = image.len() as u32;
    image.extend(field(TAG_TEXT, b""));
    assert_eq!(refusal(&image), Some((3, at)));
}

#[test]
fn four_is_a_length() {
    for (tag, length) in [
        (TAG_TEXT, MAX_TEXT + 1),
        (TAG_BLOCK, 0),
        (TAG_BLOCK, BLOCK_START - 1),
        (TAG_BLOCK, BLOCK_START + 1),
        (TAG_BLOCK, BLOCK_START + PORT_LEN),
        (TAG_CONNECTOR, CONNECTOR_LEN - 1),
        (TAG_CONNECTOR, CONNECTOR_LEN + 1),
        (TAG_CONNECTION, CONNECTION_LEN + 1),
        (TAG_EXTERNAL_INPUT, 0),
        (TAG_BOUNDARY_INPUT, BOUNDARY_OUTPUT_LEN),
        (TAG_BOUNDARY_OUTPUT, BOUNDARY_INPUT_LEN),
    ] {
        let mut image = Draft::default().bytes();
        image.extend(field(tag, &vec![0; length]));
        assert_eq!(
            refusal(&image),
            Some((4, HEAD as u32)),
            "tag {tag}, length {length}"
        );
    }
    // A head of 19 or 21 bytes.
    for length in [HEAD_LEN - 1, HEAD_LEN + 1] {
        let mut image = field(TAG_HEAD, &vec![0; length]);
        image.extend(field(TAG_TEXT, b""));
        assert_eq!(refusal(&image), Some((4, 0)));
    }
}

#[test]
fn four_is_a_port_count_above_256_though_the_length_fits() {
    for (inputs, outputs) in [(257, 0), (0, 257), (257, 257)] {
        let mut draft = draft();
        draft.blocks[0].inputs = vec![0; inputs];
        draft.blocks[0].outputs = vec![0; outputs];
        let at = at(&draft, TAG_BLOCK);
        assert_eq!(of(&draft), Some((4, at)), "{inputs} and {outputs}");
    }
    let mut draft = draft();
    draft.blocks[0].inputs = vec![0; 256];
    draft.blocks[0].outputs = vec![0; 256];
    assert_eq!(of(&draft), None);
}

#[test]
fn five_is_the_first_record_beyond_by_offset() {
    type Resize = fn(&mut Draft, usize);
    let limits: [(u8, Resize); 7] = [
        (TAG_TEXT, |d, n| d.texts.resize(n, Vec::new())),
        (TAG_BLOCK, |d, n| d.blocks.resize(n, d.blocks[0].clone())),
        (TAG_CONNECTOR, |d, n| {
            d.connectors.resize(n, d.connectors[0])
        }),
        (TAG_CONNECTION, |d, n| {
            d.connections.resize(n, d.connections[0])
        }),
        (TAG_EXTERNAL_INPUT, |d, n| d.external_inputs.resize(n, 0)),
        (TAG_BOUNDARY_INPUT, |d, n| {
            d.boundary_inputs.resize(n, d.boundary_inputs[0])
        }),
        (TAG_BOUNDARY_OUTPUT, |d, n| {
            d.boundary_outputs.resize(n, d.boundary_outputs[0])
        }),
    ];
    for (tag, resize) in limits {
        let mut draft = draft();
        resize(&mut draft, most(tag));
        assert_eq!(of(&draft), None, "tag {tag}");
        let beyond = at(&draft, tag + 1);
        resize(&mut draft, most(tag) + 2);
        assert_eq!(of(&draft), Some((5, beyond)), "tag {tag}");
    }
    // Two kinds at once: the lower offset.
    let mut draft = draft();
    draft.blocks = vec![draft.blocks[0].clone(); most(TAG_BLOCK)];
    let beyond = at(&draft, TAG_CONNECTOR);
    draft.blocks.push(draft.blocks[0].clone());
    draft.external_inputs = vec![0; most(TAG_EXTERNAL_INPUT) + 1];
    assert_eq!(of(&draft), Some((5, beyond)));
}

#[test]
fn six_is_the_head() {
    let mut spoiled = draft();
    spoiled.version = 2;
    assert_eq!(of(&spoiled), Some((6, 0)));
    for zeros in [[1, 0], [0, 1]] {
        let mut spoiled = draft();
        spoiled.zeros = zeros;
        assert_eq!(of(&spoiled), Some((6, 0)));
    }
    // Any defaults are accepted, crossed ones too.
    let mut other = draft();
    (other.default_min, other.default_max) = (i64::MAX, i64::MIN);
    assert_eq!(of(&other), None);
}

#[test]
fn six_is_direction_type_and_enum_class() {
    let spoiled = |change: fn(&mut Connector)| {
        let mut draft = draft();
        change(&mut draft.connectors[0]);
        of(&draft)
    };
    let at = at(&draft(), TAG_CONNECTOR);
    assert_eq!(spoiled(|c| c.dir = 2), Some((6, at)));
    assert_eq!(spoiled(|c| c.value_type = 5), Some((6, at)));
    for value_type in KIND_REAL..KIND_ENUM {
        let mut draft = draft();
        draft.connectors[0].value_type = value_type;
        assert_eq!(
            of(&draft),
            None,
            "an attribute kind may differ from the type"
        );
        draft.connectors[0].enum_class = 1 << 24;
        assert_eq!(of(&draft), Some((6, at)));
    }
    // An Enum's class may be 0.
    assert_eq!(spoiled(|c| c.value_type = KIND_ENUM), None);
    assert_eq!(
        spoiled(|c| {
            c.value_type = KIND_ENUM;
            c.enum_class = u32::MAX;
        }),
        None
    );
}

#[test]
fn six_is_the_attribute_rules_in_every_record_that_has_attributes() {
    let real = RawAttrs::of_kind(KIND_REAL);
    let integer = RawAttrs::of_kind(KIND_INTEGER);
    let mut bad = vec![
        RawAttrs::of_kind(5),
        RawAttrs::of_kind(255),
        RawAttrs {
            quantity: 1,
            ..real
        },
        RawAttrs { unit: 1, ..real },
        RawAttrs {
            display_unit: 1,
            ..real
        },
        RawAttrs {
            min: 1 << 63,
            ..real
        },
        RawAttrs { max: 1, ..real },
        RawAttrs { nominal: 1, ..real },
        RawAttrs {
            set: UNBOUNDED,
            ..real
        },
        RawAttrs { min: 1, ..integer },
        RawAttrs {
            nominal: 1,
            ..integer
        },
    ];
    for bit in [
        SET_QUANTITY,
        SET_UNIT,
        SET_DISPLAY_UNIT,
        SET_NOMINAL,
        SET_UNBOUNDED,
        UNBOUNDED,
    ] {
        bad.push(RawAttrs {
            set: bit,
            ..integer
        });
    }
    for kind in [KIND_BOOLEAN, KIND_STRING, KIND_ENUM] {
        for bit in 0..8 {
            bad.push(RawAttrs {
                kind,
                set: 1 << bit,
                ..real
            });
        }
        bad.push(RawAttrs {
            kind,
            max: 1,
            ..real
        });
    }
    let good = [
        RawAttrs {
            set: SET_UNBOUNDED | UNBOUNDED,
            ..real
        },
        RawAttrs {
            set: SET_UNBOUNDED,
            ..real
        },
        RawAttrs {
            set: SET_MIN | SET_MAX,
            min: u64::MAX,
            max: 1,
            ..integer
        },
        RawAttrs {
            set: SET_MIN,
            min: f64::NAN.to_bits(),
            ..real
        },
        RawAttrs {
            set: SET_NOMINAL,
            nominal: f64::INFINITY.to_bits(),
            ..real
        },
        RawAttrs {
            set: u8::MAX,
            ..real
        },
    ];
    for tag in [TAG_CONNECTOR, TAG_BOUNDARY_INPUT, TAG_BOUNDARY_OUTPUT] {
        let place = at(&draft(), tag);
        let with = |attrs: RawAttrs| {
            let mut draft = draft();
            match tag {
                TAG_CONNECTOR => draft.connectors[0].attrs = attrs,
                TAG_BOUNDARY_INPUT => draft.boundary_inputs[0].attrs = attrs,
                _ => draft.boundary_outputs[0].attrs = attrs,
            }
            of(&draft)
        };
        for &attrs in &bad {
            assert_eq!(with(attrs), Some((6, place)), "tag {tag}: {attrs:?}");
        }
        for &attrs in &good {
            assert_eq!(with(attrs), None, "tag {tag}: {attrs:?}");
        }
    }
}

#[test]
fn seven_is_a_text_byte() {
    for byte in 0..=u8::MAX {
        let mut draft = draft();
        draft.texts = vec![b"K".to_vec(), vec![b'x', byte]];
        let want = if (0x20..=0x7E).contains(&byte) {
            None
        } else {
            Some((7, HEAD as u32 + 4))
        };
        assert_eq!(of(&draft), want, "byte {byte}");
    }
}

#[test]
fn eight_is_a_text_number_in_use() {
    let connector = at(&draft(), TAG_CONNECTOR);
    let spoiled = |change: &dyn Fn(&mut Draft)| {
        let mut draft = draft();
        change(&mut draft);
        of(&draft)
    };
    let block = at(&draft(), TAG_BLOCK);
    let input = at(&draft(), TAG_BOUNDARY_INPUT);
    let output = at(&draft(), TAG_BOUNDARY_OUTPUT);
    for number in [1, 2, 0x100, NO_TEXT - 1] {
        assert_eq!(
            spoiled(&|d| d.blocks[0].instance = number),
            Some((8, block))
        );
        assert_eq!(
            spoiled(&|d| d.connectors[0].iri = number),
            Some((8, connector))
        );
    }
    assert_eq!(spoiled(&|d| d.connectors[0].iri = 0), None);
    for number in [1, NO_TEXT] {
        assert_eq!(
            spoiled(&|d| d.boundary_inputs[0].iri = number),
            Some((8, input))
        );
        assert_eq!(
            spoiled(&|d| d.boundary_outputs[0].iri = number),
            Some((8, output))
        );
    }
    // A set quantity, unit or display unit may not be none.
    for number in [1, NO_TEXT] {
        for bit in [SET_QUANTITY, SET_UNIT, SET_DISPLAY_UNIT] {
            let mut attrs = RawAttrs::of_kind(KIND_REAL);
            attrs.set = bit;
            match bit {
                SET_QUANTITY => attrs.quantity = number,
                SET_UNIT => attrs.unit = number,
                _ => attrs.display_unit = number,
            }
            assert_eq!(
                spoiled(&|d| d.connectors[0].attrs = attrs),
                Some((8, connector))
            );
            assert_eq!(
                spoiled(&|d| d.boundary_inputs[0].attrs = attrs),
                Some((8, input))
            );
            assert_eq!(
                spoiled(&|d| d.boundary_outputs[0].attrs = attrs),
                Some((8, output))
            );
        }
    }
}

#[test]
fn an_unset_text_number_is_not_in_use() {
    let mut draft = draft();
    draft.texts.clear();
    draft.boundary_inputs.clear();
    draft.boundary_outputs.clear();
    assert_eq!(of(&draft), None);
    draft.connectors[0].attrs.set = SET_UNIT;
    let at = at(&draft, TAG_CONNECTOR);
    assert_eq!(of(&draft), Some((8, at)));
}

#[test]
fn the_lowest_number_wins_over_any_offset() {
    let mut draft = draft();
    draft.blocks[0].instance = 7;
    let block = at(&draft, TAG_BLOCK);
    assert_eq!(of(&draft), Some((8, block)));
    draft.texts[0] = vec![0x7F];
    assert_eq!(of(&draft), Some((7, HEAD as u32)));
    draft.boundary_outputs[0].attrs.kind = 9;
    let output = at(&draft, TAG_BOUNDARY_OUTPUT);
    assert_eq!(of(&draft), Some((6, output)));
    draft.boundary_inputs.resize(257, draft.boundary_inputs[0]);
    let beyond = at(&draft, TAG_BOUNDARY_INPUT) + 256 * (FIELD_START + BOUNDARY_INPUT_LEN) as u32;
    assert_eq!(of(&draft), Some((5, beyond)));
    let mut image = draft.bytes();
    let end = image.len() as u32;
    image.extend(field(TAG_BOUNDARY_OUTPUT, &[0; 1]));
    assert_eq!(refusal(&image), Some((4, end)));
    image.extend(field(0, b""));
    assert_eq!(refusal(&image), Some((3, end + 4)));
    image.push(0);
    assert_eq!(refusal(&image), Some((2, end + 7)));
    image.resize(MAX_IMAGE + 1, 0);
    assert_eq!(refusal(&image), Some((1, 0)));
}
