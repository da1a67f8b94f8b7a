//! Where the records of an accepted image stand.

use oracle::format::{ATTRS_LEN, FIELD_START, TAG_TEXT};

/// For each tag, start and end of the contents of its records, in order.
pub struct Fields {
    by_tag: [Vec<(usize, usize)>; 9],
}

impl Fields {
    pub fn of(image: &[u8]) -> Self {
        let mut by_tag: [Vec<(usize, usize)>; 9] = Default::default();
        let mut at = 0;
        while at < image.len() {
            let start = at + FIELD_START;
            let end = start + usize::from(u16::from_le_bytes([image[at + 1], image[at + 2]]));
            by_tag[usize::from(image[at])].push((start, end));
            at = end;
        }
        Self { by_tag }
    }

    /// The bytes of a text, if there is one of this number.
    pub fn text<'a>(&self, image: &'a [u8], number: u32) -> Option<&'a [u8]> {
        let &(start, end) = self.by_tag[usize::from(TAG_TEXT)].get(number as usize)?;
        Some(&image[start..end])
    }

    /// Where the attributes of a record stand: they are its last bytes.
    pub fn attributes(&self, tag: u8, index: u32) -> std::ops::Range<usize> {
        let (_, end) = self.by_tag[usize::from(tag)][index as usize];
        end - ATTRS_LEN..end
    }
}
