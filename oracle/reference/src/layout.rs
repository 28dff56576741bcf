//! The module image's layout: header fields, sections and records' fields.

pub const ABSENT: u32 = 4_294_967_295;
pub const HEADER_FIELDS: usize = 16;
pub const HEADER_BYTES: usize = 4 * HEADER_FIELDS;

/// Sections in image order; a place's section number is its position here.
pub const SIGNALS: usize = 0;
pub const EXPRESSIONS: usize = 1;
pub const LIST: usize = 2;
pub const ASSIGNMENTS: usize = 3;
pub const REGISTERS: usize = 4;
pub const MEMORIES: usize = 5;
pub const NAMES: usize = 6;
pub const SECTIONS: usize = 7;

/// Bytes of one record (one word, one byte) of each section.
pub const RECORD_BYTES: [u64; SECTIONS] = [16, 20, 4, 16, 48, 108, 1];

/// "Most: 512 signals, 2,048 expressions, 8,192 list words, 1,024 assignments,
/// 256 registers, 16 memories, 16,384 name bytes."
pub const MOST: [u32; SECTIONS] = [512, 2_048, 8_192, 1_024, 256, 16, 16_384];

/// "Every field is 32 bits, little-endian, unsigned."
pub fn field_at(bytes: &[u8], at: usize) -> u32 {
    u32::from_le_bytes([bytes[at], bytes[at + 1], bytes[at + 2], bytes[at + 3]])
}

/// Header field number `field`.
pub fn header_field(image: &[u8], field: usize) -> u32 {
    field_at(image, 4 * field)
}

/// The header field that holds a section's count; its offset stands behind it.
pub fn count_field(section: usize) -> usize {
    2 + 2 * section
}

/// An image whose header is right, read record by record.
pub struct Module<'a> {
    image: &'a [u8],
}

impl<'a> Module<'a> {
    pub fn new(image: &'a [u8]) -> Self {
        Module { image }
    }

    pub fn count(&self, section: usize) -> u32 {
        header_field(self.image, count_field(section))
    }

    fn offset(&self, section: usize) -> usize {
        header_field(self.image, count_field(section) + 1) as usize
    }

    /// A field of a record that is there.
    pub fn field(&self, section: usize, record: u32, field: usize) -> u32 {
        let record_at = self.offset(section) + record as usize * RECORD_BYTES[section] as usize;
        field_at(self.image, record_at + 4 * field)
    }

    /// A list word that is there.
    pub fn list_word(&self, word: u32) -> u32 {
        self.field(LIST, word, 0)
    }

    /// The stretch of the names section, where it lies inside.
    pub fn name(&self, offset: u32, length: u32) -> Option<&'a [u8]> {
        let start = self.offset(NAMES);
        let names = &self.image[start..start + self.count(NAMES) as usize];
        let end = offset as usize + length as usize;
        names.get(offset as usize..end)
    }

    /// Width of a signal, where that signal is there.
    pub fn signal_width(&self, signal: u32) -> Option<u32> {
        (signal < self.count(SIGNALS)).then(|| self.field(SIGNALS, signal, 2))
    }

    /// Width of an expression, where that expression is there.
    pub fn expression_width(&self, expression: u32) -> Option<u32> {
        (expression < self.count(EXPRESSIONS)).then(|| self.field(EXPRESSIONS, expression, 1))
    }

    pub fn expressions(&self) -> usize {
        self.count(EXPRESSIONS) as usize
    }

    pub fn signal_bits(&self) -> usize {
        (0..self.count(SIGNALS)).map(|signal| self.field(SIGNALS, signal, 2) as usize).sum()
    }

    pub fn expression_bits(&self) -> usize {
        (0..self.count(EXPRESSIONS)).map(|expression| self.field(EXPRESSIONS, expression, 1) as usize).sum()
    }
}
