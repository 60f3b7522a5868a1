//! An image in one Vec<u8>: its fields, its records, and the unused ones.

use std::convert::TryInto;

/// Where the fields of a record stand in it.
pub mod gdr {
    pub const Z_VARIABLES: usize = 20;
    pub const ATTRIBUTES: usize = 28;
    pub const EOF: usize = 36;
    pub const ATTRIBUTE_COUNT: usize = 48;
    pub const Z_VARIABLE_COUNT: usize = 60;
    pub const UNUSED: usize = 64;
}

pub mod adr {
    pub const BYTES: usize = 324;
    pub const ENTRIES: usize = 20;
    pub const SCOPE: usize = 28;
    pub const NUM: usize = 32;
    pub const ENTRY_COUNT: usize = 36;
    pub const GREATEST: usize = 40;
    pub const Z_ENTRIES: usize = 48;
    pub const Z_ENTRY_COUNT: usize = 56;
    pub const Z_GREATEST: usize = 60;
    pub const RFU_E: usize = 64;
    pub const NAME: usize = 68;
}

pub mod entry {
    pub const ATTRIBUTE: usize = 20;
    pub const DATA_TYPE: usize = 24;
    pub const NUM: usize = 28;
    pub const ELEMENTS: usize = 32;
    pub const STRINGS: usize = 36;
    pub const RFU_D: usize = 48;
    pub const RFU_E: usize = 52;
    pub const VALUE: usize = 56;
}

pub mod vdr {
    pub const DATA_TYPE: usize = 20;
    pub const GREATEST: usize = 24;
    pub const INDEX: usize = 28;
    pub const TAIL: usize = 36;
    pub const FLAGS: usize = 44;
    pub const SPARSE: usize = 48;
    pub const RFU_C: usize = 56;
    pub const RFU_F: usize = 60;
    pub const ELEMENTS: usize = 64;
    pub const NUM: usize = 68;
    pub const PARAMETERS: usize = 72;
    pub const BLOCKING: usize = 80;
    pub const NAME: usize = 84;
    pub const DIMENSIONS: usize = 340;
    /// Of a z variable without dimensions.
    pub const PAD: usize = 344;
}

pub mod node {
    pub const ROOM: usize = 20;
    pub const USED: usize = 24;
    pub const ENTRIES: usize = 28;
}

/// The types of records.
pub const GDR: u32 = 2;
pub const ADR: u32 = 4;
pub const ENTRY: u32 = 5;
pub const NODE: u32 = 6;
pub const BLOCK: u32 = 7;
pub const Z_VARIABLE: u32 = 8;
pub const Z_ENTRY: u32 = 9;
pub const UNUSED: u32 = u32::MAX;

pub const KIND: usize = 8;
/// The link of each chain; of an unused record a link back follows it.
pub const NEXT: usize = 12;
pub const BACK: usize = 20;
pub const NAME_BYTES: usize = 256;
pub const LEAST: usize = 28;
/// A field of 4 or 8 bytes that counts as nothing.
pub const NONE: u32 = u32::MAX;

/// The bytes of a value of INT4 and the like, by the code of the type; 0 where none has it.
pub fn bytes_of_type(code: u32) -> usize {
    match code {
        1 | 11 | 41 | 51 | 52 => 1,
        2 | 12 => 2,
        4 | 14 | 21 | 44 => 4,
        8 | 22 | 31 | 33 | 45 => 8,
        32 => 16,
        _ => 0,
    }
}

/// What an entry of a node says.
#[derive(Clone, Copy)]
pub struct Leaf {
    pub first: u32,
    pub last: u32,
    pub place: usize,
}

pub struct Image {
    pub bytes: Vec<u8>,
}

impl Image {
    pub fn word(&self, place: usize) -> u32 {
        u32::from_be_bytes(self.bytes[place..place + 4].try_into().unwrap())
    }

    pub fn long(&self, place: usize) -> usize {
        u64::from_be_bytes(self.bytes[place..place + 8].try_into().unwrap()) as usize
    }

    pub fn set_word(&mut self, place: usize, value: u32) {
        self.bytes[place..place + 4].copy_from_slice(&value.to_be_bytes());
    }

    pub fn set_long(&mut self, place: usize, value: usize) {
        self.bytes[place..place + 8].copy_from_slice(&(value as u64).to_be_bytes());
    }

    /// Numbers of 4 bytes that are values follow the encoding of the file: the lowest byte first.
    pub fn value(&self, place: usize) -> i32 {
        i32::from_le_bytes(self.bytes[place..place + 4].try_into().unwrap())
    }

    pub fn set_value(&mut self, place: usize, value: i32) {
        self.bytes[place..place + 4].copy_from_slice(&value.to_le_bytes());
    }

    pub fn gdr(&self) -> usize {
        self.long(20)
    }

    pub fn name(&self, place: usize) -> &[u8] {
        let field = &self.bytes[place..place + NAME_BYTES];
        &field[..field.iter().position(|byte| *byte == 0).unwrap_or(NAME_BYTES)]
    }

    /// The place of the link that leads to the record of a chain with a name, the fields of which begin at a place.
    pub fn link_to(&self, head: usize, name_at: usize, name: &[u8]) -> Option<usize> {
        let mut link = head;
        while self.long(link) != 0 {
            let record = self.long(link);
            if self.name(record + name_at) == name {
                return Some(link);
            }
            link = record + NEXT;
        }
        None
    }

    /// The place of the last link of a chain, which is 0.
    pub fn end_of(&self, head: usize) -> usize {
        let mut link = head;
        while self.long(link) != 0 {
            link = self.long(link) + NEXT;
        }
        link
    }

    pub fn leaf(&self, node: usize, entry: usize) -> Leaf {
        let room = self.word(node + node::ROOM) as usize;
        let at = node + node::ENTRIES;
        Leaf {
            first: self.word(at + 4 * entry),
            last: self.word(at + 4 * (room + entry)),
            place: self.long(at + 8 * (room + entry)),
        }
    }

    pub fn set_leaf(&mut self, node: usize, entry: usize, leaf: Leaf) {
        let room = self.word(node + node::ROOM) as usize;
        let at = node + node::ENTRIES;
        self.set_word(at + 4 * entry, leaf.first);
        self.set_word(at + 4 * (room + entry), leaf.last);
        self.set_long(at + 8 * (room + entry), leaf.place);
    }

    pub fn used(&self, node: usize) -> usize {
        self.word(node + node::USED) as usize
    }

    /// A new record: the first unused one that fits, or one at the end.
    pub fn take(&mut self, need: usize, kind: u32) -> usize {
        let need = need.max(LEAST);
        let record = self.unlist(need).unwrap_or_else(|| {
            let end = self.bytes.len();
            self.bytes.resize(end + need, 0);
            self.set_long(self.gdr() + gdr::EOF, end + need);
            end
        });
        self.bytes[record..record + need].fill(0);
        self.set_long(record, need);
        self.set_word(record + KIND, kind);
        record
    }

    /// Takes an unused record from the list; the rest of a larger one stays in its place.
    fn unlist(&mut self, need: usize) -> Option<usize> {
        let (mut link, mut before) = (self.gdr() + gdr::UNUSED, 0);
        while self.long(link) != 0 {
            let record = self.long(link);
            let size = self.long(record);
            if size != need && size < need + LEAST {
                (link, before) = (record + NEXT, record);
                continue;
            }
            let after = self.long(record + NEXT);
            let rest = record + need;
            if size > need {
                self.set_long(rest, size - need);
                self.set_word(rest + KIND, UNUSED);
                self.set_long(rest + NEXT, after);
                self.set_long(rest + BACK, before);
            }
            self.set_long(link, if size > need { rest } else { after });
            if after != 0 {
                self.set_long(after + BACK, if size > need { rest } else { before });
            }
            return Some(record);
        }
        None
    }

    pub fn give(&mut self, record: usize) {
        self.set_word(record + KIND, UNUSED);
        if self.long(record) < LEAST {
            return;
        }
        let list = self.gdr() + gdr::UNUSED;
        let head = self.long(list);
        self.set_long(record + NEXT, head);
        self.set_long(record + BACK, 0);
        if head != 0 {
            self.set_long(head + BACK, record);
        }
        self.set_long(list, record);
    }
}
