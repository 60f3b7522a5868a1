//! The compact image of a file, as far as the files of bench/run go: attributes without entries, and z variables without pad values whose records
//! are not packed, below one chain of nodes.

use crate::image::{self, adr, gdr, node, vdr, Image, Leaf, KIND, LEAST, NEXT};

const GDR_PLACE: usize = 320;
const GDR_BYTES: usize = 84;

/// What a block holds at most, if a record is not larger.
const MOST_BYTES: usize = 1_048_576;
/// How many records a block has, if a variable does not say it.
const USUAL_BLOCK: usize = 64;
/// How many entries a node has at most.
const NODE_ENTRIES: usize = 64;
const VALUES_OF_BLOCK: usize = 12;

fn is_set(flags: u32, bit: u32) -> bool {
    flags & bit != 0
}

struct Copier<'a> {
    source: &'a Image,
    made: Image,
}

/// The block that is being filled: where it stands, and which records it has.
struct Block {
    place: usize,
    first: u32,
    last: u32,
}

impl Copier<'_> {
    /// Appends a record of the source with a link to no other one, and leads the link before to it.
    fn linked(&mut self, record: usize, size: usize, link: usize) -> usize {
        let at = self.made.bytes.len();
        self.made.bytes.extend_from_slice(&self.source.bytes[record..record + size]);
        self.made.set_long(at, size);
        self.made.set_long(at + NEXT, 0);
        self.made.set_long(link, at);
        at
    }

    /// Writes the size of the record that stands last, with bytes 0 behind it where it is short.
    fn close(&mut self, place: usize) {
        let size = (self.made.bytes.len() - place).max(LEAST);
        self.made.bytes.resize(place + size, 0);
        self.made.set_long(place, size);
    }

    fn attributes(&mut self) {
        let (mut link, mut next) = (GDR_PLACE + gdr::ATTRIBUTES, self.source.long(self.source.gdr() + gdr::ATTRIBUTES));
        while next != 0 {
            let at = self.linked(next, adr::BYTES, link);
            for greatest in [adr::GREATEST, adr::Z_GREATEST] {
                self.made.set_word(at + greatest, image::NONE);
            }
            (link, next) = (at + NEXT, self.source.long(next + NEXT));
        }
    }

    /// The bytes of a record of a variable.
    fn record_bytes(&self, variable: usize, dimensions: usize) -> usize {
        let varying = |n: usize| self.source.word(variable + vdr::PAD + 4 * (dimensions + n)) != 0;
        let sizes = (0..dimensions).filter(|n| varying(*n)).map(|n| self.source.word(variable + vdr::PAD + 4 * n) as usize);
        image::bytes_of_type(self.source.word(variable + vdr::DATA_TYPE)) * self.source.word(variable + vdr::ELEMENTS) as usize * sizes.product::<usize>()
    }

    /// How many records a block of a variable has at most.
    fn block_count(&self, variable: usize, record_bytes: usize) -> usize {
        if !is_set(self.source.word(variable + vdr::FLAGS), 1) {
            return 1;
        }
        let wanted = self.source.word(variable + vdr::BLOCKING) as i32;
        let wanted = if wanted > 0 { wanted as usize } else { USUAL_BLOCK };
        wanted.min(MOST_BYTES / record_bytes).max(1)
    }

    fn variables(&mut self) {
        let (mut link, mut next) = (GDR_PLACE + gdr::Z_VARIABLES, self.source.long(self.source.gdr() + gdr::Z_VARIABLES));
        while next != 0 {
            let dimensions = self.source.word(next + vdr::DIMENSIONS) as usize;
            let at = self.linked(next, vdr::PAD + 8 * dimensions, link);
            let size = self.record_bytes(next, dimensions);
            let leaves = self.blocks(next, size, self.block_count(next, size));
            let root = self.index(leaves);
            for field in [vdr::INDEX, vdr::TAIL] {
                self.made.set_long(at + field, root);
            }
            self.made.set_long(at + vdr::PARAMETERS, usize::MAX);
            (link, next) = (at + NEXT, self.source.long(next + NEXT));
        }
    }

    /// Copies the records of a variable into blocks of so many, and answers what an index has to say of these.
    fn blocks(&mut self, variable: usize, size: usize, most: usize) -> Vec<Leaf> {
        let greatest = self.source.word(variable + vdr::GREATEST) as i32;
        let (mut leaves, mut open) = (Vec::new(), None);
        let mut next = self.source.long(variable + vdr::INDEX);
        while next != 0 {
            for entry in 0..self.source.used(next) {
                let leaf = self.source.leaf(next, entry);
                let upto = i64::from(leaf.last).min(i64::from(greatest));
                for (place, number) in (i64::from(leaf.first)..=upto).enumerate() {
                    self.record(&mut open, &mut leaves, leaf.place + VALUES_OF_BLOCK + place * size, size, number as u32, most);
                }
            }
            next = self.source.long(next + NEXT);
        }
        self.close_block(open, &mut leaves);
        leaves
    }

    /// Copies a record into the open block, or into a new one.
    fn record(&mut self, open: &mut Option<Block>, leaves: &mut Vec<Leaf>, from: usize, size: usize, number: u32, most: usize) {
        match open {
            Some(block) if block.last + 1 == number && ((number - block.first) as usize) < most => block.last = number,
            _ => {
                self.close_block(open.take(), leaves);
                let place = self.begin(image::BLOCK);
                *open = Some(Block { place, first: number, last: number });
            }
        }
        self.made.bytes.extend_from_slice(&self.source.bytes[from..from + size]);
    }

    /// Begins a record of a type.
    fn begin(&mut self, kind: u32) -> usize {
        let place = self.made.bytes.len();
        self.made.bytes.resize(place + KIND, 0);
        self.made.bytes.extend_from_slice(&kind.to_be_bytes());
        place
    }

    fn close_block(&mut self, open: Option<Block>, leaves: &mut Vec<Leaf>) {
        if let Some(Block { place, first, last }) = open {
            self.close(place);
            leaves.push(Leaf { first, last, place });
        }
    }

    /// Writes the nodes over these, level by level, and answers where the last one stands.
    fn index(&mut self, leaves: Vec<Leaf>) -> usize {
        let (mut entries, mut root) = (leaves, 0);
        while !entries.is_empty() {
            let above: Vec<Leaf> = entries.chunks(NODE_ENTRIES).map(|chunk| self.node(chunk)).collect();
            root = above[above.len() - 1].place;
            entries = if above.len() > 1 { above } else { Vec::new() };
        }
        root
    }

    fn node(&mut self, entries: &[Leaf]) -> Leaf {
        let place = self.begin(image::NODE);
        self.made.bytes.resize(place + node::ENTRIES + 16 * entries.len(), 0);
        self.close(place);
        for field in [node::ROOM, node::USED] {
            self.made.set_word(place + field, entries.len() as u32);
        }
        for (entry, leaf) in entries.iter().enumerate() {
            self.made.set_leaf(place, entry, *leaf);
        }
        Leaf { first: entries[0].first, last: entries[entries.len() - 1].last, place }
    }
}

/// The compact image of a file without r variables and without a checksum.
pub fn copy(source: &Image) -> Image {
    let mut made = source.bytes[..GDR_PLACE].to_vec();
    let from = source.gdr();
    made.extend_from_slice(&source.bytes[from..from + GDR_BYTES]);
    let mut copier = Copier { source, made: Image { bytes: made } };
    for field in [gdr::ATTRIBUTES, gdr::Z_VARIABLES, gdr::UNUSED] {
        copier.made.set_long(GDR_PLACE + field, 0);
    }
    copier.attributes();
    copier.variables();
    let end = copier.made.bytes.len();
    copier.made.set_long(GDR_PLACE + gdr::EOF, end);
    copier.made
}
