//! A plain check of the rules of a well-formed file, as far as the files of bench/run go: attributes with entries, z variables without dimensions,
//! whose records are not packed, and unused records.

use crate::image::{self, adr, bytes_of_type, entry, gdr, node, vdr, Image, KIND, LEAST, NEXT};
use std::collections::HashSet;

/// The rule that is broken, and the place.
pub struct Broken {
    phase: u32,
    rule: u32,
    place: usize,
}

impl std::fmt::Display for Broken {
    fn fmt(&self, out: &mut std::fmt::Formatter) -> std::fmt::Result {
        write!(out, "rejected {} {} {}", self.phase, self.rule, self.place)
    }
}

type Checked<T> = Result<T, Broken>;

fn holds(right: bool, phase: u32, rule: u32, place: usize) -> Checked<()> {
    if right {
        Ok(())
    } else {
        Err(Broken { phase, rule, place })
    }
}

/// Marks of a byte: a record begins there; it has an owner, and another one; it was met in the chain or the index that is walked.
const BEGINS: u8 = 1;
const OWNED: u8 = 2;
const SHARED: u8 = 4;
const MET: u8 = 8;

const LAST_NUMBER: i32 = i32::MAX - 1;

struct Checker<'a> {
    image: &'a Image,
    marks: Vec<u8>,
}

impl Checker<'_> {
    fn is(&self, place: usize, kind: u32) -> bool {
        place < self.marks.len() && self.marks[place] & BEGINS != 0 && self.image.word(place + KIND) == kind
    }

    fn own(&mut self, place: usize) {
        let owners = if self.marks[place] & OWNED == 0 { OWNED } else { SHARED };
        self.marks[place] |= owners;
    }

    fn forget(&mut self, met: &[usize]) {
        for place in met {
            self.marks[*place] &= !MET;
        }
    }

    /// Phase 4: the records.
    fn records(&mut self) -> Checked<()> {
        let end = self.image.bytes.len();
        let mut place = 8;
        while place < end {
            holds(end - place >= 12, 4, 1, place)?;
            let size = self.image.long(place);
            holds(size >= 12 && size <= end - place, 4, 1, place)?;
            self.marks[place] = BEGINS;
            place += size;
        }
        let mut place = 8;
        while place < end {
            let size = self.image.long(place);
            let kind = self.image.word(place + KIND);
            let least = match kind {
                1 => 312,
                image::GDR => 84,
                3 => 340,
                image::ADR => adr::BYTES,
                image::ENTRY | image::Z_ENTRY => entry::VALUE,
                image::NODE => node::ENTRIES,
                image::BLOCK | image::UNUSED => 12,
                image::Z_VARIABLE => vdr::PAD,
                _ => return Err(Broken { phase: 4, rule: 2, place }),
            };
            holds(size >= least, 4, 3, place)?;
            place += size;
        }
        Ok(())
    }

    /// The members of a chain, each of which has an owner by it.
    fn chain(&mut self, record: usize, head: usize, kind: u32, phase: u32, rule: u32) -> Checked<Vec<usize>> {
        let (mut from, mut next) = (record, self.image.long(record + head));
        let mut members = Vec::new();
        while next != 0 {
            let leads = self.is(next, kind) && self.marks[next] & MET == 0;
            holds(leads && (kind != image::UNUSED || self.image.long(next) >= LEAST), phase, rule, from)?;
            self.marks[next] |= MET;
            members.push(next);
            (from, next) = (next, self.image.long(next + NEXT));
        }
        self.forget(&members);
        for member in &members {
            self.own(*member);
        }
        Ok(members)
    }

    fn numbered(&self, members: &[usize], num: usize, rule: u32) -> Checked<()> {
        for (at, member) in members.iter().enumerate() {
            holds(self.image.word(member + num) as usize == at, 5, rule, *member)?;
        }
        Ok(())
    }

    fn names(&self, members: &[usize], name: usize, phase: u32, empty: u32, same: u32) -> Checked<()> {
        let mut names = HashSet::new();
        for member in members {
            let name = self.image.name(member + name);
            holds(!name.is_empty(), phase, empty, *member)?;
            holds(names.insert(name), phase, same, *member)?;
        }
        Ok(())
    }

    /// Phase 6: an attribute.
    fn attribute(&mut self, attribute: usize) -> Checked<()> {
        holds((1..=4).contains(&self.image.word(attribute + adr::SCOPE)), 6, 3, attribute)?;
        let chains = [(adr::ENTRIES, adr::ENTRY_COUNT, image::ENTRY), (adr::Z_ENTRIES, adr::Z_ENTRY_COUNT, image::Z_ENTRY)];
        for (head, count, kind) in chains {
            let members = self.chain(attribute, head, kind, 6, 4)?;
            holds(self.image.word(attribute + count) as usize == members.len(), 6, 5, attribute)?;
            let mut numbers = HashSet::new();
            for member in members {
                holds(self.image.word(member + entry::ATTRIBUTE) == self.image.word(attribute + adr::NUM), 6, 6, member)?;
                let num = self.image.word(member + entry::NUM);
                holds(num as i32 >= 0 && num as i32 <= LAST_NUMBER && numbers.insert(num), 6, 7, member)?;
                let each = bytes_of_type(self.image.word(member + entry::DATA_TYPE));
                let elements = self.image.word(member + entry::ELEMENTS) as i32;
                let fits = each > 0 && elements >= 1 && entry::VALUE + each * elements as usize <= self.image.long(member);
                holds(fits, 6, 8, member)?;
            }
        }
        Ok(())
    }

    /// Phase 7: a variable.
    fn variable(&self, variable: usize) -> Checked<()> {
        let word = |at: usize| self.image.word(variable + at);
        holds(bytes_of_type(word(vdr::DATA_TYPE)) > 0, 7, 3, variable)?;
        holds(word(vdr::ELEMENTS) == 1, 7, 4, variable)?;
        holds(word(vdr::DIMENSIONS) == 0, 7, 5, variable)?;
        let pad = if word(vdr::FLAGS) & 2 == 0 { 0 } else { bytes_of_type(word(vdr::DATA_TYPE)) };
        holds(self.image.long(variable) >= vdr::PAD + pad, 7, 6, variable)?;
        let greatest = word(vdr::GREATEST) as i32;
        holds((-1..=LAST_NUMBER).contains(&greatest), 7, 8, variable)?;
        holds(word(vdr::SPARSE) == 0, 7, 99, variable)?;
        holds(word(vdr::FLAGS) & 4 == 0, 7, 11, variable)?;
        let parameters = self.image.long(variable + vdr::PARAMETERS);
        holds(parameters == 0 || parameters == usize::MAX, 7, 10, variable)
    }

    /// Phase 8: an index.
    fn index(&mut self, variable: usize) -> Checked<()> {
        let each = bytes_of_type(self.image.word(variable + vdr::DATA_TYPE));
        let mut met = Vec::new();
        let head = self.image.long(variable + vdr::INDEX);
        self.level(variable, head, each, 1, (-1, LAST_NUMBER), &mut met)?;
        self.forget(&met);
        Ok(())
    }

    /// A chain of nodes of an index, whose records stand past a number and up to another.
    fn level(&mut self, from: usize, head: usize, each: usize, depth: u32, (past, to): (i32, i32), met: &mut Vec<usize>) -> Checked<()> {
        let (mut from, mut node, mut past) = (from, head, past);
        while node != 0 {
            holds(depth <= 8 && self.is(node, image::NODE) && self.marks[node] & MET == 0, 8, 1, from)?;
            self.marks[node] |= MET;
            met.push(node);
            self.own(node);
            let (room, used) = (self.image.word(node + node::ROOM) as i32, self.image.word(node + node::USED) as i32);
            holds(0 <= used && used <= room, 8, 2, node)?;
            holds(self.image.long(node) >= node::ENTRIES + 16 * room as usize, 8, 2, node)?;
            for at in 0..used as usize {
                let leaf = self.image.leaf(node, at);
                let (first, last) = (leaf.first as i32, leaf.last as i32);
                holds(first > past && first <= last && last <= to, 8, 4, node)?;
                if self.is(leaf.place, image::BLOCK) {
                    let size = 12 + each * (last - first + 1) as usize;
                    holds(self.image.long(leaf.place) >= size, 8, 5, leaf.place)?;
                    self.own(leaf.place);
                } else {
                    holds(self.is(leaf.place, image::NODE), 8, 3, node)?;
                    self.level(node, leaf.place, each, depth + 1, (first - 1, last), met)?;
                }
                past = last;
            }
            (from, node) = (node, self.image.long(node + NEXT));
        }
        Ok(())
    }

    /// Phase 9: each record has one owner.
    fn owners(&self) -> Checked<()> {
        let mut place = 8;
        while place < self.image.bytes.len() {
            let is_unused = self.image.word(place + KIND) == image::UNUSED;
            let owners = self.marks[place] & (OWNED | SHARED);
            holds(if is_unused { owners & SHARED == 0 } else { owners == OWNED }, 9, 1, place)?;
            place += self.image.long(place);
        }
        Ok(())
    }

    fn all(&mut self) -> Checked<()> {
        self.records()?;
        let gdr = self.image.gdr();
        holds(self.is(gdr, image::GDR), 5, 1, 8)?;
        self.own(8);
        self.own(gdr);
        let attributes = self.chain(gdr, gdr::ATTRIBUTES, image::ADR, 5, 2)?;
        holds(self.image.word(gdr + gdr::ATTRIBUTE_COUNT) as usize == attributes.len(), 5, 3, gdr)?;
        self.numbered(&attributes, adr::NUM, 4)?;
        let variables = self.chain(gdr, gdr::Z_VARIABLES, image::Z_VARIABLE, 5, 8)?;
        holds(self.image.word(gdr + gdr::Z_VARIABLE_COUNT) as usize == variables.len(), 5, 9, gdr)?;
        self.numbered(&variables, vdr::NUM, 10)?;
        self.chain(gdr, gdr::UNUSED, image::UNUSED, 5, 11)?;
        self.names(&attributes, adr::NAME, 6, 1, 2)?;
        for attribute in attributes {
            self.attribute(attribute)?;
        }
        self.names(&variables, vdr::NAME, 7, 1, 2)?;
        for variable in &variables {
            self.variable(*variable)?;
        }
        for variable in variables {
            self.index(variable)?;
        }
        self.owners()
    }
}

/// Whether a file keeps the rules.
pub fn check(image: &Image) -> Checked<()> {
    let size = image.bytes.len();
    holds(size >= 404, 0, 1, 0)?;
    holds(image.word(0) == 0xcdf3_0001, 1, 1, 0)?;
    holds(image.word(4) == 0xffff, 1, 2, 4)?;
    let gdr = image.gdr();
    holds(gdr >= 8 && gdr <= size - 84, 3, 1, 8)?;
    holds(image.long(gdr + gdr::EOF) == size, 3, 4, gdr)?;
    Checker { image, marks: vec![0; size] }.all()
}
