//! A plain editor for what the scripts of bench/run do: INT4 entries of attributes of the file, and z variables of INT4 without dimensions, whose
//! records are put one behind the other.

use crate::image::{self, adr, entry, gdr, node, vdr, Image, Leaf, LEAST, NEXT, NONE};
use std::io::{BufRead, BufWriter, Write};
use std::str::FromStr;

const INT4: u32 = 4;
const DEFAULT_PAD: i32 = -2_147_483_647;
const HAS_PAD: u32 = 2;
const USUAL_BLOCKING: u32 = 64;
const NEW_ROOM: u32 = 7;
const BUILT_ROOM: u32 = 64;

type Answer = Option<String>;

/// What a line of a script asks for that the editor does not do.
#[derive(Debug)]
pub struct NotDone;

fn number<T: FromStr>(word: &str) -> Result<T, NotDone> {
    word.parse().map_err(|_| NotDone)
}

fn node_bytes(room: u32) -> usize {
    node::ENTRIES + 16 * room as usize
}

impl Image {
    fn attribute(&self, name: &str) -> Result<usize, NotDone> {
        self.link_to(self.gdr() + gdr::ATTRIBUTES, adr::NAME, name.as_bytes()).map(|link| self.long(link)).ok_or(NotDone)
    }

    fn variable(&self, name: &str) -> Result<usize, NotDone> {
        self.link_to(self.gdr() + gdr::Z_VARIABLES, vdr::NAME, name.as_bytes()).map(|link| self.long(link)).ok_or(NotDone)
    }

    fn add(&mut self, place: usize, by: u32) {
        self.set_word(place, self.word(place).wrapping_add(by));
    }

    fn set_name(&mut self, place: usize, name: &str) {
        self.bytes[place..place + name.len()].copy_from_slice(name.as_bytes());
    }

    fn new_attribute(&mut self, name: &str, scope: &str) {
        let gdr = self.gdr();
        let record = self.take(adr::BYTES, image::ADR);
        self.set_word(record + adr::SCOPE, if scope == "global" { 1 } else { 2 });
        self.set_word(record + adr::NUM, self.word(gdr + gdr::ATTRIBUTE_COUNT));
        for place in [adr::GREATEST, adr::Z_GREATEST, adr::RFU_E] {
            self.set_word(record + place, NONE);
        }
        self.set_name(record + adr::NAME, name);
        let end = self.end_of(gdr + gdr::ATTRIBUTES);
        self.set_long(end, record);
        self.add(gdr + gdr::ATTRIBUTE_COUNT, 1);
    }

    fn delete_attribute(&mut self, name: &str) -> Result<(), NotDone> {
        let gdr = self.gdr();
        let link = self.link_to(gdr + gdr::ATTRIBUTES, adr::NAME, name.as_bytes()).ok_or(NotDone)?;
        let record = self.long(link);
        let mut later = self.long(record + NEXT);
        self.set_long(link, later);
        self.add(gdr + gdr::ATTRIBUTE_COUNT, NONE);
        while later != 0 {
            self.add(later + adr::NUM, NONE);
            for chain in [adr::ENTRIES, adr::Z_ENTRIES] {
                let mut at = self.long(later + chain);
                while at != 0 {
                    self.add(at + entry::ATTRIBUTE, NONE);
                    at = self.long(at + NEXT);
                }
            }
            later = self.long(later + NEXT);
        }
        for chain in [adr::ENTRIES, adr::Z_ENTRIES] {
            let mut at = self.long(record + chain);
            while at != 0 {
                let after = self.long(at + NEXT);
                self.give(at);
                at = after;
            }
        }
        self.give(record);
        Ok(())
    }

    fn put_entry(&mut self, name: &str, num: u32, value: i32) -> Result<(), NotDone> {
        let attribute = self.attribute(name)?;
        let (mut link, mut greatest) = (attribute + adr::ENTRIES, num);
        let mut found = None;
        while self.long(link) != 0 {
            let record = self.long(link);
            let its = self.word(record + entry::NUM);
            greatest = greatest.max(its);
            if its == num {
                found = Some(record);
            }
            link = record + NEXT;
        }
        let record = match found {
            Some(record) if self.long(record) < entry::VALUE + 4 => return Err(NotDone),
            Some(record) => record,
            None => {
                let record = self.take(entry::VALUE + 4, image::ENTRY);
                self.set_word(record + entry::ATTRIBUTE, self.word(attribute + adr::NUM));
                self.set_word(record + entry::NUM, num);
                self.set_word(record + entry::RFU_D, NONE);
                self.set_word(record + entry::RFU_E, NONE);
                self.set_long(link, record);
                self.add(attribute + adr::ENTRY_COUNT, 1);
                record
            }
        };
        self.set_word(record + entry::DATA_TYPE, INT4);
        self.set_word(record + entry::ELEMENTS, 1);
        self.set_word(record + entry::STRINGS, 0);
        self.set_value(record + entry::VALUE, value);
        self.set_word(attribute + adr::GREATEST, greatest);
        Ok(())
    }

    fn new_variable(&mut self, name: &str) {
        let gdr = self.gdr();
        let record = self.take(vdr::PAD, image::Z_VARIABLE);
        self.set_word(record + vdr::DATA_TYPE, INT4);
        for place in [vdr::GREATEST, vdr::RFU_C, vdr::RFU_F, vdr::PARAMETERS, vdr::PARAMETERS + 4] {
            self.set_word(record + place, NONE);
        }
        self.set_word(record + vdr::FLAGS, 1);
        self.set_word(record + vdr::ELEMENTS, 1);
        self.set_word(record + vdr::NUM, self.word(gdr + gdr::Z_VARIABLE_COUNT));
        self.set_name(record + vdr::NAME, name);
        let end = self.end_of(gdr + gdr::Z_VARIABLES);
        self.set_long(end, record);
        self.add(gdr + gdr::Z_VARIABLE_COUNT, 1);
    }

    /// A descriptor without room for the pad value is placed anew.
    fn set_pad(&mut self, name: &str, value: i32) -> Result<(), NotDone> {
        let link = self.link_to(self.gdr() + gdr::Z_VARIABLES, vdr::NAME, name.as_bytes()).ok_or(NotDone)?;
        let old = self.long(link);
        let mut record = old;
        if self.long(old) < vdr::PAD + 4 {
            record = self.take(vdr::PAD + 4, image::Z_VARIABLE);
            self.bytes.copy_within(old + NEXT..old + vdr::PAD, record + NEXT);
            self.set_long(link, record);
        }
        self.set_word(record + vdr::FLAGS, self.word(record + vdr::FLAGS) | HAS_PAD);
        self.set_value(record + vdr::PAD, value);
        if record != old {
            self.give(old);
        }
        Ok(())
    }

    fn pad_of(&self, variable: usize) -> i32 {
        if self.word(variable + vdr::FLAGS) & HAS_PAD != 0 {
            self.value(variable + vdr::PAD)
        } else {
            DEFAULT_PAD
        }
    }

    /// The block that has a record: in the last node, if the record does not stand before it, or else from the first node on.
    fn block_of(&self, variable: usize, record: u32) -> Option<Leaf> {
        let tail = self.long(variable + vdr::TAIL);
        let in_tail = tail != 0 && self.used(tail) > 0 && self.leaf(tail, 0).first <= record;
        let mut node = if in_tail { tail } else { self.long(variable + vdr::INDEX) };
        while node != 0 {
            for at in 0..self.used(node) {
                let leaf = self.leaf(node, at);
                if leaf.first <= record && record <= leaf.last {
                    return Some(leaf);
                }
            }
            node = self.long(node + NEXT);
        }
        None
    }

    /// A block of pads behind all others.
    fn add_block(&mut self, variable: usize, first: u32) -> Leaf {
        let count = match self.word(variable + vdr::BLOCKING) {
            0 => USUAL_BLOCKING,
            count => count.min(262_144),
        };
        let pad = self.pad_of(variable);
        let place = self.take(12 + 4 * count as usize, image::BLOCK);
        for at in 0..count as usize {
            self.set_value(place + 12 + 4 * at, pad);
        }
        let leaf = Leaf { first, last: first + count - 1, place };
        let tail = self.long(variable + vdr::TAIL);
        if tail != 0 && self.used(tail) < self.word(tail + node::ROOM) as usize {
            self.set_leaf(tail, self.used(tail), leaf);
            self.add(tail + node::USED, 1);
            return leaf;
        }
        let node = self.new_node(NEW_ROOM, &[leaf]);
        self.set_long(if tail == 0 { variable + vdr::INDEX } else { tail + NEXT }, node);
        self.set_long(variable + vdr::TAIL, node);
        leaf
    }

    fn new_node(&mut self, room: u32, leaves: &[Leaf]) -> usize {
        let node = self.take(node_bytes(room), image::NODE);
        self.set_word(node + node::ROOM, room);
        self.set_word(node + node::USED, leaves.len() as u32);
        self.bytes[node + node::ENTRIES..node + node_bytes(room)].fill(0xff);
        for (at, leaf) in leaves.iter().enumerate() {
            self.set_leaf(node, at, *leaf);
        }
        node
    }

    /// Puts a record, and pads between the greatest one and it.
    fn put_record(&mut self, variable: usize, record: u32, value: i32) {
        let greatest = self.word(variable + vdr::GREATEST) as i32;
        let after = (greatest + 1) as u32;
        let pad = self.pad_of(variable);
        let mut at = record.min(after);
        while at <= record {
            let block = self.block_of(variable, at).unwrap_or_else(|| self.add_block(variable, at));
            let end = block.last.min(record);
            for its in at..=end {
                let place = block.place + 12 + 4 * (its - block.first) as usize;
                self.set_value(place, if its == record { value } else { pad });
            }
            at = end + 1;
        }
        if record >= after {
            self.set_word(variable + vdr::GREATEST, record);
        }
    }

    fn get_record(&self, variable: usize, record: u32) -> Result<i32, NotDone> {
        let block = self.block_of(variable, record).ok_or(NotDone)?;
        Ok(self.value(block.place + 12 + 4 * (record - block.first) as usize))
    }

    /// Adds the nodes below a link to a list, a node before those below it, and these before the next one, and their blocks to another.
    fn collect(&self, link: usize, nodes: &mut Vec<usize>, leaves: &mut Vec<Leaf>) {
        let mut node = self.long(link);
        while node != 0 {
            nodes.push(node);
            for at in 0..self.used(node) {
                let leaf = self.leaf(node, at);
                if self.word(leaf.place + image::KIND) == image::NODE {
                    let room = self.word(node + node::ROOM) as usize;
                    self.collect(node + node::ENTRIES + 8 * (room + at), nodes, leaves);
                } else {
                    leaves.push(leaf);
                }
            }
            node = self.long(node + NEXT);
        }
    }

    fn reindex(&mut self, variable: usize) {
        let (mut nodes, mut level) = (Vec::new(), Vec::new());
        self.collect(variable + vdr::INDEX, &mut nodes, &mut level);
        let mut top = 0;
        while !level.is_empty() && (top == 0 || level.len() > 1) {
            let mut above = Vec::new();
            for part in level.chunks(BUILT_ROOM as usize) {
                top = self.new_node(BUILT_ROOM, part);
                above.push(Leaf { first: part[0].first, last: part[part.len() - 1].last, place: top });
            }
            level = above;
        }
        self.set_long(variable + vdr::INDEX, top);
        self.set_long(variable + vdr::TAIL, top);
        for node in nodes {
            self.give(node);
        }
    }

    fn carry_out(&mut self, words: &[&str]) -> Result<Answer, NotDone> {
        match words {
            ["attr", name, scope] => self.new_attribute(name, scope),
            ["del-attr", name] => self.delete_attribute(name)?,
            ["put-entry", name, "g", num, "INT4", value] => self.put_entry(name, number(num)?, number(value)?)?,
            ["zvar", name, "INT4", "1", "vary", "-", "-"] => self.new_variable(name),
            ["set-blocking", name, count] => {
                let variable = self.variable(name)?;
                self.set_word(variable + vdr::BLOCKING, number(count)?);
            }
            ["set-pad", name, value] => self.set_pad(name, number(value)?)?,
            ["put-rec", name, record, value] => self.put_record(self.variable(name)?, number(record)?, number(value)?),
            ["get-rec", name, record] => {
                let value = self.get_record(self.variable(name)?, number(record)?)?;
                return Ok(Some(value.to_string()));
            }
            ["reindex", name] => self.reindex(self.variable(name)?),
            _ => return Err(NotDone),
        }
        Ok(None)
    }
}

/// Carries out the script on standard input, and writes the replies.
pub fn edit(image: &mut Image) -> std::io::Result<()> {
    assert!(image.bytes.len() >= LEAST);
    let mut out = BufWriter::with_capacity(65_536, std::io::stdout().lock());
    for (at, line) in std::io::stdin().lock().lines().enumerate() {
        let line = line?;
        let words: Vec<&str> = line.split_ascii_whitespace().collect();
        if words.is_empty() {
            continue;
        }
        match image.carry_out(&words) {
            Ok(None) => writeln!(out, "{} ok", at + 1)?,
            Ok(Some(text)) => writeln!(out, "{} ok {text}", at + 1)?,
            Err(NotDone) => writeln!(out, "{} is not done by the plain program", at + 1)?,
        }
    }
    out.flush()
}
