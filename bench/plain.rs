//! The cases of cdf_bench but `digest`, a dump of records, a check and an editor, as plain loops, to which bench/run compares the programs: the
//! same data, the same lines, the same files.
//!
//! Build it by hand, from the top of the repository: rustc -O -o bench/made/plain bench/plain.rs

#[path = "plain/check.rs"]
mod check;
#[path = "plain/copy.rs"]
mod copy;
#[path = "plain/edit.rs"]
mod edit;
#[path = "plain/image.rs"]
mod image;

use image::Image;
use std::collections::HashMap;
use std::io::{BufWriter, Write};
use std::process::ExitCode;
use std::time::Instant;

/// How many words of 8 bytes are of one kind.
const STRETCH: usize = 32;

/// How often a name is looked up.
const LOOKUPS: usize = 1_000_000;

/// The most zeros of a pair.
const LONGEST: usize = 256;

const NEW_FILE: &[u8] = include_bytes!("../crates/cdfedit/data/new.cdf");

struct Random {
    state: u64,
}

impl Random {
    fn next(&mut self) -> u64 {
        self.state = self.state.wrapping_add(0x9e37_79b9_7f4a_7c15);
        let mixed = (self.state ^ (self.state >> 30)).wrapping_mul(0xbf58_476d_1ce4_e5b9);
        let mixed = (mixed ^ (mixed >> 27)).wrapping_mul(0x94d0_49bb_1331_11eb);
        mixed ^ (mixed >> 31)
    }
}

/// Zeros and data in turn, in whole words of 8 bytes.
fn mixed(size: usize) -> Vec<u8> {
    let mut random = Random { state: 1 };
    let mut kind = 0;
    let mut bytes = Vec::with_capacity(size);
    for index in 0..size / 8 {
        if index % STRETCH == 0 {
            kind = random.next() % 4;
        }
        let number = random.next();
        let word = match kind {
            0 => 0,
            1 => number,
            _ => number * (number % 2),
        };
        bytes.extend_from_slice(&word.to_le_bytes());
    }
    bytes
}

fn sum_of(bytes: &[u8]) -> u64 {
    bytes.iter().fold(0, |sum: u64, byte| sum.wrapping_mul(31).wrapping_add(u64::from(*byte)))
}

fn say_lap(part: &str, start: Instant) {
    eprintln!("{part} {}", start.elapsed().as_micros());
}

fn encode(bytes: &[u8]) -> Vec<u8> {
    let mut packed = Vec::new();
    let mut place = 0;
    while place < bytes.len() {
        if bytes[place] == 0 {
            let mut zeros = 1;
            while zeros < LONGEST && place + zeros < bytes.len() && bytes[place + zeros] == 0 {
                zeros += 1;
            }
            packed.push(0);
            packed.push((zeros - 1) as u8);
            place += zeros;
        } else {
            packed.push(bytes[place]);
            place += 1;
        }
    }
    packed
}

fn decode_into(packed: &[u8], out: &mut [u8]) {
    let mut place = 0;
    let mut filled = 0;
    while place < packed.len() {
        if packed[place] == 0 {
            let zeros = packed[place + 1] as usize + 1;
            out[filled..filled + zeros].fill(0);
            filled += zeros;
            place += 2;
        } else {
            out[filled] = packed[place];
            filled += 1;
            place += 1;
        }
    }
}

fn rle(size: usize) {
    let plain = mixed(size);
    let start = Instant::now();
    let packed = encode(&plain);
    say_lap("encode", start);
    let mut out = vec![1; plain.len()];
    let start = Instant::now();
    decode_into(&packed, &mut out);
    say_lap("decode", start);
    println!("{} {:016x} {} {:016x}", packed.len(), sum_of(&packed), out.len(), sum_of(&out));
}

fn names(count: usize, asked: usize) {
    let names: Vec<Vec<u8>> = (0..count).map(|index| format!("variable {index}").into_bytes()).collect();
    let start = Instant::now();
    let mut table = HashMap::new();
    for name in &names {
        let number = table.len();
        table.entry(name.clone()).or_insert(number);
    }
    say_lap("add", start);
    let start = Instant::now();
    let mut random = Random { state: 2 };
    let mut sum = 0;
    for _ in 0..LOOKUPS {
        let name = &names[random.next() as usize % asked * (count / asked)];
        sum += table.get(name).copied().unwrap_or(0);
    }
    say_lap("find", start);
    println!("{} {sum}", table.len());
}

fn undo(count: usize, size: usize) {
    let mut bytes = mixed(size);
    let (mut places, mut saved) = (Vec::new(), Vec::new());
    let start = Instant::now();
    let mut random = Random { state: 3 };
    for _ in 0..if bytes.len() < 8 { 0 } else { count } {
        let number = random.next();
        let place = (number % (bytes.len() as u64 - 7)) as usize;
        let range = place..place + 8;
        places.push(place);
        saved.extend_from_slice(&bytes[range.clone()]);
        bytes[range].copy_from_slice(&number.to_le_bytes());
    }
    say_lap("write", start);
    let head = bytes[..bytes.len().min(4096)].to_vec();
    let start = Instant::now();
    while let Some(place) = places.pop() {
        let from = saved.len() - 8;
        bytes[place..place + 8].copy_from_slice(&saved[from..]);
        saved.truncate(from);
    }
    say_lap("undo", start);
    println!("{:016x} {:016x}", sum_of(&head), sum_of(&bytes));
}

/// The sum of words at places that look random.
fn sum_of_words(bytes: &[u8], count: usize) -> u64 {
    let mut random = Random { state: 4 };
    let mut sum = 0u64;
    for _ in 0..count {
        let place = (random.next() % (bytes.len() as u64 - 7)) as usize;
        let mut word = [0; 8];
        word.copy_from_slice(&bytes[place..place + 8]);
        sum = sum.wrapping_add(u64::from_le_bytes(word));
    }
    sum
}

fn pages(count: usize, size: usize) {
    let bytes = mixed(size);
    let start = Instant::now();
    let first = sum_of_words(&bytes, count);
    say_lap("first", start);
    let start = Instant::now();
    let again = sum_of_words(&bytes, count);
    say_lap("again", start);
    println!("{first:016x} {again:016x}");
}

/// A field of so many bytes, the highest first.
fn field(file: &[u8], place: usize, width: usize) -> usize {
    file[place..place + width].iter().fold(0, |number, byte| number << 8 | usize::from(*byte))
}

/// Writes the records that a block has up to the greatest one.
fn dump_block(out: &mut impl Write, file: &[u8], place: usize, records: std::ops::Range<usize>, values: usize) -> std::io::Result<()> {
    let size = 4 * values;
    let mut line = Vec::new();
    for (number, bytes) in records.zip(file[place + 12..].chunks(size)) {
        line.clear();
        write!(line, "record {number}")?;
        for value in bytes.chunks(4) {
            write!(line, " {}", i32::from_le_bytes([value[0], value[1], value[2], value[3]]))?;
        }
        line.push(b'\n');
        out.write_all(&line)?;
    }
    Ok(())
}

/// Writes what `dump` writes of a file that has one z variable of INT4 below one chain of nodes, of one dimension at most.
fn dump(name: &str) -> std::io::Result<()> {
    let file = std::fs::read(name)?;
    let mut out = BufWriter::with_capacity(65_536, std::io::stdout().lock());
    let vdr = field(&file, 340, 8);
    let (most, dimensions) = (field(&file, vdr + 24, 4), field(&file, vdr + 340, 4));
    let values = if dimensions == 0 { 1 } else { field(&file, vdr + 344, 4) };
    let sizes = if dimensions == 0 { "- -".to_string() } else { format!("{values} T") };
    let blocking = field(&file, vdr + 80, 4);
    writeln!(out, "1 ok\nversion 3.9.0 encoding 6 majority row checksum none rdims - attributes 0 rvars 0 zvars 1")?;
    writeln!(out, "zvar 0 \"0\" INT4 1 vary {sizes} sparse none compress none blocking {blocking} maxrec {most} pad -")?;
    let mut node = field(&file, vdr + 28, 8);
    while node != 0 {
        let (room, used) = (field(&file, node + 20, 4), field(&file, node + 24, 4));
        for entry in 0..used {
            let first = field(&file, node + 28 + 4 * entry, 4);
            let last = field(&file, node + 28 + 4 * (room + entry), 4);
            let block = field(&file, node + 28 + 8 * (room + entry), 8);
            dump_block(&mut out, &file, block, first..last.min(most) + 1, values)?;
        }
        node = field(&file, node + 12, 8);
    }
    writeln!(out, "end attributes 0 variables 1 records {}\n1 end", most + 1)?;
    out.flush()
}

/// The status of a file that breaks a rule.
const REJECTED: u8 = 4;

/// Whether the file is well formed; says so, or which rule it breaks.
fn is_well_formed(image: &Image, says_yes: bool) -> bool {
    let verdict = check::check(image);
    match &verdict {
        Ok(()) if says_yes => println!("yes"),
        Ok(()) => (),
        Err(broken) => println!("{broken}"),
    }
    verdict.is_ok()
}

/// Checks a file, carries out the script on standard input, and saves the file; one that is new need not be there.
fn edit_file(name: &str, is_new: bool) -> std::io::Result<ExitCode> {
    let bytes = if is_new { NEW_FILE.to_vec() } else { std::fs::read(name)? };
    let mut image = Image { bytes };
    if !is_new && !is_well_formed(&image, false) {
        return Ok(ExitCode::from(REJECTED));
    }
    edit::edit(&mut image)?;
    std::fs::write(name, &image.bytes)?;
    Ok(ExitCode::SUCCESS)
}

fn check_file(name: &str) -> std::io::Result<ExitCode> {
    let image = Image { bytes: std::fs::read(name)? };
    Ok(if is_well_formed(&image, true) { ExitCode::SUCCESS } else { ExitCode::from(REJECTED) })
}

/// Makes the compact image of a file, says how long that took, and writes it where a path is given.
fn copy_file(name: &str, out: Option<&String>) -> std::io::Result<()> {
    let source = Image { bytes: std::fs::read(name)? };
    let start = Instant::now();
    let made = copy::copy(&source);
    say_lap("copy", start);
    println!("{} {:016x}", made.bytes.len(), sum_of(&made.bytes));
    match out {
        Some(out) => std::fs::write(out, &made.bytes),
        None => Ok(()),
    }
}

/// A command on a file.
fn on_file(command: &str, name: &str) -> Option<std::io::Result<ExitCode>> {
    match command {
        "dump" => Some(dump(name).map(|()| ExitCode::SUCCESS)),
        "check" => Some(check_file(name)),
        "copy" => Some(copy_file(name, None).map(|()| ExitCode::SUCCESS)),
        "edit" => Some(edit_file(name, false)),
        "edit-new" => Some(edit_file(name, true)),
        _ => None,
    }
}

fn main() -> ExitCode {
    let words: Vec<String> = std::env::args().skip(1).collect();
    let number = |place: usize| words.get(place).and_then(|word| word.parse().ok());
    if let [command, name] = words.as_slice() {
        if let Some(status) = on_file(command, name) {
            return status.unwrap_or(ExitCode::FAILURE);
        }
    }
    if let [command, name, out] = words.as_slice() {
        if command == "copy" {
            return copy_file(name, Some(out)).map_or(ExitCode::FAILURE, |()| ExitCode::SUCCESS);
        }
    }
    match (words.first().map(String::as_str), number(1), number(2)) {
        (Some("rle"), Some(size), _) => rle(size),
        (Some("names"), Some(count), Some(asked)) if asked > 0 => names(count, asked),
        (Some("pages"), Some(count), Some(size)) if size >= 8 => pages(count, size),
        (Some("undo"), Some(count), Some(size)) => undo(count, size),
        _ => return ExitCode::FAILURE,
    }
    ExitCode::SUCCESS
}
