//! The text form of a map file. Its grammar is in the crate's documentation.

use crate::file::{push_leaf, push_setup, MapFile};
use reference::{control, LEAF_BYTES, MOST_LEAVES, SETUP_BYTES};
use std::fmt;

/// Names of the control bits, from bit 0.
const CONTROL_NAMES: [&str; 13] = [
    "two-levels",
    "stage1",
    "stage2",
    "indirect",
    "privileged-overlay",
    "unprivileged-overlay",
    "wxn",
    "pan",
    "limits-disabled",
    "fwb",
    "dc",
    "instruction-cacheable",
    "aie",
];

/// Names of the registers, in the setup's order.
const REGISTER_NAMES: [&str; 6] = [
    "mair",
    "mair2",
    "pir-privileged",
    "pir-unprivileged",
    "por-privileged",
    "por-unprivileged",
];

/// A leaf's fields: name, place and length in bytes.
const LEAF_FIELDS: [(&str, usize, usize); 4] = [
    ("stage1", 0, 8),
    ("stage2", 8, 8),
    ("limits", 16, 1),
    ("forbidden", 17, 1),
];

/// What is wrong in a text, and in which line.
#[derive(Clone, Debug, PartialEq, Eq)]
pub struct TextError {
    /// The line, counted from 1.
    pub line: usize,
    /// What is wrong with it.
    pub what: String,
}

impl fmt::Display for TextError {
    fn fmt(&self, f: &mut fmt::Formatter<'_>) -> fmt::Result {
        write!(f, "line {}: {}", self.line, self.what)
    }
}

impl std::error::Error for TextError {}

/// Makes a file of its text.
pub fn assemble(text: &str) -> Result<Vec<u8>, TextError> {
    let mut assembly = Assembly::default();
    let mut line = 1;
    for (index, content) in text.lines().enumerate() {
        line = index + 1;
        let plain = content.split('#').next().unwrap_or_default();
        let words: Vec<&str> = plain.split_whitespace().collect();
        assembly
            .take_line(&words)
            .map_err(|what| TextError { line, what })?;
    }
    assembly.finish().map_err(|what| TextError { line, what })
}

/// What the lines so far have given.
#[derive(Default)]
struct Assembly {
    setup: Option<Setup>,
    /// Everything after the setup field.
    rest: Vec<u8>,
    leaves: usize,
}

#[derive(Default)]
struct Setup {
    control: Option<u32>,
    registers: [Option<u64>; 6],
}

impl Assembly {
    fn take_line(&mut self, words: &[&str]) -> Result<(), String> {
        let Some((&first, others)) = words.split_first() else {
            return Ok(());
        };
        if first == "setup" {
            return self.open_setup(others);
        }
        let Some(setup) = &mut self.setup else {
            return Err(format!("'{first}' before the setup"));
        };
        let part_of_setup = first == "control" || REGISTER_NAMES.contains(&first);
        if part_of_setup && !self.rest.is_empty() {
            return Err(format!("'{first}' after the setup's end"));
        }
        match first {
            "leaf" => self.add_leaf(others),
            "bytes" => self.add_bytes(others),
            "control" => once(&mut setup.control, "control", parse_control(others)?),
            _ => add_register(setup, first, others),
        }
    }

    fn open_setup(&mut self, others: &[&str]) -> Result<(), String> {
        if !others.is_empty() {
            return Err("words after 'setup'".into());
        }
        once(&mut self.setup, "setup", Setup::default())
    }

    fn add_leaf(&mut self, fields: &[&str]) -> Result<(), String> {
        if self.leaves == MOST_LEAVES {
            return Err(format!("more than {MOST_LEAVES} leaves"));
        }
        self.leaves += 1;
        push_leaf(&mut self.rest, &parse_leaf(fields)?);
        Ok(())
    }

    fn add_bytes(&mut self, words: &[&str]) -> Result<(), String> {
        if words.is_empty() {
            return Err("no byte after 'bytes'".into());
        }
        for word in words {
            self.rest.push(parse_hex(word, 1)? as u8);
        }
        Ok(())
    }

    fn finish(self) -> Result<Vec<u8>, String> {
        let setup = self.setup.ok_or("no setup")?;
        let mut bytes = Vec::new();
        push_setup(&mut bytes, &setup.bytes());
        bytes.extend(self.rest);
        Ok(bytes)
    }
}

impl Setup {
    fn bytes(&self) -> [u8; SETUP_BYTES] {
        let mut bytes = [0; SETUP_BYTES];
        bytes[..4].copy_from_slice(&self.control.unwrap_or(0).to_le_bytes());
        for (place, register) in self.registers.iter().enumerate() {
            let value = register.unwrap_or(0).to_le_bytes();
            bytes[4 + 8 * place..12 + 8 * place].copy_from_slice(&value);
        }
        bytes
    }
}

/// Fills a place that is filled once.
fn once<T>(place: &mut Option<T>, name: &str, value: T) -> Result<(), String> {
    if place.replace(value).is_some() {
        return Err(format!("'{name}' a second time"));
    }
    Ok(())
}

fn add_register(setup: &mut Setup, name: &str, others: &[&str]) -> Result<(), String> {
    let Some(place) = REGISTER_NAMES.iter().position(|known| *known == name) else {
        return Err(format!("unknown word '{name}'"));
    };
    let [value] = others else {
        return Err(format!("'{name}' takes one hex number"));
    };
    once(&mut setup.registers[place], name, parse_hex(value, 8)?)
}

fn parse_control(words: &[&str]) -> Result<u32, String> {
    if words.is_empty() {
        return Err("'control' takes names of bits or hex numbers with 0x".into());
    }
    let mut control = 0;
    for &word in words {
        let bits = match CONTROL_NAMES.iter().position(|name| *name == word) {
            Some(place) => 1 << place,
            None if word.starts_with("0x") => parse_hex(word, 4)? as u32,
            None => return Err(format!("unknown control bit '{word}'")),
        };
        if control & bits != 0 {
            return Err(format!("control bit of '{word}' a second time"));
        }
        control |= bits;
    }
    Ok(control)
}

fn parse_leaf(fields: &[&str]) -> Result<[u8; LEAF_BYTES], String> {
    let mut leaf = [0; LEAF_BYTES];
    let mut given = [None; LEAF_FIELDS.len()];
    for field in fields {
        let Some((name, value)) = field.split_once('=') else {
            return Err(format!("'{field}' is not FIELD=HEX"));
        };
        let Some(index) = LEAF_FIELDS.iter().position(|known| known.0 == name) else {
            return Err(format!("unknown field '{name}'"));
        };
        let (_, place, length) = LEAF_FIELDS[index];
        let value = parse_hex(value, length)?;
        once(&mut given[index], name, value)?;
        leaf[place..place + length].copy_from_slice(&value.to_le_bytes()[..length]);
    }
    Ok(leaf)
}

/// A hex number of at most `length` bytes, with or without `0x`.
fn parse_hex(word: &str, length: usize) -> Result<u64, String> {
    let digits = word.strip_prefix("0x").unwrap_or(word);
    if digits.is_empty() || !digits.bytes().all(|digit| digit.is_ascii_hexdigit()) {
        return Err(format!("'{word}' is not a hex number"));
    }
    let digits = digits.trim_start_matches('0');
    if digits.len() > 2 * length {
        return Err(format!("'{word}' has more than {} bits", 8 * length));
    }
    Ok(digits.bytes().fold(0, |number, digit| {
        let value = char::from(digit).to_digit(16).unwrap_or_default();
        number << 4 | u64::from(value)
    }))
}

/// The text of a file.
pub fn show(file: &MapFile) -> String {
    let mut text = String::from("setup\n");
    text += &format!("  control{}\n", show_control(&file.setup));
    for (place, name) in REGISTER_NAMES.iter().enumerate() {
        let value = number(&file.setup[4 + 8 * place..12 + 8 * place]);
        text += &format!("  {name} {value:016x}\n");
    }
    for leaf in &file.leaves {
        text += &format!("leaf {}\n", record(leaf));
    }
    text
}

/// The fields of a leaf, as a `leaf` line has them.
pub(crate) fn record(leaf: &[u8; LEAF_BYTES]) -> String {
    let field = |(name, place, length): (&str, usize, usize)| {
        let value = number(&leaf[place..place + length]);
        format!("{name}={value:0width$x}", width = 2 * length)
    };
    LEAF_FIELDS.map(field).join(" ")
}

/// The names of the control bits set, then the bits without a name as one number.
pub(crate) fn show_control(setup: &[u8; SETUP_BYTES]) -> String {
    let word = number(&setup[..4]) as u32;
    let mut text = String::new();
    for (place, name) in CONTROL_NAMES.iter().enumerate() {
        if word >> place & 1 == 1 {
            text += &format!(" {name}");
        }
    }
    let others = word & !control::KNOWN;
    if others != 0 || word == 0 {
        text += &format!(" {others:#x}");
    }
    text
}

/// A little-endian number of up to eight bytes.
fn number(bytes: &[u8]) -> u64 {
    let add = |number: u64, &byte: &u8| number << 8 | u64::from(byte);
    bytes.iter().rev().fold(0, add)
}
