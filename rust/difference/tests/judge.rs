//! Single accesses: the library against the reference.

use difference::causes::Met;
use difference::{compare, generate, seed, tally::Tally, times};
use numbers::Numbers;
use reference::{Memory, Stop};

/// Setups with leaves; each is judged for all six accesses and one other number.
const CASES: u64 = 1_000_000;

#[derive(Clone, Copy, Debug, PartialEq, Eq, PartialOrd, Ord)]
enum Class {
    Allowed(Byte, Sh),
    Fault(u8, &'static str),
    Refused(u8),
}

#[derive(Clone, Copy, Debug, PartialEq, Eq, PartialOrd, Ord)]
enum Byte {
    Device(u8),
    Normal(Nibble, Nibble),
}

#[derive(Clone, Copy, Debug, PartialEq, Eq, PartialOrd, Ord)]
enum Nibble {
    NonCacheable,
    WriteThroughTransient,
    WriteBackTransient,
    WriteThrough,
    WriteBack,
}

#[derive(Clone, Copy, Debug, PartialEq, Eq, PartialOrd, Ord)]
enum Sh {
    None,
    Outer,
    Inner,
}

const NIBBLES: [Nibble; 5] = [
    Nibble::NonCacheable,
    Nibble::WriteThroughTransient,
    Nibble::WriteBackTransient,
    Nibble::WriteThrough,
    Nibble::WriteBack,
];

/// Every class that the judge's answers have.
fn classes() -> Vec<Class> {
    let mut classes: Vec<Class> = (1..=9).chain([13]).map(Class::Refused).collect();
    for stage in [1, 2] {
        let kinds = ["Translation", "AccessFlag", "Permission"];
        classes.extend(kinds.map(|kind| Class::Fault(stage, kind)));
    }
    classes.push(Class::Fault(1, "Overlay"));
    let devices = [0x00, 0x04, 0x08, 0x0C].map(Byte::Device);
    classes.extend(devices.map(|device| Class::Allowed(device, Sh::Outer)));
    for (outer, inner) in NIBBLES.iter().flat_map(|a| NIBBLES.map(|b| (*a, b))) {
        let byte = Byte::Normal(outer, inner);
        classes.push(Class::Allowed(byte, Sh::Outer));
        if byte != Byte::Normal(Nibble::NonCacheable, Nibble::NonCacheable) {
            classes.push(Class::Allowed(byte, Sh::None));
            classes.push(Class::Allowed(byte, Sh::Inner));
        }
    }
    classes
}

fn class(answer: Result<Memory, Stop>) -> Class {
    match answer {
        Ok(memory) => Class::Allowed(byte(memory.byte), sh(memory.shareability)),
        Err(Stop::Fault(fault)) => Class::Fault(fault.stage, kind_name(fault.kind)),
        Err(Stop::Refused(number)) => Class::Refused(number),
    }
}

fn byte(byte: u8) -> Byte {
    match byte {
        0x00 | 0x04 | 0x08 | 0x0C => Byte::Device(byte),
        _ => Byte::Normal(nibble(byte >> 4), nibble(byte & 15)),
    }
}

fn nibble(nibble: u8) -> Nibble {
    match nibble {
        0 => panic!("no allowed Normal byte has a zero nibble"),
        4 => Nibble::NonCacheable,
        1..=3 => Nibble::WriteThroughTransient,
        5..=7 => Nibble::WriteBackTransient,
        8..=11 => Nibble::WriteThrough,
        _ => Nibble::WriteBack,
    }
}

fn sh(value: u8) -> Sh {
    match value {
        0 => Sh::None,
        2 => Sh::Outer,
        3 => Sh::Inner,
        _ => panic!("SH {value} is never answered"),
    }
}

fn kind_name(kind: reference::Kind) -> &'static str {
    match kind {
        reference::Kind::Translation => "Translation",
        reference::Kind::AccessFlag => "AccessFlag",
        reference::Kind::Permission => "Permission",
        reference::Kind::Overlay => "Overlay",
    }
}

/// The number of an answer's cause, 0 where the access is allowed; none in a refusal.
fn cause(answer: Result<Memory, Stop>) -> Option<u8> {
    match answer {
        Ok(_) => Some(0),
        Err(Stop::Fault(fault)) => Some(fault.cause as u8),
        Err(Stop::Refused(_)) => None,
    }
}

/// An access number that is mostly out of range.
fn other_access(numbers: &mut Numbers) -> u64 {
    match numbers.below(4) {
        0 => numbers.below(300) as u64,
        1 => numbers.below(6) as u64 | 1 << (3 + numbers.below(61)),
        2 => u64::MAX - numbers.below(6) as u64,
        _ => numbers.next(),
    }
}

/// Compares records of wrong lengths.
fn compare_lengths(numbers: &mut Numbers, setup: &[u8], leaf: &[u8], tally: &mut Tally<Class>) {
    let mut bytes = [0; 200];
    bytes[..setup.len()].copy_from_slice(setup);
    let setup_length = generate::wrong_length(numbers, setup.len());
    let leaf_length = generate::wrong_length(numbers, leaf.len());
    let access = other_access(numbers);
    tally.count(class(compare::judge(&bytes[..setup_length], leaf, access)));
    bytes[..leaf.len()].copy_from_slice(leaf);
    tally.count(class(compare::judge(setup, &bytes[..leaf_length], access)));
}

#[test]
fn judge() {
    let mut numbers = Numbers::new(seed(1));
    let mut tally = Tally::new("judge", classes());
    let mut met = Met::new("judge");
    let mut judgements = 0;
    for _ in 0..times(CASES) {
        let setup = generate::any_setup(&mut numbers);
        let leaf = generate::any_leaf(&mut numbers, &setup);
        for access in 0..6 {
            let answer = compare::judge(&setup, &leaf, access);
            tally.count(class(answer));
            if let Some(cause) = cause(answer) {
                met.count(generate::control_of(&setup), access as usize, cause);
            }
        }
        let other = other_access(&mut numbers);
        tally.count(class(compare::judge(&setup, &leaf, other)));
        judgements += 7;
        if numbers.percent(2) {
            compare_lengths(&mut numbers, &setup, &leaf, &mut tally);
            judgements += 2;
        }
    }
    met.finish();
    tally.finish(&format!("{judgements} judgements, no difference"));
}
