//! The planner by brute force, from document 01's definition of 'separates' and single accesses.

use crate::generate::{set_register, Leaf, Setup};
use reference::{judge, register, Refusal, Stop};

/// The level's POR in every slot 7.
const MOST: u64 = 0x7777_7777;

/// Which of the eight slot values do something, a bit for each.
type Values = u8;

/// The plan of a level, past the checks 13, 1, 2, 3, 4, 12 and 11. Slots are tried one by one,
/// since a leaf reads one slot.
pub fn plan(setup: &Setup, level: u64, leaves: &[Leaf]) -> Result<u64, Refusal> {
    for (index, leaf) in leaves.iter().enumerate() {
        refuse(setup, level, leaf, index)?;
    }
    let mut slots: [Values; 8] = [0xFF; 8];
    for (index, leaf) in leaves.iter().enumerate() {
        let curing = curing_values(setup, level, leaf);
        if curing == 0 {
            return Err(of_leaf(10, index));
        }
        slots[slot_of(leaf)] &= curing;
    }
    let mut register = 0;
    for (slot, values) in slots.into_iter().enumerate() {
        assert!(values != 0, "leaves cured one by one have a common value");
        register |= union(values) << (4 * slot);
    }
    Ok(register)
}

/// Every register over the slots in use, others at `rest`: the union of those that separate, or
/// none where none does.
pub fn union_of_separating(setup: &Setup, level: u64, leaves: &[Leaf], rest: u64) -> Option<u64> {
    let mut used: Vec<usize> = leaves.iter().map(slot_of).collect();
    used.sort_unstable();
    used.dedup();
    let mut found = None;
    for choice in 0..1_u64 << (3 * used.len()) {
        let register = put_slots(rest, &used, choice);
        if leaves
            .iter()
            .all(|leaf| stops(setup, level, leaf, register))
        {
            found = Some(found.unwrap_or(0) | register);
        }
    }
    found
}

/// How many slots the leaves use.
pub fn slots_in_use(leaves: &[Leaf]) -> u32 {
    let used = leaves
        .iter()
        .fold(0_u8, |used, leaf| used | 1 << slot_of(leaf));
    used.count_ones()
}

/// The register with the slots that no leaf uses at 0.
pub fn only_slots(register: u64, leaves: &[Leaf]) -> u64 {
    let add = |mask, leaf| mask | 15 << (4 * slot_of(leaf));
    register & leaves.iter().fold(0, add)
}

/// Puts three bits of `choice` into each slot of `used`.
fn put_slots(rest: u64, used: &[usize], choice: u64) -> u64 {
    used.iter()
        .enumerate()
        .fold(rest, |register, (place, slot)| {
            let value = choice >> (3 * place) & 7;
            register & !(15 << (4 * slot)) | value << (4 * slot)
        })
}

/// 5, 6 or 7 of a leaf's accesses of the level with 77777777 in place; the lowest access first.
fn refuse(setup: &Setup, level: u64, leaf: &Leaf, index: usize) -> Result<(), Refusal> {
    for access in accesses(level) {
        if let Err(Stop::Refused(number @ 5..=7)) = with_register(setup, level, leaf, MOST, access)
        {
            return Err(of_leaf(number, index));
        }
    }
    Ok(())
}

/// The slot values that stop every forbidden access of the level to this leaf.
fn curing_values(setup: &Setup, level: u64, leaf: &Leaf) -> Values {
    let slot = slot_of(leaf);
    (0..8)
        .filter(|value| stops(setup, level, leaf, value << (4 * slot)))
        .fold(0, |values, value| values | 1 << value)
}

/// Whether the leaf's rights, with the register in place, include no forbidden access of the level.
fn stops(setup: &Setup, level: u64, leaf: &Leaf, register: u64) -> bool {
    accesses(level)
        .filter(|access| leaf[17] >> access & 1 == 1)
        .all(|access| {
            let answer = with_register(setup, level, leaf, register, access);
            // 8 and 9 come at the attribute steps, so the rights bit is on there.
            !matches!(answer, Ok(_) | Err(Stop::Refused(8 | 9)))
        })
}

fn with_register(
    setup: &Setup,
    level: u64,
    leaf: &Leaf,
    value: u64,
    access: u64,
) -> Result<reference::Memory, Stop> {
    let mut setup = *setup;
    set_register(&mut setup, register::POR_PRIVILEGED + level as usize, value);
    judge(&setup, leaf, access)
}

fn accesses(level: u64) -> std::ops::Range<u64> {
    3 * level..3 * level + 3
}

/// POIndex: bits 62 to 60 of the stage 1 descriptor.
fn slot_of(leaf: &Leaf) -> usize {
    usize::from(leaf[7] >> 4 & 7)
}

fn union(values: Values) -> u64 {
    (0..8)
        .filter(|value| values >> value & 1 == 1)
        .fold(0, |bits, value| bits | value)
}

fn of_leaf(number: u8, index: usize) -> Refusal {
    Refusal {
        number,
        leaf: index as u16,
    }
}
