//! The program's listing ('File, program, host'), by the reference judge.

use crate::MapFile;
use reference::{list, plan, Refusal, CAUSE_BYTES, MOST_LEAVES};
use std::fmt::Write;

/// What the program prints for a file: the leaf count, each leaf and each level's register; or
/// one line for a refusal of the file or the list.
pub fn listing(bytes: &[u8]) -> String {
    let Ok(file) = MapFile::read(bytes) else {
        return "refused 13\n".into();
    };
    let (mut out, mut causes) = ([0; MOST_LEAVES], [0; CAUSE_BYTES * MOST_LEAVES]);
    let leaves = file.leaves.as_flattened();
    let rights = match list(&file.setup, leaves, &mut out, &mut causes) {
        Ok(count) => &out[..count],
        Err(refusal) => return refused(refusal) + "\n",
    };
    let mut text = format!("leaves {}\n", file.leaves.len());
    for (index, (leaf, rights)) in file.leaves.iter().zip(rights).enumerate() {
        let forbidden = leaf[17];
        let common = rights & forbidden;
        writeln!(text, "{index} {rights} {forbidden} {common}").expect("a string takes any text");
    }
    for (level, name) in ["privileged", "unprivileged"].into_iter().enumerate() {
        text += &match plan(&file.setup, level as u64, leaves) {
            Ok(register) => format!("{name} {register:016x}\n"),
            Err(refusal) => format!("{name} {}\n", refused(refusal)),
        };
    }
    text
}

/// A refusal's words; 5 to 10 show the leaf.
fn refused(refusal: Refusal) -> String {
    match refusal.number {
        5..=10 => format!("refused {} leaf {}", refusal.number, refusal.leaf),
        number => format!("refused {number}"),
    }
}
