//! Map files: read, assembled from text, taken apart into text, listed, and explained.
//!
//! A map file is a setup field (tag 1, 52 bytes) and then up to 2,048 leaf fields (tag 2,
//! 18 bytes); each field has a one-byte tag, a two-byte little-endian length and its value.
//!
//! # The text
//!
//! ```text
//! # A comment goes from a number sign to the end of the line.
//! setup
//!   control two-levels stage1 indirect unprivileged-overlay
//!   pir-privileged 11
//!   pir-unprivileged 58
//!   por-unprivileged 7
//! leaf stage1=747 forbidden=10
//! leaf stage1=707 stage2=0 limits=0 forbidden=10
//! ```
//!
//! | Line | Meaning |
//! |---|---|
//! | `setup` | opens the setup; the first line, and there is one |
//! | `control WORD ..` | control bits: names, and hex numbers with `0x` for bits without one |
//! | `REGISTER HEX` | a register of the setup |
//! | `leaf FIELD=HEX ..` | a leaf: `stage1`, `stage2`, `limits`, `forbidden` |
//! | `bytes HEX ..` | these bytes, as they stand; for damaged files |
//!
//! Names of registers: `mair`, `mair2`, `pir-privileged`, `pir-unprivileged`, `por-privileged`,
//! `por-unprivileged`. Names of control bits, from bit 0: `two-levels`, `stage1`, `stage2`, `indirect`,
//! `privileged-overlay`, `unprivileged-overlay`, `wxn`, `pan`, `limits-disabled`, `fwb`, `dc`,
//! `instruction-cacheable`, `aie`.
//!
//! All numbers are hex; outside `control` the `0x` may be left out. What is not given is 0, and
//! nothing is given twice. The setup's lines come before the first leaf. A line's words are
//! parted by blanks; how far it is indented does not count.
//!
//! [`show`] writes any well-formed file in this form, and [`assemble`] makes the same bytes of it.
//!
//! # Listing and explanation
//!
//! [`listing`] is what the program prints, by the reference judge, to compare the two. [`explain`] is
//! for people, by the proved library:
//!
//! | Part | What |
//! |---|---|
//! | setup | the control bits by name, and what levels, stages and overlays mean for the accesses |
//! | forbidden and open | how many, and for each access the leaves |
//! | leaves | each record; PIIndex with its base codes and POIndex with its slots, where they are read; each access open, or closed and by which cause; leaves in a row with the same codes, slots and answers share this |
//! | planned overlay registers | each level's register, and what it would close and open in place of the present one; then what is forbidden and open with all of them in place |
//! | causes met | their numbers, and where each is found |
//!
//! Of a refused file or list: the number, what it means and, where one is at fault, the leaf with what
//! the judge says of each access. No line is longer than 100 characters. `!!` begins each line with a
//! forbidden access that is open, or a refusal of the map. Which codes and slots a leaf picks is
//! said by the reference, since the library does not give them.

mod explain;
mod file;
mod listing;
mod page;
mod text;

pub use explain::{explain, Explanation};
pub use file::{Damage, MapFile};
pub use listing::listing;
pub use text::{assemble, show, TextError};
