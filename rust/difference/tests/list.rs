//! Lists: the library and the fast list against the reference, and what is left of both lent
//! buffers.

use difference::causes::Met;
use difference::generate::{self, control_of, Leaf, Setup};
use difference::{compare, lent::Lent, seed, tally::Tally, times};
use numbers::Numbers;
use reference::{Refusal, CAUSE_BYTES, LEAF_BYTES, MOST_LEAVES, SETUP_BYTES};

const LISTS: u64 = 100_000;

#[derive(Clone, Copy, Debug, PartialEq, Eq, PartialOrd, Ord)]
enum Class {
    Done(Length),
    DoneWith(Buffer, Room),
    RefusedLeaf { number: u8, first: bool },
    Refused(u8),
    Refused11For(Eleven),
    Rights(u8),
}

#[derive(Clone, Copy, Debug, PartialEq, Eq, PartialOrd, Ord)]
enum Length {
    Empty,
    One,
    Short,
    Long,
    Most,
}

#[derive(Clone, Copy, Debug, PartialEq, Eq, PartialOrd, Ord)]
enum Buffer {
    Output,
    Causes,
}

#[derive(Clone, Copy, Debug, PartialEq, Eq, PartialOrd, Ord)]
enum Room {
    Exact,
    Longer,
}

#[derive(Clone, Copy, Debug, PartialEq, Eq, PartialOrd, Ord)]
enum Eleven {
    NotAMultiple,
    OneLeafTooMany,
    ShortOutput,
    ShortCauses,
    ShortOutputAndCauses,
}

/// Every class that the list's answers have.
fn classes() -> Vec<Class> {
    use Length::{Empty, Long, Most, One, Short};
    let mut classes: Vec<Class> = [Empty, One, Short, Long, Most].map(Class::Done).into();
    for buffer in [Buffer::Output, Buffer::Causes] {
        classes.extend([Room::Exact, Room::Longer].map(|room| Class::DoneWith(buffer, room)));
    }
    for number in 5..=9 {
        classes.extend([true, false].map(|first| Class::RefusedLeaf { number, first }));
    }
    classes.extend([1, 2, 3, 11, 13].map(Class::Refused));
    let elevens = [
        Eleven::NotAMultiple,
        Eleven::OneLeafTooMany,
        Eleven::ShortOutput,
        Eleven::ShortCauses,
        Eleven::ShortOutputAndCauses,
    ];
    classes.extend(elevens.map(Class::Refused11For));
    // Stage 1 never grants px together with uw; with it off, everything is granted.
    let together = 1 << 2 | 1 << 4;
    let rights = (0..64).filter(|rights| rights & together != together);
    classes.extend(rights.chain([63]).map(Class::Rights));
    classes
}

fn length(leaves: usize) -> Length {
    match leaves {
        0 => Length::Empty,
        1 => Length::One,
        2..=99 => Length::Short,
        MOST_LEAVES => Length::Most,
        _ => Length::Long,
    }
}

/// One call.
struct Case {
    setup: Vec<u8>,
    leaves: Vec<u8>,
    out: Lent,
    causes: Lent,
}

/// A list that is done, damaged at one leaf, or of any kind.
fn leaves(numbers: &mut Numbers, setup: &Setup) -> Vec<Leaf> {
    let count = generate::leaf_count(numbers);
    if numbers.percent(10) {
        let any = |_| generate::any_leaf(numbers, setup);
        return (0..count).map(any).collect();
    }
    let pass = |_| generate::passing_leaf(numbers, setup);
    let mut leaves: Vec<Leaf> = (0..count).map(pass).collect();
    if count > 0 && numbers.percent(40) {
        let place = numbers.below(count);
        generate::damage(numbers, &mut leaves[place]);
    }
    leaves
}

fn case(numbers: &mut Numbers) -> Case {
    let setup = if numbers.percent(80) {
        generate::accepted_setup(numbers)
    } else {
        generate::any_setup(numbers)
    };
    let mut leaves = leaves(numbers, &setup).as_flattened().to_vec();
    if numbers.percent(2) {
        leaves.truncate(numbers.below(leaves.len() + 1));
    }
    let mut setup = setup.to_vec();
    if numbers.percent(2) {
        setup.resize(generate::wrong_length(numbers, SETUP_BYTES), 0);
    }
    let count = leaves.len() / LEAF_BYTES;
    Case {
        setup,
        leaves,
        out: buffer(numbers, count),
        causes: buffer(numbers, CAUSE_BYTES * count),
    }
}

/// A buffer where this many bytes are due: sometimes shorter, sometimes longer.
fn buffer(numbers: &mut Numbers, due: usize) -> Lent {
    let length = match numbers.below(20) {
        0 => numbers.below(due + 1),
        1 => due.saturating_sub(1),
        2..=8 => due + 1 + numbers.below(40),
        _ => due,
    };
    Lent::random(numbers, length)
}

fn count_answer(tally: &mut Tally<Class>, case: &Case, answer: Result<usize, Refusal>) {
    let leaves = case.leaves.len() / LEAF_BYTES;
    let buffers = [
        (Buffer::Output, case.out.content().len(), leaves),
        (
            Buffer::Causes,
            case.causes.content().len(),
            CAUSE_BYTES * leaves,
        ),
    ];
    match answer {
        Ok(count) => {
            tally.count(Class::Done(length(count)));
            for (buffer, length, due) in buffers {
                let exact = length == due;
                let room = if exact { Room::Exact } else { Room::Longer };
                tally.count(Class::DoneWith(buffer, room));
            }
        }
        Err(Refusal { number: 11, .. }) => {
            tally.count(Class::Refused(11));
            let [short_output, short_causes] = buffers.map(|(_, length, due)| length < due);
            tally.count(Class::Refused11For(
                if !case.leaves.len().is_multiple_of(LEAF_BYTES) {
                    Eleven::NotAMultiple
                } else if leaves > MOST_LEAVES {
                    Eleven::OneLeafTooMany
                } else if short_output && short_causes {
                    Eleven::ShortOutputAndCauses
                } else if short_output {
                    Eleven::ShortOutput
                } else {
                    Eleven::ShortCauses
                },
            ));
        }
        Err(Refusal {
            number: number @ 5..=10,
            leaf,
        }) => tally.count(Class::RefusedLeaf {
            number,
            first: leaf == 0,
        }),
        Err(refusal) => tally.count(Class::Refused(refusal.number)),
    }
}

#[test]
fn list() {
    let mut numbers = Numbers::new(seed(2));
    let mut tally = Tally::new("list", classes());
    let mut met = Met::new("list");
    let mut leaves = 0;
    for _ in 0..times(LISTS) {
        let case = case(&mut numbers);
        let found = compare::list(&case.setup, &case.leaves, &case.out, &case.causes);
        let count = found.as_ref().map(Vec::len).map_err(|refusal| *refusal);
        count_answer(&mut tally, &case, count);
        let Ok(found) = found else {
            continue;
        };
        let setup: &Setup = case.setup[..].try_into().expect("else it is refused");
        leaves += found.len();
        for leaf in found {
            tally.count(Class::Rights(leaf.rights));
            met.count_leaf(control_of(setup), &leaf.causes);
        }
    }
    met.finish();
    let lists = times(LISTS);
    tally.finish(&format!(
        "{lists} lists, {leaves} leaves done, no difference"
    ));
}
