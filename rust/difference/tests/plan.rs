//! Plans: the library against the reference, and both against brute force.

use difference::generate::{self, control_of, Leaf, Setup};
use difference::{brute, compare, seed, tally::Tally, times};
use numbers::Numbers;
use reference::{Refusal, LEAF_BYTES, MOST_LEAVES, SETUP_BYTES};

const PLANS: u64 = 60_000;

#[derive(Clone, Copy, Debug, PartialEq, Eq, PartialOrd, Ord)]
enum Class {
    Register { level: u64, cut: bool },
    Leaves(Length),
    RefusedLeaf { level: u64, number: u8, first: bool },
    Refused(u8),
    Refused11For(Eleven),
    EveryRegisterTried { separates: bool },
}

#[derive(Clone, Copy, Debug, PartialEq, Eq, PartialOrd, Ord)]
enum Length {
    Empty,
    One,
    Some,
    Most,
}

#[derive(Clone, Copy, Debug, PartialEq, Eq, PartialOrd, Ord)]
enum Eleven {
    NotAMultiple,
    OneLeafTooMany,
}

/// Every class that the planner's answers have.
fn classes() -> Vec<Class> {
    let mut classes: Vec<Class> = [1, 2, 3, 4, 11, 12, 13].map(Class::Refused).into();
    let lengths = [Length::Empty, Length::One, Length::Some, Length::Most];
    classes.extend(lengths.map(Class::Leaves));
    classes.extend([Eleven::NotAMultiple, Eleven::OneLeafTooMany].map(Class::Refused11For));
    for level in [0, 1] {
        classes.extend([true, false].map(|cut| Class::Register { level, cut }));
        for number in [5, 6, 7, 10] {
            classes.extend([true, false].map(|first| Class::RefusedLeaf {
                level,
                number,
                first,
            }));
        }
    }
    classes.extend([true, false].map(|separates| Class::EveryRegisterTried { separates }));
    classes
}

/// One call.
struct Case {
    setup: Vec<u8>,
    level: u64,
    leaves: Vec<u8>,
}

impl Case {
    /// The setup and the leaves, where their lengths are right.
    fn records(&self) -> Option<(&Setup, &[Leaf])> {
        let setup = self.setup.as_slice().try_into().ok()?;
        let (leaves, rest) = self.leaves.as_chunks();
        rest.is_empty().then_some((setup, leaves))
    }
}

/// Leaves that one register separates, leaves that pass, or leaves of any kind.
fn leaves(numbers: &mut Numbers, setup: &Setup, level: u64) -> Vec<Leaf> {
    let count = match numbers.below(3) {
        0 => 1 + numbers.below(6),
        _ => generate::leaf_count(numbers),
    };
    if numbers.percent(10) {
        let any = |_| generate::any_leaf(numbers, setup);
        return (0..count).map(any).collect();
    }
    let plan = |leaf: &Leaf| reference::plan(setup, level, leaf).map_err(|refusal| refusal.number);
    let only_cured = numbers.percent(70);
    let test = |leaf: &Leaf| match plan(leaf) {
        Ok(_) => true,
        Err(number) => !only_cured && number == 10,
    };
    let pass = |_| generate::passing(numbers, setup, test);
    let mut leaves: Vec<Leaf> = (0..count).map(pass).collect();
    if count > 0 && numbers.percent(30) {
        let place = numbers.below(count);
        generate::damage(numbers, &mut leaves[place]);
    }
    if numbers.percent(40) {
        let slots = numbers.next() as u8 & 0x70;
        leaves.iter_mut().for_each(|leaf| leaf[7] &= 0x8F | slots);
    }
    leaves
}

fn case(numbers: &mut Numbers) -> Case {
    let level = numbers.below(2) as u64;
    let setup = if numbers.percent(85) {
        generate::overlay_setup(numbers, level)
    } else {
        generate::any_setup(numbers)
    };
    let mut leaves = leaves(numbers, &setup, level).as_flattened().to_vec();
    if numbers.percent(2) {
        leaves.truncate(numbers.below(leaves.len() + 1));
    }
    let mut setup = setup.to_vec();
    if numbers.percent(2) {
        setup.resize(generate::wrong_length(numbers, SETUP_BYTES), 0);
    }
    let level = match numbers.below(100) {
        0 => numbers.next(),
        1 => level | 1 << (1 + numbers.below(63)),
        _ => level,
    };
    Case {
        setup,
        level,
        leaves,
    }
}

fn words(case: &Case) -> String {
    let words = compare::words(&case.setup, &case.leaves);
    format!("level {}\n{words}", case.level)
}

/// Compares an answer past the first checks with brute force over the values of each slot.
fn compare_brute(case: &Case, answer: Result<u64, Refusal>) {
    let past_checks = match answer {
        Ok(_) => true,
        Err(refusal) => matches!(refusal.number, 5..=7 | 10),
    };
    if let (true, Some((setup, leaves))) = (past_checks, case.records()) {
        let brute = brute::plan(setup, case.level, leaves);
        assert_eq!(brute, answer, "{}", words(case));
    }
}

/// Compares a small case that was not refused for 5 to 7 with every register over its slots.
fn compare_every(
    numbers: &mut Numbers,
    case: &Case,
    answer: Result<u64, Refusal>,
) -> Option<Class> {
    let (setup, leaves) = case.records()?;
    let small = leaves.len() <= 6 && brute::slots_in_use(leaves) <= 3;
    let planned = answer.is_ok() || answer.is_err_and(|refusal| refusal.number == 10);
    if !small || !planned {
        return None;
    }
    // Slots that no leaf reads keep some usable value.
    let rest = numbers.next() & 0x7777_7777;
    let union = brute::union_of_separating(setup, case.level, leaves, rest);
    let found = answer
        .ok()
        .map(|register| brute::only_slots(register, leaves));
    let union = union.map(|register| brute::only_slots(register, leaves));
    assert_eq!(union, found, "{}", words(case));
    Some(Class::EveryRegisterTried {
        separates: found.is_some(),
    })
}

fn count_answer(tally: &mut Tally<Class>, case: &Case, answer: Result<u64, Refusal>) {
    let level = case.level;
    match answer {
        Ok(register) => {
            let cut = register != 0x7777_7777;
            tally.count(Class::Register { level, cut });
            tally.count(Class::Leaves(match case.leaves.len() / LEAF_BYTES {
                0 => Length::Empty,
                1 => Length::One,
                MOST_LEAVES => Length::Most,
                _ => Length::Some,
            }));
        }
        Err(Refusal {
            number: number @ 5..=10,
            leaf,
        }) => tally.count(Class::RefusedLeaf {
            level,
            number,
            first: leaf == 0,
        }),
        Err(refusal) => tally.count(Class::Refused(refusal.number)),
    }
    if answer.is_err_and(|refusal| refusal.number == 11) {
        let multiple = case.leaves.len().is_multiple_of(LEAF_BYTES);
        tally.count(Class::Refused11For(if multiple {
            Eleven::OneLeafTooMany
        } else {
            Eleven::NotAMultiple
        }));
    }
}

#[test]
fn plan() {
    let mut numbers = Numbers::new(seed(3));
    let mut tally = Tally::new("plan", classes());
    for _ in 0..times(PLANS) {
        let case = case(&mut numbers);
        let answer = compare::plan(&case.setup, case.level, &case.leaves);
        count_answer(&mut tally, &case, answer);
        compare_brute(&case, answer);
        if let Some(class) = compare_every(&mut numbers, &case, answer) {
            tally.count(class);
        }
    }
    tally.finish(&format!("{} plans, no difference", times(PLANS)));
}

/// The generator keeps its word: accepted setups pass 1, 2 and 3, and those for a plan have the
/// level's overlay on.
#[test]
fn setups_are_accepted() {
    let mut numbers = Numbers::new(seed(4));
    for _ in 0..20_000 {
        let setup = generate::accepted_setup(&mut numbers);
        let answer = reference::list(&setup, &[], &mut [], &mut []);
        assert_eq!(answer, Ok(0), "{:#x}", control_of(&setup));
    }
    for level in [0, 1] {
        for _ in 0..10_000 {
            let setup = generate::overlay_setup(&mut numbers, level);
            let answer = reference::plan(&setup, level, &[]);
            assert_eq!(answer, Ok(0x7777_7777), "{:#x}", control_of(&setup));
        }
    }
}
