//! A map in words for the release desk, by the proved library.

mod words;

use crate::page::{runs, Page};
use crate::text::{record, show_control};
use crate::{Damage, MapFile};
use reference::{control, picks, register};
use sonsiplex::{judge, list, plan, Access, Cause, Judgement, Level, Number, Refusal};
use sonsiplex::{Listed, ListedLeaf};
use sonsiplex::{CAUSE_BYTES, LEAF_BYTES, MOST_LEAVES, SETUP_BYTES};
use words::Control;

/// A map in words.
#[derive(Clone, Debug, PartialEq, Eq)]
pub struct Explanation {
    /// The words, in lines of at most 100 characters.
    pub text: String,
    /// Whether the file or its list is refused. The text then says why.
    pub refused: bool,
}

/// Explains a map file: its setup, the forbidden accesses that are open, the codes and slots that
/// each leaf picks and the accesses to it with the cause of each that is closed, the planner's
/// registers with what they would change, and where the causes are found. Of a refused file or
/// list: the number, what it means and, where one is at fault, the leaf.
pub fn explain(bytes: &[u8]) -> Explanation {
    let mut page = Page::default();
    let done = match MapFile::read(bytes) {
        Ok(file) => Map::new(&file).explain(&mut page),
        Err(damage) => Err(explain_damage(&mut page, &damage)),
    };
    Explanation {
        text: page.text(),
        refused: done.is_err(),
    }
}

/// The map is refused, and the page says so.
struct Refused;

fn explain_damage(page: &mut Page, damage: &Damage) -> Refused {
    page.sentence("!! refused 13: ", &Number::IllFormed.to_string());
    let field = match damage.leaf() {
        Some(leaf) => format!("leaf {leaf}"),
        None => "setup".into(),
    };
    let Damage { place, what } = damage;
    page.sentence("   ", &format!("field at byte {place} ({field}): {what}"));
    Refused
}

/// The buffers of a list.
struct Buffers {
    out: [u8; MOST_LEAVES],
    causes: [u8; CAUSE_BYTES * MOST_LEAVES],
}

impl Buffers {
    fn new() -> Self {
        Buffers {
            out: [0; MOST_LEAVES],
            causes: [0; CAUSE_BYTES * MOST_LEAVES],
        }
    }
}

type Setup = [u8; SETUP_BYTES];

/// Under Indirect, the PIRs that are read: a bit that says so, the level's name and the place.
const PIRS: [(u32, &str, usize); 2] = [
    (control::STAGE1, "privileged", register::PIR_PRIVILEGED),
    (
        control::TWO_LEVELS,
        "unprivileged",
        register::PIR_UNPRIVILEGED,
    ),
];

/// The PORs that are read, as [`PIRS`].
const OVERLAYS: [(u32, &str, usize); 2] = [
    (
        control::PRIVILEGED_OVERLAY,
        "privileged",
        register::POR_PRIVILEGED,
    ),
    (
        control::UNPRIVILEGED_OVERLAY,
        "unprivileged",
        register::POR_UNPRIVILEGED,
    ),
];

/// The levels, their names and the places of their PORs.
const LEVELS: [(Level, &str, usize); 2] = [
    (Level::Privileged, "privileged", register::POR_PRIVILEGED),
    (
        Level::Unprivileged,
        "unprivileged",
        register::POR_UNPRIVILEGED,
    ),
];

/// What the judge says of one access.
#[derive(Clone, Copy, PartialEq, Eq)]
enum State {
    Open,
    Closed(Cause),
    Refused(Number),
}

impl State {
    fn of(setup: &Setup, leaf: &[u8], access: Access) -> Self {
        match judge(setup, leaf, access) {
            Ok(Judgement::Allowed(_)) => State::Open,
            Ok(Judgement::Fault(fault)) => State::Closed(fault.cause),
            Err(refusal) => State::Refused(refusal.number),
        }
    }

    /// What the list says of one access.
    fn listed(leaf: ListedLeaf, access: Access) -> Self {
        if leaf.allows(access) {
            return State::Open;
        }
        State::Closed(leaf.cause(access).expect("a missing right has a cause"))
    }
}

/// For each access the leaves that something is said of.
type Places = Vec<(Access, Vec<usize>)>;

/// A well-formed file.
struct Map<'a> {
    setup: &'a Setup,
    leaves: &'a [[u8; LEAF_BYTES]],
    control: Control,
}

impl<'a> Map<'a> {
    fn new(file: &'a MapFile) -> Self {
        let [a, b, c, d, ..] = file.setup;
        Map {
            setup: &file.setup,
            leaves: &file.leaves,
            control: Control(u32::from_le_bytes([a, b, c, d])),
        }
    }

    /// The list under a setup.
    fn list<'b>(&self, setup: &Setup, buffers: &'b mut Buffers) -> Result<Listed<'b>, Refusal> {
        let Buffers { out, causes } = buffers;
        list(setup, self.leaves.as_flattened(), out, causes)
    }

    fn forbids(&self, leaf: usize, access: Access) -> bool {
        self.leaves[leaf][17] >> access as u8 & 1 == 1
    }

    /// For each judged access the leaves that pass a test, where there are any.
    fn places(&self, test: impl Fn(usize, Access) -> bool) -> Places {
        let leaves = |access| {
            let passing = (0..self.leaves.len()).filter(|leaf| test(*leaf, access));
            passing.collect::<Vec<usize>>()
        };
        let accesses = self.control.accesses().iter();
        accesses
            .map(|&access| (access, leaves(access)))
            .filter(|(_, leaves)| !leaves.is_empty())
            .collect()
    }

    fn explain(&self, page: &mut Page) -> Result<(), Refused> {
        page.sentence("setup      ", &show_control(self.setup));
        let mut buffers = Buffers::new();
        let listed = self
            .list(self.setup, &mut buffers)
            .map_err(|refusal| self.explain_refusal(page, refusal))?;
        self.explain_setup(page);
        page.line(&format!("leaves     {}", self.leaves.len()));
        page.gap();
        self.explain_open(page, "forbidden and open", listed);
        self.explain_leaves(page, listed);
        page.gap();
        self.explain_plans(page, listed);
        self.explain_causes(page, listed);
        Ok(())
    }

    /// A refused list: its number and meaning and, where a leaf is at fault, the accesses to it.
    fn explain_refusal(&self, page: &mut Page, refusal: Refusal) -> Refused {
        let leaf = refusal.leaf.map(usize::from);
        if leaf.is_some() {
            self.explain_setup(page);
        }
        page.line(&format!("leaves     {}, not judged", self.leaves.len()));
        page.gap();
        page.sentence("!! ", &refusal.to_string());
        if let Some(index) = leaf {
            page.gap();
            page.line(&self.leaf_line(index));
            self.explain_picks(page, index);
            for &access in self.control.accesses() {
                let state = State::of(self.setup, &self.leaves[index], access);
                page.line(&self.access_line(index, access, state));
            }
        }
        Refused
    }

    fn explain_setup(&self, page: &mut Page) {
        page.sentence("levels     ", self.control.levels());
        page.sentence("stage 1    ", &self.control.stage1());
        if self.control.has(control::STAGE1) {
            if self.control.has(control::INDIRECT) {
                page.wrapped("PIR        ", self.registers(&PIRS));
            }
            let mut overlays = self.registers(&OVERLAYS);
            match overlays.last_mut() {
                Some(last) if self.control.has(control::INDIRECT) => {
                    *last += ", for base codes 0 to 7";
                }
                Some(_) => (),
                None => overlays.push("off".into()),
            }
            page.wrapped("overlays   ", overlays);
        }
        page.sentence("stage 2    ", self.control.stage2());
    }

    /// The registers of the levels whose bit is set, as items to wrap.
    fn registers(&self, of_levels: &[(u32, &str, usize); 2]) -> Vec<String> {
        let read = of_levels.iter().filter(|(bit, ..)| self.control.has(*bit));
        read.map(|(_, name, place)| format!("{name} {:016x}", register_at(self.setup, *place)))
            .collect()
    }

    /// The forbidden accesses that are open: how many, and for each access on which leaves.
    fn explain_open(&self, page: &mut Page, title: &str, listed: Listed<'_>) {
        let rights = listed.rights();
        let open = self.places(|leaf, access| {
            self.forbids(leaf, access) && rights[leaf] >> access as u8 & 1 == 1
        });
        if open.is_empty() {
            page.line(&format!("{title}: none"));
            return;
        }
        let mut leaves: Vec<usize> = open
            .iter()
            .flat_map(|(_, leaves)| leaves)
            .copied()
            .collect();
        let accesses = words::accesses(leaves.len());
        leaves.sort_unstable();
        leaves.dedup();
        let leaves = words::leaves(leaves.len());
        page.line(&format!("{title}: {accesses} on {leaves}"));
        explain_places(page, "!! ", "", &open);
    }

    /// Each leaf's record, the codes and slots that it picks and the accesses to it. Leaves in a
    /// row that have all but the record in common are followed by that once.
    fn explain_leaves(&self, page: &mut Page, listed: Listed<'_>) {
        let answers = |index: usize| {
            (
                listed.get(index),
                self.leaves
                    .get(index)
                    .map(|leaf| (leaf[17], picks(self.setup, leaf))),
            )
        };
        for (index, leaf) in listed.iter().enumerate() {
            if index == 0 || answers(index) != answers(index - 1) {
                page.gap();
            }
            page.line(&self.leaf_line(index));
            if answers(index) == answers(index + 1) {
                continue;
            }
            self.explain_picks(page, index);
            for &access in self.control.accesses() {
                page.line(&self.access_line(index, access, State::listed(leaf, access)));
            }
        }
    }

    /// PIIndex with its base codes and POIndex with its slots, where they are read. The library
    /// does not give them, so the reference does.
    fn explain_picks(&self, page: &mut Page, index: usize) {
        for line in words::picks(picks(self.setup, &self.leaves[index])) {
            page.line(&line);
        }
    }

    fn leaf_line(&self, index: usize) -> String {
        let width = self.leaves.len().saturating_sub(1).to_string().len();
        format!("leaf {index:<width$}  {}", record(&self.leaves[index]))
    }

    /// An access to a leaf. A forbidden one that is open is marked at the line's start.
    fn access_line(&self, index: usize, access: Access, state: State) -> String {
        let forbids = self.forbids(index, access);
        let words = match state {
            State::Open if forbids => "OPEN".into(),
            State::Open => "open".into(),
            State::Closed(cause) => format!("closed by {}", self.control.cause(cause, access)),
            State::Refused(number) => format!("refused {}", number as u8),
        };
        let mark = if forbids && state == State::Open {
            "!!"
        } else {
            ""
        };
        let forbidden = if forbids { "forbidden" } else { "" };
        format!("{mark:<3}{access:<22}{forbidden:<11}{words}")
    }

    /// Each level's register and what it would change; then what is open with all of them in place.
    fn explain_plans(&self, page: &mut Page, listed: Listed<'_>) {
        page.line("planned overlay registers");
        let mut planned = *self.setup;
        let mut any = false;
        for (level, name, place) in LEVELS {
            let head = format!("   {name:<14}");
            match plan(self.setup, level, self.leaves.as_flattened()) {
                Ok(value) => {
                    let now = register_at(self.setup, place);
                    page.line(&format!("{head}{value:016x} in place of {now:016x}"));
                    let mut alone = *self.setup;
                    put_register(&mut alone, place, value);
                    self.explain_change(page, listed, &alone);
                    put_register(&mut planned, place, value);
                    any = true;
                }
                Err(refusal) => page.sentence(&head, &refusal.to_string()),
            }
        }
        if !any {
            return;
        }
        page.gap();
        let mut buffers = Buffers::new();
        match self.list(&planned, &mut buffers) {
            Ok(listed) => self.explain_open(page, "forbidden and open as planned", listed),
            Err(refusal) => page.sentence("!! ", &format!("as planned the list is {refusal}")),
        }
    }

    /// What another setup closes, opens and refuses, access by access.
    fn explain_change(&self, page: &mut Page, now: Listed<'_>, setup: &Setup) {
        let then: Vec<[State; 6]> = self
            .leaves
            .iter()
            .map(|leaf| Access::ALL.map(|access| State::of(setup, leaf, access)))
            .collect();
        let is_open = |leaf: usize, access: Access| now.rights()[leaf] >> access as u8 & 1 == 1;
        let state = |leaf: usize, access: Access| then[leaf][access as usize];
        let mut changed = false;
        let mut rows = |verb: &str, test: &dyn Fn(usize, Access) -> bool| {
            for (forbidden, word) in [(true, "forbidden"), (false, "")] {
                let places = self.places(|leaf, access| {
                    test(leaf, access) && self.forbids(leaf, access) == forbidden
                });
                changed |= !places.is_empty();
                let before = format!("      {verb:<11}");
                explain_places(page, &before, &format!("{word:<11}"), &places);
            }
        };
        rows("closes", &|leaf, access| {
            is_open(leaf, access) && matches!(state(leaf, access), State::Closed(_))
        });
        rows("opens", &|leaf, access| {
            !is_open(leaf, access) && state(leaf, access) == State::Open
        });
        // An access that the register opens may meet 8 or 9. The planner refuses for 5, 6 and 7.
        for number in [Number::MemoryAttribute, Number::ShareabilityCode] {
            rows(&format!("refused {}", number as u8), &|leaf, access| {
                state(leaf, access) == State::Refused(number)
            });
        }
        if !changed {
            page.line("      closes and opens nothing");
        }
    }

    /// The causes met, and where they are found.
    fn explain_causes(&self, page: &mut Page, listed: Listed<'_>) {
        let mut met = [false; 256];
        for &cause in listed.causes().as_flattened() {
            met[usize::from(cause)] = true;
        }
        let met = |cause: &Cause| met[*cause as usize];
        let causes: Vec<Cause> = Cause::ALL.iter().copied().filter(met).collect();
        if causes.is_empty() {
            return;
        }
        page.gap();
        page.line("causes met, by number, and where to look");
        for cause in causes {
            let (words, place) = self.control.cause_place(cause);
            page.sentence(&format!("{:>5}  {words:<29}", cause as u8), place);
        }
    }
}

/// A line for each access, with its leaves: `before`, the access, `after`, the leaves.
fn explain_places(page: &mut Page, before: &str, after: &str, places: &Places) {
    for (access, leaves) in places {
        let noun = match leaves[..] {
            [_] => "leaf",
            _ => "leaves",
        };
        let head = format!("{before}{access:<22}{after}{noun} ");
        page.wrapped(&head, runs(leaves));
    }
}

fn register_at(setup: &Setup, place: usize) -> u64 {
    let (registers, _) = setup[4..].as_chunks();
    u64::from_le_bytes(registers[place])
}

fn put_register(setup: &mut Setup, place: usize, value: u64) {
    setup[4 + 8 * place..12 + 8 * place].copy_from_slice(&value.to_le_bytes());
}
