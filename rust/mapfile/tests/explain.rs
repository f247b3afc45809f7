//! Explanations: the words of small maps, refused and damaged ones, the largest, and random maps
//! read back and compared with the reference judge.

use mapfile::{assemble, explain, listing, Explanation, MapFile};
use numbers::Numbers;
use reference::{control::*, judge, leaf_rights, plan, register, Stop};
use reference::{CAUSE_BYTES, LEAF_BYTES, SETUP_BYTES};

const COLUMNS: usize = 100;

/// Explains the map of a text, and holds the lines to their length.
#[track_caller]
fn explained(text: &str) -> Explanation {
    explained_file(&assemble(text).expect("the text is right"))
}

#[track_caller]
fn explained_file(bytes: &[u8]) -> Explanation {
    let explanation = explain(bytes);
    assert!(explanation.text.ends_with('\n'));
    for line in explanation.text.lines() {
        assert!(line.chars().count() <= COLUMNS, "{line}");
        assert!(!line.ends_with(' '), "{line:?}");
    }
    explanation
}

/// The lines of a map that is not refused.
#[track_caller]
fn lines(text: &str) -> Vec<String> {
    let explanation = explained(text);
    assert!(!explanation.refused, "{}", explanation.text);
    explanation.text.lines().map(str::to_string).collect()
}

/// The line that begins with `start`.
#[track_caller]
fn line<'a>(lines: &'a [String], start: &str) -> &'a str {
    let found = lines.iter().find(|line| line.starts_with(start));
    found.unwrap_or_else(|| panic!("no line begins with {start}: {lines:#?}"))
}

/// What is said of the accesses to a leaf, by access number: `open`, `OPEN` or what closes them.
#[track_caller]
fn states(lines: &[String], leaf: usize) -> Vec<String> {
    let is_leaf = |line: &String| line.starts_with("leaf ");
    let start = lines
        .iter()
        .position(|line| line.starts_with(&format!("leaf {leaf} ")))
        .unwrap_or_else(|| panic!("no leaf {leaf}: {lines:#?}"));
    let accesses = lines[start..]
        .iter()
        .skip_while(|line| is_leaf(line) || pick_line(line).is_some());
    accesses
        .take_while(|line| !line.is_empty())
        .map(|line| line.split_at(36).1.to_string())
        .collect()
}

/// A line of what a leaf picks: the index's name, the index and the words of each level.
fn pick_line(line: &str) -> Option<(&str, u64, [&str; 2])> {
    let mut names = ["PIIndex", "POIndex"].into_iter();
    let name = names.find(|name| line.trim_start().starts_with(name))?;
    let (head, levels) = line.split_at(15);
    let index = head[11..].trim_end().strip_suffix(':')?.parse().ok()?;
    let (privileged, unprivileged) = levels.split_at_checked(35).unwrap_or((levels, ""));
    let words = |name: &str, words| match words {
        "" => "",
        _ => str::strip_prefix(words, name).expect("its level is named"),
    };
    let privileged = words("privileged ", privileged.trim_end());
    Some((
        name,
        index,
        [privileged, words("unprivileged ", unprivileged)],
    ))
}

/// The lines of what a leaf picks.
#[track_caller]
fn pick_lines(lines: &[String], leaf: usize) -> Vec<(&str, u64, [&str; 2])> {
    let start = lines
        .iter()
        .position(|line| line.starts_with(&format!("leaf {leaf} ")))
        .unwrap_or_else(|| panic!("no leaf {leaf}: {lines:#?}"));
    let after = lines[start..].iter();
    after
        .skip_while(|line| line.starts_with("leaf "))
        .map_while(|line| pick_line(line))
        .collect()
}

const EMPTY: &str = "\
setup      0x0
levels     one: the three privileged accesses are judged; forbidden bits of the others play no part
stage 1    off: takes nothing away; overlays, WXN and PAN do nothing
stage 2    off: takes nothing away
leaves     0

forbidden and open: none

planned overlay registers
   privileged    refused 12: planning where stage 1 or that level's overlay is off
   unprivileged  refused 12: planning where stage 1 or that level's overlay is off
";

#[test]
fn a_map_without_leaves() {
    assert_eq!(explained("setup").text, EMPTY);
    let planned = explained("setup\ncontrol two-levels stage1 privileged-overlay").text;
    let register = "   privileged    0000000077777777 in place of 0000000000000000\n      \
                    closes and opens nothing\n";
    assert!(planned.contains(register), "{planned}");
}

#[test]
fn stages_and_levels() {
    let setup = |control: &str| lines(&format!("setup\ncontrol {control}"));
    let both = setup("two-levels stage1 stage2 wxn pan");
    assert_eq!(
        line(&both, "levels"),
        "levels     two: six accesses are judged"
    );
    assert_eq!(
        line(&both, "stage 1"),
        "stage 1    on, Direct with WXN and PAN: AP, PXN, UXN and table limits decide"
    );
    assert_eq!(line(&both, "overlays"), "overlays   off");
    assert_eq!(line(&both, "stage 2"), "stage 2    on: S2AP and XN decide");
    let disabled = setup("two-levels stage1 limits-disabled privileged-overlay");
    assert_eq!(
        line(&disabled, "stage 1"),
        "stage 1    on, Direct: AP, PXN and UXN decide, and table limits are disabled"
    );
    assert_eq!(
        line(&disabled, "overlays"),
        "overlays   privileged 0000000000000000"
    );
    let one = setup("stage1");
    assert_eq!(
        line(&one, "stage 1"),
        "stage 1    on, Direct: AP, XN and table limits decide"
    );
    let one = setup("stage1 limits-disabled");
    assert_eq!(
        line(&one, "stage 1"),
        "stage 1    on, Direct: AP and XN decide, and table limits are disabled"
    );
    let indirect = setup(
        "two-levels stage1 indirect privileged-overlay unprivileged-overlay\n\
         pir-privileged 1\npir-unprivileged 2\npor-privileged 3\npor-unprivileged 4",
    );
    assert_eq!(
        line(&indirect, "stage 1"),
        "stage 1    on, Indirect: base codes decide, and table limits play no part"
    );
    assert_eq!(
        line(&indirect, "overlays"),
        "overlays   privileged 0000000000000003 unprivileged 0000000000000004, for base codes 0 to 7"
    );
    assert_eq!(
        line(&indirect, "PIR"),
        "PIR        privileged 0000000000000001 unprivileged 0000000000000002"
    );
    let one = setup("stage1 indirect\npir-privileged 1\npir-unprivileged 2");
    assert_eq!(line(&one, "PIR"), "PIR        privileged 0000000000000001");
}

/// Every cause in words, with two levels and with one.
#[test]
fn causes_in_words() {
    let words = |lines: &[String], leaf| {
        let strip = |state: &String| state.replace("closed by ", "");
        states(lines, leaf)
            .iter()
            .map(strip)
            .collect::<Vec<_>>()
            .join(", ")
    };
    let direct = lines(
        "setup\ncontrol two-levels stage1 stage2 wxn pan\n\
         leaf stage1=441 stage2=4c1\n\
         leaf stage1=60000000000481 stage2=4c1\n\
         leaf stage1=441 stage2=4c1 limits=f\n\
         leaf stage1=401 stage2=40000000000401\n\
         leaf stage1=400 stage2=4c1\n\
         leaf stage1=1 stage2=4c1\n\
         leaf stage1=481 stage2=400\n\
         leaf stage1=481 stage2=1\n",
    );
    assert_eq!(
        words(&direct, 0),
        "PAN, PAN, unprivileged write, open, open, WXN"
    );
    assert_eq!(words(&direct, 1), "open, AP, PXN, AP, AP, UXN");
    assert_eq!(
        words(&direct, 2),
        "open, APTable, PXNTable, APTable, APTable, UXNTable"
    );
    let (s2ap, xn) = ("stage 2's S2AP", "stage 2's XN");
    assert_eq!(
        words(&direct, 3),
        format!("{s2ap}, {s2ap}, WXN, AP, AP, {xn}")
    );
    let six = |words: &str| [words; 6].join(", ");
    assert_eq!(words(&direct, 4), six("stage 1's Translation fault"));
    assert_eq!(words(&direct, 5), six("stage 1's Access flag fault"));
    let [invalid, af] =
        ["Translation", "Access flag"].map(|kind| format!("stage 2's {kind} fault"));
    assert_eq!(
        words(&direct, 6),
        format!("{invalid}, AP, {invalid}, AP, AP, {invalid}")
    );
    assert_eq!(words(&direct, 7), format!("{af}, AP, {af}, AP, AP, {af}"));
    let key: Vec<&str> = direct
        .iter()
        .skip_while(|line| !line.starts_with("causes met"))
        .skip(1)
        .map(|line| line[..7].trim())
        .collect();
    assert_eq!(
        key,
        ["1", "2", "3", "4", "5", "6", "7", "9", "10", "11", "12", "13", "14"]
    );
    let left = "    5  unprivileged write           left by stage 1 descriptor bits 7:6";
    assert_eq!(
        line(&direct, "    5"),
        format!("{left} and limits bits 1:0")
    );
    let disabled = lines("setup\ncontrol two-levels stage1 limits-disabled\nleaf stage1=441");
    assert_eq!(line(&disabled, "    5"), left);
    let indirect = lines(
        "setup\ncontrol two-levels stage1 indirect privileged-overlay\npir-privileged 5\n\
         por-privileged 4\nleaf stage1=401",
    );
    let code = "base code";
    assert_eq!(
        words(&indirect, 0),
        format!("overlay, open, {code}, {code}, {code}, {code}")
    );
    let one = lines(
        "setup\ncontrol stage1 wxn\nleaf stage1=40000000000481\nleaf stage1=401 limits=8\n\
         leaf stage1=401\nleaf stage1=401 limits=2",
    );
    assert_eq!(words(&one, 0), "open, AP, XN");
    assert_eq!(words(&one, 1), "open, open, XNTable");
    assert_eq!(words(&one, 2), "open, open, WXN");
    assert_eq!(words(&one, 3), "open, APTable, open");
    assert_eq!(
        line(&one, "    1"),
        "    1  AP                           stage 1 descriptor bit 7"
    );
}

const ONE_LEVEL: &str = "\
setup      stage1
levels     one: the three privileged accesses are judged; forbidden bits of the others play no part
stage 1    on, Direct: AP, XN and table limits decide
overlays   off
stage 2    off: takes nothing away
leaves     2

forbidden and open: 2 accesses on 1 leaf
!! privileged read       leaf 1
!! privileged write      leaf 1

leaf 0  stage1=0000000000000481 stage2=0000000000000000 limits=00 forbidden=38
   privileged read                  open
   privileged write                 closed by AP
   privileged execute               open

leaf 1  stage1=0040000000000401 stage2=0000000000000000 limits=00 forbidden=3f
!! privileged read       forbidden  OPEN
!! privileged write      forbidden  OPEN
   privileged execute    forbidden  closed by XN

planned overlay registers
   privileged    refused 12: planning where stage 1 or that level's overlay is off
   unprivileged  refused 12: planning where stage 1 or that level's overlay is off

causes met, by number, and where to look
    1  AP                           stage 1 descriptor bit 7
    3  XN                           stage 1 descriptor bit 54
";

/// With one level, forbidden bits 3 to 5 mark nothing.
#[test]
fn one_level() {
    let text = "setup\ncontrol stage1\nleaf stage1=481 forbidden=38\n\
                leaf stage1=40000000000401 forbidden=3f";
    assert_eq!(explained(text).text, ONE_LEVEL);
}

const PLANNED: &str = "\
planned overlay registers
   privileged    0000000077777767 in place of 0000000000000017
      closes     privileged read       forbidden  leaf 1
      closes     privileged read                  leaf 2
      opens      privileged write                 leaves 1 to 2
   unprivileged  refused 12: planning where stage 1 or that level's overlay is off

forbidden and open as planned: 1 access on 1 leaf
!! unprivileged read     leaf 2

causes met, by number, and where to look
    1  base code                    PIR at PIIndex: stage 1 descriptor bits 54, 53, 51, 6
    8  overlay                      POR at POIndex: stage 1 descriptor bits 62:60
";

/// A register closes what is not forbidden where another leaf of its slot needs it, and opens what
/// the present one closes; the other level stays as it is.
#[test]
fn what_a_register_changes() {
    let text = "setup\ncontrol two-levels stage1 indirect privileged-overlay\npir-privileged 55\n\
                pir-unprivileged 10\npor-privileged 17\nleaf stage1=401\n\
                leaf stage1=1000000000000401 forbidden=1\n\
                leaf stage1=1000000000000441 forbidden=8";
    let text = explained(text).text;
    assert_eq!(text.split_at(text.find("planned").unwrap()).1, PLANNED);
}

/// A register may open an access whose memory is refused: the list as planned is then refused too.
#[test]
fn a_register_that_opens_what_is_refused() {
    let text = "setup\ncontrol two-levels stage1 indirect privileged-overlay\nmair f000\n\
                pir-privileged 5\nleaf stage1=401 forbidden=1\nleaf stage1=405 forbidden=2\n\
                leaf stage1=501 forbidden=2";
    let lines = lines(text);
    let start = lines.iter().position(|line| line.starts_with("planned"));
    let expected = [
        "planned overlay registers",
        "   privileged    0000000077777772 in place of 0000000000000000",
        "      closes and opens nothing",
    ];
    assert_eq!(lines[start.unwrap()..][..3], expected);
    // The second leaf's own slot, which the first does not cut.
    let text = text.replace("stage1=405", "stage1=1000000000000405");
    let text = text.replace("stage1=501", "stage1=1000000000000501");
    let explanation = explained(&text);
    assert!(!explanation.refused);
    let expected = "   privileged    0000000077777736 in place of 0000000000000000\n      \
                    opens      privileged write                 leaf 0\n      \
                    refused 8  privileged read                  leaf 1\n      \
                    refused 9  privileged read                  leaf 2\n   \
                    unprivileged  refused 12: planning where stage 1 or that level's overlay is off\n\n\
                    !! as planned the list is refused 8 leaf 1: a memory attribute code reached is \
                    reserved or needs an\n   extension\n";
    assert!(explanation.text.contains(expected), "{}", explanation.text);
}

/// Each refusal of a list with its number, meaning and leaf.
#[test]
fn refused_maps() {
    let direct = "control two-levels stage1 stage2";
    let cases = [
        ("control 0x2000", "1: a control bit above 12 is set"),
        ("control pan", "2: two levels clear with stage 2"),
        (
            "control stage1 wxn indirect",
            "3: stage 1 on, WXN or PAN set",
        ),
        (
            &format!("{direct}\nleaf\nleaf limits=10"),
            "5 leaf 1: limits above 15",
        ),
        (
            &format!("{direct}\nleaf forbidden=40"),
            "5 leaf 0: limits above 15",
        ),
        (
            "control stage1 indirect\npir-privileged 4\nleaf\nleaf\nleaf stage1=401",
            "6 leaf 2: a base or overlay code",
        ),
        (
            &format!("{direct}\nleaf stage1=8000000000401"),
            "7 leaf 0: a permission form not judged yet",
        ),
        (
            &format!("{direct}\nmair 1\nleaf stage1=401 stage2=4c1"),
            "8 leaf 0: a memory attribute code",
        ),
        (
            &format!("{direct}\nleaf stage1=501 stage2=4c1"),
            "9 leaf 0: SH is 01 in a stage that is on",
        ),
    ];
    for (text, words) in cases {
        let explanation = explained(&format!("setup\n{text}"));
        assert!(explanation.refused, "{text}");
        assert!(
            explanation.text.contains(&format!("\n!! refused {words}")),
            "{}",
            explanation.text
        );
    }
}

const REFUSED: &str = "\
setup      two-levels stage1 privileged-overlay
levels     two: six accesses are judged
stage 1    on, Direct: AP, PXN, UXN and table limits decide
overlays   privileged 0000000000008777
stage 2    off: takes nothing away
leaves     2, not judged

!! refused 6 leaf 1: a base or overlay code reached is reserved

leaf 1  stage1=3000000000000481 stage2=0000000000000000 limits=00 forbidden=08
   POIndex 3:  privileged slot 8 reserved
   privileged read                  refused 6
   privileged write                 closed by AP
   privileged execute               refused 6
   unprivileged read     forbidden  closed by AP
   unprivileged write               closed by AP
   unprivileged execute             open
";

/// The leaf at fault is shown with what the judge says of each access.
#[test]
fn a_refused_leaf() {
    let text = "setup\ncontrol two-levels stage1 privileged-overlay\npor-privileged 8777\nleaf\n\
                leaf stage1=3000000000000481 forbidden=8";
    let explanation = explained(text);
    assert_eq!(
        (explanation.text.as_str(), explanation.refused),
        (REFUSED, true)
    );
}

/// What leaves pick of the registers that are read, with two levels and with one. A leaf that is
/// not valid or has AF clear picks nothing.
#[test]
fn codes_and_slots() {
    let shown = |control: &str| {
        let text = explained(&format!(
            "setup\ncontrol {control}\npir-privileged e2000000000000c5\n\
             pir-unprivileged a000000000000010\npor-privileged 60000210\n\
             por-unprivileged 47654310\nleaf\nleaf stage1=1\nleaf stage1=441\n\
             leaf stage1=2000000000000401\nleaf stage1=7068000000000441\n\
             leaf stage1=7048000000000401"
        ))
        .text;
        let picks = text.lines().filter(|line| pick_line(line).is_some());
        picks.map(str::to_string).collect::<Vec<_>>()
    };
    assert_eq!(
        shown("two-levels stage1 indirect privileged-overlay unprivileged-overlay"),
        [
            "   PIIndex 1:  privileged code 12 RW              unprivileged code 1 R",
            "   POIndex 0:  privileged overlay does not apply  unprivileged slot 0 none",
            "   PIIndex 0:  privileged code 5 RW               unprivileged code 0 none",
            "   POIndex 2:  privileged slot 2 X                unprivileged slot 3 RX",
            "   PIIndex 15: privileged code 14 RWX             unprivileged code 10 RX",
            "   POIndex 7:  privileged overlay does not apply  unprivileged overlay does not apply",
            "   PIIndex 10: privileged code 0 none             unprivileged code 0 none",
            "   POIndex 7:  privileged slot 6 WX               unprivileged slot 4 W",
        ]
    );
    assert_eq!(
        shown("stage1 indirect privileged-overlay"),
        [
            "   PIIndex 1:  privileged code 12 RW",
            "   POIndex 0:  privileged overlay does not apply",
            "   PIIndex 0:  privileged code 5 RW",
            "   POIndex 2:  privileged slot 2 X",
            "   PIIndex 15: privileged code 14 RWX",
            "   POIndex 7:  privileged overlay does not apply",
            "   PIIndex 10: privileged code 0 none",
            "   POIndex 7:  privileged slot 6 WX",
        ]
    );
    let off = "two-levels indirect privileged-overlay unprivileged-overlay";
    assert!(shown(off).is_empty());
}

/// Direct has no base codes, and an overlay applies to each leaf.
#[test]
fn slots_under_direct() {
    let lines = lines(
        "setup\ncontrol two-levels stage1 unprivileged-overlay\npor-unprivileged 47654310\n\
         leaf stage1=441\nleaf stage1=2000000000000401\nleaf stage1=7060000000000441",
    );
    let shown: Vec<&String> = lines
        .iter()
        .filter(|line| pick_line(line).is_some())
        .collect();
    assert_eq!(
        shown,
        [
            "   POIndex 0:                                     unprivileged slot 0 none",
            "   POIndex 2:                                     unprivileged slot 3 RX",
            "   POIndex 7:                                     unprivileged slot 4 W",
        ]
    );
}

/// A refused leaf shows the codes where they are reached, and slots where no code is refused.
#[test]
fn codes_of_a_refused_leaf() {
    let refused = |pirs: [&str; 2], leaf: &str| {
        let [privileged, unprivileged] = pirs;
        let explanation = explained(&format!(
            "setup\ncontrol two-levels stage1 indirect privileged-overlay\n\
             pir-privileged {privileged}\npir-unprivileged {unprivileged}\npor-privileged 9\n\
             leaf {leaf}"
        ));
        assert!(explanation.refused);
        let lines: Vec<String> = explanation.text.lines().map(str::to_string).collect();
        let picks = pick_lines(&lines, 0).into_iter();
        picks
            .map(|(name, index, levels)| format!("{name} {index} {}", levels.join(", ")))
            .collect::<Vec<_>>()
    };
    let leaf = "stage1=401";
    assert_eq!(
        refused(["f", "1"], leaf),
        ["PIIndex 0 code 15 reserved, code 1 R"]
    );
    assert_eq!(
        refused(["1", "6"], leaf),
        ["PIIndex 0 code 1 R, code 6 not judged yet"]
    );
    assert_eq!(
        refused(["3", "5"], leaf),
        ["PIIndex 0 code 3 RX, code 5 RW"]
    );
    assert_eq!(
        refused(["1", "0"], leaf),
        [
            "PIIndex 0 code 1 R, code 0 none",
            "POIndex 0 slot 9 reserved, "
        ]
    );
    assert!(refused(["1", "0"], "stage1=481").is_empty());
    assert!(refused(["1", "0"], "stage1=401 limits=10").is_empty());
}

/// Leaves in a row share a table where their codes and slots are the same too.
#[test]
fn leaves_with_other_codes_stand_apart() {
    let leaves = "leaf stage1=401\nleaf stage1=2000000000000401\nleaf stage1=2000000000000401\n\
                  leaf stage1=2000000000000441";
    let lines = lines(&format!(
        "setup\ncontrol two-levels stage1 indirect privileged-overlay\npir-privileged 81\n\
         por-privileged 777\n{leaves}"
    ));
    let indices: Vec<Vec<u64>> = (0..4)
        .map(|leaf| pick_lines(&lines, leaf).iter().map(|line| line.1).collect())
        .collect();
    assert_eq!(indices, [[0, 0], [0, 2], [0, 2], [1, 2]]);
    let tables = lines
        .iter()
        .filter(|line| line.contains("PIIndex "))
        .count();
    assert_eq!(tables, 3);
}

#[test]
fn damaged_files() {
    let file = assemble("setup\ncontrol stage1\nleaf stage1=401\nleaf").expect("the text is right");
    let words = |bytes: &[u8]| {
        let explanation = explained_file(bytes);
        assert!(explanation.refused);
        let text = explanation.text;
        let (first, second) = text.split_once('\n').expect("there are two lines");
        assert!(first.starts_with("!! refused 13: the file is ill-formed"));
        second.trim().to_string()
    };
    assert_eq!(
        words(b""),
        "field at byte 0 (setup): none, where tag 1 is due"
    );
    assert_eq!(
        words(&file[..54]),
        "field at byte 0 (setup): cut after 51 of 52 bytes"
    );
    assert_eq!(
        words(&file[..96]),
        "field at byte 76 (leaf 1): cut after 17 of 18 bytes"
    );
    let twice = [&file[..], &file[..55]].concat();
    assert_eq!(
        words(&twice),
        "field at byte 97 (leaf 2): tag 1, where tag 2 is due"
    );
    let field = &file[76..];
    let long = [&file[..55], &field.repeat(2049)].concat();
    assert_eq!(
        words(&long),
        "field at byte 43063 (leaf 2048): more than 2048 leaves"
    );
    assert_eq!(
        words(&[0; 1_000_000]),
        "field at byte 0 (setup): tag 0, where tag 1 is due"
    );
    // Every cut but those between fields is refused.
    for length in 0..file.len() {
        let whole = matches!(length, 55 | 76);
        assert_eq!(explained_file(&file[..length]).refused, !whole, "{length}");
    }
}

/// 2,048 leaves of two kinds in turn: each leaf has its line, and the open ones are listed once.
#[test]
fn the_largest_map() {
    let pair = "leaf stage1=747 forbidden=10\nleaf stage1=707 forbidden=10\n";
    let setup = "setup\ncontrol two-levels stage1 indirect unprivileged-overlay\n\
                 pir-privileged 11\npir-unprivileged 58\npor-unprivileged 7\n";
    let lines = lines(&format!("{setup}{}", pair.repeat(1024)));
    assert_eq!(line(&lines, "leaves"), "leaves     2048");
    assert_eq!(
        line(&lines, "forbidden and open"),
        "forbidden and open: 1024 accesses on 1024 leaves"
    );
    for leaf in 0..2048 {
        let states = states(&lines, leaf);
        let expected = ["OPEN", "closed by base code"][leaf % 2];
        assert_eq!(states[4], expected);
    }
    assert_eq!(
        lines.iter().filter(|line| line.ends_with("OPEN")).count(),
        1024
    );
    let start = lines
        .iter()
        .position(|line| line.starts_with("!! unprivileged write    leaves 0, 2, 4,"));
    assert!(start.is_some_and(|start| start < 12));
    assert_eq!(
        line(&lines, "forbidden and open as"),
        "forbidden and open as planned: none"
    );
    // Leaves of one kind share what is said of them.
    let same = format!("{setup}{}", "leaf stage1=747 forbidden=10\n".repeat(2048));
    let lines = self::lines(&same);
    assert_eq!(
        line(&lines, "!! "),
        "!! unprivileged write    leaves 0 to 2047"
    );
    assert_eq!(
        lines.iter().filter(|line| line.ends_with("OPEN")).count(),
        1
    );
    assert_eq!(
        lines
            .iter()
            .filter(|line| line.starts_with("leaf "))
            .count(),
        2048
    );
}

/// A setup that is mostly accepted.
fn some_setup(numbers: &mut Numbers) -> [u8; SETUP_BYTES] {
    let forms = [0, WXN, PAN, WXN | PAN, INDIRECT, PRIVILEGED_OVERLAY];
    let overlays = numbers.pick(&[0, UNPRIVILEGED_OVERLAY, PRIVILEGED_OVERLAY]);
    let mut control = match numbers.below(4) {
        0 => STAGE1 | numbers.pick(&[0, WXN, INDIRECT, PRIVILEGED_OVERLAY]),
        1 => TWO_LEVELS | STAGE1 | STAGE2 | numbers.pick(&forms),
        2 => TWO_LEVELS | numbers.pick(&[0, STAGE2]) | numbers.pick(&forms),
        _ => TWO_LEVELS | STAGE1 | INDIRECT | overlays | numbers.pick(&[0, STAGE2]),
    };
    control |= numbers.pick(&[0, 0, LIMITS_DISABLED, AIE]);
    if numbers.percent(10) {
        control ^= 1 << numbers.below(14);
    }
    let mut setup = [0; SETUP_BYTES];
    setup[..4].copy_from_slice(&control.to_le_bytes());
    for place in register::PIR_PRIVILEGED..=register::POR_UNPRIVILEGED {
        let value: u64 = (0..16).fold(0, |value, slot| {
            let nibble = match place {
                register::PIR_PRIVILEGED => numbers.pick(&[0, 1, 2, 3, 5, 7, 8, 9, 10, 12, 14]),
                register::PIR_UNPRIVILEGED => numbers.pick(&[0, 1, 1, 2, 3, 8, 10]),
                _ => numbers.below(8) as u64,
            };
            value | nibble << (4 * slot)
        });
        setup[4 + 8 * place..12 + 8 * place].copy_from_slice(&value.to_le_bytes());
    }
    setup
}

/// A leaf that is mostly not refused: no dirty state, Device memory.
fn some_leaf(numbers: &mut Numbers, setup: &[u8; SETUP_BYTES]) -> [u8; LEAF_BYTES] {
    let dirty = if setup[0] & INDIRECT as u8 != 0 {
        1 << 7
    } else {
        1 << 51
    };
    let mut leaf = [0; LEAF_BYTES];
    for (place, dirty) in [(0, dirty), (8, 1 << 51)] {
        let mut descriptor = numbers.next() & !(dirty | 15 << 2 | 3 << 8) | 0x401;
        if numbers.percent(8) {
            descriptor &= !numbers.pick(&[1, 0x400]);
        }
        leaf[place..place + 8].copy_from_slice(&descriptor.to_le_bytes());
    }
    leaf[16] = if numbers.percent(50) {
        numbers.below(16) as u8
    } else {
        0
    };
    leaf[17] = numbers.next() as u8 & 63;
    if numbers.percent(4) {
        leaf[numbers.below(LEAF_BYTES)] = numbers.next() as u8;
    }
    leaf
}

/// The letters of a base code, by document 01.
fn code_letters(code: u64) -> &'static str {
    match code {
        0 => "none",
        1 | 8 | 9 => "R",
        2 => "X",
        3 | 10 => "RX",
        5 | 12 => "RW",
        7 | 14 => "RWX",
        _ => panic!("code {code} is refused"),
    }
}

/// The letters of an overlay slot, by document 01: bit 0 R, bit 1 X, bit 2 W.
fn slot_letters(slot: u64) -> &'static str {
    ["none", "R", "X", "RX", "W", "RW", "WX", "RWX"][slot as usize]
}

/// What document 01 lets a leaf pick that is not refused, as lines.
fn expected_picks(
    setup: &[u8; SETUP_BYTES],
    leaf: &[u8; LEAF_BYTES],
) -> Vec<(&'static str, u64, [String; 2])> {
    let number = |bytes: &[u8]| u64::from_le_bytes(bytes.try_into().expect("eight bytes"));
    let control = |bit: u32| number(&setup[..8]) as u32 & bit != 0;
    let register = |place: usize| number(&setup[4 + 8 * place..12 + 8 * place]);
    let descriptor = number(&leaf[..8]);
    let bit = |place: u32| descriptor >> place & 1;
    if !control(STAGE1) || bit(0) == 0 || bit(10) == 0 {
        return Vec::new();
    }
    let mut lines = Vec::new();
    let index = 8 * bit(54) + 4 * bit(53) + 2 * bit(51) + bit(6);
    let codes = [register::PIR_PRIVILEGED, register::PIR_UNPRIVILEGED]
        .map(|place| register(place) >> (4 * index) & 15);
    if control(INDIRECT) {
        let [privileged, unprivileged] =
            codes.map(|code| format!("code {code} {}", code_letters(code)));
        let unprivileged = if control(TWO_LEVELS) {
            unprivileged
        } else {
            String::new()
        };
        lines.push(("PIIndex", index, [privileged, unprivileged]));
    }
    if !control(PRIVILEGED_OVERLAY) && !control(UNPRIVILEGED_OVERLAY) {
        return lines;
    }
    let index = descriptor >> 60 & 7;
    let slots = [
        (PRIVILEGED_OVERLAY, register::POR_PRIVILEGED, codes[0]),
        (UNPRIVILEGED_OVERLAY, register::POR_UNPRIVILEGED, codes[1]),
    ];
    let slots = slots.map(|(on, place, code)| {
        let slot = register(place) >> (4 * index) & 15;
        match control(on) {
            false => String::new(),
            true if control(INDIRECT) && code >= 8 => "overlay does not apply".into(),
            true => format!("slot {slot} {}", slot_letters(slot)),
        }
    });
    lines.push(("POIndex", index, slots));
    lines
}

/// Under Indirect the letters alone tell which accesses the base code and the overlay close.
fn assert_letters_tell(picks: &[(&str, u64, [&str; 2])], causes: [u8; CAUSE_BYTES]) {
    let [("PIIndex", _, codes), slots @ ..] = picks else {
        return;
    };
    let letters = |words: &str| words.rsplit(' ').next().unwrap().to_string();
    for (access, cause) in causes.into_iter().enumerate() {
        let (level, letter) = (access / 3, ['R', 'W', 'X'][access % 3]);
        if codes[level].is_empty() {
            continue;
        }
        let granted = letters(codes[level]).contains(letter);
        let slot = slots.first().map_or("", |(_, _, slots)| slots[level]);
        let overlaid = slot.starts_with("slot") && !letters(slot).contains(letter);
        assert_eq!(cause == 1, !granted, "{picks:?} {causes:?}");
        assert_eq!(cause == 8, granted && overlaid, "{picks:?} {causes:?}");
    }
}

/// The number of a cause, from what an explanation says.
fn cause_number(state: &str) -> u8 {
    if state.eq_ignore_ascii_case("open") {
        return 0;
    }
    match state.strip_prefix("closed by ").expect("open or closed") {
        "AP" | "base code" => 1,
        "APTable" => 2,
        "PXN" | "UXN" | "XN" => 3,
        "PXNTable" | "UXNTable" | "XNTable" => 4,
        "unprivileged write" => 5,
        "WXN" => 6,
        "PAN" => 7,
        "overlay" => 8,
        "stage 2's S2AP" => 9,
        "stage 2's XN" => 10,
        "stage 1's Translation fault" => 11,
        "stage 1's Access flag fault" => 12,
        "stage 2's Translation fault" => 13,
        "stage 2's Access flag fault" => 14,
        other => panic!("unknown words {other}"),
    }
}

const ACCESSES: [&str; 6] = [
    "privileged read",
    "privileged write",
    "privileged execute",
    "unprivileged read",
    "unprivileged write",
    "unprivileged execute",
];

/// What is said of the planned registers, in lines with one blank between words.
fn planned_lines(lines: &[String]) -> Vec<String> {
    let part = lines.iter().skip_while(|line| !line.starts_with("planned"));
    let part = part.skip(1).take_while(|line| !line.is_empty());
    part.map(|line| line.split_whitespace().collect::<Vec<_>>().join(" "))
        .collect()
}

/// The same by the reference: each register, and the accesses whose answer it changes.
fn expected_plans(setup: &[u8; SETUP_BYTES], leaves: &[[u8; LEAF_BYTES]]) -> Vec<String> {
    let mut lines = Vec::new();
    for (level, name) in ["privileged", "unprivileged"].into_iter().enumerate() {
        let value = match plan(setup, level as u64, leaves.as_flattened()) {
            Ok(value) => value,
            Err(refusal) => {
                let number = sonsiplex::Number::new(refusal.number).expect("it is known");
                let leaf = number
                    .is_of_a_leaf()
                    .then(|| format!(" leaf {}", refusal.leaf));
                let leaf = leaf.unwrap_or_default();
                lines.push(format!("{name} refused {}{leaf}: {number}", refusal.number));
                continue;
            }
        };
        let mut with = *setup;
        let place = 4 + 8 * (register::POR_PRIVILEGED + level);
        let now = u64::from_le_bytes(with[place..place + 8].try_into().expect("eight bytes"));
        with[place..place + 8].copy_from_slice(&value.to_le_bytes());
        lines.push(format!("{name} {value:016x} in place of {now:016x}"));
        let changes = changes(setup, &with, leaves);
        if changes.is_empty() {
            lines.push("closes and opens nothing".into());
        }
        lines.extend(changes);
    }
    lines
}

/// What the second setup closes, opens and refuses.
fn changes(
    now: &[u8; SETUP_BYTES],
    then: &[u8; SETUP_BYTES],
    leaves: &[[u8; LEAF_BYTES]],
) -> Vec<String> {
    let open = |setup: &[u8], leaf: &[u8], access| judge(setup, leaf, access).is_ok();
    let refused =
        |leaf: &[u8], access, number| judge(then, leaf, access) == Err(Stop::Refused(number));
    type Test<'a> = &'a dyn Fn(&[u8], u64) -> bool;
    let rows: [(&str, Test); 4] = [
        ("closes", &|leaf, access| {
            open(now, leaf, access) && !open(then, leaf, access)
        }),
        ("opens", &|leaf, access| {
            open(then, leaf, access) && !open(now, leaf, access)
        }),
        ("refused 8", &|leaf, access| refused(leaf, access, 8)),
        ("refused 9", &|leaf, access| refused(leaf, access, 9)),
    ];
    let mut lines = Vec::new();
    for (verb, test) in rows {
        for (forbidden, access) in [true, false]
            .into_iter()
            .flat_map(|forbidden| (0..6).map(move |access| (forbidden, access)))
        {
            let changed = leaves.iter().enumerate().filter(|(_, leaf)| {
                (leaf[17] >> access & 1 == 1) == forbidden && test(*leaf, access)
            });
            let places: Vec<usize> = changed.map(|(place, _)| place).collect();
            if places.is_empty() {
                continue;
            }
            let word = if forbidden { "forbidden " } else { "" };
            let noun = if places.len() == 1 { "leaf" } else { "leaves" };
            let access = ACCESSES[access as usize];
            lines.push(format!("{verb} {access} {word}{noun} {}", in_runs(&places)));
        }
    }
    lines
}

/// `0, 2 to 4`.
fn in_runs(places: &[usize]) -> String {
    let alone = |&&place: &&usize| place == 0 || !places.contains(&(place - 1));
    let run = |&first: &usize| {
        let last = (first..).take_while(|place| places.contains(place)).last();
        match last {
            Some(last) if last > first => format!("{first} to {last}"),
            _ => first.to_string(),
        }
    };
    let runs: Vec<String> = places.iter().filter(alone).map(run).collect();
    runs.join(", ")
}

/// Random maps: what an explanation says of each leaf is what the reference finds, and the counts of
/// open forbidden accesses are those of the listing.
#[test]
fn random_maps_read_back() {
    let mut numbers = Numbers::new(5);
    let (mut done, mut refused, mut picked) = (0, 0, 0);
    for _ in 0..3_000 {
        let setup = some_setup(&mut numbers);
        let count = numbers.below(9);
        let mut leaves: Vec<_> = (0..count)
            .map(|_| some_leaf(&mut numbers, &setup))
            .collect();
        // Neighbours that are alike.
        if count > 1 && numbers.percent(30) {
            let place = numbers.below(count - 1);
            leaves[place + 1] = leaves[place];
        }
        let bytes = MapFile {
            setup,
            leaves: leaves.clone(),
        }
        .write();
        let explanation = explained_file(&bytes);
        let listing = listing(&bytes);
        assert_eq!(explanation.refused, listing.starts_with("refused"));
        if explanation.refused {
            let line = listing.trim_end();
            let start = format!("!! {line}: ");
            assert!(explanation.text.contains(&start), "{}", explanation.text);
            refused += 1;
            continue;
        }
        done += 1;
        let lines: Vec<String> = explanation.text.lines().map(str::to_string).collect();
        let mut open = 0;
        for (index, leaf) in leaves.iter().enumerate() {
            let found = leaf_rights(&setup, leaf).expect("the list is not refused");
            let states = states(&lines, index);
            let judged = if setup[0] & 1 == 1 { 6 } else { 3 };
            assert_eq!(states.len(), judged);
            let mut causes = [0; CAUSE_BYTES];
            for (access, state) in states.iter().enumerate() {
                causes[access] = cause_number(state);
                let forbidden = leaf[17] >> access & 1 == 1;
                assert_eq!(state == "OPEN", causes[access] == 0 && forbidden);
                open += u32::from(state == "OPEN");
            }
            assert_eq!(causes, found.causes);
            let picks = pick_lines(&lines, index);
            let shown = picks
                .iter()
                .map(|(name, index, levels)| (*name, *index, levels.map(str::to_string)));
            assert_eq!(shown.collect::<Vec<_>>(), expected_picks(&setup, leaf));
            assert_letters_tell(&picks, causes);
            picked += picks.len();
        }
        let common = listing.lines().skip(1).take(count);
        let common = common.map(|line| line.rsplit(' ').next().unwrap().parse::<u8>().unwrap());
        assert_eq!(open, common.map(u8::count_ones).sum::<u32>());
        let summary = line(&lines, "forbidden and open: ");
        let start = match open {
            0 => "forbidden and open: none".to_string(),
            1 => "forbidden and open: 1 access on 1 leaf".to_string(),
            _ => format!("forbidden and open: {open} accesses on "),
        };
        assert!(summary.starts_with(&start), "{summary} {open}");
        assert_eq!(planned_lines(&lines), expected_plans(&setup, &leaves));
    }
    assert!(done > 1_000 && refused > 100, "{done} {refused}");
    assert!(picked > 2_000, "{picked}");
}
