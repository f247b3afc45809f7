//! Text and file: round trips on random files, and every error.

use mapfile::{assemble, listing, show, MapFile};
use numbers::Numbers;

/// Random bytes, or all zeros.
fn bytes<const N: usize>(numbers: &mut Numbers) -> [u8; N] {
    if numbers.percent(12) {
        return [0; N];
    }
    std::array::from_fn(|_| numbers.next() as u8)
}

fn file(numbers: &mut Numbers, leaves: usize) -> MapFile {
    MapFile {
        setup: bytes(numbers),
        leaves: (0..leaves).map(|_| bytes(numbers)).collect(),
    }
}

#[test]
fn a_file_shown_and_assembled_is_itself() {
    let mut numbers = Numbers::new(1);
    for round in 0..2_000 {
        let leaves = if round == 0 { 2048 } else { numbers.below(12) };
        let file = file(&mut numbers, leaves);
        let bytes = file.write();
        assert_eq!(bytes.len(), 55 + 21 * leaves);
        assert_eq!(MapFile::read(&bytes), Ok(file.clone()));
        assert_eq!(assemble(&show(&file)), Ok(bytes));
    }
}

/// Well-formed by document 01, said without reading fields one by one.
fn well_formed(bytes: &[u8]) -> bool {
    let Some((setup, leaves)) = bytes.split_at_checked(55) else {
        return false;
    };
    let fields = leaves.chunks_exact(21);
    setup.starts_with(&[1, 52, 0])
        && fields.len() <= 2048
        && fields.remainder().is_empty()
        && leaves
            .chunks(21)
            .all(|field| field.starts_with(&[2, 18, 0]))
}

#[test]
fn damaged_files_are_refused() {
    let mut numbers = Numbers::new(2);
    let (mut good, mut bad) = (0, 0);
    for _ in 0..20_000 {
        let leaves = numbers.below(5);
        let mut bytes = file(&mut numbers, leaves).write();
        let place = numbers.below(bytes.len());
        match numbers.below(4) {
            0 => bytes[place] = numbers.next() as u8,
            1 => bytes.truncate(place),
            2 => _ = bytes.remove(place),
            _ => bytes.insert(place, numbers.below(4) as u8),
        }
        match MapFile::read(&bytes) {
            Ok(file) => assert_eq!((file.write(), well_formed(&bytes)), (bytes, true)),
            Err(damage) => {
                assert!(!well_formed(&bytes), "{damage}");
                assert_eq!(listing(&bytes), "refused 13\n");
                bad += 1;
                continue;
            }
        }
        good += 1;
    }
    assert!(good > 1_000 && bad > 1_000, "{good} {bad}");
}

#[test]
fn each_damage_says_what_and_where() {
    let long = file(&mut Numbers::new(3), 2049).write();
    let file = file(&mut Numbers::new(3), 2).write();
    let with = |place: usize, byte: u8| {
        let mut bytes = file.clone();
        bytes[place] = byte;
        bytes
    };
    let twice = [&file[..55], &file[..55]].concat();
    let cases = [
        (vec![], "byte 0: none, where tag 1 is due"),
        (file[..2].to_vec(), "byte 0: cut within its tag and length"),
        (file[..54].to_vec(), "byte 0: cut after 51 of 52 bytes"),
        (with(0, 2), "byte 0: tag 2, where tag 1 is due"),
        (with(1, 18), "byte 0: length 18, where tag 1 has 52 bytes"),
        (with(2, 1), "byte 0: length 308, where tag 1 has 52 bytes"),
        (with(76, 3), "byte 76: tag 3, where tag 2 is due"),
        (with(77, 17), "byte 76: length 17, where tag 2 has 18 bytes"),
        (file[..96].to_vec(), "byte 76: cut after 17 of 18 bytes"),
        (twice, "byte 55: tag 1, where tag 2 is due"),
        (long, "byte 43063: more than 2048 leaves"),
    ];
    for (bytes, what) in cases {
        let damage = MapFile::read(&bytes).unwrap_err().to_string();
        assert_eq!(damage, format!("refused 13: field at {what}"));
    }
}

#[test]
fn text_by_name() {
    let text = "
        # the listing's first leaf
        setup
          control two-levels stage1 0x28   # Indirect and unprivileged overlay
          pir-privileged 0x11
          pir-unprivileged 58
          por-unprivileged 0000000000000000000007
        leaf forbidden=10 stage1=747
        bytes 2 12";
    let bytes = assemble(text).unwrap();
    let mut setup = [0; 52];
    (setup[0], setup[20], setup[28], setup[44]) = (0x2B, 0x11, 0x58, 7);
    let mut leaf = [0; 18];
    (leaf[0], leaf[1], leaf[17]) = (0x47, 7, 16);
    let fields: [&[u8]; 5] = [&[1, 52, 0], &setup, &[2, 18, 0], &leaf, &[2, 0x12]];
    assert_eq!(bytes, fields.concat());
}

#[test]
fn shown_text() {
    let bytes = assemble("setup\ncontrol stage1 aie 0xA000\nleaf stage1=747 forbidden=10").unwrap();
    let text = show(&MapFile::read(&bytes).unwrap());
    let zeros = "0000000000000000";
    let expected = format!(
        "setup\n  control stage1 aie 0xa000\n  mair {zeros}\n  mair2 {zeros}\n  \
         pir-privileged {zeros}\n  pir-unprivileged {zeros}\n  por-privileged {zeros}\n  \
         por-unprivileged {zeros}\n\
         leaf stage1=0000000000000747 stage2={zeros} limits=00 forbidden=10\n"
    );
    assert_eq!(text, expected);
    let nothing = show(&MapFile::read(&assemble("setup").unwrap()).unwrap());
    assert!(nothing.starts_with("setup\n  control 0x0\n"));
}

/// Each wrong text with its error.
const WRONG: [(&str, &str); 29] = [
    ("", "line 1: no setup"),
    ("# nothing\n\n", "line 2: no setup"),
    ("leaf stage1=1", "line 1: 'leaf' before the setup"),
    ("\nmair 0\nsetup", "line 2: 'mair' before the setup"),
    ("setup now", "line 1: words after 'setup'"),
    ("setup\nsetup", "line 2: 'setup' a second time"),
    (
        "setup\nleaf\nmair 0",
        "line 3: 'mair' after the setup's end",
    ),
    (
        "setup\nbytes 1\ncontrol pan",
        "line 3: 'control' after the setup's end",
    ),
    ("setup\npage 1", "line 2: unknown word 'page'"),
    ("setup\nmair", "line 2: 'mair' takes one hex number"),
    ("setup\nmair 1 2", "line 2: 'mair' takes one hex number"),
    ("setup\nmair 1\nmair 1", "line 3: 'mair' a second time"),
    ("setup\nmair 1g", "line 2: '1g' is not a hex number"),
    ("setup\nmair 0x", "line 2: '0x' is not a hex number"),
    ("setup\nmair +1", "line 2: '+1' is not a hex number"),
    (
        "setup\nmair 10000000000000000",
        "line 2: '10000000000000000' has more than 64 bits",
    ),
    (
        "setup\ncontrol",
        "line 2: 'control' takes names of bits or hex numbers with 0x",
    ),
    (
        "setup\ncontrol stage3",
        "line 2: unknown control bit 'stage3'",
    ),
    ("setup\ncontrol 2b", "line 2: unknown control bit '2b'"),
    (
        "setup\ncontrol 0x100000000",
        "line 2: '0x100000000' has more than 32 bits",
    ),
    (
        "setup\ncontrol stage1 0x3",
        "line 2: control bit of '0x3' a second time",
    ),
    (
        "setup\ncontrol pan\ncontrol wxn",
        "line 3: 'control' a second time",
    ),
    ("setup\nleaf 747", "line 2: '747' is not FIELD=HEX"),
    ("setup\nleaf stage3=0", "line 2: unknown field 'stage3'"),
    ("setup\nleaf stage1=", "line 2: '' is not a hex number"),
    (
        "setup\nleaf limits=100",
        "line 2: '100' has more than 8 bits",
    ),
    (
        "setup\nleaf limits=1 limits=1",
        "line 2: 'limits' a second time",
    ),
    ("setup\nbytes", "line 2: no byte after 'bytes'"),
    ("setup\nbytes 100", "line 2: '100' has more than 8 bits"),
];

#[test]
fn each_text_error_names_its_line() {
    for (text, error) in WRONG {
        assert_eq!(assemble(text).unwrap_err().to_string(), error, "{text:?}");
    }
    let long = format!("setup\n{}", "leaf\n".repeat(2049));
    let error = assemble(&long).unwrap_err().to_string();
    assert_eq!(error, "line 2050: more than 2048 leaves");
}

#[test]
fn refusals_in_a_listing() {
    let list = |text: &str| listing(&assemble(text).unwrap());
    assert_eq!(list("setup\ncontrol 0x2000"), "refused 1\n");
    assert_eq!(
        list("setup\ncontrol two-levels stage1 indirect\npir-privileged 4\nleaf\nleaf stage1=401"),
        "refused 6 leaf 1\n"
    );
    assert_eq!(
        list("setup"),
        "leaves 0\nprivileged refused 12\nunprivileged refused 12\n"
    );
}
