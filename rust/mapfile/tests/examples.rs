//! The example maps: their files are what their texts give, their outputs what the reference judge
//! lists, and their explanations what the proved library gives.

use mapfile::{assemble, explain, listing, show, MapFile};
use std::fs;
use std::path::{Path, PathBuf};

fn folder() -> PathBuf {
    Path::new(env!("CARGO_MANIFEST_DIR")).join("../../examples")
}

/// The names of the maps, by their texts.
fn names() -> Vec<String> {
    let entries = fs::read_dir(folder()).expect("the examples are there");
    let name = |entry: std::io::Result<fs::DirEntry>| {
        let name = entry.expect("an entry is read").file_name();
        let name = name.to_str().expect("names are plain text").to_string();
        name.strip_suffix(".map.txt").map(str::to_string)
    };
    entries.filter_map(name).collect()
}

fn read(name: &str, ending: &str) -> Vec<u8> {
    let path = folder().join(format!("{name}{ending}"));
    fs::read(&path).unwrap_or_else(|error| panic!("{name}{ending}: {error}"))
}

#[test]
fn files_and_outputs() {
    let names = names();
    assert!(names.len() >= 9, "{names:?}");
    for name in names {
        let text = String::from_utf8(read(&name, ".map.txt")).expect("texts are UTF-8");
        let file = read(&name, ".map");
        assert_eq!(assemble(&text), Ok(file.clone()), "{name}");
        let output = String::from_utf8(read(&name, ".out")).expect("outputs are UTF-8");
        assert_eq!(listing(&file), output, "{name}");
        let words = String::from_utf8(read(&name, ".explain")).expect("explanations are UTF-8");
        let explanation = explain(&file);
        assert_eq!(explanation.text, words, "{name}");
        assert_eq!(explanation.refused, output.starts_with("refused"), "{name}");
        if let Ok(map) = MapFile::read(&file) {
            assert_eq!(assemble(&show(&map)), Ok(file), "{name}");
        }
    }
}

/// Document 01's own text.
#[test]
fn the_listing() {
    let expected = "leaves 2\n0 25 16 16\n1 9 16 0\nprivileged refused 12\n\
                    unprivileged 0000000077777773\n";
    assert_eq!(listing(&read("listing", ".map")), expected);
}

/// Each cause closes an access in some example.
#[test]
fn every_cause_is_shown() {
    let mut shown = Vec::new();
    for name in names() {
        let text = explain(&read(&name, ".map")).text;
        let Some((_, causes)) = text.split_once("\ncauses met") else {
            continue;
        };
        let numbers = causes.lines().filter_map(|line| line.get(..5));
        shown.extend(numbers.filter_map(|number| number.trim().parse::<u8>().ok()));
    }
    for &cause in sonsiplex::Cause::ALL {
        assert!(shown.contains(&(cause as u8)), "{cause}: {shown:?}");
    }
}

/// The lines of explanations that the repository's README shows, below the command that gives them,
/// are those of the example, and in its order.
#[test]
fn the_explanation_in_the_readme() {
    let text = fs::read_to_string(folder().join("../README.md")).expect("the README is there");
    let section = text
        .split("\n## ")
        .find(|part| part.starts_with("Explaining a map"));
    let shown = section.expect("it explains a map").lines();
    let shown = shown.filter_map(|line| line.strip_prefix("    "));
    let (mut maps, mut found) = (0, 0);
    let mut explanation = Vec::new().into_iter();
    for line in shown.filter(|line| !line.contains("rt lib")) {
        if let Some((_, map)) = line.split_once(" explain ../examples/") {
            let name = map.strip_suffix(".map").expect("a map is explained");
            let text = explain(&read(name, ".map")).text;
            let lines: Vec<String> = text.lines().map(str::to_string).collect();
            explanation = lines.into_iter();
            maps += 1;
            continue;
        }
        assert!(explanation.any(|said| said == line), "{line}");
        found += 1;
    }
    assert!(maps == 2 && found > 20, "{maps} {found}");
}
