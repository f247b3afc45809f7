//! The command-line tool: standard input and output, named files, errors.

use std::fs;
use std::io::Write;
use std::process::{Command, Output, Stdio};

fn run(arguments: &[&str], input: &[u8]) -> Output {
    let mut child = Command::new(env!("CARGO_BIN_EXE_mapfile"))
        .args(arguments)
        .stdin(Stdio::piped())
        .stdout(Stdio::piped())
        .stderr(Stdio::piped())
        .spawn()
        .expect("the tool starts");
    let mut stdin = child.stdin.take().expect("its input is a pipe");
    // A tool that stops early closes the pipe, which is no fault of the test.
    let _ = stdin.write_all(input);
    drop(stdin);
    child.wait_with_output().expect("the tool ends")
}

const TEXT: &[u8] = b"setup\n  control stage1\nleaf stage1=747\n";

#[test]
fn through_pipes() {
    let file = run(&["assemble"], TEXT);
    assert!(file.status.success());
    assert_eq!(file.stdout.len(), 55 + 21);
    let text = run(&["show"], &file.stdout);
    let again = run(&["assemble"], &text.stdout);
    assert_eq!(again.stdout, file.stdout);
}

#[test]
fn through_named_files() {
    let folder = env!("CARGO_TARGET_TMPDIR");
    let [text, file] = ["command.map.txt", "command.map"].map(|name| format!("{folder}/{name}"));
    fs::write(&text, TEXT).expect("the folder takes files");
    assert!(run(&["assemble", &text, &file], b"").status.success());
    let bytes = fs::read(&file).expect("the file is there");
    for command in ["show", "explain"] {
        let named = run(&[command, &file], b"");
        let piped = run(&[command], &bytes);
        assert_eq!(named.stdout, piped.stdout);
        let output = format!("{folder}/command.{command}");
        let written = run(&[command, &file, &output], b"");
        assert!(written.status.success() && written.stdout.is_empty());
        assert_eq!(fs::read(&output).expect("the file is there"), piped.stdout);
    }
}

#[test]
fn exit_status_of_explain() {
    let file = run(&["assemble"], TEXT).stdout;
    let explained = run(&["explain"], &file);
    assert_eq!(explained.status.code(), Some(0));
    assert!(explained.stdout.starts_with(b"setup      stage1\n"));
    // A refused map is explained too: a reserved control bit, a file cut short, no file.
    let refused = run(&["assemble"], b"setup\n  control 0x2000").stdout;
    for (bytes, number) in [(&refused[..], "1"), (&file[..70], "13"), (b"", "13")] {
        let explained = run(&["explain"], bytes);
        assert_eq!(explained.status.code(), Some(3));
        assert!(explained.stderr.is_empty());
        let words = String::from_utf8(explained.stdout).expect("words are UTF-8");
        assert!(words.contains(&format!("!! refused {number}: ")), "{words}");
    }
    let code = |arguments: &[&str]| run(arguments, &file).status.code();
    assert_eq!(code(&["explain", "no such file"]), Some(1));
    let folder = env!("CARGO_TARGET_TMPDIR");
    let nowhere = format!("{folder}/no such folder/words");
    let name = format!("{folder}/status.map");
    fs::write(&name, &file).expect("the folder takes files");
    assert_eq!(code(&["explain", &name, &nowhere]), Some(1));
    assert_eq!(code(&["explain", "a", "b", "c"]), Some(2));
}

/// A reader that closes its end early ends the tool without an error.
#[test]
fn a_closed_pipe() {
    let long = format!("setup\n{}", "leaf\nleaf forbidden=1\n".repeat(1024));
    let file = run(&["assemble"], long.as_bytes()).stdout;
    let folder = env!("CARGO_TARGET_TMPDIR");
    let name = format!("{folder}/closed.map");
    fs::write(&name, &file).expect("the folder takes files");
    let mut child = Command::new(env!("CARGO_BIN_EXE_mapfile"))
        .args(["explain", &name])
        .stdout(Stdio::piped())
        .stderr(Stdio::piped())
        .spawn()
        .expect("the tool starts");
    drop(child.stdout.take());
    let output = child.wait_with_output().expect("the tool ends");
    assert_eq!((output.status.code(), output.stderr), (Some(0), vec![]));
}

#[test]
fn errors() {
    let error = |output: Output| (output.status.code(), output.stderr);
    let (code, words) = error(run(&["show"], b"\x01\x34"));
    assert_eq!(code, Some(1));
    assert_eq!(
        words,
        b"mapfile: refused 13: field at byte 0: cut within its tag and length\n"
    );
    let (code, words) = error(run(&["assemble"], b"leaf"));
    assert_eq!(code, Some(1));
    assert_eq!(words, b"mapfile: line 1: 'leaf' before the setup\n");
    assert_eq!(error(run(&["assemble"], b"\xFF")).0, Some(1));
    assert_eq!(error(run(&["show", "no such file"], b"")).0, Some(1));
    assert_eq!(error(run(&[], b"")).0, Some(2));
    assert!(run(&["--help"], b"").status.success());
}
