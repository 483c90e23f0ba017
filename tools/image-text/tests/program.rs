//! The program: files, standard input, messages and exit statuses.

mod common;

use common::{case, stored};
use std::io::Write;
use std::path::PathBuf;
use std::process::{Command, Stdio};

// Exit status, standard output and standard error.
fn run(arguments: &[&str], input: &[u8]) -> (i32, Vec<u8>, String) {
    let mut command = Command::new(env!("CARGO_BIN_EXE_image-text"));
    command.args(arguments).stdin(Stdio::piped()).stdout(Stdio::piped()).stderr(Stdio::piped());
    let mut child = command.spawn().unwrap();
    // A wrong command ends without reading.
    let _ = child.stdin.take().unwrap().write_all(input);
    let output = child.wait_with_output().unwrap();
    (output.status.code().unwrap(), output.stdout, String::from_utf8(output.stderr).unwrap())
}

fn image(wanted: &str) -> Vec<u8> {
    stored().into_iter().find(|(label, ..)| label == wanted).unwrap().2
}

fn path(name: &str) -> String {
    let cases = PathBuf::from(env!("CARGO_MANIFEST_DIR")).join("tests/cases");
    cases.join(name).to_str().unwrap().to_string()
}

#[test]
fn prints_and_reads() {
    let (example, text) = (image("example"), case("example.txt"));
    assert_eq!(run(&[], &example), (0, text.clone(), String::new()));
    assert_eq!(run(&["-"], &example), (0, text.clone(), String::new()));
    assert_eq!(run(&["--read"], &text), (0, example.clone(), String::new()));
    assert_eq!(run(&["--read", &path("example.txt")], b""), (0, example.clone(), String::new()));
    let (status, out, _) = run(&["--offsets"], &example);
    assert_eq!((status, String::from_utf8(out).unwrap().contains("@14 x@15:T; // byte 67\n")), (0, true));
}

#[test]
fn says_what_is_wrong() {
    let unknown = image("smallest with a generic receiver");
    let message = "image-text: standard input: fault 11 at byte 38: a call with a generic receiver\n";
    assert_eq!(run(&[], &unknown), (1, vec![], message.into()));
    let message = "image-text: standard input: line 2, column 1: expected `names`, found `types`\n";
    assert_eq!(run(&["--read"], b"image version 1\ntypes"), (1, vec![], message.into()));
    let (status, out, message) = run(&["no/such/file"], b"");
    assert_eq!((status, out.len(), message.starts_with("image-text: no/such/file: ")), (1, 0, true));
    for wrong in [&["--red"][..], &["--diff", "one"], &["one", "two"], &["--diff", "--read", "one", "two"], &["--read", "--offsets"]] {
        let (status, out, message) = run(wrong, b"");
        assert_eq!((status, out.len(), message.starts_with("usage: ")), (2, 0, true));
    }
}

#[test]
fn compares() {
    let (submitted, returned) = (path("submitted.txt"), path("returned.txt"));
    assert_eq!(run(&["--diff", &submitted, &returned], b""), (0, case("diff.txt"), String::new()));
    let (_, returned_image, _) = run(&["--read", &returned], b"");
    assert_eq!(run(&["--diff", &submitted, "-"], &returned_image), (0, case("diff.txt"), String::new()));
    let (status, out, message) = run(&["--diff", "-", &submitted], &returned_image);
    assert_eq!((status, out.is_empty()), (1, false));
    let reason = "the statement at byte 92 of the returned image is neither a submitted one nor an inserted delete";
    assert_eq!(message, format!("image-text: {submitted} is not standard input with insertions: {reason}\n"));
}
