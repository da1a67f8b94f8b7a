//! Bad input to a tool: one clear line, a non-zero exit, no panic.

use std::io::Write;
use std::process::{Command, Output, Stdio};

fn run(program: &str, arguments: &[&str], input: &[u8]) -> Output {
    let mut child = Command::new(program)
        .args(arguments)
        .stdin(Stdio::piped())
        .stdout(Stdio::piped())
        .stderr(Stdio::piped())
        .spawn()
        .expect("the tool starts");
    let mut stdin = child.stdin.take().expect("a pipe");
    // A tool that stops early closes the pipe.
    let _ = stdin.write_all(input);
    drop(stdin);
    child.wait_with_output().expect("the tool ends")
}

#[test]
fn bad_arguments_give_one_line() {
    let (oracle, coverage) = (env!("CARGO_BIN_EXE_oracle"), env!("CARGO_BIN_EXE_coverage"));
    let (stored, generate) = (env!("CARGO_BIN_EXE_stored"), env!("CARGO_BIN_EXE_generate"));
    let bench = env!("CARGO_BIN_EXE_bench");
    let cases: [(&str, &[&str]); 12] = [
        (oracle, &["image"]),
        (coverage, &[]),
        (coverage, &["1"]),
        (coverage, &["x", "5"]),
        (coverage, &["1", "-5"]),
        (stored, &[]),
        (stored, &["read", "."]),
        (stored, &["check", "no such folder"]),
        (generate, &["1"]),
        (generate, &["bench", "10000"]),
        (bench, &["0"]),
        (bench, &["1", "2"]),
    ];
    for (program, arguments) in cases {
        let output = run(program, arguments, b"");
        let line = String::from_utf8_lossy(&output.stderr);
        assert!(!output.status.success(), "{arguments:?}");
        assert_eq!(line.lines().count(), 1, "{line}");
        assert!(!line.contains("panicked"), "{line}");
        assert!(output.stdout.is_empty());
    }
}

#[test]
fn any_image_is_answered() {
    for image in [&b""[..], b"no image at all, but text", &[0xFF; 70_000]] {
        let output = run(env!("CARGO_BIN_EXE_oracle"), &[], image);
        assert!(output.status.success());
        assert!(output.stdout.starts_with(b"refused "));
        assert!(output.stderr.is_empty());
    }
}
