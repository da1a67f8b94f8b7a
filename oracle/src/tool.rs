//! What the programs share: the result goes to standard output, a fault is one line and a
//! non-zero exit.

use std::io::Write;
use std::process::ExitCode;

/// Run a program on its arguments.
pub fn run(name: &str, program: impl FnOnce(&[String]) -> Result<Vec<u8>, String>) -> ExitCode {
    let arguments: Vec<String> = std::env::args().skip(1).collect();
    let done = program(&arguments).and_then(|out| {
        let mut stdout = std::io::stdout();
        let written = stdout.write_all(&out).and_then(|()| stdout.flush());
        written.map_err(|e| format!("cannot write: {e}"))
    });
    match done {
        Ok(()) => ExitCode::SUCCESS,
        Err(message) => {
            eprintln!("{name}: {message}");
            ExitCode::FAILURE
        }
    }
}

/// Read a number of 64 bits.
pub fn number(what: &str, text: &str) -> Result<u64, String> {
    text.parse()
        .map_err(|_| format!("{what} must be a number from 0 to 2^64 - 1, got {text:?}"))
}
