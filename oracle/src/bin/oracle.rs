//! Reads an image from standard input and prints the oracle's answer.

use std::io::Read;
use std::process::ExitCode;

use oracle::answer::answer;
use oracle::format::MAX_IMAGE;
use oracle::printed::print;
use oracle::tool;

fn main() -> ExitCode {
    tool::run("oracle", |arguments| {
        if let Some(argument) = arguments.first() {
            return Err(format!(
                "takes no argument, got {argument:?}; the image comes on standard input"
            ));
        }
        // One byte beyond the longest image is enough to notice that it is too long.
        let mut image = Vec::new();
        std::io::stdin()
            .lock()
            .take(MAX_IMAGE as u64 + 1)
            .read_to_end(&mut image)
            .map_err(|e| format!("cannot read standard input: {e}"))?;
        Ok(print(&answer(&image)).into_bytes())
    })
}
