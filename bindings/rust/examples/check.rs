//! Checks a model image from a file and prints the answer and each diagnostic's fields.
//! Usage: check FILE

use std::process::ExitCode;

fn main() -> ExitCode {
    let mut arguments = std::env::args_os().skip(1);
    let (Some(name), None) = (arguments.next(), arguments.next()) else {
        eprintln!("check: usage: check FILE");
        return ExitCode::from(2);
    };
    let image = match std::fs::read(&name) {
        Ok(image) => image,
        Err(e) => {
            eprintln!("check: cannot read {}: {e}", name.display());
            return ExitCode::from(2);
        }
    };
    match oce::check_image(&image) {
        Err(refusal) => {
            println!("{refusal}");
            ExitCode::FAILURE
        }
        Ok(outcome) => {
            let oce::Checked { errors, warnings } = outcome.checked;
            println!("errors {errors} warnings {warnings}");
            for diagnostic in &outcome.diagnostics {
                println!("{diagnostic}");
            }
            let both = outcome.filled.iter().zip(&image);
            let differ = both.filter(|(filled, given)| filled != given).count();
            println!("filled bytes that differ from the image {differ}");
            ExitCode::from(u8::from(errors != 0))
        }
    }
}
