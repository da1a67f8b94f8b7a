//! Checks model images from files in one call and prints for each its number, its answer and each
//! diagnostic's fields. Usage: batch FILE..

use std::process::ExitCode;

fn main() -> ExitCode {
    let mut batch = Vec::new();
    for name in std::env::args_os().skip(1) {
        let image = match std::fs::read(&name) {
            Ok(image) => image,
            Err(e) => {
                eprintln!("batch: cannot read {}: {e}", name.display());
                return ExitCode::from(2);
            }
        };
        if let Err(e) = oce::push_image(&mut batch, &image) {
            eprintln!("batch: {}: {e}", name.display());
            return ExitCode::from(2);
        }
    }
    // the first call has no room for an output: where one is needed, the refusal tells its size
    let mut output = Vec::new();
    let mut answer = oce::check_batch(&batch, &mut output);
    if let Err(oce::BatchRefusal::OutputShort { needed }) = answer {
        output.resize(needed, 0);
        answer = oce::check_batch(&batch, &mut output);
    }
    let written = match answer {
        Ok(written) => written,
        Err(refusal) => {
            println!("{refusal}");
            return ExitCode::FAILURE;
        }
    };
    let mut loadable = true;
    for (number, result) in oce::results(&output[..written]).enumerate() {
        println!("image {number}");
        match result {
            Err(refusal) => {
                println!("{refusal}");
                loadable = false;
            }
            Ok((oce::Checked { errors, warnings }, diagnostics)) => {
                println!("errors {errors} warnings {warnings}");
                for diagnostic in diagnostics {
                    println!("{diagnostic}");
                }
                loadable &= errors == 0;
            }
        }
    }
    println!("bytes of the output {written}");
    ExitCode::from(u8::from(!loadable))
}
