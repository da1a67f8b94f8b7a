#[path = "../copy.rs"]
mod copy;

fn main() {
    copy::copy_crate(
        "oce-validate",
        &[
            ("lib.rs", "lib.rs"),
            ("params_finite.rs", "rules/params_finite.rs"),
        ],
    );
}
