#[path = "../copy.rs"]
mod copy;

fn main() {
    copy::copy_crate(
        "oce-model",
        &[
            ("types.rs", "types.rs"),
            ("determinism.rs", "determinism.rs"),
        ],
    );
}
