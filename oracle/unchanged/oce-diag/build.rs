#[path = "../copy.rs"]
mod copy;

fn main() {
    copy::copy_crate("oce-diag", &[]);
}
