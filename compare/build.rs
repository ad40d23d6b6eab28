//! Finds the static library `pondreszi` as the Rust crate does.

#[path = "../bindings/rust/build.rs"]
mod found;

fn main() {
    found::main();
}
