//! Says which kit proved the libraries: `command/cargo` names it in POILURES_KIT.
use std::env;

fn main() {
    println!("cargo::rerun-if-env-changed=POILURES_KIT");
    let kit = env::var("POILURES_KIT").unwrap_or_else(|_| "a kit that was not named".into());
    println!("cargo::rustc-env=POILURES_KIT={kit}");
}
