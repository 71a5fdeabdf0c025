//! Links the proved code: `bench/run` names its object file.

fn main() {
    println!("cargo:rerun-if-env-changed=PROVED_OBJECT");
    let object = std::env::var("PROVED_OBJECT").expect("bench/run builds this program");
    println!("cargo:rerun-if-changed={object}");
    println!("cargo:rustc-link-arg={object}");
}
