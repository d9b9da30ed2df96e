//! Links the archives of the proved code, which `bench/run` has built.
fn main() {
    for name in ["firmware", "conversion"] {
        let folder = format!("{}/../crates/{name}/out", env!("CARGO_MANIFEST_DIR"));
        println!("cargo:rustc-link-search=native={folder}");
        println!("cargo:rustc-link-lib=static={name}");
        println!("cargo:rerun-if-changed={folder}/lib{name}.a");
    }
}
