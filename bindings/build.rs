// Links the proved library as `./archive` made it.
fn main() {
    let dir = concat!(env!("CARGO_MANIFEST_DIR"), "/../target/staticlib");
    println!("cargo:rustc-link-search=native={dir}");
    println!("cargo:rustc-link-lib=static=currantplane");
    println!("cargo:rerun-if-changed={dir}/libcurrantplane.a");
}
