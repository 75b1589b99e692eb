// Links the static library of the crate `sheet_c`, which `client/library` puts into `target/staticlib` of the project.
fn main() {
    let folder = concat!(env!("CARGO_MANIFEST_DIR"), "/../target/staticlib");
    println!("cargo:rustc-link-search=native={folder}");
    println!("cargo:rustc-link-lib=static=sheet");
    println!("cargo:rerun-if-changed={folder}/libsheet.a");
}
