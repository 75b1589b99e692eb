// Links the program `fuzz` with the static library of the crate `sheet_c`, from the folder that `run` names. The tests need none.
fn main() {
    println!("cargo:rerun-if-env-changed=STATICLIB");
    if let Ok(folder) = std::env::var("STATICLIB") {
        println!("cargo:rustc-link-arg-bin=fuzz={folder}/libsheet.a");
        println!("cargo:rerun-if-changed={folder}/libsheet.a");
    }
}
