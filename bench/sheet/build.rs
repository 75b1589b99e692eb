// Links the static library of the crate `sheet_c`, from the folder that `run` names.
fn main() {
    println!("cargo:rustc-link-search=native={}", std::env::var("STATICLIB").unwrap());
    println!("cargo:rustc-link-lib=static=sheet");
    println!("cargo:rerun-if-env-changed=STATICLIB");
    println!("cargo:rerun-if-changed={}/libsheet.a", std::env::var("STATICLIB").unwrap());
}
