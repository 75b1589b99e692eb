// Links the static library of the crate `lexer_bench`, from the folder that `run` names.
fn main() {
    println!("cargo:rustc-link-search=native={}", std::env::var("STATICLIB").unwrap());
    println!("cargo:rustc-link-lib=static=lexer_bench");
    println!("cargo:rerun-if-env-changed=STATICLIB");
    println!("cargo:rerun-if-changed={}/liblexer_bench.a", std::env::var("STATICLIB").unwrap());
}
