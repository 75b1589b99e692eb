// Links the static library of the crate `rules_bench`, from the folder that `run` names.
fn main() {
    println!("cargo:rustc-link-search=native={}", std::env::var("STATICLIB").unwrap());
    println!("cargo:rustc-link-lib=static=rules_bench");
    println!("cargo:rerun-if-env-changed=STATICLIB");
    println!("cargo:rerun-if-changed={}/librules_bench.a", std::env::var("STATICLIB").unwrap());
}
