//! Links the static library and the kit's C library, whose folders uses/run gives: ECMA_C and RATTLE_C.
fn folder(name: &str) -> String {
    println!("cargo:rerun-if-env-changed={name}");
    std::env::var(name).unwrap_or_else(|_| panic!("{name} names no folder (docs/C.md)"))
}

fn main() {
    let library = folder("ECMA_C");
    let kit = folder("RATTLE_C");
    println!("cargo:rustc-link-search=native={library}");
    println!("cargo:rustc-link-lib=static=ecma_c");
    println!("cargo:rustc-link-search=native={kit}");
    println!("cargo:rustc-link-lib=static=libc_c");
    println!("cargo:rerun-if-changed={library}/libecma_c.a");
}
