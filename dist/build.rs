//! With the feature `c` it compiles keywrap.c, also in a debug build with optimization.

#[cfg(feature = "c")]
fn main() {
    cc::Build::new()
        .file("keywrap.c")
        .flag_if_supported("-std=c99")
        .opt_level(2)
        .compile("keywrap");
    for file in ["keywrap.c", "keywrap.h", "keywrap_steps.h"] {
        println!("cargo:rerun-if-changed={}", file);
    }
    for name in ["CC", "CFLAGS"] {
        println!("cargo:rerun-if-env-changed={}", name);
    }
}

#[cfg(not(feature = "c"))]
fn main() {
    println!("cargo:rerun-if-changed=build.rs");
}
