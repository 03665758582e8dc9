//! Compiles rows.c with the C compiler CC for the harness; the two plain programs need neither it nor the library.

use std::env;
use std::process::Command;

fn main() {
    println!("cargo:rerun-if-changed=rows.c");
    println!("cargo:rerun-if-changed=../include/wallcheck.h");
    println!("cargo:rerun-if-env-changed=CC");
    if env::var_os("CARGO_FEATURE_LIBRARY").is_none() {
        return;
    }
    let compiler = env::var("CC").unwrap_or_else(|_| "gcc".into());
    let mut words = compiler.split_whitespace();
    let object = format!("{}/rows.o", env::var("OUT_DIR").expect("OUT_DIR"));
    let compiled = Command::new(words.next().expect("CC names a compiler"))
        .args(words)
        .args(["-std=c11", "-O2", "-I../include", "-c", "rows.c", "-o"])
        .arg(&object)
        .status();
    assert!(
        compiled.is_ok_and(|status| status.success()),
        "{compiler} compiles bench/rows.c"
    );
    println!("cargo:rustc-link-arg-bin=bench={object}");
}
