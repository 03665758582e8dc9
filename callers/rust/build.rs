//! Links the static library; WALLCHECK_LIB_DIR names the folder that holds libwallcheck.a.

fn main() {
    println!("cargo:rerun-if-env-changed=WALLCHECK_LIB_DIR");
    let dir = std::env::var("WALLCHECK_LIB_DIR")
        .expect("WALLCHECK_LIB_DIR names the folder of libwallcheck.a");
    println!("cargo:rerun-if-changed={dir}/libwallcheck.a");
    println!("cargo:rustc-link-search=native={dir}");
    // Not packed into the Rust library, where link-time optimization would look into it.
    println!("cargo:rustc-link-lib=static:-bundle=wallcheck");
}
