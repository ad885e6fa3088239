//! Links libcounter_ring.a from the folder that COUNTER_RING_LIB names, or from dist/ of this repository (for ARM64 dist/aarch64-linux/).
fn main() {
    let here = std::env::var("CARGO_MANIFEST_DIR").unwrap();
    println!("cargo:rerun-if-env-changed=COUNTER_RING_LIB");
    let place = if std::env::var("CARGO_CFG_TARGET_ARCH").unwrap() == "aarch64" { "/aarch64-linux" } else { "" };
    let folder = std::env::var("COUNTER_RING_LIB").unwrap_or(format!("{here}/../../dist{place}"));
    println!("cargo:rerun-if-changed={folder}/libcounter_ring.a");
    println!("cargo:rustc-link-search=native={folder}");
    println!("cargo:rustc-link-lib=static=counter_ring");
}
