//! Links libring_audit.a, which is in the folder that RING_AUDIT_LIB_DIR names, or in dist/ of this repository (for
//! ARM64, in dist/aarch64-linux/).
fn main() {
    let here = std::env::var("CARGO_MANIFEST_DIR").unwrap();
    println!("cargo:rerun-if-env-changed=RING_AUDIT_LIB_DIR");
    let place = if std::env::var("CARGO_CFG_TARGET_ARCH").unwrap() == "aarch64" { "/aarch64-linux" } else { "" };
    let folder = std::env::var("RING_AUDIT_LIB_DIR").unwrap_or(format!("{here}/../../../dist{place}"));
    println!("cargo:rerun-if-changed={folder}/libring_audit.a");
    println!("cargo:rustc-link-search=native={folder}");
}
