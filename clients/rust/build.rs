// Links libbindings.a of the folder that LUNDASPRO_LIB names, or its liblundaspro.so (dist/x86-64, dist/aarch64) where it has no archive. Without LUNDASPRO_LIB
// the folder is the one that `clients/archive` writes to.
use std::env;
use std::path::PathBuf;

fn main() {
    println!("cargo:rerun-if-env-changed=LUNDASPRO_LIB");
    let folder = env::var_os("LUNDASPRO_LIB")
        .map(PathBuf::from)
        .unwrap_or_else(|| {
            PathBuf::from(env::var_os("CARGO_MANIFEST_DIR").expect("cargo sets it"))
                .join("../../target/staticlib")
        });
    let archive = folder.join("libbindings.a");
    let shared = folder.join("liblundaspro.so");
    for library in [&archive, &shared] {
        println!("cargo:rerun-if-changed={}", library.display());
    }
    println!("cargo:rustc-link-search=native={}", folder.display());
    if !archive.exists() && shared.exists() {
        println!("cargo:rustc-link-lib=dylib=lundaspro");
        return;
    }
    if !archive.exists() {
        println!(
            "cargo:warning=no {}: `clients/archive` makes it in the repository's target/staticlib; LUNDASPRO_LIB names another folder, as dist/x86-64",
            archive.display()
        );
    }
    println!("cargo:rustc-link-lib=static=bindings");
}
