//! Links an earlier library beside this one, if `bench/run` was given its archive.

fn main() {
    println!("cargo:rustc-check-cfg=cfg(before)");
    println!("cargo:rerun-if-env-changed=GUBZSENIL_BEFORE");
    if let Ok(folder) = std::env::var("GUBZSENIL_BEFORE") {
        println!("cargo:rerun-if-changed={folder}/libgubzsenil_before.a");
        println!("cargo:rustc-link-search=native={folder}");
        println!("cargo:rustc-link-lib=static=gubzsenil_before");
        println!("cargo:rustc-cfg=before");
    }
}
