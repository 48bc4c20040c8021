//! Links `libxnc.a` from the folder that the environment names in `XNC_LIB`.

fn main() {
    println!("cargo:rerun-if-env-changed=XNC_LIB");
    if let Ok(folder) = std::env::var("XNC_LIB") {
        println!("cargo:rustc-link-search=native={folder}");
    }
    println!("cargo:rustc-link-lib=static=xnc");
}
