//! Links libsezhimow.a, from the folder that SEZHIMOW_LIB_DIR names if it is set.

fn main() {
    println!("cargo:rerun-if-env-changed=SEZHIMOW_LIB_DIR");
    if let Ok(folder) = std::env::var("SEZHIMOW_LIB_DIR") {
        println!("cargo:rustc-link-search=native={folder}");
        println!("cargo:rerun-if-changed={folder}/libsezhimow.a");
    }
    println!("cargo:rustc-link-lib=static=sezhimow");
}
