//! Links libschemars.a from the folder that SCHEMARS_LIBRARY_DIR names, or else as the system has it.

fn main() {
    println!("cargo:rerun-if-env-changed=SCHEMARS_LIBRARY_DIR");
    match std::env::var("SCHEMARS_LIBRARY_DIR") {
        Ok(folder) => {
            println!("cargo:rustc-link-search=native={folder}");
            println!("cargo:rustc-link-lib=static=schemars");
        }
        Err(_) => println!("cargo:rustc-link-lib=schemars"),
    }
}
