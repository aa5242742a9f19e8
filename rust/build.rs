//! Finds the static library whose calls the crate makes. `make library` makes it.

use std::env;
use std::path::PathBuf;

const LIBRARY: &str = "libresource_manager.a";
const PLACE: &str = "RESOURCE_MANAGER_LIB_DIR";

fn main() {
    println!("cargo:rerun-if-env-changed={PLACE}");
    if let Err(why) = link() {
        eprintln!("{why}");
        std::process::exit(1);
    }
}

fn link() -> Result<(), String> {
    let target = (variable("CARGO_CFG_TARGET_ARCH")?, variable("CARGO_CFG_TARGET_OS")?);
    if target != ("x86_64".to_string(), "linux".to_string()) {
        return Err(format!("{LIBRARY} is for x86-64 Linux, and not for {} {}", target.0, target.1));
    }
    let directory = match env::var_os(PLACE) {
        Some(directory) => PathBuf::from(directory),
        None => PathBuf::from(variable("CARGO_MANIFEST_DIR")?).join("../target/staticlib"),
    };
    let library = directory.join(LIBRARY);
    println!("cargo:rerun-if-changed={}", library.display());
    if !library.is_file() {
        return Err(format!(
            "{} is not there: run `make library` in the repository, or say in {PLACE} where {LIBRARY} is",
            library.display()
        ));
    }
    println!("cargo:rustc-link-search=native={}", directory.display());
    println!("cargo:rustc-link-lib=static=resource_manager");
    Ok(())
}

fn variable(name: &str) -> Result<String, String> {
    env::var(name).map_err(|why| format!("{name}: {why}"))
}
