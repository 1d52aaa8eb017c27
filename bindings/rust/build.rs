//! Finds the archive that `bin/install` put somewhere: in the folder that METRONOME_LIB_DIR names, or where pkg-config says.
use std::env;
use std::process::{exit, Command};

const FOLDER: &str = "METRONOME_LIB_DIR";

/// Returns the library's folder by pkg-config, or why there is none.
fn told_by_pkg_config() -> Result<String, String> {
    let asked = Command::new("pkg-config").args(["--variable=libdir", "metronome"]).output();
    let told = asked.map_err(|fault| format!("pkg-config: {fault}"))?;
    if !told.status.success() {
        return Err(String::from_utf8_lossy(&told.stderr).into_owned());
    }
    Ok(String::from_utf8_lossy(&told.stdout).trim().to_owned())
}

fn main() {
    println!("cargo:rerun-if-env-changed={FOLDER}");
    println!("cargo:rerun-if-env-changed=PKG_CONFIG_PATH");
    match env::var(FOLDER).or_else(|_| told_by_pkg_config()) {
        Ok(folder) => println!("cargo:rustc-link-search=native={folder}\ncargo:rustc-link-lib=static=metronome"),
        Err(fault) => {
            eprintln!("libmetronome.a isn't found: set {FOLDER} to its folder, or PKG_CONFIG_PATH. {fault}");
            exit(1);
        }
    }
}
