//! Links the archive of the proved functions, which stands in the folder that GVOZDYANA_LIB_DIR names, else in the repository's target/ folder.
use std::path::{Path, PathBuf};

const VARIABLE: &str = "GVOZDYANA_LIB_DIR";

fn main() {
    println!("cargo:rerun-if-env-changed={VARIABLE}");
    let named = std::env::var_os(VARIABLE).map(PathBuf::from);
    // The folder that the builder was called from is not known here.
    if let Some(folder) = named.iter().find(|folder| !folder.is_absolute()) {
        refuse(&format!(
            "{VARIABLE} is {}, which is no whole path",
            folder.display()
        ));
    }
    let of_repository = Path::new(env!("CARGO_MANIFEST_DIR")).join("../../target/staticlib");
    let folder = named.unwrap_or(of_repository);
    let archive = folder.join("libgvozdyana.a");
    println!("cargo:rerun-if-changed={}", archive.display());
    if !archive.is_file() {
        refuse(&format!(
            "{} is missing: build it with `make archive` at the repository's root, or name the folder where it stands in {VARIABLE}",
            archive.display()
        ));
    }
    println!("cargo:rustc-link-search=native={}", folder.display());
    println!("cargo:rustc-link-lib=static=gvozdyana");
}

/// Says why nothing can be linked, and ends.
fn refuse(why: &str) -> ! {
    eprintln!("{why}");
    std::process::exit(1)
}
