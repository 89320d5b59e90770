//! Finds `liboddrafisk.a`: in the folder that ODDRAFISK_LIB_DIR names, or where the repository's
//! own commands write it. Nothing is proved or built here: where the archive is missing, this says
//! what is to be run.

use std::env;
use std::path::PathBuf;
use std::process::exit;

const ARCHIVE: &str = "liboddrafisk.a";
const VARIABLE: &str = "ODDRAFISK_LIB_DIR";

fn main() {
    println!("cargo:rerun-if-env-changed={VARIABLE}");
    let found = match env::var_os(VARIABLE) {
        Some(folder) => named_folder(PathBuf::from(folder)),
        None => repository_folder(),
    };
    let folder = found.unwrap_or_else(|why| {
        eprintln!("error: {why}");
        exit(1)
    });
    println!("cargo:rerun-if-changed={}", folder.join(ARCHIVE).display());
    println!("cargo:rustc-link-search=native={}", folder.display());
    println!("cargo:rustc-link-lib=static=oddrafisk");
}

/// The folder that the user names. A relative one would count from this crate, where nobody expects
/// it.
fn named_folder(folder: PathBuf) -> Result<PathBuf, String> {
    let shown = folder.display();
    if !folder.is_absolute() {
        return Err(format!(
            "{VARIABLE} is to be an absolute path, and is {shown}"
        ));
    }
    if !folder.join(ARCHIVE).is_file() {
        return Err(format!("{VARIABLE} is {shown}, which has no {ARCHIVE}"));
    }
    Ok(folder)
}

fn repository_folder() -> Result<PathBuf, String> {
    let top = PathBuf::from(env::var_os("CARGO_MANIFEST_DIR").unwrap_or_default()).join("../..");
    let top = top.canonicalize().map_err(|why| why.to_string())?;
    let (folder, command) = written_for_target()?;
    let folder = top.join(folder);
    if !folder.join(ARCHIVE).is_file() {
        return Err(format!(
            "there is no {} yet. Run `{command}` in {}, which proves the library and writes it and \
             takes some minutes, or set {VARIABLE} to the absolute path of a folder that has \
             {ARCHIVE}",
            folder.join(ARCHIVE).display(),
            top.display()
        ));
    }
    Ok(folder)
}

/// The folder of the archive for the target, and the command that writes it there.
fn written_for_target() -> Result<(&'static str, &'static str), String> {
    let word = |name| env::var(name).unwrap_or_default();
    let (processor, system) = (word("CARGO_CFG_TARGET_ARCH"), word("CARGO_CFG_TARGET_OS"));
    match (processor.as_str(), system.as_str()) {
        ("x86_64", "linux") => Ok(("target/staticlib", "tools/staticlib")),
        ("aarch64", "linux") => Ok(("target/processors/aarch64", "compare/processors/archives")),
        _ => Err(format!(
            "the repository writes {ARCHIVE} for Linux on x86-64 and AArch64. For {}, set \
             {VARIABLE} to the absolute path of a folder that has a {ARCHIVE} for it",
            word("TARGET")
        )),
    }
}
