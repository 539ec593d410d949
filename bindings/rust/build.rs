//! Finds the static library and links it: the file that `TERRAVISCO_ARCHIVE` names, or else that of the repository around this package, or else the
//! one that pkg-config knows.

use std::env;
use std::path::{Path, PathBuf};
use std::process::Command;

/// Names an archive. Where it is set, no other one is taken.
const VARIABLE: &str = "TERRAVISCO_ARCHIVE";
const FILE: &str = "libterravisco.a";

/// What a program is told of an archive from before a function: such a one can still be timed. With the field lookup came calls that fill a name index.
const AGES: [(&str, &str); 6] = [
    ("before_names", "terravisco_field"),
    ("before_explanations", "terravisco_explain"),
    ("before_scans", "terravisco_match_all"),
    ("before_batches", "terravisco_match_lines"),
    ("before_cards", "terravisco_card_read"),
    ("before_checks", "terravisco_check"),
];

fn main() {
    for variable in [VARIABLE, "PKG_CONFIG_PATH"] {
        println!("cargo:rerun-if-env-changed={variable}");
    }
    println!("cargo:rerun-if-changed=build.rs");
    match find() {
        Ok(archive) => link(&archive),
        Err(tried) => {
            eprintln!("terravisco: there is no static library {FILE} to link:\n{tried}");
            eprintln!(
                "Build it (`./build library` in the project's root), install it (`./install PREFIX` there, and PREFIX/lib/pkgconfig in"
            );
            eprintln!("PKG_CONFIG_PATH), or name its file in {VARIABLE}.");
            std::process::exit(1);
        }
    }
}

/// The archive, or a line for each place where there is none. The repository's own comes before an installed one: it is what belongs to this package.
fn find() -> Result<PathBuf, String> {
    if let Some(named) = env::var_os(VARIABLE) {
        return there(PathBuf::from(named)).map_err(|place| format!("  {VARIABLE} names {place}"));
    }
    let own = folder_of("CARGO_MANIFEST_DIR").join("../../target/staticlib").join(FILE);
    there(own).or_else(|own| installed().map_err(|installed| format!("  {VARIABLE} is not set\n  {own}\n  {installed}")))
}

/// The file, if there is one.
fn there(archive: PathBuf) -> Result<PathBuf, String> {
    if archive.is_file() {
        Ok(archive)
    } else {
        Err(format!("{}, which is not there", archive.display()))
    }
}

/// The archive in the folder that pkg-config tells.
fn installed() -> Result<PathBuf, String> {
    let told = Command::new("pkg-config").args(["--variable=libdir", "terravisco"]).output();
    match told {
        Ok(told) if told.status.success() => there(Path::new(String::from_utf8_lossy(&told.stdout).trim()).join(FILE)),
        Ok(_) => Err("pkg-config knows no terravisco".to_string()),
        Err(_) => Err("there is no pkg-config to ask".to_string()),
    }
}

/// What is linked is a copy: an archive that was put by for comparing may have any file name, and the linker looks for one.
fn link(archive: &Path) {
    println!("cargo:rerun-if-changed={}", archive.display());
    let (bytes, folder) = (std::fs::read(archive).expect("the archive can be read"), folder_of("OUT_DIR"));
    std::fs::write(folder.join(FILE), &bytes).expect("the archive can be copied");
    println!("cargo:rustc-link-search=native={}", folder.display());
    println!("cargo:rustc-link-lib=static=terravisco");
    for (before, function) in AGES {
        println!("cargo:rustc-check-cfg=cfg({before})");
        if !bytes.windows(function.len()).any(|part| part == function.as_bytes()) {
            println!("cargo:rustc-cfg={before}");
        }
    }
}

/// A folder that cargo names in the environment.
fn folder_of(variable: &str) -> PathBuf {
    PathBuf::from(env::var_os(variable).expect("cargo names its folders"))
}
