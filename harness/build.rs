//! Finds PCRE2, which the library under test is compared with. The library itself is linked by the package of `bindings/rust`.

use std::env;
use std::path::{Path, PathBuf};
use std::process::{Command, Stdio};

fn main() {
    link_pcre2();
    println!("cargo:rerun-if-changed=build.rs");
}

/// Links PCRE2, or says what to install: no comparison is left out because it is missing.
fn link_pcre2() {
    if !pcre2_is_installed() {
        panic!("PCRE2's 8-bit library or its header is missing: install Debian's libpcre2-dev (.ci/needs does)");
    }
    println!("cargo:rustc-link-lib=dylib=pcre2-8");
}

/// Whether a C program that includes PCRE2's header and names its 8-bit library can be built: then both are there.
fn pcre2_is_installed() -> bool {
    let folder = PathBuf::from(env::var_os("OUT_DIR").expect("cargo names its folders"));
    let source = folder.join("pcre2_probe.c");
    let text = "#define PCRE2_CODE_UNIT_WIDTH 8\n#include <pcre2.h>\nint main(void) { return pcre2_config(PCRE2_CONFIG_VERSION, 0) < 0; }\n";
    std::fs::write(&source, text).is_ok() && builds(&source, &folder.join("pcre2_probe"))
}

fn builds(source: &Path, program: &Path) -> bool {
    Command::new("cc")
        .arg(source)
        .arg("-o")
        .arg(program)
        .arg("-lpcre2-8")
        .stdout(Stdio::null())
        .stderr(Stdio::null())
        .status()
        .is_ok_and(|status| status.success())
}
