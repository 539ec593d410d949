//! Where the static library is looked for, and what is said where there is none: the package is built in a folder of its own.

use std::path::{Path, PathBuf};
use std::process::Command;

const FILE: &str = "libterravisco.a";

/// The archive that these tests are linked with.
fn archive() -> PathBuf {
    Path::new(env!("OUT_DIR")).join(FILE)
}

/// A copy of the package in a repository that has nothing else, which is removed in the end.
struct Copied {
    root: PathBuf,
}

impl Copied {
    fn new(name: &str) -> Copied {
        let root = std::env::temp_dir().join(format!("terravisco-{name}-{}", std::process::id()));
        let (from, to) = (Path::new(env!("CARGO_MANIFEST_DIR")), root.join("bindings/rust"));
        std::fs::create_dir_all(to.join("src")).unwrap();
        let sources = std::fs::read_dir(from.join("src")).unwrap().map(|entry| Path::new("src").join(entry.unwrap().file_name()));
        for file in ["Cargo.toml", "build.rs", "README.md"].map(PathBuf::from).into_iter().chain(sources) {
            std::fs::copy(from.join(&file), to.join(&file)).unwrap();
        }
        Copied { root }
    }

    /// A file below the root, in folders that are made for it.
    fn put(&self, file: &str, bytes: &[u8]) -> PathBuf {
        let path = self.root.join(file);
        std::fs::create_dir_all(path.parent().unwrap()).unwrap();
        std::fs::write(&path, bytes).unwrap();
        path
    }

    fn put_archive(&self, file: &str) -> PathBuf {
        self.put(file, &std::fs::read(archive()).unwrap())
    }

    /// A file for pkg-config that tells a folder below the root.
    fn put_pkgconfig(&self, folder: &str) {
        let text = format!("libdir={}/{folder}\nName: terravisco\nDescription: a test\nVersion: 0\n", self.root.display());
        self.put("pkgconfig/terravisco.pc", text.as_bytes());
    }

    /// Builds the package: the archive that it took, or what was said.
    fn built(&self, variable: Option<&Path>) -> Result<PathBuf, String> {
        let mut cargo = Command::new(env!("CARGO"));
        cargo.args(["build", "--offline", "--quiet", "-j1", "--target-dir", "out"]).current_dir(self.root.join("bindings/rust"));
        cargo.env_remove("TERRAVISCO_ARCHIVE").envs(variable.map(|file| ("TERRAVISCO_ARCHIVE", file)));
        // Nothing that is installed here counts.
        cargo.env("PKG_CONFIG_PATH", self.root.join("pkgconfig")).env("PKG_CONFIG_LIBDIR", self.root.join("none"));
        let ran = cargo.output().expect("cargo runs");
        if !ran.status.success() {
            return Err(String::from_utf8_lossy(&ran.stderr).into_owned());
        }
        Ok(self.taken())
    }

    /// The archive that the build script says that it watches.
    fn taken(&self) -> PathBuf {
        let scripts = std::fs::read_dir(self.root.join("bindings/rust/out/debug/build")).unwrap();
        let outputs: Vec<String> = scripts.filter_map(|script| std::fs::read_to_string(script.unwrap().path().join("output")).ok()).collect();
        let taken = outputs.iter().flat_map(|output| output.lines()).find_map(|line| line.strip_prefix("cargo:rerun-if-changed=/"));
        std::fs::canonicalize(Path::new("/").join(taken.expect("an archive was taken"))).unwrap()
    }
}

impl Drop for Copied {
    fn drop(&mut self) {
        // What is left behind in a folder for temporary files does no harm.
        let _ = std::fs::remove_dir_all(&self.root);
    }
}

fn assert_says(said: &str, words: &[&str]) {
    for words in words {
        assert!(said.contains(words), "{words}: {said}");
    }
}

#[test]
fn nowhere() {
    let copied = Copied::new("nowhere");
    let said = copied.built(None).unwrap_err();
    assert_says(&said, &["terravisco: there is no static library libterravisco.a to link:", "TERRAVISCO_ARCHIVE is not set"]);
    assert_says(&said, &["target/staticlib/libterravisco.a, which is not there", "pkg-config knows no terravisco"]);
    assert_says(&said, &["./build library", "./install PREFIX", "or name its file in TERRAVISCO_ARCHIVE"]);
    // An installation without the static library.
    copied.put_pkgconfig("lib");
    assert_says(&copied.built(None).unwrap_err(), &["lib/libterravisco.a, which is not there"]);
}

#[test]
fn an_installed_one() {
    let copied = Copied::new("installed");
    let installed = copied.put_archive("lib/libterravisco.a");
    copied.put_pkgconfig("lib");
    assert_eq!(copied.built(None), Ok(installed));
}

/// The repository's own comes before an installed one, and the one that the variable names before both.
#[test]
fn the_first_place_counts() {
    let copied = Copied::new("places");
    copied.put_archive("lib/libterravisco.a");
    copied.put_pkgconfig("lib");
    let own = copied.put_archive("target/staticlib/libterravisco.a");
    assert_eq!(copied.built(None), Ok(own));
    let named = copied.put_archive("before.a");
    assert_eq!(copied.built(Some(&named)), Ok(named));
}

/// A name that is wrong is told, and no other library is taken instead.
#[test]
fn the_variable_alone_counts() {
    let copied = Copied::new("variable");
    copied.put_archive("target/staticlib/libterravisco.a");
    let said = copied.built(Some(Path::new("/none/here.a"))).unwrap_err();
    assert_says(&said, &["TERRAVISCO_ARCHIVE names /none/here.a, which is not there"]);
    assert!(!said.contains("staticlib/"), "{said}");
}
