//! The packages that Cargo makes of the crates: their files, and that the one of `cfgx` is built
//! from them alone.

use super::programs;
use std::fs;
use std::path::{Path, PathBuf};

/// The folder of the crate.
const CRATE: &str = env!("CARGO_MANIFEST_DIR");

/// The texts of the licences, and what is to be said of others' work.
const LICENSES: [&str; 3] = ["LICENSE-APACHE", "LICENSE-MIT", "NOTICE"];

/// Makes a folder with the files of the crate.
fn folder_in(room: &Path) -> PathBuf {
    let folder = room.join("crate");
    let _ = fs::remove_dir_all(&folder);
    for name in ["src", "tests"] {
        programs::copy(&Path::new(CRATE).join(name), &folder.join(name));
    }
    for file in ["Cargo.toml", "README.md"].iter().chain(&LICENSES) {
        fs::copy(Path::new(CRATE).join(file), folder.join(file)).unwrap();
    }
    folder
}

#[test]
fn the_package_is_built_from_its_own_files() {
    let folder = folder_in(&programs::room("packaged"));
    let words = ["package", "--allow-dirty", "--quiet"];
    programs::succeed(&mut programs::cargo(&folder, &words));
    let unpacked = folder.join(concat!("target/package/cfgx-", env!("CARGO_PKG_VERSION")));
    let files = ["README.md", "src/engine.rs", "src/differences.txt"];
    for file in files.iter().chain(&LICENSES) {
        assert!(unpacked.join(file).is_file(), "{file}");
    }
    assert!(!unpacked.join("tests").exists());

    // A build after another one does nothing.
    let mut command = programs::cargo(&unpacked, &["build"]);
    let said = programs::succeed(&mut command);
    assert!(said.contains("Compiling cfgx"), "{said}");
    let said = programs::succeed(&mut command);
    assert!(!said.contains("Compiling"), "{said}");
}

/// Returns the files that Cargo packs from a folder.
fn packed(folder: &Path) -> Vec<String> {
    let words = ["package", "--list", "--allow-dirty"];
    let output = programs::cargo(folder, &words).output().unwrap();
    let listed = String::from_utf8(output.stdout).unwrap();
    assert!(output.status.success(), "{listed}");
    listed.lines().map(str::to_string).collect()
}

#[test]
fn both_packages_have_the_texts_of_their_licences() {
    let read = |path: &Path| fs::read_to_string(path).unwrap();
    let root = Path::new(CRATE).join("../..");
    for name in ["", "cfg-expr"] {
        let folder = Path::new(CRATE).join(name);
        let files = packed(&folder);
        for text in LICENSES {
            assert!(files.iter().any(|file| file == text), "{text}: {files:?}");
            assert_eq!(read(&folder.join(text)), read(&root.join(text)), "{text}");
        }
    }
}

/// Returns what a manifest says of its licence.
fn license_of(folder: &str) -> String {
    let manifest = fs::read_to_string(Path::new(CRATE).join(folder).join("Cargo.toml")).unwrap();
    let (_, rest) = manifest.split_once("\nlicense = \"").unwrap();
    rest.split('"').next().unwrap().to_string()
}

#[test]
fn the_licence_field_names_each_text() {
    assert_eq!(license_of("."), "MIT OR Apache-2.0");
    assert_eq!(license_of("cfg-expr"), "MIT OR Apache-2.0");
}
