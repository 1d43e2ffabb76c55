//! Programs over the crate, each in a folder of its own.

use std::fs;
use std::os::unix::fs::symlink;
use std::path::{Path, PathBuf};
use std::process::Command;

/// What stands before the dependencies of a program.
const PACKAGE: &str = "[package]\nname = \"mine\"\nversion = \"1.0.0\"\nedition = \"2024\"\n\n";

/// Returns an empty folder with this name for a test, which keeps what Cargo built there before.
pub fn room(name: &str) -> PathBuf {
    let room = Path::new(env!("CARGO_TARGET_TMPDIR")).join(name);
    fs::create_dir_all(&room).unwrap();
    room
}

/// Makes the folder of a program, beside which this repository is `cfgx`.
pub fn folder_in(room: &Path) -> PathBuf {
    let folder = room.join("mine");
    fs::create_dir_all(folder.join("src")).unwrap();
    let repository = room.join("cfgx");
    if repository.is_symlink() {
        fs::remove_file(&repository).unwrap();
    }
    symlink(
        Path::new(env!("CARGO_MANIFEST_DIR")).join("../.."),
        repository,
    )
    .unwrap();
    folder
}

/// Builds a program with these dependencies, and returns its path.
pub fn built(folder: &Path, dependencies: &str, code: &str) -> PathBuf {
    write(folder, dependencies, code);
    succeed(&mut cargo(folder, &["build", "--quiet"]));
    path_in(folder)
}

/// Writes the manifest and the code of a program.
pub fn write(folder: &Path, dependencies: &str, code: &str) {
    fs::write(folder.join("src/main.rs"), code).unwrap();
    let manifest = format!("{PACKAGE}{dependencies}");
    fs::write(folder.join("Cargo.toml"), manifest).unwrap();
}

/// Returns the path of the program that Cargo builds in `folder`.
pub fn path_in(folder: &Path) -> PathBuf {
    folder.join("target/debug/mine")
}

/// Returns the command that runs Cargo in `folder`, without the network.
pub fn cargo(folder: &Path, words: &[&str]) -> Command {
    let mut command = Command::new(env!("CARGO"));
    command
        .args(words)
        .arg("--offline")
        .env("CARGO_TARGET_DIR", folder.join("target"))
        .current_dir(folder);
    command
}

/// Returns the folder of the one dependency, from which this program was built.
pub fn folder_of_smallvec() -> PathBuf {
    let own = Path::new(env!("CARGO_MANIFEST_DIR"));
    let output = cargo(own, &["metadata", "--format-version", "1"])
        .output()
        .unwrap();
    let said = String::from_utf8(output.stdout).unwrap();
    let mut paths = said.split("\"manifest_path\":\"").skip(1);
    let path = paths.find_map(|rest| {
        let path = Path::new(rest.split('"').next().unwrap());
        let folder = path.parent().unwrap();
        let name = folder.file_name().unwrap().to_str().unwrap();
        name.starts_with("smallvec-").then(|| folder.to_path_buf())
    });
    path.unwrap()
}

/// Copies a folder.
pub fn copy(from: &Path, to: &Path) {
    fs::create_dir_all(to).unwrap();
    for entry in fs::read_dir(from).unwrap() {
        let path = entry.unwrap().path();
        let place = to.join(path.file_name().unwrap());
        if path.is_dir() {
            copy(&path, &place);
        } else {
            fs::copy(&path, place).unwrap();
        }
    }
}

/// Returns the names of the packages that the lock file in `folder` has, in order.
pub fn locked_in(folder: &Path) -> Vec<String> {
    let lock = fs::read_to_string(folder.join("Cargo.lock")).unwrap();
    let names = lock.lines().filter_map(|line| line.strip_prefix("name = "));
    names
        .map(|name| name.trim_matches('"').to_string())
        .collect()
}

/// Panics unless the command succeeds. Returns what it writes to its standard error.
pub fn succeed(command: &mut Command) -> String {
    let output = command.output().unwrap();
    let said = String::from_utf8_lossy(&output.stderr).into_owned();
    assert!(output.status.success(), "{command:?}: {said}");
    said
}
