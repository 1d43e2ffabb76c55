"""The archive for Rust, unpacked into a workspace of a user."""
import os
import re

from . import RUST, User

# A workspace, and a package in it that depends on both packages of the archive. So Cargo takes
# these for members of the workspace.
WORKSPACE = '[workspace]\nmembers = ["mine"]\nresolver = "3"\n'
MEMBER = f"""\
[package]
name = "mine"
version = "1.0.0"
edition = "2024"

[dependencies]
cfgx = {{ path = "../{RUST}" }}
cfg-expr = {{ path = "../{RUST}/cfg-expr" }}
"""
CODE = """\
#[test]
fn both_packages_have_one_type() {
    let condition: cfg_expr::Expression = cfgx::Expression::parse("all(unix, loom)").unwrap();
    assert_eq!(condition.predicates().count(), 2);
}
"""


class Workspace(User):
    """Someone who unpacks the crate into a workspace."""

    def write(self, path, text):
        """Writes a file into the folder."""
        path = os.path.join(self.folder, path)
        os.makedirs(os.path.dirname(path), exist_ok=True)
        with open(path, "w", encoding="utf-8") as file:
            file.write(text)

    def test_all_tests_of_the_workspace_pass(self):
        what = "the released crate in a workspace"
        self.need(what, "cargo", "rustc", "cc")
        self.need_crates(what)
        self.unpacked(RUST)
        self.write("Cargo.toml", WORKSPACE)
        self.write("mine/Cargo.toml", MEMBER)
        self.write("mine/src/lib.rs", CODE)
        said = self.succeed("cargo", "test", "--workspace")
        # The tests of the crate are members of the workspace too, and so are its examples.
        for of_one in ("unittests src/lib.rs (target/debug/deps/cfgx-", "Doc-tests cfgx",
                       "Doc-tests cfg_expr", "both_packages_have_one_type ... ok"):
            self.assertIn(of_one, said)
        passed = map(int, re.findall(r"^test result: ok\. (\d+) passed", said, re.M))
        self.assertGreater(sum(passed), 50)

    def test_each_package_has_the_texts_of_its_licence(self):
        folder = self.unpacked(RUST)
        own = ["LICENSE-APACHE", "LICENSE-MIT", "NOTICE"]
        texts = [*own, *(f"cfg-expr/{name}" for name in own)]
        for text in texts:
            self.assertTrue(os.path.isfile(os.path.join(folder, text)), text)
