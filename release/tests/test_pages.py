"""The pages in the archives, and where their links lead."""
import posixpath
import re
import unittest

from . import C, DATA, INFORMATION, PACKAGE, RUST, files_in, files_of, files_of_wheel

import repository

# The pages that someone has to have who uses what is in an archive.
NEEDED = ("CHANGELOG.md", "README.md", *(f"docs/{name}.md" for name in (
    "ALTERNATIVES", "C", "CALLING", "DEFINITIONS", "DIFFERENCES", "MANIFESTS", "PROVED", "PYTHON",
    "README", "RELEASE", "RULES", "RUST",
)), "bench/README.md", "bindings/python/README.md", "bindings/rust/README.md")

# Each archive: its files, the folder that stands for the repository, the page to begin with, and
# which pages have another place than in the repository.
DOCUMENTS = f"{DATA}/data/share/doc/cfgx"
MOVED = {"bindings/rust/README.md": "README.md", "README.md": "docs/CFGX.md"}
ARCHIVES = (
    (files_of(C), C, "README.md", {}),
    (files_of(RUST), RUST, "README.md", MOVED),
    (files_of_wheel(), DOCUMENTS, "bindings/python/README.md", {}),
    (files_in(PACKAGE), "package", "README.md",
     {"bindings/js/README.md": "README.md", "README.md": "docs/CFGX.md"}),
)


def words_of(page):
    """Returns the text of a page without its blocks of code."""
    return re.sub(r"^```.*?^```$", "", page.decode(), flags=re.M | re.S)


def links_of(page):
    """Returns the words of each link of a page that leads to a file, its file, and its heading."""
    found = re.findall(r"\[([^\]]*)\]\(([^)\s]*)\)", words_of(page))
    return [(words, *target.partition("#")[::2]) for words, target in found
            if "://" not in target]


def headings_of(page):
    """Returns the names under which links lead to the headings of a page."""
    heads = re.findall(r"^#+ (.*)$", words_of(page), re.M)
    return {re.sub(r"[^\w\- ]", "", head.lower()).replace(" ", "-") for head in heads}


class Pages(unittest.TestCase):
    """The pages of each archive."""

    def test_each_link_leads_to_a_file_of_its_archive(self):
        """And to a heading of it, if the link names one."""
        for files, top, _, _ in ARCHIVES:
            pages = [path for path in files if path.endswith(".md")]
            self.assertGreaterEqual(len(pages), len(NEEDED))
            for path in pages:
                for words, target, heading in links_of(files[path]):
                    place = posixpath.normpath(posixpath.join(posixpath.dirname(path), target))
                    place = place if target else path
                    with self.subTest(path=path, words=words, target=target, heading=heading):
                        self.assertIn(place, files)
                        self.assertTrue(place.startswith(top + "/"))
                        if heading:
                            self.assertIn(heading, headings_of(files[place]))

    def test_no_link_of_the_repository_is_missing(self):
        for files, top, _, moved in ARCHIVES:
            for page in repository.tracked("*.md"):
                found = files[f"{top}/{moved.get(page, page)}"]
                wanted = repository.read(page)
                self.assertEqual([(words, heading) for words, _, heading in links_of(found)],
                                 [(words, heading) for words, _, heading in links_of(wanted)], page)
                if not moved:
                    self.assertTrue(found == wanted, page)

    def test_each_page_can_be_reached(self):
        """From the README that a user sees first, by links alone."""
        for files, top, first, moved in ARCHIVES:
            reached = [f"{top}/{first}"]
            for path in reached:
                for _, target, _ in links_of(files[path]):
                    place = posixpath.normpath(posixpath.join(posixpath.dirname(path), target))
                    if place.endswith(".md") and place not in reached:
                        reached.append(place)
            self.assertEqual(sorted(reached), sorted(path for path in files if path[-3:] == ".md"))
            needed = {f"{top}/{moved.get(page, page)}" for page in NEEDED}
            self.assertLessEqual(needed, {*reached})

    def test_the_first_page_is_that_of_the_package(self):
        self.assertTrue(files_of(C)[f"{C}/README.md"].startswith(b"# cfgx and cfg_expr\n"))
        for files, top, _, moved in ARCHIVES:
            for page, place in moved.items():
                head = repository.read(page).split(b"\n")[0]
                self.assertEqual(files[f"{top}/{place}"].split(b"\n")[0], head)

    def test_metadata(self):
        """No link leads out of it, and each path that it names is in the wheel."""
        files = files_of_wheel()
        text = files[f"{INFORMATION}/METADATA"]
        self.assertEqual(links_of(text), [])
        named = re.findall(r"`share/doc/cfgx/(.*?)`", text.decode())
        for page in ("docs/MANIFESTS.md", "docs/PYTHON.md", "docs/RELEASE.md"):
            self.assertIn(page, named)
        for path in named:
            self.assertIn(f"{DOCUMENTS}/{path}", files)
        readme = links_of(repository.read("bindings/python/README.md"))
        self.assertEqual([posixpath.join("bindings/python", target) for _, target, _ in readme],
                         [f"bindings/python/../../{path}" for path in named])
