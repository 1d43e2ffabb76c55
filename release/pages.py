"""The pages of the repository, and their links."""
import posixpath
import re
from typing import Callable, Dict, List

from repository import ToolError, read_text

# A block of code on a page, and a link or a picture.
BLOCK = re.compile(r"(^```.*?^```$)", re.M | re.S)
LINK = re.compile(r"(!?)\[([^\]]+)\]\(([^)\s#]*)(#[^)\s]*)?\)")


def is_inside(link: "re.Match[str]") -> bool:
    """Returns whether a link leads to another file of the repository."""
    return bool(link[3]) and "://" not in link[3]


def target(page: str, link: "re.Match[str]") -> str:
    """Returns the path in the repository to which a link of a page leads."""
    return posixpath.normpath(posixpath.join(posixpath.dirname(page), link[3]))


def with_links(page: str, put: Callable[["re.Match[str]"], str]) -> str:
    """Returns the text of a page in which `put` has replaced each link to another file. A block of
    code has no link."""
    def replaced(link: "re.Match[str]") -> str:
        return put(link) if is_inside(link) else link[0]

    parts = BLOCK.split(read_text(page))
    return "".join(part if at % 2 else LINK.sub(replaced, part) for at, part in enumerate(parts))


def linked(page: str) -> List[str]:
    """Returns the paths of the files to which the links of a page lead."""
    text = "".join(BLOCK.split(read_text(page))[::2])
    return [target(page, link) for link in LINK.finditer(text) if is_inside(link)]


def pictures(page: str) -> List[str]:
    """Returns the paths of the pictures that a page shows."""
    return [path for path in linked(page) if path.endswith(".png")]


def reached(first: str) -> List[str]:
    """Returns a page and each one to which links lead from it, over other pages too."""
    found = [first]
    for page in found:
        for path in linked(page):
            if path.endswith(".md") and path not in found:
                found.append(path)
    return found


def relinked(page: str, places: Dict[str, str]) -> str:
    """Returns the text of a page for an archive, where each file of the repository has its place.
    Links lead to these places. Raises `ToolError` if the file of a link has none."""
    def put(link: "re.Match[str]") -> str:
        path = target(page, link)
        if path not in places:
            raise ToolError(f"{page} has a link to {path}, which is not in the archive")
        here = posixpath.dirname(places[page]) or "."
        return f"{link[1]}[{link[2]}]({posixpath.relpath(places[path], here)}{link[4] or ''})"

    return with_links(page, put)


def named(page: str, folder: str) -> str:
    """Returns the text of a page that is read where no link leads to a file: behind the words of
    each one stands the path of its file in the folder."""
    return with_links(page, lambda link: f"{link[2]} (`{folder}/{target(page, link)}`)")
