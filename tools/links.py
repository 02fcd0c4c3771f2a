#!/usr/bin/env python3
"""Checks the links of the documents: each leads to a file that exists, and to a heading of it if it names one.

    python3 tools/links.py [FOLDER]

FOLDER has the pages README.md, docs/*.md and examples/*.md, by default those of this clone.
Addresses on the web aren't fetched. Prints each broken link, and then the number of links. Exit status 1 means that
a link is broken, or that there is none.
"""

import re
import sys
from collections import Counter
from pathlib import Path
from typing import NamedTuple

TOP = Path(__file__).resolve().parent.parent
FENCED = re.compile(r"^```.*?^```", re.DOTALL | re.MULTILINE)
LINK = re.compile(r"\]\(([^)\s]+)\)")


class Link(NamedTuple):
    """A link to a file: as written, the file, and the anchor."""

    text: str
    target: Path
    anchor: str

    def is_broken(self) -> bool:
        if not self.target.exists():
            return True
        return bool(self.anchor) and self.target.suffix == ".md" and self.anchor not in anchors_of(self.target)


def pages_in(folder: Path) -> list[Path]:
    return [path for part in (folder, folder / "docs", folder / "examples") for path in sorted(part.glob("*.md"))]


def text_of(page: Path) -> str:
    """Returns a page without its code blocks."""
    return FENCED.sub("", page.read_text(encoding="utf-8"))


def anchors_of(page: Path) -> set[str]:
    """Returns the anchors of the headings as code hosts make them. A repeated heading gets a number."""
    seen: Counter[str] = Counter()
    anchors = set()
    for heading in re.findall(r"^#+ (.*)$", text_of(page), re.MULTILINE):
        words = re.sub(r"\[([^\]]*)\]\([^)]*\)", r"\1", heading).lower()
        anchor = re.sub(r"[^\w\- ]", "", words).strip().replace(" ", "-")
        anchors.add(f"{anchor}-{seen[anchor]}" if seen[anchor] else anchor)
        seen[anchor] += 1
    return anchors


def links_of(page: Path) -> list[Link]:
    """Returns the links of a page to files, and to its own headings."""
    links = []
    for link in LINK.findall(text_of(page)):
        if not re.match(r"[a-z]+:", link):
            path, _, anchor = link.partition("#")
            links.append(Link(link, (page.parent / path).resolve() if path else page, anchor))
    return links


def main() -> int:
    folder = Path(sys.argv[1]).resolve() if len(sys.argv) > 1 else TOP
    found = [(page, link) for page in pages_in(folder) for link in links_of(page)]
    broken = [(page, link) for page, link in found if link.is_broken()]
    for page, link in broken:
        print(f"{page.relative_to(folder)}: {link.text} leads nowhere")
    print(f"{len(found)} links, {len(broken)} lead nowhere")
    return 1 if broken or not found else 0


if __name__ == "__main__":
    sys.exit(main())
