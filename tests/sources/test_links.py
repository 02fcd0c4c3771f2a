"""Each link of the documents leads to a file, and to a heading of it if it names one."""

from pathlib import Path

import links
import pytest
from harness.program import TOP

PAGES = links.pages_in(TOP)
# Links of a page next to other.md, and those that lead nowhere.
SAMPLE = """\
# A page: `one`

[itself](#a-page-one), [a repeated heading](#again-1), [another page](other.md), [its heading](other.md#a-linked-heading),
[the web](https://example.com/none.md), [no page](none.md), [no heading](other.md#none), [no heading here](#none)

```sh
[a block](none.md)
```

## Again
## Again
"""
BROKEN = ["none.md", "other.md#none", "#none"]


@pytest.mark.parametrize("page", PAGES, ids=[str(page.relative_to(TOP)) for page in PAGES])
def test_page(page: Path) -> None:
    found = links.links_of(page)
    assert found, "the page has no link"
    assert [link.text for link in found if link.is_broken()] == []


def test_every_page_is_linked() -> None:
    linked = {link.target for page in PAGES for link in links.links_of(page)}
    assert [page for page in (TOP / "docs").glob("*.md") if page not in linked] == []


def test_broken_links(tmp_path: Path) -> None:
    (tmp_path / "other.md").write_text("## A [linked](none.md) heading\n")
    (tmp_path / "README.md").write_text(SAMPLE)
    found = links.links_of(tmp_path / "README.md")
    assert len(found) == 7
    assert [link.text for link in found if link.is_broken()] == BROKEN


def test_pages(tmp_path: Path) -> None:
    names = ["README.md", "docs/one.md", "examples/two.md"]
    for name in [*names, "docs/one.txt", "tests/three.md"]:
        (tmp_path / name).parent.mkdir(exist_ok=True)
        (tmp_path / name).write_text("")
    assert [str(page.relative_to(tmp_path)) for page in links.pages_in(tmp_path)] == names
