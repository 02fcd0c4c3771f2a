"""The scripts, styles and templates of pages: eslint's rules, what a browser supports, and what a policy allows."""

import os
import re
import shutil
import subprocess
from collections.abc import Iterator
from pathlib import Path
from typing import Any

import pytest
from counties import TOP

PACKAGE = TOP / "python/tigerline"
STYLES = sorted(PACKAGE.rglob("*.css"))
TEMPLATES = sorted(PACKAGE.rglob("templates/*"))


def test_scripts() -> None:
    """All scripts are in files of their own, where eslint finds no fault."""
    eslint = shutil.which("eslint")
    if eslint is None:
        pytest.skip("no eslint")
    environment = {**os.environ, "NODE_PATH": "/usr/share/nodejs"}  # where Debian has the modules of eslint
    command = [eslint, "--max-warnings", "0", "--report-unused-disable-directives", "tigerline"]
    done = subprocess.run(command, cwd=TOP / "python", env=environment, capture_output=True, text=True, timeout=300)
    assert (done.stdout, done.stderr, done.returncode) == ("", "", 0)
    assert not [path for path in PACKAGE.rglob("*.py") if re.search("addEventListener|querySelector", path.read_text())]


def declarations(content: list[Any]) -> Iterator[tuple[str, str, str]]:
    """Yields the selector, the property and the value of each declaration. Raises AssertionError for faults."""
    tinycss2 = pytest.importorskip("tinycss2", reason="no tinycss2")
    for rule in content:
        assert rule.type in ("qualified-rule", "at-rule"), rule
        if rule.type == "at-rule":
            yield from declarations(tinycss2.parse_rule_list(rule.content, skip_comments=True, skip_whitespace=True))
            continue
        for one in tinycss2.parse_declaration_list(rule.content, skip_comments=True, skip_whitespace=True):
            assert one.type == "declaration", one
            yield tinycss2.serialize(rule.prelude).strip(), one.name, tinycss2.serialize(one.value).strip()


@pytest.mark.parametrize("path", STYLES, ids=[path.name for path in STYLES])
def test_styles(path: Path, tmp_path: Path) -> None:
    """A browser supports all properties with their values, and all selectors."""
    tinycss2 = pytest.importorskip("tinycss2", reason="no tinycss2")
    browsers = pytest.importorskip("browsers", reason="no selenium")
    rules = tinycss2.parse_stylesheet(path.read_text(), skip_comments=True, skip_whitespace=True)
    found = [*declarations(rules)]
    faulty = """return arguments[0].filter(([selector, name, value]) =>
        !(CSS.supports(name, value) && selector.split(",").every(one => CSS.supports(`selector(${one})`))))"""
    with browsers.browser(tmp_path) as chromium:
        assert chromium.execute_script(faulty, found) == [] and len(found) > 3
        assert chromium.execute_script(faulty, [["a", "colour", "red"]]) == [["a", "colour", "red"]]


@pytest.mark.parametrize("path", TEMPLATES, ids=[path.name for path in TEMPLATES])
def test_templates(path: Path) -> None:
    """Templates can be read, and have nothing that a policy forbids."""
    jinja2 = pytest.importorskip("jinja2", reason="no jinja2")
    text = path.read_text()
    jinja2.Environment().parse(text)
    assert not re.search(r"\son[a-z]+=|\sstyle=|javascript:|[^'\"]\|\s*safe\b", text)
