"""What docs/features.md and docs/filters.md list of the service."""

import re

import pytest
from counties import TOP
from tigerline.commands.command_line import parsers
from tigerline.service import pages, selections, site
from tigerline.service.documents import CONFORMS_TO
from tigerline.service.selections import Limits

PAGE = (TOP / "docs/features.md").read_text()
CONFORMANCE = (TOP / "docs/filters.md").read_text()


def test_conformance_classes_are_those_of_the_page() -> None:
    """The service declares the classes of CQL2 that the page lists, and the page has all others in its table."""
    listed = re.search(r"^These are declared: (.*)\. The others lack something:$", CONFORMANCE, re.MULTILINE)
    assert listed
    held = re.findall(r"`([a-z0-9-]+)`", listed[1])
    lacking = re.findall(r"^\| `([a-z0-9-]+)` \| [^|]+ \|$", CONFORMANCE, re.MULTILINE)
    assert len({*held, *lacking}) == len(held) + len(lacking) == 14
    uri = "http://www.opengis.net/spec/cql2/1.0/conf/"
    assert held == [name.removeprefix(uri) for name in CONFORMS_TO if name.startswith(uri)]


def test_limits_are_those_of_the_page() -> None:
    """The counts of the section, in its order, are the defaults."""
    server = pytest.importorskip("tigerline.service.server", reason="no waitress")
    section = PAGE.partition("\n## Limits\n\n")[2].partition("\n\n")[0]
    found = re.findall(r"(?:^-|and|,|;) ([0-9][0-9,]*) [a-zA-Z]", section, re.MULTILINE)
    limits, parentheses = Limits(), (64, 63)  # The program counts these: test_deep_filter_and_property.
    assert [int(number.replace(",", "")) for number in found] == [
        *(limits.processes, site.MOST_FILES, limits.waiting, limits.seconds),
        *(limits.buffers >> 20, selections.MOST_BUFFERS, limits.page, int(pages.MOST_ROWS), selections.MOST_SORTED),
        *(limits.filter_length, *parentheses, server.LONGEST_HEAD, limits.connections),
        *(server.IDLE_SECONDS, server.SENDING_SECONDS),
    ]


def test_options_are_those_of_the_command() -> None:
    options = set(re.findall(r"--[a-z]+", parsers()[1]["serve"].format_help())) - {"--help", "--version"}
    assert options == set(re.findall(r"--[a-z]+", PAGE))
