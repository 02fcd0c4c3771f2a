"""The manual pages and the completions, compared with the program's --help.

Each command and each option of a page is a test here. One compares the pages with --help, so that a missing page or option is seen. Each offered column must
be accepted, and docs/filters.md must have all columns.
"""

import os
import re
import subprocess
from functools import cache
from pathlib import Path
from typing import NamedTuple

import pytest
from harness.program import TOP

HERE = Path(__file__).parent
PACKAGING = TOP / "deploy/packaging"
PAGES = sorted((PACKAGING / "man").glob("*.1"))
COMMANDS = sorted(page.stem.removeprefix("extractd-") for page in PAGES if page.stem.startswith("extractd-"))
# The program without a command, and with each.
CALLS = ["", *COMMANDS]
SECONDS = 300
ZSH = [pytest.mark.needs("zsh"), pytest.mark.xdist_group("zsh")]
SHELLS = [pytest.param("bash", id="bash"), pytest.param("zsh", id="zsh", marks=ZSH)]


# ---- What the program says


def said(*command: str | Path, folder: Path = TOP / "examples", text: str = "") -> str:
    """Returns all that a command writes in a folder."""
    done = subprocess.run(
        command,
        cwd=folder,
        env={**os.environ, "LC_ALL": "C.UTF-8"},
        input=text,
        stdout=subprocess.PIPE,
        stderr=subprocess.STDOUT,
        text=True,
        timeout=SECONDS,
    )
    return done.stdout


@cache
def help_of(command: str) -> str:
    return said("extractd", *command.split(), "--help")


def options_of(command: str) -> list[str]:
    """Returns the long options in its help, sorted."""
    return sorted(re.findall(r"^ {2,6}(?:-., )?(--[a-z-]*)", help_of(command), re.MULTILINE))


def commands_of_help() -> list[str]:
    part = re.search(r"^Commands:\n(.*?)^$", help_of(""), re.MULTILINE | re.DOTALL)
    return re.findall("^  ([a-z-]*) ", part[1] if part else "", re.MULTILINE)


# ---- What the pages say


def page_of(command: str) -> str:
    return (PACKAGING / "man" / (f"extractd-{command}.1" if command else "extractd.1")).read_text()


def options_in_page(command: str) -> list[str]:
    """Returns the options that its manual page describes, sorted."""
    return sorted(
        f"--{name}" for name in re.findall(r"^\.It (?:Fl \w , )?Fl Fl ([a-z-]*)", page_of(command), re.MULTILINE)
    )


def options_in_synopsis(command: str) -> list[str]:
    part = page_of(command).partition("\n.Sh SYNOPSIS\n")[2].partition("\n.Sh DESCRIPTION\n")[0]
    return sorted(f"--{name}" for name in re.findall(r"^\.(?:Op )?Fl Fl ([a-z-]*)(?: .*)?$", part, re.MULTILINE))


def columns_in_page(kinds: str) -> list[str]:
    """Returns the columns of these kinds in docs/filters.md."""
    rows = re.findall(rf"^\| (?:{kinds}) \| ([A-Z0-9_, ]*) \|", (TOP / "docs/filters.md").read_text(), re.MULTILINE)
    return [column for row in rows for column in row.replace(",", "").split()]


def values_in_page(option: str) -> list[str]:
    """Returns the values of an option in README.md, which has them between bars."""
    found = re.search(rf"\[--{option} ([a-z|]+)\]", (TOP / "README.md").read_text())
    return found[1].split("|") if found else []


# Columns that a score can be, and all columns.
SCORES, FIELDS = columns_in_page("number|coordinate"), columns_in_page("number|coordinate|text")


# ---- What the shells offer

# A row is a name, the completions, and a command line. `_` is an empty word. COMMANDS and the like stand for a list.
OFFERS = """
the commands | COMMANDS | extractd _
counties | 01001 | extractd run --data . _
files | addresses.csv | extractd geocode-batch --addresses addr
folders | town | extractd run --data to
columns | SCORES | extractd select --score _
columns of a list | FIELDS | extractd select --columns _
formats | FORMATS | extractd select --format _
languages | cql2-text cql2-json | extractd compile --filter-lang _
geometries | GEOMETRIES | extractd run --geometry _
"""
# These shells split words in their own ways.
BASH_OFFERS = """
counties after --data= | 01001 | extractd select --data = . 0
the next column | TLID,FENAME | extractd select --columns TLID,fen
"""
ZSH_OFFERS = """
counties after --data= | 01001 | extractd select --data=. 0
the next column | FENAME | extractd select --columns TLID,fen
"""
LISTS = {
    "COMMANDS": COMMANDS,
    "SCORES": SCORES,
    "FIELDS": FIELDS,
    "FORMATS": values_in_page("format"),
    "GEOMETRIES": values_in_page("geometry"),
}


class Offer(NamedTuple):
    name: str
    expected: list[str]
    words: list[str]


def offers_of(rows: str) -> list[Offer]:
    cells = (row.split(" | ") for row in rows.strip().splitlines())
    return [Offer(name, LISTS.get(expected, expected.split()), words_of(line)) for name, expected, line in cells]


def words_of(line: str) -> list[str]:
    return ["" if word == "_" else word for word in line.split(" ")]


def line_of_options(command: str) -> list[str]:
    """Returns a command line that asks for the options."""
    return ["extractd", *command.split(), "--"]


BASH, ZSH_LINES = offers_of(OFFERS + BASH_OFFERS.lstrip()), offers_of(OFFERS + ZSH_OFFERS.lstrip())


@cache
def bash_offers(line: str) -> list[str]:
    """Returns bash's completions of the last word of a line, sorted."""
    completions = PACKAGING / "completions/extractd.bash"
    return sorted(said("bash", HERE / "complete.bash", completions, *line.split(" ")).split())


@pytest.fixture(scope="session")
def zsh_answers(tmp_path_factory: pytest.TempPathFactory) -> dict[str, list[str]]:
    """Returns zsh's completions at the end of each line, sorted. One shell completes them all."""
    lines = [" ".join(offer.words) for offer in ZSH_LINES] + [" ".join(line_of_options(call)) for call in CALLS]
    text = "".join(f"{line}\n" for line in lines)
    folders = (PACKAGING / "completions", tmp_path_factory.mktemp("zsh"))
    answers = said("zsh", "-f", HERE / "complete.zsh", *folders, text=text).splitlines()
    assert len(answers) == len(lines), answers
    return {line: long_words(answer.removeprefix(f"{line}:")) for line, answer in zip(lines, answers)}


def long_words(answer: str) -> list[str]:
    """Returns completions without the short options."""
    return sorted(word for word in answer.split() if not re.fullmatch("-[a-zA-Z]", word))


def offered(shell: str, words: list[str], request: pytest.FixtureRequest) -> list[str]:
    """Returns what a shell offers for the last word, sorted."""
    line = " ".join(words)
    if shell == "bash":
        return bash_offers(line)
    answers: dict[str, list[str]] = request.getfixturevalue("zsh_answers")
    return answers[line]


# ---- The list of commands and options


def named(call: str) -> str:
    return call or "extractd"


OPTIONS = [(call, option) for call in CALLS for option in options_in_page(call)]
OPTION_IDS = [f"{named(call)} {option}" for call, option in OPTIONS]


def test_pages(extractd: str) -> None:
    """Each command has a page."""
    assert [page.name for page in PAGES] == sorted(
        [*(f"extractd-{command}.1" for command in commands_of_help()), "extractd.1", "tigerline.1"]
    )


def test_commands_in_the_page(extractd: str) -> None:
    found = re.findall(r"^\.It Xr extractd-([a-z-]*) 1", page_of(""), re.MULTILINE)
    assert sorted(found) == sorted(commands_of_help()) == COMMANDS


def test_commands_of_tigerline() -> None:
    help_text = said("tigerline", "--help")
    found = re.findall(r"^\.It Cm (.*)", (PACKAGING / "man/tigerline.1").read_text(), re.MULTILINE)
    assert sorted(found) == sorted(re.findall(r"^    ([a-z]+) ", help_text, re.MULTILINE)) != []


@pytest.mark.parametrize("call", CALLS, ids=named)
def test_options_in_page(call: str, extractd: str) -> None:
    assert options_in_page(call) == options_of(call) != []


@pytest.mark.parametrize("command", COMMANDS)
def test_options_in_synopsis(command: str, extractd: str) -> None:
    assert options_in_synopsis(command) == [option for option in options_of(command) if option != "--help"]


@pytest.mark.parametrize("call", CALLS, ids=named)
@pytest.mark.parametrize("shell", SHELLS)
def test_options_in_shell(shell: str, call: str, extractd: str, request: pytest.FixtureRequest) -> None:
    assert offered(shell, line_of_options(call), request) == options_of(call)


@pytest.mark.parametrize("call, option", OPTIONS, ids=OPTION_IDS)
def test_option(call: str, option: str, extractd: str) -> None:
    """The program has each option of a page, once."""
    assert options_of(call).count(option) == 1


@pytest.mark.parametrize("call, option", OPTIONS, ids=OPTION_IDS)
@pytest.mark.parametrize("shell", SHELLS)
def test_offered_option(shell: str, call: str, option: str, request: pytest.FixtureRequest) -> None:
    assert offered(shell, line_of_options(call), request).count(option) == 1


# ---- Completions of arguments


@pytest.mark.parametrize("offer", BASH, ids=[offer.name for offer in BASH])
def test_bash(offer: Offer, request: pytest.FixtureRequest) -> None:
    assert offered("bash", offer.words, request) == sorted(offer.expected) != []


@pytest.mark.needs("zsh")
@pytest.mark.xdist_group("zsh")
@pytest.mark.parametrize("offer", ZSH_LINES, ids=[offer.name for offer in ZSH_LINES])
def test_zsh(offer: Offer, request: pytest.FixtureRequest) -> None:
    assert offered("zsh", offer.words, request) == sorted(offer.expected) != []


@pytest.mark.parametrize("column", SCORES)
def test_score(column: str, extractd: str) -> None:
    command = ["extractd", "compile", "--filter", "-", "--score", column]
    done = subprocess.run(command, cwd=TOP / "examples", input=b"TRUE\n", capture_output=True)
    assert done.stderr == b""
    assert done.returncode == 0 and done.stdout


@pytest.mark.parametrize("column", FIELDS)
def test_column(column: str, extractd: str, here: Path) -> None:
    """The program is read after the options."""
    (here / "empty.bpf").write_bytes(b"")
    data = str(TOP / "examples")
    command = ["extractd", "run", "--program", "empty.bpf", "--data", data, "--format", "csv", "--columns", column]
    assert said(*command, "01001", folder=here) == "refused 10 Empty\n"


# ---- The pages themselves


@pytest.mark.parametrize("page", PAGES, ids=[page.name for page in PAGES])
def test_version_in_page(page: Path, extractd: str) -> None:
    assert re.findall(r'^\.Os "(.*)"$', page.read_text(), re.MULTILINE) == [said("extractd", "--version").rstrip("\n")]


@pytest.mark.needs("groff")
@pytest.mark.parametrize("page", PAGES, ids=[page.name for page in PAGES])
def test_warnings_of_page(page: Path) -> None:
    """groff renders it without a warning."""
    assert said("groff", "-mdoc", "-Tutf8", "-ww", "-z", page) == ""
