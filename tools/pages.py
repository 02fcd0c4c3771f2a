#!/usr/bin/env python3
"""Writes the parts of the pages that repeat the sources, and checks the pages.

    python3 tools/pages.py            writes these parts
    python3 tools/pages.py --check    prints what is wrong with the pages; exits with 1 if anything is
    python3 tools/pages.py --count    prints the words, the lines and the words per sentence of each page

A part is between two comments of a page: `<!-- NAME: by tools/pages.py -->` and `<!-- end of NAME -->`. It is wrong if it
isn't what the sources say. A page is wrong if it has more than 400 lines. And docs/refusals.md has to have the number and the
name of each refusal that a command reports, and no others, README.md the options of each command, and docs/http.md the routes.
"""

import re
import sys
import textwrap
from collections.abc import Iterator
from functools import partial
from pathlib import Path
from typing import NamedTuple

TOP = Path(__file__).resolve().parent.parent
MAX_LINES = 400
FENCED = re.compile(r"^```.*?^```$|<!--.*?-->", re.DOTALL | re.MULTILINE)
CITATION = r" \((?:RFC|TIGER|OGC|ISO)[^)]*\)"
# The end of a sentence, and the beginning of the next one.
BETWEEN = re.compile(r"(?<=[.!?])[)*`\"]*\s+(?=[\w`*\[(\"])")


def source(path: str) -> str:
    return (TOP / "crates" / path).read_text(encoding="utf-8")


def crate_names() -> list[str]:
    lines = (TOP / "crates.txt").read_text(encoding="utf-8").splitlines()
    return [line.partition(":")[0].split()[0] for line in lines if line and not line.startswith("#")]


def root_of(crate: str) -> str:
    """Returns the file that begins a crate's description."""
    return next(
        f"{crate}/src/{name}.rt" for name in ("lib", "main") if (TOP / "crates" / crate / f"src/{name}.rt").exists()
    )


def head_of(path: str) -> str:
    """Returns the first sentence about a module, without its full stop. One of up to three words has the next one with it."""
    lines = re.match(r"(//! .*\n)+", source(path))
    if lines is None:
        raise ValueError(f"{path} doesn't begin with a comment on the module")
    sentences = BETWEEN.split(re.sub(r"(?m)^//! ", "", lines[0]).replace("\n", " ").strip())
    return " ".join(sentences[: 2 if len(sentences[0].split()) < 4 else 1]).rstrip(".")


def crates_part() -> str:
    """Returns the list of crates but those of tests: a name, and the first sentence about it without details and what it cites."""
    heads = {crate: head_of(root_of(crate)) for crate in crate_names() if not crate.endswith("_tests")}
    return "".join(
        wrapped(f"- `{crate}`: {lowered(without_details(re.sub(CITATION, '', head)))}", "  ")
        for crate, head in heads.items()
    )


class FaultType(NamedTuple):
    crate: str
    parts: list[str]
    numbers: list[int]


def fault_types() -> dict[str, FaultType]:
    """Returns each type of faults with a refusal: its crate, the types in it, and the numbers that it gives itself."""
    types: dict[str, tuple[str, str, str]] = {}
    for crate in (crate for crate in crate_names() if not crate.endswith("_tests")):
        for path in sorted((TOP / "crates" / crate / "src").rglob("*.rt")):
            text = path.read_text(encoding="utf-8")
            for name, body in re.findall(
                r"(?s)^pub (?:enum|struct) (\w*(?:Fault|FaultKind|Flaw|Failure|Cause))\b.*?\{(.*?)^\}",
                text,
                re.MULTILINE,
            ):
                types[name] = (crate, body, text)
    return {
        name: FaultType(
            crate,
            [part for part in re.findall(r"(?<!`)\b\w+\b", body) if part in types and part != name],
            own_numbers(name, text, [other for other in types if other != name and types[other][2] == text]),
        )
        for name, (crate, body, text) in types.items()
    }


def own_numbers(name: str, text: str, others: list[str]) -> list[int]:
    """Returns the numbers in the code about a type of faults: from a mention of it to that of another type."""
    mention = re.compile(rf"\b({'|'.join([name, *others])})\b|Refusal::(?:refused|detailed|io)\(\s*(\d+)")
    about, numbers = "", set()
    for match in mention.finditer(text):
        about = match[1] or about
        if match[2] and about == name:
            numbers.add(int(match[2]))
    return sorted(numbers)


def spans(numbers: list[int]) -> str:
    """Returns numbers as text: `1 to 5, 8`."""
    rows: list[list[int]] = []
    for number in numbers:
        if rows and number == rows[-1][-1] + 1:
            rows[-1].append(number)
        else:
            rows.append([number])
    texts = (f"{row[0]} to {row[-1]}" if len(row) > 2 else ", ".join(map(str, row)) for row in rows)
    return ", ".join(texts)


def fault_lines(types: dict[str, FaultType], name: str, depth: int, listed: set[str]) -> Iterator[str]:
    """Yields the lines of a type. What it contains is listed once."""
    fault = types[name]
    yield f"{'  ' * depth}{name}".ljust(28) + f"{fault.crate}".ljust(18) + spans(fault.numbers)
    if name not in listed:
        listed.add(name)
        for part in fault.parts:
            yield from fault_lines(types, part, depth + 1, listed)


def faults_part() -> str:
    """Returns the tree of faults: each type with its crate and its own numbers, and under it the types that it contains."""
    types = fault_types()
    inner = {part for fault in types.values() for part in fault.parts}

    def has_numbers(name: str) -> bool:
        return bool(types[name].numbers) or any(has_numbers(part) for part in types[name].parts)

    roots = (name for name in types if name not in inner and has_numbers(name))
    listed: set[str] = set()
    lines = [line.rstrip() for root in roots for line in fault_lines(types, root, 0, listed)]
    return "```text\n" + "\n".join(lines) + "\n```\n"


def without_details(sentence: str) -> str:
    """Returns a sentence up to its colon, if that is a description by itself."""
    start, _, _ = sentence.partition(": ")
    return start if len(start.split()) > 2 else sentence


def wrapped(text: str, indent: str = "") -> str:
    return textwrap.fill(text, 140, subsequent_indent=indent, break_on_hyphens=False) + "\n"


def lowered(sentence: str) -> str:
    """Returns a sentence as a phrase. A word of capitals stays."""
    return (sentence if sentence[1:2].isupper() else sentence[0].lower() + sentence[1:]).rstrip(".")


def table(*rows: tuple[str, ...]) -> str:
    """Returns a table in Markdown. The first row is its head."""
    lines = [f"| {' | '.join(row)} |" for row in rows]
    return "\n".join([lines[0], "|---" * len(rows[0]) + "|", *lines[1:]]) + "\n"


class Field(NamedTuple):
    name: str
    first: int
    last: int
    meaning: str

    def places(self) -> str:
        return str(self.first) if self.first == self.last else f"{self.first}-{self.last}"


def fields_of(record_type: str) -> list[Field]:
    """Returns the fields that the table of record types names."""
    block = source("tl_records/src/layout.rt").split(f"\nimpl {record_type} {{")[1].split("\n}")[0]
    found = re.findall(r"/// (.*)\n +pub const (\w+): Places = Places\((\d+), (\d+)\)", block)
    return [Field(name, int(first), int(last), lowered(meaning)) for meaning, name, first, last in found]


def other_fields() -> list[Field]:
    """Returns the fields that only the table of columns names."""
    found = re.findall(r'// (.*)\n +\w+ \w+ "(\w+)" Places\((\d+), (\d+)\);', source("cql2/src/column.rt"))
    return [Field(name, int(first), int(last), lowered(meaning)) for meaning, name, first, last in found]


def first_layout_part() -> str:
    """Returns the table of the fields of type 1, in the order of the record. A row has the fields of both sides."""
    fields = {field.name: field for field in sorted(fields_of("Type1") + other_fields(), key=lambda field: field.first)}
    of_right = {f"{name[:-1]}R" for name in fields if name[-1] == "L" and f"{name[:-1]}R" in fields}
    rows = []
    for name, field in fields.items():
        other = fields.get(f"{name[:-1]}R") if name[-1] == "L" else None
        if name not in of_right:
            rows.append(both_sides(field, other) if other else (name, field.places(), field.meaning))
    return table(("Field", "Places", "Meaning"), *rows)


def both_sides(left: Field, right: Field) -> tuple[str, str, str]:
    """Returns the row of two fields, which have the same meaning on the left and on the right."""
    of = left.name.replace("IADD", "ADD")
    meaning = left.meaning.replace(" on the left", ", left and right").replace(of, f"{of} or {of[:-1]}R")
    return f"{left.name}, {right.name}", f"{left.places()}, {right.places()}", meaning


def further_types() -> list[str]:
    """Returns the record types after the first two, such as `4`. The page has its own line for type 2."""
    return re.findall(r"^pub struct Type(?![12];)(\w+);", source("tl_records/src/layout.rt"), re.MULTILINE)


def layout_part(record_type: str) -> str:
    """Returns the fields of another type with their places."""
    return wrapped(", ".join(f"{field.name} {field.places()}" for field in fields_of(record_type)))


# What the table of helper functions says of the bounds of their arguments and answers.
BOUNDS = {"FIELD_IDS": " 0 to 16", "COORDINATE_IDS": " 0 to 3", "ANY_NUMBER": ""}
FRAME_BOUNDS = ["", " in the frame", " 1 to 30"]
LIMITS = {"MAX_NAMES as u64": "5000", "MAX_RANGES as u64 + 1": "1001", "u64::MAX": "any number"}
PROTOTYPE = re.compile(
    r"Helper::(\w+) => row\(\s*(\d+),\s*(\w+(?:\([^)]*\))?),\s*Group::\w+,\s*(\w+),\s*([^,]+?),?\s*\)"
)


def argument_names() -> dict[str, list[str]]:
    """Returns the names that the declarations in C give the arguments of each function, by its number."""
    header = (TOP / "tools/c/extractd.h").read_text(encoding="utf-8")
    declared = re.findall(r"^HELPER\((\d+), \w+, \w+, \(([^)]*)\)\)", header, re.MULTILINE)
    return {
        number: re.findall(r"(\w+)(?:,|$)", "" if arguments == "void" else arguments) for number, arguments in declared
    }


def arguments_of(number: str, prototype: str) -> str:
    """Returns what a helper function takes: each argument with its bounds."""
    bounds = [BOUNDS[word] for word in re.findall(r"\w+", prototype.partition("(")[2])]
    names = argument_names()[number]
    if prototype == "NAME_AND_BYTES":
        bounds = FRAME_BOUNDS
    if len(names) != len(bounds):
        raise ValueError(f"helper function {number} has other arguments in extractd.h")
    return ", ".join(f"`{name}`{bound}" for name, bound in zip(names, bounds))


def answer_of(low: str, high: str) -> str:
    last = LIMITS.get(high, high.replace("_", ""))
    return last if last in (low, "any number") else f"{low} to {last}"


def helpers_part() -> str:
    """Returns the table of helper functions, in the order of their numbers."""
    text = source("bpf_helpers/src/helper.rt")
    does = {name: lowered(what) for what, name in re.findall(r"/// (.*)\n    (\w+),", text)}
    names = dict(re.findall(r'Helper::(\w+) => "(\w+)"', text))
    rows = [
        (number, f"`{names[helper]}`", arguments_of(number, prototype), answer_of(low, high), does[helper])
        for helper, number, prototype, low, high in PROTOTYPE.findall(text)
    ]
    return table(
        ("No", "Name", "r1, r2, r3", "Answer in r0", "What it does"), *sorted(rows, key=lambda row: int(row[0]))
    )


# The parts: the page of each, and what it should be.
PARTS = {
    "crates": ("docs/ARCHITECTURE.md", crates_part),
    "faults": ("docs/ARCHITECTURE.md", faults_part),
    "helpers": ("docs/helpers.md", helpers_part),
    "type 1": ("docs/records.md", first_layout_part),
    **{f"type {name}": ("docs/records.md", partial(layout_part, f"Type{name}")) for name in further_types()},
}


def with_part(name: str, text: str) -> str:
    """Returns a page's text with one part as it should be."""
    begin, end = f"<!-- {name}: by tools/pages.py -->\n", f"<!-- end of {name} -->"
    if begin not in text or end not in text:
        raise ValueError(f"{PARTS[name][0]} has no part {name}")
    return f"{text.partition(begin)[0]}{begin}\n{PARTS[name][1]()}\n{end}{text.partition(end)[2]}"


def pages() -> list[str]:
    return ["README.md", *(f"docs/{page.name}" for page in sorted((TOP / "docs").glob("*.md")))]


def read(page: str) -> str:
    return (TOP / page).read_text(encoding="utf-8")


def refusals_in_sources() -> set[tuple[str, str]]:
    """Returns the number and the name of each refusal."""
    texts = (path.read_text(encoding="utf-8") for path in sorted((TOP / "crates").glob("*/src/**/*.rt")))
    return {row for text in texts for row in re.findall(r'Refusal::(?:refused|detailed|io)\(\s*(\d+),\s*"(\w+)"', text)}


def refusals_on_page() -> set[tuple[str, str]]:
    return set(re.findall(r"^- \*\*(\d+) ([A-Z]\w+)", read("docs/refusals.md"), re.MULTILINE))


def refusal_faults() -> list[str]:
    """Returns the refusals that are only on their page, and those that aren't there."""
    listed, sources = refusals_on_page(), refusals_in_sources()
    missing = (row for row in sources - listed if row[0] not in UNREPORTED)
    return [
        *(f"docs/refusals.md: {number} {name} isn't in the sources" for number, name in sorted(listed - sources)),
        *(f"docs/refusals.md: {number} {name} is missing" for number, name in sorted(missing)),
    ]


# Refusals that no command reports: of a table of jobs, and of connections.
UNREPORTED = ("70", "71", "72", "80", "81", "82", "83")


def options_in_definition() -> dict[str, set[str]]:
    """Returns the options of each command. `LAYER` stands for those that several commands share."""
    text = (TOP / "crates/command_line/specs/Arguments.antt").read_text(encoding="utf-8")
    names = re.findall(r"^name_of (\w+) = codes \"([a-z-]+)\"", text, re.MULTILINE)
    rules = dict(re.findall(r"^arguments_of (\w+) =((?: .*|\n    .*)+)", text, re.MULTILINE))
    return {
        command: {
            *re.findall(r'codes "([a-z-]+)"', rules[name]),
            *(["LAYER"] if "layer_options" in rules[name] else []),
        }
        for name, command in names
    }


def options_in_readme() -> dict[str, set[str]]:
    """Returns the options that the point on each command names."""
    section = read("README.md").split("\n## Using it\n")[1].split("\n## ")[0]
    points = re.findall(r"^- `([a-z-]+) ((?:.|\n(?!- |\n))*)", section, re.MULTILINE)
    return {command: set(re.findall(r"(?<=--)[a-z-]+|LAYER", text)) for command, text in points}


def option_faults() -> list[str]:
    """Returns the commands whose options README.md doesn't show."""
    shown = options_in_readme()
    return [
        f"README.md: {command} has the options {' '.join(sorted(options))}, and not those shown under \"Using it\""
        for command, options in options_in_definition().items()
        if shown.get(command) != options
    ]


def routes() -> list[str]:
    """Returns the methods and paths of the server, such as `GET /version`."""
    rows = re.findall(r'\w+: "(/[^"]*)" "([A-Z, ]+)"', source("http_message/src/route.rt"))
    return [f"{method} {path}" for path, methods in rows for method in methods.split(", ")]


def route_faults() -> list[str]:
    page = read("docs/http.md")
    return [f"docs/http.md: no row for {route}" for route in routes() if f"| `{route}` |" not in page]


def part_faults(name: str) -> list[str]:
    page = PARTS[name][0]
    is_right = with_part(name, read(page)) == read(page)
    return [] if is_right else [f"{page}: the part {name} isn't what the sources say; run tools/pages.py"]


def length_faults(page: str) -> list[str]:
    lines = read(page).count("\n")
    return [f"{page}: {lines} lines, more than {MAX_LINES}"] if lines > MAX_LINES else []


def faults() -> list[str]:
    """Returns all that is wrong with the pages."""
    return [
        *(fault for name in PARTS for fault in part_faults(name)),
        *(fault for page in pages() for fault in length_faults(page)),
        *refusal_faults(),
        *option_faults(),
        *route_faults(),
    ]


def paragraphs(text: str) -> Iterator[str]:
    """Yields the paragraphs and points of a page, without its headings, tables and blocks of code."""
    for block in re.split(r"\n\s*\n|\n(?=\s*(?:- |\d+\. ))", FENCED.sub("", text)):
        lines = [line.strip() for line in block.splitlines() if not re.match(r"\s*[#|]|    \S", line)]
        if any(lines):
            yield re.sub(r"\]\([^)]*\)", "]", " ".join(lines))


def count() -> None:
    total = 0
    for page in pages():
        text = read(page)
        sentences = [sentence for paragraph in paragraphs(text) for sentence in BETWEEN.split(paragraph)]
        lengths = [len(sentence.split()) for sentence in sentences]
        words = len(text.split())
        total += words
        mean = sum(lengths) / max(1, len(lengths))
        sizes = f"{words:6} words {text.count(chr(10)):4} lines"
        print(f"{page:28} {sizes} {mean:5.1f} words per sentence, at most {max(lengths, default=0)}")
    print(f"{len(pages())} pages, {total} words")


def main() -> int:
    if sys.argv[1:] == ["--count"]:
        count()
        return 0
    if sys.argv[1:] == ["--check"]:
        found = faults()
        print("\n".join(found) if found else f"{len(pages())} pages")
        return 1 if found else 0
    for name, (page, _) in PARTS.items():
        (TOP / page).write_text(with_part(name, read(page)), encoding="utf-8")
    return 0


if __name__ == "__main__":
    sys.exit(main())
