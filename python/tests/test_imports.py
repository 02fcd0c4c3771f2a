"""The imports of the package's modules: none leads back to where it began, and none is inside a function."""

import ast
import importlib
from collections.abc import Collection, Iterator, Mapping
from graphlib import CycleError, TopologicalSorter
from importlib.util import resolve_name

import pytest
from counties import TOP

PACKAGE = TOP / "python/tigerline"
PACKAGES = ("tigerline", *(f"tigerline.{name}" for name in ("commands", "geocoding", "maps", "service")))
Sources = Mapping[str, str]


@pytest.fixture
def sources() -> Sources:
    """The texts of the package's modules by their names."""
    found = {}
    for path in PACKAGE.rglob("*.py"):
        parts = path.relative_to(PACKAGE.parent).with_suffix("").parts
        found[".".join(parts).removesuffix(".__init__")] = path.read_text()
    return found


def imported(node: ast.AST, name: str, modules: Collection[str]) -> Iterator[str]:
    """Yields the modules that a statement of a module imports, and the packages that they are in."""
    for module in named(node, name, modules):
        yield module
        while module := module.rpartition(".")[0]:
            if not f"{name}.".startswith(f"{module}."):
                yield module


def named(node: ast.AST, name: str, modules: Collection[str]) -> Iterator[str]:
    """Yields the modules that a statement of a module names."""
    if isinstance(node, ast.Import):
        yield from (alias.name for alias in node.names)
    if isinstance(node, ast.ImportFrom):
        is_package = any(other.startswith(f"{name}.") for other in modules)
        package = name if is_package else name.rpartition(".")[0]
        start = resolve_name("." * node.level + (node.module or ""), package)
        for alias in node.names:
            yield f"{start}.{alias.name}" if f"{start}.{alias.name}" in modules else start


def circle(sources: Sources) -> list[str]:
    """Returns modules of which each imports the next and the last is the first again, or nothing if there are none.

    Imports for type checkers count, too.
    """
    graph = {
        name: {module for node in ast.walk(ast.parse(text)) for module in imported(node, name, sources)} & {*sources}
        for name, text in sources.items()
    }
    try:
        TopologicalSorter(graph).prepare()
    except CycleError as error:
        return [*reversed(error.args[1])]
    return []


def imports_in_functions(sources: Sources) -> list[str]:
    """Returns the imports inside functions."""
    return [
        f"{name}, line {node.lineno}: {ast.unparse(node)}"
        for name, text in sources.items()
        for function in ast.walk(ast.parse(text))
        if isinstance(function, ast.FunctionDef | ast.AsyncFunctionDef)
        for node in ast.walk(function)
        if isinstance(node, ast.Import | ast.ImportFrom)
    ]


def test_package_has_no_circle(sources: Sources) -> None:
    assert len(sources) == len(list(PACKAGE.rglob("*.py"))) > 1
    assert " -> ".join(circle(sources)) == ""


def test_package_imports_at_the_top(sources: Sources) -> None:
    assert "\n".join(imports_in_functions(sources)) == ""


@pytest.mark.parametrize(
    ("texts", "expected"),
    [
        (("import p.b", "from p import c", "import json"), set()),
        (("from .b import x", "from . import c", "if TYPE_CHECKING:\n    from .a import y"), {"p.a", "p.b", "p.c"}),
        (("import json", "from p.c import x", "def f():\n    import p.b"), {"p.b", "p.c"}),
        (("from . import x", "from .a import x", "from .b import x"), {"p", "p.a"}),
    ],
)
def test_circles(texts: tuple[str, str, str], expected: set[str]) -> None:
    assert set(circle(dict(zip(("p", "p.a", "p.b", "p.c"), ("from .a import x", *texts))))) == expected


def test_imports_in_functions() -> None:
    function = "def f():\n    from .b import x\n    import json\n"
    assert imports_in_functions({"p.a": f"import json\n{function}", "p.b": ""}) == [
        "p.a, line 3: from .b import x",
        "p.a, line 4: import json",
    ]


def test_circle_by_a_package() -> None:
    """A module of a package imports the package, too."""
    sources = {
        "p": "",
        "p.a": "from .q.c import x",
        "p.q": "from .b import x",
        "p.q.b": "from ..a import x",
        "p.q.c": "",
    }
    assert set(circle(sources)) == {"p.a", "p.q", "p.q.b"}


def test_names(sources: Sources) -> None:
    """Modules have no leading underscore, errors end with Error, and public names exist."""
    assert not [
        name for name in sources if any(part.startswith("_") and part != "__main__" for part in name.split("."))
    ]
    for name, text in sources.items():
        for node in ast.walk(ast.parse(text)):
            if isinstance(node, ast.ClassDef):
                bases = [ast.unparse(base) for base in node.bases]
                is_error = any(base == "Exception" or base.endswith("Error") for base in bases)
                assert node.name.endswith("Error") or not is_error, f"{name}: {node.name}"
        if name in PACKAGES:
            module = importlib.import_module(name)
            assert [public for public in module.__all__ if not hasattr(module, public)] == []


def test_comparison_can_be_imported() -> None:
    """No test runs postgis.py, which installs PostgreSQL."""
    pytest.importorskip("shapely", reason="no shapely")
    assert importlib.import_module("postgis").EXTENSIONS
