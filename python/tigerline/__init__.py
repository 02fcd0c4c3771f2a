"""Street segments of TIGER/Line 2006, selected by the program `extractd`.

    import tigerline
    roads = tigerline.select("CFCC LIKE 'A%'", "tiger2006se", ["AL", "28033"])

`select` and `read_county` return data frames. They need pandas, and geopandas for geometry. `rows` yields typed
tuples, and needs the standard library alone.
"""

from .optional import required
from .version import __version__ as __version__

TYPE_CHECKING = False  # True for type checkers. Importing the module typing takes long.
if TYPE_CHECKING:
    from .frames import read_county, select
    from .geocoding import Address, Candidate, Match, Nearest, Reason, Status, geocode, reverse
    from .layout import Row
    from .program import RefusedError
    from .tuples import rows

__all__ = [
    "Address", "Candidate", "Match", "Nearest", "Reason", "RefusedError", "Row", "Status", "geocode", "read_county",
    "reverse", "rows", "select",
]  # fmt: skip

_OTHER_MODULES = {
    "RefusedError": "program", "Row": "layout", "read_county": "frames", "rows": "tuples", "select": "frames"
}  # fmt: skip


def __getattr__(name: str) -> object:
    """Imports a function or a class on its first use, so that `rows` works without pandas and commands start quickly."""
    if name not in __all__:
        raise AttributeError(f"module {__name__!r} has no attribute {name!r}")
    return getattr(required(f"{__name__}.{_OTHER_MODULES.get(name, 'geocoding')}"), name)


def __dir__() -> list[str]:
    """Returns the names of the package, including those that aren't imported yet."""
    return sorted({*globals(), *__all__})
