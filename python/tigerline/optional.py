"""Packages that only some functions need."""

from importlib import import_module
from types import ModuleType

# Debian's package of each has the name with `python3-` in front.
PACKAGES = ("dask", "distributed", "geopandas", "jinja2", "matplotlib", "numpy", "pandas", "shapely", "waitress")


def required(name: str) -> ModuleType:
    """Imports a module. Raises ImportError that says what to install if it or one that it needs is missing."""
    try:
        return import_module(name)
    except ModuleNotFoundError as error:
        missing = (error.name or name).partition(".")[0]
        debian = f"apt install python3-{missing}, or " if missing in PACKAGES else ""
        raise ModuleNotFoundError(
            f"there is no module {missing}: {debian}pip install {missing}", name=missing
        ) from None


def present(name: str) -> ModuleType | None:
    """Imports a module, or returns None if it isn't installed."""
    try:
        return import_module(name)
    except ModuleNotFoundError:
        return None
