"""Makes filters (docs/filters.md) of boxes and polygons. All coordinates are degrees in NAD 83."""

import math
from collections.abc import Iterable, Mapping, Sequence
from decimal import Decimal
from typing import Any

from .optional import required

CRS = "EPSG:4269"  # NAD 83
GEOMETRY = "geometry"  # the property that stands for a segment's line
DECIMALS = 6
BOX_DECIMALS = 15
MOST_VERTICES = 1000  # of a shape, as extractd has it

Position = Sequence[float]
Polygon = Sequence[Sequence[Position]]  # its outer ring, and those of its holes


def spatial_predicate(shape: str) -> str:
    """Returns the filter for segments that have a point in common with a shape."""
    return f"S_INTERSECTS({GEOMETRY}, {shape})"


def box_text(bbox: Sequence[float]) -> str:
    """Returns a box as a filter has it. Raises ValueError unless it is west, south, east and north."""
    if len(bbox) != 4 or not all(map(math.isfinite, bbox)) or bbox[0] > bbox[2] or bbox[1] > bbox[3]:
        raise ValueError(
            f"a box is west, south, east and north in degrees, and {','.join(f'{number:g}' for number in bbox)} isn't"
        )
    return f"BBOX({', '.join(map(_exact_degrees, bbox))})"


def mask_text(mask: Mapping[str, Any]) -> str:
    """Returns the polygons of a GeoJSON object as a filter has them. Raises ValueError if it has other shapes."""
    polygons = _polygons(mask)
    if not polygons:
        raise ValueError("a mask has at least one polygon")
    vertices = sum(len(ring) - 1 for polygon in polygons for ring in polygon)
    if vertices > MOST_VERTICES:
        simplified = "ogr2ogr -simplify TOLERANCE simple.gpkg FILE has fewer"
        raise ValueError(f"the mask has {vertices:,} vertices, and a filter {MOST_VERTICES:,} at most: {simplified}")
    texts = [*map(_polygon_text, polygons)]
    return f"POLYGON{texts[0]}" if len(texts) == 1 else f"MULTIPOLYGON({', '.join(texts)})"


def conditions_of(bbox: Any, mask: Any) -> tuple[str, ...]:
    """Returns the conditions of a box and of a mask, which are those of `geopandas.read_file`.

    A box is four numbers, or has the bounds of shapes or of a GeoDataFrame. A mask is GeoJSON, or has `__geo_interface__`.
    """
    shapes = []
    if bbox is not None:
        bounds = _in_degrees(bbox)
        bounds = getattr(bounds, "total_bounds", getattr(bounds, "bounds", bounds))
        shapes.append(box_text([float(number) for number in bounds]))
    if mask is not None:
        shapes.append(mask_text(mask if isinstance(mask, Mapping) else _united(mask).__geo_interface__))
    return tuple(map(spatial_predicate, shapes))


def conjunction(where: str | None, conditions: Sequence[str]) -> str:
    """Returns the filter that is true if another one and all conditions are."""
    if where is None or not conditions:
        return where if where is not None else " AND ".join(conditions)
    return " AND ".join((f"({where})", *conditions))


def _in_degrees(shapes: Any) -> Any:
    """Returns a GeoDataFrame in degrees. Other shapes have no system of their own."""
    return shapes.to_crs(CRS) if getattr(shapes, "crs", None) else shapes


def _united(shapes: Any) -> Any:
    """Returns the polygons of a GeoDataFrame as one valid shape, since those of a filter don't overlap."""
    found = _in_degrees(shapes)
    if not hasattr(found, "total_bounds"):
        return found
    make_valid = required("shapely.validation").make_valid
    return required("shapely.ops").unary_union([make_valid(shape) for shape in found.geometry if shape is not None])


def _polygons(shape: Any) -> list[Polygon]:
    match shape:
        case {"type": "Polygon", "coordinates": rings}:
            return [rings]
        case {"type": "MultiPolygon", "coordinates": polygons}:
            return [*polygons]
        case {"type": "Feature", "geometry": geometry}:
            return _polygons(geometry)
        case {"type": "FeatureCollection", "features": shapes} | {"type": "GeometryCollection", "geometries": shapes}:
            return [polygon for part in shapes for polygon in _polygons(part)]
    kind = shape.get("type") if isinstance(shape, Mapping) else shape
    raise ValueError(f"a mask has polygons, and {kind!r} isn't one")


def _polygon_text(rings: Polygon) -> str:
    return f"({', '.join(f'({_ring_text(ring)})' for ring in rings)})"


def _ring_text(ring: Iterable[Position]) -> str:
    return ", ".join(f"{_degrees(place[0])} {_degrees(place[1])}" for place in ring)


def _exact_degrees(number: float) -> str:
    """Returns the decimals that stand for a number, as written by whoever gave it."""
    exact = round(Decimal(repr(float(number))), BOX_DECIMALS) + 0  # -0 is 0.
    return format(exact.normalize(), "f")


def _degrees(number: float) -> str:
    """Returns a coordinate to the millionth of a degree, as the files have them."""
    return f"{number:.{DECIMALS}f}".rstrip("0").rstrip(".")
