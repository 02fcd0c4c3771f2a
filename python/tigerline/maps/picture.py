"""Draws a map as a picture, by matplotlib."""

import io
import logging
import math
import re
import textwrap
import warnings
from collections import Counter
from collections.abc import Sequence
from importlib.resources import files
from typing import Any

from matplotlib import rc_context
from matplotlib.figure import Figure
from matplotlib.lines import Line2D
from matplotlib.patches import PathPatch
from matplotlib.path import Path
from matplotlib.patheffects import withStroke
from shapely.ops import polygonize

from .drawing import Drawing, printable
from .labels import DOT, NAME_SIZE, Label, labels_of
from .layers import AREA_CLASSES, INK, REST, Group, Layer
from .view import WIDTH, MapSegment, View

PAPER, HALO, HALO_WIDTH = "#f8f5ee", "#fdfcf8", 1.6
EDGE = 1.1  # the width of a casing beyond its line, on both sides together
MARGIN, LINE_HEIGHT, SCALE_HEIGHT = 9, 13, 20
SOURCE = "U.S. Census Bureau, TIGER/Line 2006, NAD83"
KILOMETERS = {"km": 1.0, "mi": 1.609344}
LONGEST_BAR = 60
# Texts stay texts in SVG, and the same map has the same bytes.
STYLE = {
    "font.sans-serif": ["DejaVu Sans", "Verdana"], "font.size": 8, "text.color": INK, "text.parse_math": False,
    "path.simplify": False, "svg.fonttype": "none", "svg.hashsalt": "map",
}  # fmt: skip
STYLE_OF_SVG = files("tigerline.maps").joinpath("static/picture.css").read_bytes()

logging.getLogger("matplotlib").setLevel(logging.ERROR)  # The first use builds a cache of fonts, and says so.


def write(drawing: Drawing, kind: str) -> bytes:
    """Returns a map with a caption, a legend with a title, and bars of scale, as ".svg", ".png" or ".pdf"."""
    lines = textwrap.wrap(drawing.heading, 66, max_lines=6, placeholder=" \N{HORIZONTAL ELLIPSIS}")
    legend = [(layer, f"{layer.label} ({len(segments):,})") for layer, segments in reversed(drawing.groups)]
    if drawing.rest:
        legend.append((REST, f"{drawing.rest_label} ({drawing.rest:,})"))
    view, width, top = drawing.view, WIDTH + 2 * MARGIN, MARGIN + LINE_HEIGHT * len(lines)
    bottom = MARGIN + SCALE_HEIGHT + LINE_HEIGHT * (1 + math.ceil(len(legend) / 2))
    height = top + view.height + bottom
    with rc_context(STYLE), warnings.catch_warnings():
        warnings.simplefilter("ignore")  # about letters that the font doesn't have
        figure = Figure((width / 72, height / 72))
        frame = MARGIN / width, bottom / height, WIDTH / width, view.height / height
        axes = figure.add_axes(frame, xlim=(0, WIDTH), ylim=(0, view.height), xticks=(), yticks=(), facecolor=PAPER)
        axes.text(0, view.height + 5, "\n".join(lines), size=9.5, weight="bold")
        _draw_map(axes, drawing, has_outlines=kind != ".svg")
        _draw_scale(axes, view)
        _draw_legend(axes, legend, drawing.title)
        file = io.BytesIO()
        metadata = {"Title": drawing.heading} | ({"Date": None} if kind == ".svg" else {})
        figure.savefig(file, format=kind[1:], dpi=200, metadata=metadata)
    return _finished(file.getvalue()) if kind == ".svg" else file.getvalue()


def _finished(svg: bytes) -> bytes:
    """Adds the halos of names, and lets a browser choose the size of the picture, as that of a phone does."""
    fitting = re.sub(rb' width="[0-9.]+pt" height="[0-9.]+pt"', b"", svg, 1)
    return fitting.replace(b"</style>", STYLE_OF_SVG + b"</style>", 1)


def _draw_map(axes: Any, drawing: Drawing, has_outlines: bool) -> None:
    """Draws areas, lines and names. The edges of all selected lines are below the lines, so that corners join."""
    view, middle = drawing.view, len(drawing.background) + 0.5
    thickness = min(max(math.sqrt(view.points_per_kilometer / 75), 0.5), 1.25)
    drawn = [_on_paper(view, layer.paler, segments) for layer, segments in drawing.background]
    drawn += [_on_paper(view, *group) for group in drawing.groups]
    for order, (layer, segments) in enumerate(drawn, start=1):
        path = Path.make_compound_path(*(Path(segment.points) for segment in segments))
        _draw_areas(axes, layer, segments)
        if layer.casing:
            _draw_lines(axes, path, layer.casing, (layer.width + EDGE) * thickness, (), middle)
        if layer.is_dot:
            xs, ys = path.vertices.T
            axes.scatter(xs, ys, (2 * DOT) ** 2, layer.color, edgecolors=HALO, linewidths=0.6, zorder=order)
        else:
            _draw_lines(axes, path, layer.color, layer.width * thickness, layer.dashes, order)
    for number, label in enumerate(labels_of(drawn, view.height)):
        _draw_name(axes, label, number, middle if label.layer.is_pale else len(drawn) + 1, has_outlines)


def _on_paper(view: View, layer: Layer, segments: Sequence[MapSegment]) -> Group:
    """Places those segments that have points: one in a layer of dots, and two or more elsewhere."""
    least = 1 if layer.is_dot else 2
    placed = (segment._replace(points=view.line(segment.points)) for segment in segments)
    return Group(layer, [segment for segment in placed if len(segment.points) >= least])


def _draw_areas(axes: Any, layer: Layer, segments: Sequence[MapSegment]) -> None:
    """Fills the areas whose outlines are complete, without the islands in them."""
    outlines = [one.points for one in segments if layer.fill and one.cfcc.startswith(AREA_CLASSES)]
    ends = Counter(end for line in outlines for end in (line[0], line[-1]))
    areas = list(polygonize(line for line in outlines if min(ends[line[0]], ends[line[-1]]) > 1))
    islands = {frozenset(hole.coords) for area in areas for hole in area.interiors}
    for area in areas:
        if frozenset(area.exterior.coords) not in islands:
            rings = Path.make_compound_path(*(Path(ring.coords) for ring in (area.exterior, *area.interiors)))
            axes.add_artist(PathPatch(rings, color=layer.fill, linewidth=0, zorder=0))


def _draw_lines(axes: Any, path: Path, color: str, width: float, dashes: Sequence[float], order: float) -> None:
    """Draws lines as one path, since one for each would be large."""
    style = _dashed(dashes, width) | {"capstyle": "butt" if dashes else "round", "joinstyle": "round", "zorder": order}
    axes.add_artist(PathPatch(path, fill=False, color=color, linewidth=width, **style))


def _dashed(dashes: Sequence[float], width: float) -> dict[str, Any]:
    return {"linestyle": (0, [length / width for length in dashes])} if dashes else {}


def _draw_name(axes: Any, label: Label, number: int, order: float, has_outlines: bool) -> None:
    halo = [withStroke(linewidth=HALO_WIDTH, foreground=HALO)] if has_outlines else None
    axes.text(
        *label.middle, printable(label.text), color=label.layer.names, size=NAME_SIZE, rotation=label.angle,
        rotation_mode="anchor", ha="center", va="center_baseline", path_effects=halo, gid=f"name{number}", zorder=order,
    )  # fmt: skip


def _draw_scale(axes: Any, view: View) -> None:
    """Draws bars of scale below the map, and writes the source."""
    axes.text(WIDTH, -8, SOURCE, size=6, ha="right", va="center")
    for x, (unit, kilometers) in zip((0, WIDTH / 4), KILOMETERS.items()):
        points = kilometers * view.points_per_kilometer
        power = 10.0 ** math.floor(math.log10(LONGEST_BAR / points))
        length = max(step * power for step in (1, 2, 5) if step * power * points <= LONGEST_BAR)
        axes.plot((x, x + length * points), (-8, -8), color=INK, linewidth=1.5, clip_on=False, solid_capstyle="butt")
        axes.text(x + length * points + 3, -8, f"{length:,g} {unit}", size=6, va="center")


def _draw_legend(axes: Any, rows: Sequence[tuple[Layer, str]], title: str) -> None:
    """Draws the legend below the map, main roads first."""
    legend = axes.legend(
        [_legend_lines(layer) for layer, _ in rows], [text for _, text in rows], title=title, ncols=2, frameon=False,
        alignment="left", loc="upper left", bbox_to_anchor=(0, -SCALE_HEIGHT), bbox_transform=axes.transData,
        borderpad=0, borderaxespad=0,
    )  # fmt: skip
    legend.get_title().set_weight("bold")


def _legend_lines(layer: Layer) -> tuple[Line2D, ...]:
    if layer.is_dot:
        return (Line2D([], [], color=layer.color, marker="o", markersize=2 * DOT, linewidth=0),)
    line = Line2D([], [], color=layer.color, linewidth=layer.width, **_dashed(layer.dashes, layer.width))
    return (Line2D([], [], color=layer.casing, linewidth=layer.width + EDGE), line) if layer.casing else (line,)
