"""The map of `tigerline geocode`: a dot for each place, over the segments around."""

import re
from pathlib import Path

import pytest
from browsers import browser
from counties import EXAMPLES
from test_geocode_output import MATCHES
from test_main import run_command as run
from test_maps import legend_of, open_page, point_at, shown_by, texts_of
from tigerline.geocoding.picture import Dots
from tigerline.interrupts import Interrupts
from tigerline.maps.drawing import Drawing
from tigerline.maps.view import MapSegment

COLORS = {"#8b7355": "Candidate", "#e2762b": "Match that isn't exact", "#34528f": "Exact match"}


def dots_of(picture: str) -> list[tuple[str, float, float]]:
    """Returns the kind of each dot on the map, and its place in points."""
    used = re.findall(
        r'<use xlink:href="[^"]*" x="([0-9.]+)" y="([0-9.]+)" style="fill: (#[0-9a-f]+); stroke: #fdfcf8', picture
    )
    return [(COLORS[color], float(x), float(y)) for x, y, color in used]


def drawing_of(monkeypatch: pytest.MonkeyPatch, has_candidates: bool, around: list[MapSegment]) -> Drawing:
    monkeypatch.setattr(Dots, "_around", lambda *_: iter(around))
    dots = Dots(has_candidates)
    assert list(dots.watched(MATCHES)) == MATCHES
    with Interrupts() as interrupts:
        return dots.drawing("A & B", "nowhere", None, interrupts)


@pytest.mark.parametrize(
    ("has_candidates", "expected"),
    [
        (False, ["Exact match"]),
        (True, ["Candidate", "Candidate", "Exact match"]),
    ],
)
def test_dots(monkeypatch: pytest.MonkeyPatch, has_candidates: bool, expected: list[str]) -> None:
    """Of the places -87.5 33.25, -87 33 and -86 33 the first is the northernmost and the westernmost."""
    picture = drawing_of(monkeypatch, has_candidates, []).file(".svg").decode()
    found = dots_of(picture)
    assert [kind for kind, _, _ in found] == expected
    assert {"8 OAK ST", *(("8 ELM ST", "8 ELM") if has_candidates else ())} <= {*texts_of(picture)}
    if has_candidates:
        (first, second, last) = (found[2], found[0], found[1])
        assert first[1] < second[1] < last[1] and first[2] < second[2] == last[2]
        assert last[1] - second[1] == pytest.approx(2 * (second[1] - first[1]), abs=0.2)


def test_page(monkeypatch: pytest.MonkeyPatch, tmp_path: Path) -> None:
    """A browser shows the address and the kind of the place at the pointer, though it is on a street."""
    street = MapSegment("A41", "Oak St", 0, ((-88, 33.25), (-87, 33.25)))
    drawing = drawing_of(monkeypatch, False, [street])
    with browser(tmp_path) as chromium:
        open_page(chromium, drawing.file(".html"), tmp_path)
        assert shown_by(chromium, "#legend li") == ["1 place", "Exact match\n1", "Segment\n1"]
        point_at(chromium, 0, 0)
        assert shown_by(chromium, ".leaflet-tooltip") == ["8 OAK ST\nExact match"]


@pytest.mark.usefixtures("extractd", "scratch")
def test_command(tmp_path: Path) -> None:
    (tmp_path / "in.csv").write_text("1,801 N Broad St,,,35042\n2,605 Hickory Ave,,,35042\n3,nowhere,,,\n")
    picture = tmp_path / "a.svg"
    done = run("geocode", tmp_path / "in.csv", "--map", picture, "--data", EXAMPLES / "town")
    assert (done.returncode, done.stderr, done.stdout.count("\n")) == (0, "", 3)
    assert sorted(kind for kind, *_ in dots_of(picture.read_text())) == ["Exact match", "Match that isn't exact"]
    legend = legend_of(picture.read_text())
    assert legend.pop("Segment") > "0" and legend == {"Exact match": "1", "Match that isn't exact": "1"}
    again = run("geocode", tmp_path / "in.csv", "--map", picture, "--data", EXAMPLES / "town")
    assert (again.returncode, again.stderr) == (3, f"error: {picture}: File exists: --overwrite replaces it\n")
